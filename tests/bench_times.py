#!/usr/bin/env python3
"""Measures crates/vatcowslip/out/vatcowslip beside a peer, and crates/bench/out/bench, and prints the tables of docs/BENCH.md.

Costs are instructions, which valgrind counts, or processor time in microseconds, the least of a few runs, where there is no valgrind. The peer,
tests/peer/peer.cpp, is built with g++ into a temporary folder; where both answer a script differently, that is told and ends the measure.

Usage: tests/bench_times.py [SEED..]    (after `rt run` in crates/vatcowslip and in crates/bench; the seed of the scripts is 7 unless some are named)
"""
import concurrent.futures
import os
import re
import resource
import shutil
import subprocess
import sys
import tempfile
from pathlib import Path

from script_shapes import SHAPES, script

TESTS = Path(__file__).resolve().parent
VATCOWSLIP = [str(TESTS.parent / "crates/vatcowslip/out/vatcowslip")]
BENCH = str(TESTS.parent / "crates/bench/out/bench")
LINES = 1000
POINTS = [5, 40, 128]
COUNTS = shutil.which("valgrind") is not None
UNIT = "Instructions" if COUNTS else "Microseconds"
KINDS = {"T": list(SHAPES), "R": ["chain", "dense", "trial", "deep"]}
PARTS = {"marks": 20000, "covered": 500, "still": 500, "1": 200, "127": 10, "conflict": 10}


def instructions(command, text):
    """How many instructions the run takes: the same each time, for one program and one input."""
    counted = ["valgrind", "--tool=callgrind", "--callgrind-out-file=/dev/null", *command]
    run = subprocess.run(counted, input=text, capture_output=True, text=True, check=True)
    return int(re.search(r"Collected : (\d+)", run.stderr)[1])


def processor_time():
    """What the programs that have ended so far took, in microseconds."""
    used = resource.getrusage(resource.RUSAGE_CHILDREN)
    return (used.ru_utime + used.ru_stime) * 1e6


def microseconds(command, text):
    """The least time of five runs, or of as many as go into half a second: what else the machine does only adds to it."""
    times = []
    while len(times) < 5 or sum(times) < 500_000:
        before = processor_time()
        subprocess.run(command, input=text, text=True, stdout=subprocess.DEVNULL, check=True)
        times.append(processor_time() - before)
    return min(times)


def costs(runs):
    """What each run costs. Instructions are counted side by side, times are taken one after the other."""
    if not COUNTS:
        return [microseconds(*run) for run in runs]
    with concurrent.futures.ThreadPoolExecutor(os.cpu_count()) as pool:
        return list(pool.map(lambda run: instructions(*run), runs))


def number(value):
    return f"{value:,.0f}" if value >= 10_000 else f"{value:,.1f}"


def print_row(*cells):
    print(f"| {' | '.join(map(str, cells))} |")


def print_head(*cells):
    print_row(*cells)
    print("|---" * len(cells) + "|")


def check_same(name, text, peer):
    ours, theirs = [subprocess.run(command, input=text, capture_output=True, text=True, check=True).stdout for command in (VATCOWSLIP, peer)]
    if ours != theirs:
        sys.exit(f"the peer answers {name} in another way")


def print_scripts(seed, peer):
    """What a line of each script takes, less what the program takes without it."""
    named = [(kind, shape, points) for kind, shapes in KINDS.items() for shape in shapes for points in POINTS]
    texts = ["T 1\n"] + [script(shape, points, LINES, seed, kind) for kind, shape, points in named]
    for name, text in zip([("T", 1), *named], texts):
        check_same(name, text, peer)
    (our_base, *ours), (peer_base, *peers) = costs([(VATCOWSLIP, text) for text in texts]), costs([(peer, text) for text in texts])
    print(f"{UNIT} a line, seed {seed}. The script that is just the line `T 1`, a plan of one point, takes {number(our_base)}, and {number(peer_base)} of the peer, which is mostly to load it:\n")
    print_head("Kind", "Shape", "Points", "`vatcowslip`", "Peer", "Ratio")
    for (kind, shape, points), our, their in zip(named, ours, peers):
        our, their = (our - our_base) / LINES, (their - peer_base) / LINES
        print_row(kind, shape, points, number(our), number(their), f"{our / their:.3f}")
    print()


def bench(bounds, rounds, part):
    return [BENCH, str(bounds), "128", str(rounds), part], ""


def print_bench():
    """What settling takes, the making of the words with it, and what a round of each part takes. The slow book has fewer bounds, so as to be done soon."""
    settles = [bench(65535, 0, "all"), bench(65000, 0, "all"), bench(20000, 0, "slow")]
    rounds = [*[bench(65000, count, part) for part, count in PARTS.items()], bench(20000, 10, "slow")]
    settle, base, slow, *parts, slow_part = costs(settles + rounds)
    print_head("`bench`, over 128 points", UNIT)
    print_row("settle of 65,535 bounds", number(settle))
    for (part, count), cost in zip(PARTS.items(), parts):
        print_row(f"a round of `{part}` over 65,000 bounds", number((cost - base) / count))
    print_row("settle of 20,000 bounds of the slow book", number(slow))
    print_row("a round of `slow` over 20,000 bounds", number((slow_part - slow) / 10))


def main():
    seeds = [int(seed) for seed in sys.argv[1:]] or [7]
    with tempfile.TemporaryDirectory() as folder:
        peer = [f"{folder}/peer"]
        subprocess.run(["g++", "-O3", "-std=c++17", TESTS / "peer/peer.cpp", "-o", *peer], check=True)
        for seed in seeds:
            print_scripts(seed, peer)
    print_bench()


main()
