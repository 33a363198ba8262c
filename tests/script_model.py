#!/usr/bin/env python3
"""Compares crates/vatcowslip/out/vatcowslip with an independent model of docs/SCRIPTS.md on random scripts.

Usage: tests/script_model.py [SCRIPTS [SEED]]    (after `rt run` in crates/vatcowslip)
       tests/script_model.py - < SCRIPT          (prints the model's listing of one script)
"""
import random
import re
import subprocess
import sys
from pathlib import Path

PROGRAM = Path(__file__).resolve().parent.parent / "crates/vatcowslip/out/vatcowslip"
MOST_BYTES = 32_768
MOST_LINES = 1_024
PLACES = 1_024
GREATEST = 500_000_000
RANGES = [(0, 4095), (0, 4095), (-GREATEST, GREATEST), (-GREATEST, GREATEST)]
COUNTS = {b"T": 1, b"R": 1, b"P": 4, b"Q": 4, b"W": 1}


class Plan:
    """The bounds that were accepted, each with its delay as a pair, and the earliest times."""

    def __init__(self, points, ranked):
        self.ranked = ranked
        self.bounds = []
        self.times = [(0, 0)] * points

    def earliest(self, bounds):
        """The earliest times where these bounds are met as well, or None where they can't be: Bellman and Ford's way to longest paths."""
        times = [(0, 0)] * len(self.times)
        for _ in range(len(times) + 1):
            still = True
            for left, right, (t, s) in bounds:
                least = times[left][0] - t, times[left][1] - s
                if least > times[right]:
                    times[right] = least
                    still = False
            if times[0] != (0, 0):
                return None
            if still:
                return times
        return None

    def post(self, left, right, t, s, kept):
        points = len(self.times)
        if left >= points or right >= points:
            return f"E 5 P {1 if left >= points else 2}"
        if s != 0 and not self.ranked:
            return "E 6 K 0"
        if any(bound[:2] == (left, right) and bound[2] <= (t, s) for bound in self.bounds):
            return "C"
        bounds = self.bounds + [(left, right, (t, s))]
        times = self.earliest(bounds)
        if times is None:
            return "X"
        if len(bounds) > PLACES:
            return "E 9 B 0"
        moved = sum(old != new for old, new in zip(self.times, times))
        if kept:
            self.bounds, self.times = bounds, times
        return f"A {moved}"

    def read(self, point):
        if point >= len(self.times):
            return "E 5 P 1"
        t, s = self.times[point]
        return f"W {point} {t} {s} {(t + 5) // 10}"


class Session:
    def __init__(self):
        self.plan = None

    def open(self, points, ranked):
        if self.plan is not None:
            return "E 2 P 0"
        if not 1 <= points <= 128:
            return "E 3 P 0"
        self.plan = Plan(points, ranked)
        return "S 0"

    def answer(self, line):
        letter, *fields = line.split(b" ")
        if letter not in COUNTS:
            return "E 12 L 0"
        count = COUNTS[letter]
        for place in range(1, count + 1):
            if len(fields) < place or not re.fullmatch(rb"-?[0-9]{1,10}", fields[place - 1]):
                return f"E 12 L {place}"
        if len(fields) > count:
            return f"E 12 L {count + 1}"
        numbers = [int(field) for field in fields]
        if letter in (b"T", b"R"):
            return self.open(numbers[0], letter == b"R")
        for place, (number, (low, high)) in enumerate(zip(numbers, RANGES), 1):
            if not low <= number <= high:
                return f"E 7 D {place}"
        if self.plan is None:
            return "E 1 P 0"
        if letter == b"W":
            return self.plan.read(*numbers)
        return self.plan.post(*numbers, kept=letter == b"P")


def model(script):
    lines = script.split(b"\n")
    if lines[-1] == b"":
        lines.pop()
    if len(script) > MOST_BYTES or len(lines) > MOST_LINES:
        return b"E 14 L 0\n"
    session = Session()
    return "".join(f"{number} {session.answer(line)}\n" for number, line in enumerate(lines, 1)).encode()


def random_delay(rng, scale):
    t = rng.choice([rng.randint(-scale, scale), rng.randint(-scale, scale), 0, 1, -1])
    return rng.choice([t, t, t, t, t, t, t, rng.choice([GREATEST, -GREATEST])]) if scale > 100 else t


def random_bound(rng, points, scale, ranked):
    # mostly from a lower point to a higher one with a gap, or back with room for it, so that many are accepted
    left, right = rng.randrange(points), rng.randrange(points)
    t = random_delay(rng, scale)
    if rng.random() < 0.7:
        t = -abs(t) if left < right else abs(t) * 4
    s = random_delay(rng, scale) if ranked or rng.random() < 0.05 else 0
    return [left, right, t, s]


def odd_number(rng):
    odd = ["", "-", "-0", "007", "+1", "1e3", "--1", "1-", "\t1", "9999999999", "-9999999999", "99999999999", "0000000000", "00000000000"]
    edges = [-1, 4095, 4096, 128, 129, GREATEST, GREATEST + 1, -GREATEST, -GREATEST - 1]
    return rng.choice(odd + [str(edge) for edge in edges])


def random_line(rng, points, scale, ranked):
    if rng.random() < 0.03:
        return bytes(rng.choice(b"\x00\r \t-0TRPQW\x7f\xff") for _ in range(rng.choice([0, 1, 2, 5, 40])))
    letter = rng.choice("PPPPPPPPPPPPPPPPQQQQQQQQWWWWWWWWTR")
    if letter in "PQ":
        numbers = random_bound(rng, points + (rng.random() < 0.05), scale, ranked)
    else:
        numbers = [rng.randint(-1, points)]
    fields = [letter] + [str(number) if rng.random() < 0.98 else odd_number(rng) for number in numbers]
    if rng.random() < 0.03:
        fields = rng.choice([fields[1:], fields[:-1], fields + ["0"], fields + [""], [""] + fields, [letter.lower()] + fields[1:]])
    separator = "  " if rng.random() < 0.01 else " "
    return separator.join(fields).encode()


def random_script(rng):
    points = rng.choice([1, 2, 3, 5, 8, 20, 127, 128])
    ranked = rng.random() < 0.5
    scale = rng.choice([1, 3, 10, 1000, GREATEST])
    early = [random_line(rng, points, scale, ranked) for _ in range(rng.choice([0, 0, 1, 4]))]
    opening = [f"{'R' if ranked else 'T'} {points}".encode()] if rng.random() < 0.97 else []
    lines = [random_line(rng, points, scale, ranked) for _ in range(rng.choice([0, 3, 10, 30, 80, 200]))]
    return b"\n".join(early + opening + lines) + (b"\n" if rng.random() < 0.5 else b"")


def edge_scripts(rng):
    """Scripts at the limits of bytes and of lines, and one that fills the book but for one place."""
    for count in (MOST_LINES - 1, MOST_LINES, MOST_LINES + 1):
        yield b"\n" * count
        yield b"\n" * (count - 1) + b"W"
        yield b"T 1\n" + b"".join(b"P 0 0 %d 0\n" % (3000 - i) for i in range(count - 1))
    for count in (MOST_BYTES - 1, MOST_BYTES, MOST_BYTES + 1, 40_000, 100_000):
        yield b"T 2\nP 0 1 -7 0 " + b"0" * (count - 15)
        yield bytes(rng.randrange(256) for _ in range(count))
        yield b"T 2\nP 0 1 -7 0\nW 1" + b" " * (count - 19) + b"\n"
    yield b""


def compare(name, script):
    run = subprocess.run([PROGRAM], input=script, capture_output=True)
    wanted = model(script)
    if (run.stdout, run.returncode) != (wanted, 0):
        sys.exit(f"{name} differs:\n{script!r}\n{run.stdout!r} {run.stderr!r}\n{wanted!r}")
    return wanted


def main():
    if sys.argv[1:] == ["-"]:
        sys.stdout.buffer.write(model(sys.stdin.buffer.read()))
        return
    scripts = int(sys.argv[1]) if len(sys.argv) > 1 else 2000
    rng = random.Random(int(sys.argv[2]) if len(sys.argv) > 2 else 1)
    edges = list(edge_scripts(rng))
    for number, script in enumerate(edges):
        compare(f"edge {number}", script)
    for number in range(scripts):
        compare(f"script {number}", random_script(rng))
    print(f"{len(edges) + scripts} scripts, no difference")


main()
