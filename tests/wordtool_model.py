#!/usr/bin/env python3
"""Compares crates/wordtool/out/wordtool with an independent model of docs/FORMATS.md on random inputs.

Usage: tests/wordtool_model.py [INPUTS [SEED]]    (after `rt run` in crates/wordtool)
"""
import random
import re
import subprocess
import sys
from pathlib import Path

TOOL = Path(__file__).resolve().parent.parent / "crates/wordtool/out/wordtool"
GREATEST = 500_000_000
DONE = {"write": "written", "read": "read", "": "written and read back"}
RANGES = [(0, 4095), (0, 4095), (-GREATEST, GREATEST), (-GREATEST, GREATEST)]
NAMES = ["the left point", "the right point", "t", "s"]


def number(field):
    return int(field) if re.fullmatch(rb"-?[0-9]{1,10}", field) else None


def word(field):
    return int(field, 16) if re.fullmatch(rb"[0-9A-Fa-f]{8}", field) else None


def read_fields(line, reader, count):
    """The values of just `count` fields, or the place of the first at fault."""
    fields = line.split(b" ")
    values = [reader(f) for f in fields[:count]]
    for place, value in enumerate(values, 1):
        if value is None:
            return None, place
    if len(fields) != count:
        return None, min(len(fields), count) + 1
    return values, 0


def words_of(bound):
    left, right, t, s = bound
    return [1 << 30 | left << 12 | right, 2 << 30 | t & 0x3FFFFFFF, 3 << 30 | s & 0x3FFFFFFF]


def part_of(w):
    low = w & 0x3FFFFFFF
    return low - (1 << 30) if low >> 29 else low


def broken(row):
    """The place of the first word that breaks the row, or None."""
    if row[0] >> 24 != 0x40:
        return 0
    for place in (1, 2):
        if row[place] >> 30 != place + 1 or abs(part_of(row[place])) > GREATEST:
            return place
    return None


def refusal(n, reason, number_, layer, place):
    return "refused", f"line {n} refused: {reason} (fault {number_}, layer {layer}, place {place})\n"


def answer(task, n, line):
    if line.startswith(b"#"):
        return "note", ""
    reads_words = task == "read"
    values, place = read_fields(line, word if reads_words else number, 3 if reads_words else 4)
    if values is None:
        return refusal(n, "a field is missing, unreadable or extra", 12, "L", place)
    if reads_words:
        at = broken(values)
        if at is not None:
            return refusal(n, "the word breaks its row", 13, "B", at)
        bound = [values[0] >> 12 & 0xFFF, values[0] & 0xFFF, part_of(values[1]), part_of(values[2])]
        return "bound", " ".join(map(str, bound)) + "\n"
    for i, (value, (low, high)) in enumerate(zip(values, RANGES)):
        if not low <= value <= high:
            return refusal(n, f"{NAMES[i]} is not from {low} to {high}", 7, "D", i + 1)
    text = " ".join(f"{w:08X}" for w in words_of(values))
    if task == "":
        text += " -> " + " ".join(map(str, values))
    return "bound", text + "\n"


def model(task, data):
    lines = data.split(b"\n")
    if lines[-1] == b"":
        lines.pop()
    counts = {"bound": 0, "note": 0, "refused": 0}
    out = ""
    for n, line in enumerate(lines, 1):
        sort, text = answer(task, n, line)
        counts[sort] += 1
        out += text
    out += f"# lines read: {len(lines)}, bounds {DONE[task]}: {counts['bound']}, notes: {counts['note']}, refused: {counts['refused']}"
    if task == "":
        out += ". The listing came back whole." if counts["refused"] == 0 else ". The listing did not come back whole."
    return (out + "\n").encode(), int(counts["refused"] > 0)


def random_bound(rng):
    return [rng.choice([low, high, rng.randint(low, high)]) for low, high in RANGES]


def random_number(rng):
    odd = ["-", "", "-0", "007", "+1", "1e3", "9999999999", "99999999999", "-9999999999"]
    edges = [-GREATEST - 1, GREATEST + 1, -1, 4096, 0]
    return rng.choice([str(rng.randint(0, 4096)), str(rng.choice(edges)), rng.choice(odd)])


def random_line(rng, task):
    if rng.random() < 0.1:
        return bytes(rng.choice(b"\x00\t\r #-0\xff") for _ in range(rng.randint(0, 100)))
    bound = random_bound(rng)
    if task == "read":
        row = words_of(bound)
        if rng.random() < 0.4:
            row[rng.randrange(3)] ^= 1 << rng.randrange(32)
        fields = [f"{w:08X}" if rng.random() < 0.9 else f"{w:x}" for w in row]
    else:
        fields = [str(v) if rng.random() < 0.9 else random_number(rng) for v in bound]
    if rng.random() < 0.2:
        fields = fields * 2 if rng.random() < 0.5 else fields[1:]
    note = "#" if rng.random() < 0.1 else ""
    return (note + " ".join(fields) + " " * rng.choice([0, 0, 0, 0, 1, 60])).encode()


def main():
    inputs = int(sys.argv[1]) if len(sys.argv) > 1 else 2000
    rng = random.Random(int(sys.argv[2]) if len(sys.argv) > 2 else 1)
    for i in range(inputs):
        task = rng.choice(["write", "read", ""])
        lines = [random_line(rng, task) for _ in range(rng.randint(0, 12))]
        data = b"\n".join(lines) + (b"\n" if rng.random() < 0.5 else b"")
        run = subprocess.run([TOOL, *([task] if task else [])], input=data, capture_output=True)
        if (run.stdout, run.returncode) != model(task, data):
            sys.exit(f"input {i} differs: wordtool {task}\n{data!r}\n{run.stdout!r}\n{model(task, data)!r}")
    print(f"{inputs} inputs, no difference")


main()
