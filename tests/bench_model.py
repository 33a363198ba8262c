#!/usr/bin/env python3
"""Compares crates/bench/out/bench with an independent model of docs/BENCH.md, over plain numbers and longest paths.

Usage: tests/bench_model.py [RUNS [SEED]]    (after `rt run` in crates/bench)
"""
import random
import subprocess
import sys
from pathlib import Path

BENCH = Path(__file__).resolve().parent.parent / "crates/bench/out/bench"
MOST = 65_535
SPAN = 10_000_000
PLAY = SPAN // 2
STEP = 1_000
PARTS = ["marks", "covered", "still", "moving", "conflict"]


class Draws:
    """The linear congruence of the bench."""

    def __init__(self, seed):
        self.state = seed

    def below(self, limit):
        self.state = (self.state * 1_664_525 + 1_013_904_223) % 2**32
        return self.state // 256 % limit if limit else 0


def hidden(point):
    return 0 if point == 0 else SPAN + Draws(point * 2_654_435_769 % 2**32).below(SPAN)


def met(left, right, slack):
    return left, right, hidden(left) - hidden(right) + slack


def made(bounds, points):
    draws = Draws(1)
    for after in reversed(range(bounds)):
        if after < points - 1:
            yield met(after, after + 1, PLAY if after == 0 else 0)
        else:
            left, right = draws.below(points), draws.below(points)
            yield met(left, right, SPAN + draws.below(SPAN))


def made_slow(bounds, points):
    """From each point down to each lower one but point 0, twice, and then bounds from point 1 that never move a point."""
    down = [(left, right) for left in range(2, points) for right in [*range(1, left), *reversed(range(1, left))]]
    for left, right in down[:bounds]:
        yield left, right, -(STEP * (left - right) + 1)
    draws = Draws(1)
    for _ in range(bounds - len(down)):
        right = draws.below(points)
        yield 1, right, SPAN + draws.below(SPAN)


def earliest(points, bounds):
    """The earliest times, or nothing where the bounds can't be met."""
    times = [0] * points
    for _ in range(points + 1):
        before = times[:]
        for left, right, delay in bounds:
            times[right] = max(times[right], times[left] - delay)
        if times[0] > 0:
            return None
        if times == before:
            return times
    return None


def ring(bounds, times):
    """How many bounds the chain has that a bound from the last point to point 0 closes: it, and those that give the last point its time."""
    point, length = len(times) - 1, 1
    while point != 0:
        point = next(left for left, right, delay in bounds if right == point and times[left] - delay == times[point])
        length += 1
    return length


def to_post(part, draws, points, times):
    if part == "covered":
        left = draws.below(points - 1)
        return met(left, left + 1, PLAY)
    if part == "still":
        one, other = draws.below(points), draws.below(points)
        return met(max(one, other), min(one, other), PLAY + draws.below(PLAY))
    if part == "conflict":
        return points - 1, 0, times[-1] - 1
    if part == "slow":
        return 0, points - 1, -(STEP + draws.below(PLAY))
    count = draws.below(points - 1) + 1 if part == "moving" else int(part)
    return met(0, max(points - count, 0), draws.below(PLAY))


def model(number, points, rounds, asked):
    bounds = list((made_slow if asked == "slow" else made)(number, points))
    places = min(number + rounds, MOST)
    times = earliest(points, bounds)
    settled = sum(time != 0 for time in times)
    draws = Draws(2)
    covered = still = moving = moved = conflicts = links = full = 0
    for turn in range(rounds):
        part = PARTS[turn % 5] if asked == "all" else asked
        if part == "marks":
            continue
        bound = to_post(part, draws, points, times)
        later = earliest(points, bounds + [bound])
        if any(other[:2] == bound[:2] and other[2] <= bound[2] for other in bounds):
            covered += 1
        elif later is None:
            conflicts += 1
            links += ring(bounds, times)
        elif len(bounds) == places:
            full += 1
        else:
            count = sum(a != b for a, b in zip(times, later))
            still += count == 0
            moving += count != 0
            moved += count
            if asked == "all" and turn % 8 == 7:
                bounds.append(bound)
                times = later
    checksum = 0
    for time in times:
        checksum = (checksum * 31 + time) % 2**64
    return (
        f"made: {number} bounds over {points} points, for {rounds} rounds\n"
        f"settled: {settled} points are not at zero\n"
        f"posts: {covered} covered, {still} that moved nothing, {moving} that moved {moved} points in all, "
        f"{conflicts} in conflict by {links} bounds in all, {full} with no place left\n"
        f"at the end: {len(bounds)} bounds, and the times come to {checksum:016X}\n"
    ).encode()


def compare(number, points, rounds, part):
    arguments = [str(number), str(points), str(rounds), part]
    run = subprocess.run([BENCH, *arguments], capture_output=True)
    wanted = model(number, points, rounds, part)
    if (run.stdout, run.returncode) != (wanted, 0):
        sys.exit(f"bench {' '.join(arguments)} differs:\n{run.stdout!r} {run.stderr!r}\n{wanted!r}")


def main():
    runs = int(sys.argv[1]) if len(sys.argv) > 1 else 100
    rng = random.Random(int(sys.argv[2]) if len(sys.argv) > 2 else 1)
    compare(2000, 128, 20, "all")
    compare(MOST, 128, 5, "all")
    compare(12_000, 100, 5, "slow")
    for _ in range(runs):
        points = rng.randint(2, 40)
        part = rng.choice(["all", "all", "marks", "covered", "still", "conflict", "slow", str(rng.randint(1, points - 1))])
        compare(rng.randint(points - 1, 400), points, rng.randint(0, 60), part)
    print(f"{runs + 3} runs, no difference")


main()
