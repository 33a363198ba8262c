#!/usr/bin/env python3
"""Scripts of test plans, to be measured with: the same for the same arguments.

Usage: tests/script_shapes.py SHAPE POINTS LINES SEED [KIND]    (KIND is T, ticks, or R, ranked; POINTS is 2 or more)

A hidden timetable has point 0 at zero and each point 5 to 50 ms after the one before it. The shapes are

    chain     procedures in a row: least and greatest gaps between points that are at most four apart, and some reads; few bounds are tried
    dense     the same between any two points
    trial     the same between any two points, but four bounds of five are tried and not posted
    deep      a path through all points, and then posts that each move every point but point 0
    star      least gaps after point 0: hundreds of bounds leave one point, and few posts move one
    conflict  a path through all points, and then posts of which four of five can't be met

In the first three a greatest gap in twenty may be a millisecond too short for the timetable; all other bounds of theirs leave it possible.
"""
import itertools
import random
import sys


def bound(letter, left, right, t):
    return f"{letter} {left} {right} {t} 0"


def drawn(rng, at, tried, near):
    """Gaps between two drawn points: half of the lines are least ones, nearly half greatest ones, and the others reads."""
    points = len(at)
    while True:
        one, other = rng.randrange(points), rng.randrange(points)
        if near:
            one = min(one, points - 2)
            other = min(points - 1, one + rng.randint(1, 4))
        if one == other:
            continue
        early, late = sorted([one, other])
        gap = at[late] - at[early]
        letter = "Q" if rng.random() < tried else "P"
        sort = rng.random()
        if sort < 0.45:
            yield bound(letter, early, late, -max(0, gap - rng.randint(0, 9)))
        elif sort < 0.9:
            yield bound(letter, late, early, gap + rng.randint(-1 if rng.random() < 0.05 else 0, 30))
        else:
            yield f"W {rng.randrange(points)}"


def chain(rng, at):
    return drawn(rng, at, tried=0.1, near=True)


def dense(rng, at):
    return drawn(rng, at, tried=0.1, near=False)


def trial(rng, at):
    return drawn(rng, at, tried=0.8, near=False)


def deep(_, at):
    for right in range(1, len(at)):
        yield bound("P", right - 1, right, -1)
    for turn in itertools.count():
        if turn % len(at) != 0:
            yield bound("P", 0, 1, -(turn + 2))


def star(rng, at):
    while True:
        right = rng.randrange(1, len(at))
        yield bound("P", 0, right, -rng.randint(1, at[right] + 1))


def conflict(rng, at):
    last = len(at) - 1
    for right in range(1, len(at)):
        yield bound("P", right - 1, right, at[right - 1] - at[right])
    while True:
        if rng.random() >= 0.8:
            yield bound("P", last, 0, at[last] + rng.randint(0, 900))
            continue
        early, late = sorted([rng.randrange(len(at)), rng.randrange(len(at))])
        if early != late:
            yield bound("P", late, early, at[late] - at[early] - rng.randint(1, 9))


SHAPES = {shape.__name__: shape for shape in [chain, dense, trial, deep, star, conflict]}


def script(shape, points, lines, seed, kind="T"):
    """The text of a script of so many lines, the opening one among them."""
    rng = random.Random(seed)
    at = list(itertools.accumulate((rng.randint(5, 50) for _ in range(points - 1)), initial=0))
    following = itertools.islice(SHAPES[shape](rng, at), lines - 1)
    return "".join(f"{line}\n" for line in [f"{kind} {points}", *following])


def main():
    if len(sys.argv) not in (5, 6) or sys.argv[1] not in SHAPES:
        sys.exit(__doc__)
    shape, *numbers = sys.argv[1:5]
    sys.stdout.write(script(shape, *map(int, numbers), *sys.argv[5:]))


if __name__ == "__main__":
    main()
