#!/usr/bin/env python3
"""Checks every chain that crates/chains/out/chains prints, and each of its other answers, by an independent model of docs/PLANS.md on random plans.

Usage: tests/chain_model.py [PLANS [SEED]]    (after `rt run` in crates/chains)

It first checks the stored example, crates/chains/stdin with its stdout, and then the program on plans that are drawn.
"""
import collections
import random
import re
import subprocess
import sys
from pathlib import Path

CRATE = Path(__file__).resolve().parent.parent / "crates/chains"
PROGRAM = CRATE / "out/chains"
GREATEST = 500_000_000
UNIT = 1 << 30
POSTED = 3 * UNIT
# a delay is one number, its steps far below its milliseconds, so that sums compare as pairs do
MILLISECOND = 1 << 41

Bound = collections.namedtuple("Bound", "left right t s")


def delay(bound):
    return bound.t * MILLISECOND + bound.s


def earliest(points, bounds, times):
    """The earliest times above these where the bounds are met, or None where they can't be: Bellman and Ford's way to longest paths."""
    times = times[:]
    edges = [(bound.left, bound.right, delay(bound)) for bound in bounds]
    for _ in range(points + 1):
        still = True
        for left, right, least in edges:
            if times[left] - least > times[right]:
                times[right] = times[left] - least
                still = False
        if times[0] > 0:
            return None
        if still:
            return times
    return None


def wrong_in_chain(words, points, book, posted):
    """What is wrong with the words of a chain, or nothing; and the bounds that they name."""
    chain = []
    for word in words:
        top, low = divmod(word, UNIT)
        if top == 1 and low < len(book):
            chain.append(book[low])
        elif top == 2 and low < points:
            chain.append(Bound(0, low, 0, 0))
        elif word == POSTED and posted is not None:
            chain.append(posted)
        else:
            return f"{word:08X} names no bound", chain
    lefts = [bound.left for bound in chain]
    if [bound.right for bound in chain] != lefts[1:] + lefts[:1]:
        return "it is not closed", chain
    if len(set(lefts)) != len(lefts):
        return "a left point comes twice", chain
    if sum(map(delay, chain)) >= 0:
        return "its delays do not come to less than zero", chain
    if posted is not None and (words[0] != POSTED or words.count(POSTED) != 1):
        return "it does not begin with the posted bound, or has it twice", chain
    return None, chain


class Checker:
    """A plan as the text opens it, and what it has to answer call by call."""

    def __init__(self, text, counts):
        opening, posts = text.split("\n-\n")
        (kind, points), *book = [line.split(" ") for line in opening.split("\n")]
        self.ranked = kind == "R"
        self.points = int(points)
        self.book = [Bound(*map(int, fields)) for fields in book]
        self.posts = [Bound(*map(int, line.split(" "))) for line in posts.split("\n")[:-1]]
        self.counts = counts

    def misfit(self, bound):
        """The fault of a bound with a point too great or a delay that the kind does not have; the place of a point is 1 or 2."""
        for place in (1, 2):
            if bound[place - 1] >= self.points:
                return "5 P", place
        return None if bound.s == 0 or self.ranked else ("6 K", 0)

    def settle(self):
        if not 1 <= self.points <= 128:
            return "E 3 P 0"
        for number, bound in enumerate(self.book):
            if self.misfit(bound):
                return f"E {self.misfit(bound)[0]} {number}"
        self.times = earliest(self.points, self.book, [0] * self.points)
        return "X" if self.times is None else f"S {sum(time != 0 for time in self.times)}"

    def post(self, bound):
        if self.misfit(bound):
            return "E {} {}".format(*self.misfit(bound))
        if any(other[:2] == bound[:2] and delay(other) <= delay(bound) for other in self.book):
            return "C"
        times = earliest(self.points, self.book + [bound], self.times)
        if times is None:
            return "X"
        moved = sum(old != new for old, new in zip(self.times, times))
        self.book.append(bound)
        self.times = times
        return f"A {moved}"

    def check_chain(self, printed, posted):
        if not re.fullmatch("X( [0-9A-F]{8})+", printed):
            return "these are not the words of a chain"
        words = [int(word, 16) for word in printed.split(" ")[1:]]
        wrong, chain = wrong_in_chain(words, self.points, self.book, posted)
        if wrong is None:
            self.counts["chains of a settle" if posted is None else "chains of a post"] += 1
            self.counts["with a floor"] += any(word // UNIT == 2 for word in words)
            self.counts["of one bound"] += len(chain) == 1
            self.counts["through all of two points or more"] += len(chain) == self.points > 1
        return wrong

    def answers(self):
        """Each call's bound, if it is a post, with its answer; a plan that can't be settled is asked no more."""
        settled = self.settle()
        yield None, settled
        if settled.startswith("S"):
            for bound in self.posts:
                yield bound, self.post(bound)

    def wrong(self, printed):
        """The first difference of what is printed, or nothing."""
        lines = printed.split("\n")
        number = 0
        for number, (bound, answer) in enumerate(self.answers(), 1):
            line = lines[number - 1] if number < len(lines) else ""
            self.counts["answers"] += 1
            if answer != "X":
                wrong = None if line == answer else f"it should be {answer}"
            else:
                wrong = self.check_chain(line, bound)
            if wrong:
                return f"line {number}, of {bound}, {line!r}: {wrong}"
        return None if lines[number:] == [""] else "there is more than one line an answer"


class Maker:
    """Draws plans: a hidden timetable that meets the bounds, but for those that are made too strict for it."""

    def __init__(self, rng):
        self.rng = rng
        self.points = rng.choice([1, 2, 3, 4, 5, 8, 20, 60, 127, 128])
        self.ranked = rng.random() < 0.5
        scale = rng.choice([1, 5, 1000, GREATEST // 3])
        self.at = [0] + [rng.randint(0, scale) for _ in range(self.points - 1)]
        self.steps = [0] + [rng.randint(-scale, scale) * self.ranked for _ in range(self.points - 1)]

    def bound(self, left, right, slack):
        """A bound that the timetable meets with the slack: in milliseconds, or half of the time in a ranked plan in steps."""
        t, s = self.at[left] - self.at[right], self.steps[left] - self.steps[right]
        if self.ranked and self.rng.random() < 0.5:
            return Bound(left, right, t, s + slack)
        return Bound(left, right, t + slack, s)

    def drawn(self, slacks):
        """Of two drawn points, at times from or to point 0, or of one point alone."""
        left, right = self.rng.randrange(self.points), self.rng.randrange(self.points)
        left, right = self.rng.choice([(left, right)] * 6 + [(left, 0), (0, right), (left, left)])
        return self.bound(left, right, self.rng.choice(slacks))

    def ring(self):
        """Bounds without slack from point to point, through all points but for the way from the last one to the first."""
        order = self.rng.sample(range(self.points), self.points)
        return order, [self.bound(left, right, 0) for left, right in zip(order, order[1:])]

    def line(self, bound, odd):
        """The line of a bound; at odd times it is one that no plan of these points and this kind takes."""
        if self.rng.random() < odd:
            bound = bound._replace(**self.rng.choice([{"left": self.points}, {"right": self.points}, {"s": 1}]))
        return " ".join(map(str, bound))

    def text(self):
        rng = self.rng
        slacks = rng.choice([[0], [0, 0, 1, 2, 9], [5, 100, 1000], [0, 3, 50]])
        book = [self.drawn(slacks) for _ in range(rng.choice([0, 2, self.points, 3 * self.points]))]
        closing = []
        if rng.random() < 0.5:
            order, hops = self.ring()
            book += hops
            closing = [self.bound(order[-1], order[0], slack) for slack in (9, 1, 0, -1)]
            rng.shuffle(book)
        if rng.random() < 0.3:
            strict = rng.choice([closing[-1:], [self.drawn([-1, -5, -100]) for _ in range(rng.randint(1, 3))]])
            book = [*book, *strict]
            rng.shuffle(book)
        strict = [-1, -1, -2, -9, -100]
        posts = closing + [self.drawn(rng.choice([slacks, strict])) for _ in range(rng.choice([0, 5, 30, 60]))]
        points = rng.choice([0, 129, 255]) if rng.random() < 0.01 else self.points
        lines = [f"{'R' if self.ranked else 'T'} {points}"]
        lines += [self.line(bound, odd=0.0003) for bound in book] + ["-"] + [self.line(bound, odd=0.02) for bound in posts]
        return "\n".join(lines) + "\n"


def check(name, text, printed, counts):
    wrong = Checker(text, counts).wrong(printed)
    if wrong:
        sys.exit(f"{name}: {wrong}\n{text}printed:\n{printed}")


def main():
    plans = int(sys.argv[1]) if len(sys.argv) > 1 else 1000
    rng = random.Random(int(sys.argv[2]) if len(sys.argv) > 2 else 1)
    counts = collections.Counter()
    check("the stored example", (CRATE / "stdin").read_text(), (CRATE / "stdout").read_text(), counts)
    for number in range(plans):
        text = Maker(rng).text()
        run = subprocess.run([PROGRAM], input=text, capture_output=True, text=True)
        if run.returncode != 0:
            sys.exit(f"plan {number}: status {run.returncode}, {run.stderr}\n{text}")
        check(f"plan {number}", text, run.stdout, counts)
    print(f"{plans + 1} plans, no difference: " + ", ".join(f"{count} {name}" for name, count in counts.items()))


main()
