#!/usr/bin/env python3
"""The Durbin-Watson statistic against exact fractions: the worst share of the proved bound, (n + 2) / 2^52, that lists of several kinds reach.

The float steps are those of specs/Statistic.antt of crate autocorrelation, in the same order; a Python float is a binary64 and each
operator rounds once. The exact sums are Python's Fractions.

Usage: share.py [SEED [COUNT]]     COUNT lists of each random kind (default: 1 2000)
"""
import math
import random
import sys
from fractions import Fraction


def statistic(e):
    squares = -0.0
    for x in e:
        squares = squares + x * x
    differences = -0.0
    for x, y in zip(e, e[1:]):
        d = y - x
        differences = differences + d * d
    if squares == 0.0 or math.isinf(squares) or math.isinf(differences):
        return None
    return differences / squares


def sized(k, x):
    return x == 0 or Fraction(1, 2**k) <= abs(x) <= 2**k


def meets_a_rule(e):
    """Numbers and exact differences of 2^-250 to 2^250, or numbers alone of 2^-220 to 2^220."""
    exact = [Fraction(x) for x in e]
    if all(sized(220, x) for x in exact):
        return True
    return all(sized(250, x) for x in exact) and all(sized(250, y - x) for x, y in zip(exact, exact[1:]))


def error(e):
    """|d - D| / D in units of 2^-52, or None where the statistic is refused or no size rule is met."""
    d = statistic(e)
    if d is None or not meets_a_rule(e):
        return None
    exact = [Fraction(x) for x in e]
    over = sum((y - x) ** 2 for x, y in zip(exact, exact[1:]))
    under = sum(x * x for x in exact)
    if over == 0:
        return Fraction(0) if d == 0 else math.inf
    return abs(Fraction(d) * under - over) / over * 2**52


def share(e):
    off = error(e)
    return None if off is None else off / (len(e) + 2)


# ---- kinds of lists


def length(r):
    return r.choice([2, 3, 4, 5, 8, 20, 64, 100, 256])


def normal(r):
    return [r.gauss(0, 1) for _ in range(length(r))]


def wide(r):
    """Sizes spread over the whole rule, some numbers 0."""
    k = r.choice([220, 250])
    return [0.0 if r.random() < 0.1 else r.choice([-1, 1]) * r.uniform(1, 2) * 2.0 ** r.randint(-k, k - 1) for _ in range(length(r))]


def near(r):
    """Neighbours a few last digits apart: differences that cancel."""
    e = [r.uniform(1, 2) * 2.0 ** r.randint(-150, 150)]
    for _ in range(length(r) - 1):
        e.append(e[-1] * (1 + r.randint(-3, 3) * 2.0**-52))
    return e


def coarse(r):
    """A scanner's whole numbers."""
    return [float(r.randint(-8, 8)) for _ in range(length(r))]


def ladder(n, m):
    """1, a, b, a, b, ..: each square a little over half of the last digit of its sum, so that each sum is rounded up; each squared
    difference a little under half, so that each is lost."""
    a = -math.ldexp(math.sqrt(m + 0.5), -26)
    while Fraction(a) ** 2 * 2**52 - m <= Fraction(1, 2):
        a = math.nextafter(a, -math.inf)
    b = a - math.ldexp(math.sqrt(0.5), -26)
    while (Fraction(a) - Fraction(b)) ** 2 * 2**52 >= Fraction(1, 2):
        b = math.nextafter(b, math.inf)
    return [1.0] + [a if t % 2 == 0 else b for t in range(n - 1)]


def climb(r, e, steps):
    """Changes one number at a time by some last digits, and keeps what does not lower the share."""
    best, top = e, share(e)
    for _ in range(steps):
        tried = list(best)
        t = r.randrange(len(tried))
        tried[t] = tried[t] * (1 + r.choice([-1, 1]) * 2.0 ** -r.randint(1, 52)) if r.random() < 0.9 else r.uniform(-2, 2)
        s = share(tried)
        if s is not None and (top is None or s >= top):
            best, top = tried, s
    return best


# ---- the run


class Worst:
    def __init__(self):
        self.lists = self.outside = 0
        self.share, self.e = Fraction(-1), None

    def take(self, e):
        s = share(e)
        if s is None:
            self.outside += 1
            return
        self.lists += 1
        if s > self.share:
            self.share, self.e = s, e

    def line(self, name):
        n = len(self.e)
        print(f"{name:<22} {self.lists:>6} {self.outside:>8} {float(self.share):>12.4f} {n:>5} {float(self.share * (n + 2)):>14.2f}")


def whole(text, name):
    try:
        return int(text)
    except ValueError:
        sys.exit(f"share.py: {name} is not a whole number: {text}")


def main(words):
    if len(words) > 2:
        sys.exit("share.py: usage: share.py [SEED [COUNT]]")
    seed = whole(words[0], "SEED") if words else 1
    count = whole(words[1], "COUNT") if len(words) > 1 else 2000
    if count < 1:
        sys.exit("share.py: COUNT is below 1")
    r = random.Random(seed)
    print(f"seed {seed}, {count} lists of each random kind")
    print(f"{'kind':<22} {'lists':>6} {'outside':>8} {'worst share':>12} {'at n':>5} {'error / 2^-52':>14}")
    all_kinds = []

    def report(name, lists):
        w = Worst()
        for e in lists:
            w.take(e)
        if w.e is None:
            sys.exit(f"share.py: no list of kind '{name}' meets a size rule")
        w.line(name)
        all_kinds.append(w)

    for name, kind in (("normal", normal), ("wide sizes", wide), ("near neighbours", near), ("whole numbers", coarse)):
        report(name, (kind(r) for _ in range(count)))
    for n in (2, 3, 4, 8):
        starts = [[r.uniform(-2, 2) for _ in range(n)] for _ in range(20)]
        report(f"climbed, n = {n}", (climb(r, e, count) for e in starts))
    for n in (8, 32, 256):
        report(f"ladder, n = {n}", (ladder(n, m) for m in range(1, 200)))
    worst = max(all_kinds, key=lambda w: w.share)
    print(f"worst of all: share {float(worst.share):.4f} at n = {len(worst.e)}, first numbers {' '.join(x.hex() for x in worst.e[:4])}")
    if worst.share > 1:
        sys.exit("share.py: THE BOUND IS EXCEEDED")


if __name__ == "__main__":
    main(sys.argv[1:])
