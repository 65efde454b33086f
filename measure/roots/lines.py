#!/usr/bin/env python3
"""Makes the lines of crates/roots/src/lines.rt, and tries the guess that `guess` of near.rt makes from them.

Usage: lines.py            prints each line's part and word, and how far it is off
       lines.py --check N  compares the file with these, tries the guess, and says how far from the root it was: at both ends of each part (1000
                           numbers each), at squares (N) and at any numbers (N); each with the number before it, and the same of multiples
                           of 256, which a root by itself asks for. Ends with status 1 where a line differs or a guess is no good

n lies from 2^60 to 2^62, and its leading six digits, 16 to 63, say its part. A line is start + slope * n / 2^39, near 4 * sqrt(n): as far above the
root at an end of its part as below it in the middle, relative to the root. A slope is a whole number of twelve digits, a start a multiple of 2^12, and
the word is their sum: the slope's digits move the line by less than 2^-22 of it. The last line is lowered, to end at 2^33, so that the guess
does not pass 2^28. A guess g at sqrt(n / 64) is good where 64 (g - 1)^2 <= n < 64 (g + 2)^2, which is proved of every
n (crates/roots/proofs/Guess.antt). mpmath (Debian: python3-mpmath) finds the lines.
"""
import math
import os
import random
import re
import sys

try:
    from mpmath import mp, mpf, sqrt
except ImportError:
    sys.exit("lines.py: no mpmath (Debian: python3-mpmath)")

mp.prec = 200
HERE = os.path.dirname(os.path.abspath(__file__))
SOURCE = os.path.join(HERE, "..", "..", "crates", "roots", "src", "lines.rt")
PARTS = range(16, 64)


def ends(part):
    return part << 56, part + 1 << 56


def near(n):
    return 4 * sqrt(mpf(n))


def off(start, slope, part):
    """The least and the largest (line - root) / root over a part."""
    low, high = ends(part)
    steep = mpf(slope) / 2**39
    points = [low, high] + [p for p in [start / steep] if low < p < high]
    errors = [(start + steep * p) / near(p) - 1 for p in points]
    return min(errors), max(errors)


def line(part):
    low, high = ends(part)
    slope = int(mp.nint((near(high) - near(low)) / (high - low) * 2**39))
    under, over = mpf(0), 2 * near(high)
    for _ in range(150):
        start = (under + over) / 2
        if sum(off(start, slope, part)) < 0:
            under = start
        else:
            over = start
    start = int(mp.nint(under / 4096)) * 4096
    return ((1 << 33) - (slope << 23) if part == PARTS[-1] else start) + slope


def far_off(word, part):
    return math.log2(max(abs(e) for e in off(word, word % 4096, part)))


def guess(words, n):
    word = words[n >> 56]
    u = word + word % 4096 * (n >> 39)
    q = (n ^ 1) * 4 // u
    return (u + 4 * q) // 64 | 1 << 27


def written():
    """The words that the source has, by part."""
    with open(SOURCE, encoding="utf-8") as stream:
        return dict(enumerate((int(x.replace("_", ""), 0) for x in re.findall(r"\b0x\w+", stream.read())), PARTS[0]))


def tried(count):
    """The numbers n that are tried."""
    for part in PARTS:
        low, high = ends(part)
        for k in range(1000):
            yield from (low + k, high - k, low + (k << 8), high - (k << 8))
    draw = random.Random(20240229)
    for _ in range(count):
        yield 64 * draw.randrange(1 << 27, 1 << 28) ** 2
        yield draw.randrange(1 << 60, 1 << 62)


def main(args):
    if args and not (len(args) == 2 and args[0] == "--check" and args[1].isdigit()):
        print("usage: lines.py [--check N]", file=sys.stderr)
        return 2
    words = {part: line(part) for part in PARTS}
    worst = max(far_off(word, part) for part, word in words.items())
    if not args:
        for part, word in words.items():
            print("%2d 0x%04x_%04x  2^%.2f" % (part, word >> 16, word & 0xFFFF, far_off(word, part)))
        print("largest 2^%.2f" % worst)
        return 0
    same = written() == words
    print("lines: %s, off by 2^%.2f at most" % ("the same" if same else "DIFFERENT from the file", worst))
    count = bad = 0
    least, most = math.inf, -math.inf
    for n in tried(int(args[1])):
        for step in (1, 256):
            up = -(-n // step) * step
            for n in (up, up - step):
                if not 1 << 60 <= n < 1 << 62:
                    continue
                g = guess(words, n)
                # sqrt(n / 64) - g, by a difference of squares
                far = (n / 64 - g * g) / (math.sqrt(n / 64) + g)
                least, most = min(least, far), max(most, far)
                count += 1
                bad += not 64 * (g - 1) ** 2 <= n < 64 * (g + 2) ** 2
    print("guesses: %d, no good %d, the root from g %+.3f to g %+.3f" % (count, bad, least, most))
    return 0 if same and bad == 0 else 1


sys.exit(main(sys.argv[1:]))
