#!/usr/bin/env python3
"""Writes the stored input of try_design: every refusal of this layer with its places, the sheets P11 and P12 of document 01, and calls that
are accepted. crates/try_design/stdout has a line for each step of each call, in this order.

Usage: cases.py FILE          (crates/try_design/stdin is the one that is stored)
"""
import math
import os
import struct
import sys

GREATER, LESS, TWO_SIDED = 0, 1, 2
NAN, INFINITY = float('nan'), float('inf')


def ones(n):
    return [1.0] * n


def powers(n, k):
    """k columns: 1, t, t^2, .., with t from -1 to 1; each power one rounded product."""
    run = ones(n)
    for j in range(1, k):
        run += [run[(j - 1) * n + t] * ((2.0 * t - (n - 1)) / (n - 1)) for t in range(n)]
    return run


def cases():
    """(what it shows, n, k, run, alternative, statistic)"""
    yield 'refusal 1: no column', 3, 0, [], GREATER, 2.0
    yield 'refusal 1 before 2', 300, 0, [], GREATER, 2.0
    yield 'refusal 2, place 0: a row too many', 257, 1, ones(257), GREATER, 2.0
    yield 'refusal 2, place 0 before place 1', 257, 9, [], GREATER, 2.0
    yield 'refusal 2, place 1: a column too many', 10, 9, ones(90), GREATER, 2.0
    yield 'refusal 2, where k n is past 2^64', 2 ** 64 - 1, 2 ** 64 - 1, [], GREATER, 2.0
    yield 'refusal 2, where k n wraps to 0', 2 ** 63, 2, [], GREATER, 2.0
    yield 'refusal 3: a number too few', 256, 8, ones(2047), GREATER, 2.0
    yield 'refusal 3: a number too many', 0, 1, ones(1), GREATER, 2.0
    yield 'refusal 3 before 4', 2, 1, [NAN], GREATER, 2.0
    yield 'refusal 4, first place', 3, 1, [INFINITY, NAN, 1.0], GREATER, 2.0
    yield 'refusal 4, a place in the second column', 3, 2, [1.0, 1.0, 1.0, 1.0, NAN, INFINITY], GREATER, 2.0
    yield 'refusal 4, last place', 256, 8, ones(2047) + [-INFINITY], GREATER, 2.0
    yield 'refusal 10: no row', 0, 1, [], GREATER, 2.0
    yield 'refusal 10: as many columns as rows', 2, 2, ones(4), GREATER, 2.0
    yield 'refusal 11, column 0: zeros', 3, 1, [0.0] * 3, GREATER, 2.0
    yield 'refusal 11, column 1: ones twice', 3, 2, ones(6), GREATER, 2.0
    yield 'refusal 11, column 7: the first column again', 9, 8, powers(9, 7) + ones(9), GREATER, 2.0
    yield 'refusal 11 by the floor of the scale: the sum of squares is 40 units of 2^-1074', 2, 1, [1e-161, 1e-161], GREATER, 2.0
    yield 'refusal 11: the sum of squares is infinite', 3, 1, [1e200] * 3, GREATER, 2.0
    yield 'refusal 13, place 1: a pivot that is NaN does not fail', 3, 2, ones(3) + [1e200, -1e200, 1e200], GREATER, 2.0
    yield 'P12: refusal 13, place 1', 2, 1, [2.0 ** -515] * 2, GREATER, 2.0
    big = math.sqrt(1.5e308 / 112)
    yield 'refusal 13, place 5: the squares of the differences overflow', 112, 1, [big, -big] * 56, GREATER, 2.0
    unit = [1.0 if row == column else 0.0 for column in range(4) for row in range(5)]
    yield 'P11: refusal 14', 5, 4, unit, GREATER, 2.0
    yield 'four rows: p is 1', 4, 1, ones(4), LESS, 3.0
    for alternative in (GREATER, LESS, TWO_SIDED):
        yield 'five rows', 5, 1, ones(5), alternative, 1.25
    yield 'below the mean', 100, 3, powers(100, 3), GREATER, 1.5
    yield 'above the mean', 100, 3, powers(100, 3), TWO_SIDED, 2.5
    yield 'a column of each sign of zero', 6, 2, ones(6) + [0.0, -0.0, 0.0, -0.0, 3.0, -0.0], TWO_SIDED, 1.0
    yield 'the largest sheet', 256, 8, powers(256, 8), LESS, 2.125
    yield 'the largest sheet, far out', 256, 8, powers(256, 8), GREATER, 4.0
    yield 'a wide range of sizes', 7, 2, [1e-150, 1e150, 1.0, -1e150, 2.0, 3.0, 1e-150] + ones(7), TWO_SIDED, 0.5


def call(n, k, run, alternative, statistic):
    head = struct.pack('<QQQQd', n, k, len(run), alternative, statistic)
    return head + struct.pack('<%dd' % len(run), *run)


def main():
    if len(sys.argv) != 2:
        raise SystemExit(__doc__)
    data = b''.join(call(*case[1:]) for case in cases())
    data += struct.pack('<QQQQd', 3000, 1, 3000, GREATER, 2.0)   # more numbers than any sheet has: the program stops
    part = sys.argv[1] + '.part'
    try:
        with open(part, 'wb') as out:
            out.write(data)
        os.rename(part, sys.argv[1])
    except OSError as why:
        raise SystemExit('cases.py: %s: %s' % (why.filename, why.strerror))


if __name__ == '__main__':
    main()
