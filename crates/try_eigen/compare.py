#!/usr/bin/env python3
"""Holds try_eigen against the oracle's first build, bit for bit: kept eigenvalues, their count, the sweeps, the mark, and the refusals, on designs of 3
to 256 rows and 1 to 8 columns, degenerate ones among them.

Usage: compare.py --seed SEED --count COUNT [--program COMMAND] [--show N]

  --program   the command that runs try_eigen; where not given, out/try_eigen, which `rt run` here makes
  --show      disagreements to print, 5 where not given

Designs come by hundreds, each from (seed, its number) alone. oracle/build port first. Prints the counts by kind; the last line is
`N designs, E eigenvalues, D disagreements`. Status 0: none. 1: some. 2: it could not be done.
"""
import argparse
import collections
import os
import random
import shlex
import subprocess
import sys

HERE = os.path.dirname(os.path.abspath(__file__))
TOP = os.path.dirname(os.path.dirname(HERE))
sys.dont_write_bytecode = True
sys.path.insert(0, HERE)
import cases  # noqa: E402

HUNDRED = 100
ROWS = [(3, 24)] * 60 + [(25, 64)] * 25 + [(65, 128)] * 12 + [(129, 255)] * 2 + [(256, 256)]


class Draws:
    def __init__(self, seed, number):
        self.draws = random.Random('%d-%d' % (seed, number))
        self.u = self.draws.random

    def below(self, n):
        return int(self.u() * n)

    def between(self, low, high):
        return low + self.below(high - low + 1)

    def one_of(self, things):
        return things[self.below(len(things))]

    def run(self, n):
        return [self.u() + self.u() - 1.0 for _ in range(n)]

    def columns(self, n, k):
        columns = [self.run(n) for _ in range(k)]
        if self.below(4):
            columns[0] = cases.ones(n)
        return columns


def plain(draws, n, k):
    return draws.columns(n, k), None


def trend(draws, n, k):
    return cases.powers(n, min(k, 5)), None


def unit_vectors(draws, n, k):
    """Zero columns in M, equal eigenvalues."""
    places = list(range(n))
    draws.draws.shuffle(places)
    return cases.units(n, sorted(places[:k]) if draws.below(2) else range(k)), None


def some_unit_vectors(draws, n, k):
    columns = draws.columns(n, k)
    for j in range(k):
        if draws.below(2):
            columns[j] = cases.units(n, [draws.below(n)])[0]
    return columns, None


def equal_rows(draws, n, k):
    width = draws.between(2, 4)
    return [[column[t - t % width] for t in range(n)] for column in draws.columns(n, k)], None


def scaled(draws, n, k):
    """Columns by 2^200 or 2^-200."""
    return cases.scaled(draws.columns(n, k), [draws.one_of([-200, 200]) for _ in range(k)]), None


def whole(draws, n, k):
    width = draws.between(1, 3)
    return [[float(draws.between(-width, width)) for _ in range(n)] for _ in range(k)], None


def dependent(draws, n, k):
    """A column that is another one but for a part of 2^-1 to 2^-30."""
    columns = draws.columns(n, k)
    part, j = 2.0 ** -draws.between(1, 30), draws.below(k)
    columns[j] = [x + part * y for x, y in zip(columns[draws.below(k)], draws.run(n))]
    return columns, None


def faint(draws, n, k):
    """Unit vectors with parts of 2^-400 to 2^-540 beside them: squares underflow in Householder's steps."""
    columns = [[float(x) for x in column] for column in cases.units(n, range(k))]
    for column in columns:
        for t in range(n):
            if column[t] == 0.0 and draws.below(3) == 0:
                column[t] = draws.one_of([1.0, -1.0, 1.5, 0.7]) * 2.0 ** -draws.between(400, 540)
    return columns, None


def signs(draws, n, k):
    return [[draws.one_of([1.0, -1.0]) for _ in range(n)] for _ in range(k)], None


def seasons(draws, n, k):
    """0 and 1 with a period: many equal eigenvalues."""
    period = max(k, 2)
    return [[1.0 if t % period == j else 0.0 for t in range(n)] for j in range(k)], None


def any_inverse(draws, n, k):
    """An inverse that no X'X has, of any size: refusal 13, stages 2 and 3."""
    size = draws.one_of([0, 0, 20, 80, 100, 160, 250, 308])
    inverse = [[(draws.u() - 0.5) * 10.0 ** size for _ in range(k)] for _ in range(k)]
    if draws.below(6) == 0:
        inverse[draws.below(k)][draws.below(k)] = draws.one_of([cases.NAN, cases.INFINITY, -cases.INFINITY, 0.0])
    return draws.columns(n, k), inverse


KINDS = [plain, plain, plain, trend, unit_vectors, some_unit_vectors, equal_rows, scaled, scaled, whole, dependent, faint, signs, seasons, any_inverse]


def design_of(seed, number):
    """(kind, columns, inverse or None)"""
    draws = Draws(seed, number)
    kind = KINDS[number % len(KINDS)]
    n = draws.between(*draws.one_of(ROWS))
    k = draws.between(1, min(8, n - 1))
    columns, inverse = kind(draws, n, k)
    return kind.__name__, columns, inverse


def ask(words, data):
    try:
        done = subprocess.run(words, input=data, capture_output=True)
    except OSError as why:
        print('compare.py: %s can not be run: %s' % (words[0], why.strerror), file=sys.stderr)
        raise SystemExit(2)
    if done.returncode != 0:
        print('compare.py: %s ended with status %d: %s' % (words[-1], done.returncode, done.stderr.decode().strip()), file=sys.stderr)
        raise SystemExit(2)
    return done.stdout.decode().splitlines()


def main():
    flags = argparse.ArgumentParser(add_help=False, allow_abbrev=False, usage=__doc__.split('Usage: ')[1].split('\n')[0])
    flags.add_argument('--seed', type=int, required=True)
    flags.add_argument('--count', type=int, required=True)
    flags.add_argument('--program')
    flags.add_argument('--show', type=int, default=5)
    given = flags.parse_args()
    words = shlex.split(given.program) if given.program else [os.path.join(HERE, 'out', 'try_eigen')]
    by_kind, by_refusal, by_rows = collections.Counter(), collections.Counter(), collections.Counter()
    eigenvalues = sweeps = stuck = disagreements = rows = 0
    for first in range(0, given.count, HUNDRED):
        designs = [design_of(given.seed, number) for number in range(first, min(first + HUNDRED, given.count))]
        data = b''.join(cases.design(columns, inverse) for _, columns, inverse in designs)
        ours, oracle = ask(words, data), ask([cases.ORACLE, 'port', '--spectra'], data)
        if not len(ours) == len(oracle) == len(designs):
            print('compare.py: %d designs, %d lines, %d of the oracle' % (len(designs), len(ours), len(oracle)), file=sys.stderr)
            raise SystemExit(2)
        for at, ((kind, columns, _), a, b) in enumerate(zip(designs, ours, oracle)):
            fields, n = b.split(), len(columns[0])
            by_kind[kind] += 1
            by_refusal['accepted' if fields[1] == '0' else 'refusal %s, place %s' % tuple(fields[1:3])] += 1
            by_rows['3 to 64' if n <= 64 else '65 to 255' if n <= 255 else '256'] += 1
            rows += n
            if fields[1] == '0':
                eigenvalues += int(fields[3])
                sweeps += int(fields[4])
                stuck += int(fields[5])
            if a != b:
                disagreements += 1
                if disagreements <= given.show:
                    print('design %d of seed %d, %s, n = %d, k = %d\n  the port   %s\n  the oracle %s'
                          % (first + at, given.seed, kind, n, len(columns), a[:300], b[:300]))
    listed = lambda counts: ', '.join('%s %d' % pair for pair in sorted(counts.items()))  # noqa: E731
    print('by kind: %s\nby answer: %s\nby rows: %s; %.1f on average\nsweeps: %d; designs with a coupling left: %d'
          % (listed(by_kind), listed(by_refusal), listed(by_rows), rows / given.count, sweeps, stuck))
    print('%d designs, %d eigenvalues, %d disagreements' % (given.count, eigenvalues, disagreements))
    return 1 if disagreements else 0


if __name__ == '__main__':
    sys.exit(main())
