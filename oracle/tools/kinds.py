"""The kinds of sheets that the oracle is asked: each a function of a Chance and an index.

Only +, -, *, / and square roots make the numbers, and sums go by loops, so a seed gives the same
bytes on every machine and every Python 3.
"""
import itertools
import math
import random

import sheetfile
from sheetfile import EXACT, Entry, bits

MOST_ROWS, MOST_COLUMNS = 257, 9
POWERS = 500

NAN, NEGATIVE_NAN, SIGNALLING_NAN = 0x7ff8000000000000, 0xfff8000000000001, 0x7ff0000000000001
INFINITY, NEGATIVE_INFINITY = 0x7ff0000000000000, 0xfff0000000000000
NOT_FINITE = [NAN, NEGATIVE_NAN, SIGNALLING_NAN, 0xffffffffffffffff, INFINITY, NEGATIVE_INFINITY]
EDGES = [
    0x0000000000000001, 0x8000000000000001,  # the smallest subnormals
    0x000fffffffffffff, 0x800fffffffffffff,  # the largest subnormals
    0x0010000000000000, 0x8010000000000000,  # the smallest normals
    0x7fefffffffffffff, 0xffefffffffffffff,  # the largest numbers
    0x0000000000000000, 0x8000000000000000,  # the zeros
    bits(1e200), bits(-1e200), bits(1e-200),
    bits(2.0 ** 511), bits(2.0 ** 512), bits(2.0 ** -515), bits(2.0 ** -537), bits(2.0 ** -538),
]


class Chance:
    """Seeded draws, and the limits that the flags set."""

    def __init__(self, seed, rows=None, columns=None, alternative=None, choice=None):
        self.draws = random.Random(seed)
        self.rows, self.columns = rows, columns
        self.alternative, self.choice = alternative, choice

    def uniform(self):
        return self.draws.random()

    def below(self, n):
        """A whole number from 0 to n - 1."""
        return int(self.draws.random() * n)

    def between(self, low, high):
        return low + self.below(high - low + 1)

    def one_of(self, things):
        return things[self.below(len(things))]

    def bell(self):
        """A number of mean 0 and variance 1, near to normal: four uniform draws."""
        u = self.draws.random
        return (u() + u() + u() + u() - 2.0) * 1.7320508075688772

    def bells(self, n):
        return [self.bell() for _ in range(n)]

    def size(self, rows=(3, 64), columns=(1, 8)):
        """Rows and columns: within the flags' limits where they are set, else within the kind's."""
        n = self.between(*(self.rows or rows))
        least, most = self.columns or columns
        if self.columns is None:
            most = max(least, min(most, n - 1))
        return n, self.between(least, most)

    def codes(self):
        alternative = self.below(3) if self.alternative is None else self.alternative
        choice = self.below(3) if self.choice is None else self.choice
        return alternative, choice


def dot(u, v):
    s = 0.0
    for a, b in zip(u, v):
        s += a * b
    return s


def orthonormal(columns):
    """An orthonormal basis of the columns' span: Gram and Schmidt, twice over."""
    basis = []
    for column in columns:
        v, size = list(column), math.sqrt(dot(column, column))
        for _ in range(2):
            for q in basis:
                c = dot(q, v)
                v = [a - c * b for a, b in zip(v, q)]
        norm = math.sqrt(dot(v, v))
        if norm > 1e-10 * size:
            basis.append([a / norm for a in v])
    return basis


def ols_residuals(y, columns):
    """What least squares on the columns leaves of y."""
    basis = orthonormal(columns)
    e = list(y)
    for _ in range(2):
        for q in basis:
            c = dot(q, e)
            e = [a - c * b for a, b in zip(e, q)]
    return e


def errors(chance, n):
    """Errors of a regression: each leans on the one before, by a random share."""
    share = 1.8 * chance.uniform() - 0.9
    e, last = [], 0.0
    for draw in chance.bells(n):
        last = share * last + draw
        e.append(last)
    return e


def design(chance, n, k):
    """An intercept, most often, and columns of random numbers."""
    columns = [chance.bells(n) for _ in range(k)]
    if k and chance.below(10):
        columns[0] = [1.0] * n
    return columns


def residuals_of(chance, n, columns, y=None):
    """OLS residuals of y on the columns; y itself where nothing but rounding would be left."""
    y = errors(chance, n) if y is None else y
    return ols_residuals(y, columns) if len(columns) < n else y


def regression(chance, n, k):
    columns = design(chance, n, k)
    return residuals_of(chance, n, columns), columns


def ordinary(chance, index):
    """regressions of 11 to 64 rows and 1 to 8 columns, at least 3 rows more than columns, with their OLS residuals"""
    return Entry.of_floats(*regression(chance, *chance.size((11, 64))), *chance.codes())


def sizes(chance, index):
    """regressions of every size, 0 to 257 rows by 0 to 9 columns: 2580 sheets are all of them"""
    at = index * 1009 % ((MOST_ROWS + 1) * (MOST_COLUMNS + 1))
    return Entry.of_floats(*regression(chance, at % (MOST_ROWS + 1), at // (MOST_ROWS + 1)), *chance.codes())


def small(chance, index):
    """0 to 8 rows and 0 to 9 columns"""
    n, k = chance.size((0, 8), (0, MOST_COLUMNS))
    k = k if chance.columns else chance.below(MOST_COLUMNS + 1) if chance.below(8) == 0 else k
    return Entry.of_floats(*regression(chance, n, k), *chance.codes())


def drift(chance, index):
    """residuals of a random walk, on an intercept and slow columns"""
    n, k = chance.size((3, 120))
    walk, at = [], 0.0
    for step in chance.bells(n):
        at += step
        walk.append(at)
    columns = [[1.0] * n]
    while len(columns) < k:
        start, slope = chance.bell(), chance.bell() / 16.0
        columns.append([start + slope * t + 0.01 * chance.bell() for t in range(n)])
    return Entry.of_floats(residuals_of(chance, n, columns[:k], walk), columns[:k], *chance.codes())


def trend(chance, index):
    """powers of the row number and seasons as columns"""
    n, k = chance.size((3, 120), (1, 6))
    period = chance.between(2, 12)
    columns = []
    for j in range(k):
        if chance.below(3) or j == 0:
            columns.append([float((t + 1) ** j) for t in range(n)])
        else:
            phase = chance.below(period)
            columns.append([1.0 if t % period == phase else 0.0 for t in range(n)])
    y = [e + 0.1 * t for t, e in enumerate(errors(chance, n))]
    return Entry.of_floats(residuals_of(chance, n, columns, y), columns, *chance.codes())


def collinear(chance, index):
    """a column that is another one but for a part of 2^-1 to 2^-24: pivots fail from about 2^-20 on"""
    n, k = chance.size((4, 64), (2, 8))
    columns = design(chance, n, k)
    if k >= 2:
        j = chance.between(1, k - 1)
        part = math.ldexp(1.0, -chance.between(1, 24))
        other = columns[chance.below(j)]
        columns[j] = [a + part * chance.bell() for a in other]
    return Entry.of_floats(residuals_of(chance, n, columns), columns, *chance.codes())


def ties(chance, index):
    """whole numbers from -3 to 3, with many ties"""
    n, k = chance.size((2, 40), (1, 5))
    width = chance.between(1, 3)
    whole = lambda: float(chance.between(-width, width))  # noqa: E731
    columns = [[whole() for _ in range(n)] for _ in range(k)]
    if k and chance.below(4):
        columns[0] = [1.0] * n
    return Entry.of_floats([whole() for _ in range(n)], columns, *chance.codes())


def scaled(chance, index):
    """regressions times powers of two, up to 2^500 and down to 2^-500"""
    residuals, columns = regression(chance, *chance.size((3, 40), (1, 6)))

    def power():
        draw = chance.below(6)
        return POWERS if draw == 0 else -POWERS if draw == 1 else chance.between(-POWERS, POWERS)

    shared, same = power(), chance.below(2)
    residuals = scale_by(residuals, power())
    columns = [scale_by(column, shared if same else power()) for column in columns]
    return Entry.of_floats(residuals, columns, *chance.codes())


def scale_by(run, power):
    return [math.ldexp(x, power) for x in run]


def unit(n, t):
    return [1.0 if s == t else 0.0 for s in range(n)]


def degenerate(chance, index):
    """unit vectors, zero columns, equal columns, constant and lone residuals"""
    n, k = chance.size((1, 24), (1, 8))
    first = chance.below(max(n - k, 1)) if chance.below(2) else 0
    columns = [unit(n, first + j) for j in range(k)]
    if k:
        j, flaw = chance.below(k), chance.below(8)
        if flaw == 0:
            columns[j] = [0.0] * n
        elif flaw == 1:
            factor = chance.one_of([1.0, -1.0, 2.0, 3.0])
            columns[j] = [factor * x for x in chance.one_of(columns)]
        elif flaw < 5:
            columns[j] = [1.0] * n
    return Entry.of_floats(bare_residuals(chance, n, columns), columns, *chance.codes())


def bare_residuals(chance, n, columns):
    """A lone number, one number throughout, two that alternate, or what least squares leaves."""
    shape = chance.below(4)
    if shape == 0:
        return unit(n, n - 1 - chance.below(2))
    if shape == 1:
        return [chance.one_of([1.0, 1.0, -1.0, 0.0])] * n
    if shape == 2:
        return [1.0 if t % 2 else -1.0 for t in range(n)]
    return residuals_of(chance, n, columns)


def faint(chance, index):
    """unit vectors with parts of 2^-400 to 2^-540 beside them: squares underflow in Householder's steps"""
    n, k = chance.size((3, 16), (1, 5))
    columns = []
    for j in range(k):
        column = unit(n, (j * (1 + index % 2)) % max(n, 1))
        for t in range(n):
            if column[t] == 0.0 and chance.below(3) == 0:
                column[t] = math.ldexp(chance.one_of([1.0, -1.0, 1.5, 0.7]), -chance.between(400, 540))
        columns.append(column)
    return Entry.of_floats(bare_residuals(chance, n, columns), columns, *chance.codes())


def hostile(chance, index):
    """one or more numbers replaced by a pattern from the edges, NaN and infinity among them"""
    n, k = chance.size((2, 12), (1, 4))
    entry = Entry.of_floats(*regression(chance, n, k), *chance.codes())
    runs = [entry.residuals] + entry.columns
    patterns = NOT_FINITE + EDGES
    pattern = patterns[index % len(patterns)]
    shape = chance.below(8)
    if shape == 0:
        run = chance.one_of(runs)
        run[:] = [pattern] * n
    elif shape == 1:
        run = chance.one_of(runs)
        run[:] = [chance.one_of(EDGES) for _ in run]
    else:
        for turn in range(1 if shape < 6 else chance.between(2, 4)):
            place = (index + turn * chance.below(n * (k + 1))) % max(n * (k + 1), 1)
            if n:
                runs[place // n][place % n] = pattern if turn == 0 else chance.one_of(patterns)
    return entry


def noise(chance, index):
    """random bits: exponents of any size, or near to one another in each run"""
    n, k = chance.size((2, 12), (1, 4))

    def run():
        spread = chance.one_of([2048, 64, 8, 2])
        middle = chance.below(2048) if spread == 2048 else chance.between(480, 1500)
        return [chance.below(2) << 63 | (middle + chance.below(spread)) % 2048 << 52 | chance.draws.getrandbits(52)
                for _ in range(n)]

    return Entry(run(), [run() for _ in range(k)], *chance.codes())


SHEETS = {f.__name__: f for f in
          [ordinary, sizes, small, drift, trend, collinear, ties, scaled, degenerate, faint, hostile, noise]}


def mixed(chance, index):
    """each of the kinds above in turn"""
    kinds = list(SHEETS.values())
    return kinds[index % len(kinds)](chance, index // len(kinds))


def rising(chance, n):
    """n positions: from 0 on, from a small number on or across 2^63, by steps of 1, of a few or of any size. Of some of these runs
    all positions, or the last ones, are moved up so as to end at 2^64 - 1."""
    widest = chance.one_of([1, 4, 2 ** 32, 2 ** 62 // max(n, 1)])
    distances = list(itertools.accumulate((chance.between(1, widest) for _ in range(n - 1)), initial=0))
    first = chance.one_of([0, chance.below(100), 2 ** 63 - chance.between(0, distances[-1])])
    highest = 2 ** 64 - 1 - distances[-1]
    moved = chance.one_of([n, n, 0, chance.between(0, n)])
    return [(first if t < moved else highest) + distances[t] for t in range(n)]


def with_positions(chance, entry):
    entry.positions = rising(chance, len(entry.residuals))
    return entry


def positions(chance, index):
    """sheets as those of mixed, with print positions: dense or far apart, from 0 on, across 2^63, up to 2^64 - 1"""
    return with_positions(chance, mixed(chance, index))


def limits(chance, index):
    """4 to 10 rows, columns of 0, 1, -1 and one of 2^-490 to 2^-537, most exact: of the accepted about one in 700 has an index out of its 60 sweeps"""
    n, k = chance.size((4, 10))
    tiny = math.ldexp(1.0, -chance.between(490, 537))
    columns = [[0.0] * n for _ in range(k)]
    for column in columns if n else []:
        for _ in range(chance.between(1, 3)):
            column[chance.below(n)] = chance.one_of([1.0, -1.0])
        for _ in range(chance.between(1, 2)):
            column[chance.below(n)] = tiny
    width = chance.between(1, 2)
    residuals = [float(chance.between(-width, width)) for _ in range(n)]
    alternative, choice = chance.codes()
    if chance.choice is None and chance.below(4):
        choice = EXACT
    return Entry.of_floats(residuals, columns, alternative, choice)


# What mixed has for a seed must stay, so it goes through SHEETS alone.
KINDS = dict(SHEETS, mixed=mixed, positions=positions, limits=limits)


def entries(kind, chance, count):
    """`count` sheets of a kind."""
    for index in range(count):
        yield KINDS[kind](chance, index)


def files(kind, chance, count):
    """Sheet files that hold `count` sheets of a kind; for the kind `damaged`, `count` files."""
    if kind == "damaged":
        import damage
        return damage.files(chance, count)
    return sheetfile.files_of(entries(kind, chance, count))


def described():
    """(kind, what it is), for every kind."""
    import damage
    named = [(name, make.__doc__) for name, make in KINDS.items()]
    return named + [("damaged", damage.files.__doc__.split("\n")[0])]
