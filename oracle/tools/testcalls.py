"""Calls of the test for the comparison at scale, in the format of crates/try_dwtest: each a function of seeded draws.

Most are small, and their residuals are no OLS residuals, so that a million are quickly made. Only +, -, * and / make the numbers: a seed gives
the same bytes on every machine.
"""
import collections
import math
import random
import struct

import kinds
from sheetfile import Entry, bits, value

GREATER, LESS, TWO_SIDED = 0, 1, 2
DEFAULT, EXACT, NORMAL = 0, 1, 2
PART_ROOM = 8004
MOST_MATRIX, MOST_PARTS, MOST_NUMBERS = 131080, 8012, 4096
# The words that stand behind the sheet program's in the line of a call: n and alternative of the answer, the law's mean and variance by
# their bits, and what the matrix room and the part room hold.
Behind = collections.namedtuple("Behind", "n alternative mean variance matrix parts")


class Call:
    """Residuals and the columns' run as bits, k, the two codes, and the lengths of the rooms; the positions are a sheet file's alone."""

    def __init__(self, residuals, run, k, alternative, choice, matrix, parts, positions=None):
        self.residuals, self.run, self.k = residuals, run, k
        self.alternative, self.choice, self.matrix, self.parts = alternative, choice, matrix, parts
        self.positions = positions

    def bytes(self):
        numbers = self.residuals + self.run
        head = struct.pack("<7Q", len(self.residuals), len(self.run), self.k, self.alternative, self.choice, self.matrix, self.parts)
        return head + struct.pack("<%dQ" % len(numbers), *numbers)

    def is_sheet(self):
        """Whether a sheet file can hold it."""
        return self.k <= 256 and len(self.run) == self.k * len(self.residuals)

    def entry(self):
        n = len(self.residuals)
        columns = [self.run[j * n:(j + 1) * n] for j in range(self.k)]
        return Entry(self.residuals, columns, self.alternative, self.choice, self.positions)

    def words(self):
        """In words, for a report."""
        show = lambda run: "(%s)" % ", ".join("%016x %r" % (x, value(x)) for x in run)  # noqa: E731
        return ("k %d, alternative %d, choice %d, matrix room %d, part room %d\n    residuals %s\n    columns %s"
                % (self.k, self.alternative, self.choice, self.matrix, self.parts, show(self.residuals), show(self.run)))


class Draws:
    def __init__(self, name):
        self.draws = random.Random(name)
        self.u = self.draws.random

    def below(self, n):
        return int(self.u() * n)

    def between(self, low, high):
        return low + int(self.u() * (high - low + 1))

    def one_of(self, things):
        return things[int(self.u() * len(things))]

    def run(self, n):
        u = self.u
        return [u() + u() - 1.0 for _ in range(n)]

    def residuals(self, n):
        """Each leans on the one before."""
        share, last, e, u = 1.8 * self.u() - 0.9, 0.0, [], self.u
        for _ in range(n):
            last = share * last + (u() + u() - 1.0)
            e.append(last)
        return e


def matrix_room(n):
    """The numbers that n rows want: two lower triangles."""
    return n * (n + 1)


def full_room(n):
    """2n² numbers, as two full matrices would want; at most what the program has."""
    return min(2 * n * n, MOST_MATRIX)


def lent(draws, n, exact):
    """Lengths of rooms that serve the call, most often a little longer, now and then 2n²; few numbers where none are needed."""
    if exact:
        more = draws.below(9)
        return full_room(n) if more == 8 else matrix_room(n) + more, PART_ROOM + draws.below(9)
    if draws.below(16) == 0:
        return matrix_room(n), PART_ROOM + draws.below(9)
    return draws.below(40), draws.below(40)


def of_floats(draws, e, columns, choice):
    """A call with rooms that serve it."""
    n = len(e)
    exact = choice == EXACT or choice == DEFAULT and n < 100
    run = [x for column in columns for x in column]
    return Call([bits(x) for x in e], [bits(x) for x in run], len(columns), draws.below(3), choice, *lent(draws, n, exact))


def regression(draws, n, k):
    columns = [draws.run(n) for _ in range(k)]
    if draws.below(8):
        columns[0] = [1.0] * n
    return draws.residuals(n), columns


def sized(low, high, most, choices):
    """Random columns of low to high rows, most columns at most."""
    def make(draws):
        n = draws.between(low, high)
        k = draws.between(1, max(1, min(most, n - 1)))
        return of_floats(draws, *regression(draws, n, k), draws.one_of(choices))
    return make


def units(n, first, k):
    return [[1.0 if t == first + j else 0.0 for t in range(n)] for j in range(k)]


def structured(draws):
    """Unit vectors, zero columns, dependent columns, equal rows, scales of 2^-200 and 2^200, ties, k = n - 1."""
    n = draws.between(3, 12)
    k = draws.between(1, min(n - 1, 8))
    e, columns = regression(draws, n, k)
    shape = draws.below(12)
    j = draws.below(k)
    if shape == 0:
        columns = units(n, draws.below(n - k + 1), k)
    elif shape == 1:
        columns = units(n, draws.below(n - k + 1), k)
        columns[j] = [1.0] * n
    elif shape == 2:
        columns[j] = [0.0] * n
    elif shape == 3:
        factor = draws.one_of([1.0, -1.0, 2.0, 3.0])
        columns[j] = [factor * x for x in columns[draws.below(k)]]
    elif shape == 4:
        part, other = math.ldexp(1.0, -draws.between(1, 30)), columns[draws.below(k)]
        columns[j] = [x + part * y for x, y in zip(other, draws.run(n))]
    elif shape == 5:
        columns = [[column[t - t % 2] for t in range(n)] for column in columns]
    elif shape == 6:
        columns = [kinds.scale_by(column, draws.one_of([-200, 200])) for column in columns]
    elif shape == 7:
        e = kinds.scale_by(e, draws.one_of([-200, 200, -600, 510]))
    elif shape == 8:
        width = draws.between(1, 2)
        whole = lambda: float(draws.between(-width, width))  # noqa: E731
        e, columns = [whole() for _ in range(n)], [[whole() for _ in range(n)] for _ in range(k)]
    elif shape == 9:
        k = min(n - 1, 8)
        columns = units(n, draws.below(n - k + 1), k) if draws.below(2) else [draws.run(n) for _ in range(k)]
        e = [0.0] * n
        e[draws.one_of([0, n - 1, draws.below(n)])] = 1.0
    elif shape == 10 and n > 4:
        # three rows are free but for one column over them: an eigenvalue of 2 twice, and a statistic of 2
        n = min(n, 10)
        t = draws.between(2, n - 3)
        columns = [unit for s, unit in enumerate(units(n, 0, n)) if abs(s - t) > 1] + [[1.0 if abs(s - t) == 1 else 0.0 for s in range(n)]]
        e = [float(draws.between(-1, 1)) if s == t else 0.0 for s in range(n)]
        e[t - 1] = float(draws.between(0, 1))
        e[t + 1] = -e[t - 1]
    else:
        e = [draws.one_of([1.0, 1.0, -1.0])] * n if draws.below(2) else [1.0 if t % 2 else -1.0 for t in range(n)]
    return of_floats(draws, e, columns, draws.one_of([DEFAULT, EXACT, EXACT, NORMAL]))


def hostile(draws):
    """One to three numbers, or a run, from the edges: NaN, infinities, subnormals, the largest numbers."""
    n = draws.between(2, 10)
    call = of_floats(draws, *regression(draws, n, draws.between(1, min(3, n - 1))), draws.below(3))
    run = call.residuals if draws.below(3) == 0 else call.run
    patterns = kinds.EDGES if draws.below(2) else kinds.NOT_FINITE + kinds.EDGES
    if draws.below(8) == 0:
        run[:] = [draws.one_of(kinds.EDGES) for _ in run]
    for _ in range(draws.between(1, 3)):
        run[draws.below(len(run))] = draws.one_of(patterns)
    return call


def lengths(draws):
    """Wrong run lengths, no rows, one, too many; k of 0, 9 and huge; short rooms."""
    n = draws.one_of([0, 1, 2, 3, 3, 4, 5, 8, 12, draws.between(250, 262)])
    k = draws.between(1, max(1, min(3, n - 1)))
    choice = draws.below(3) if n < 100 or draws.below(20) == 0 else NORMAL
    call = of_floats(draws, draws.residuals(n), [draws.run(n) for _ in range(k)], choice)
    exact = call.choice == EXACT or call.choice == DEFAULT and n < 100
    turn = draws.below(6)
    if turn == 0:
        call.k = draws.one_of([0, 9, 10, 8, k + 1, k - 1, 2 ** 32, 2 ** 63, 2 ** 64 - 1, 2 ** 64 // max(n, 2)])
    elif turn == 1:
        call.run = draws.one_of([call.run[:-1], [], call.run[:n], call.run + [bits(1.0)], call.run * 2, [kinds.NAN] * (len(call.run) + 1)])
    elif turn == 2:
        call.residuals = draws.one_of([call.residuals[:-1], [], call.residuals + [bits(1.0)], call.residuals[:1]])
    elif turn == 3 and exact:
        call.matrix = draws.one_of([max(matrix_room(n) - 1, 0), matrix_room(n), max(full_room(n) - 1, 0), full_room(n), 0, matrix_room(n) // 2])
    elif turn == 4 and exact:
        call.parts = draws.one_of([PART_ROOM - 1, 0, 2001, PART_ROOM])
    elif turn == 5 and exact:
        call.matrix, call.parts = 0, 0
    return call


def refused(draws):
    """A number that is not finite, zeros, or, now and then, squares that overflow."""
    n = draws.between(2, 12)
    call = of_floats(draws, *regression(draws, n, draws.between(1, min(3, n - 1))), draws.below(3))
    shape = draws.below(40)
    if shape < 30:
        run = call.run if shape % 2 else call.residuals
        run[draws.below(len(run))] = draws.one_of(kinds.NOT_FINITE)
    elif shape < 39:
        call.residuals = [draws.one_of([0, 1 << 63, 1, 0x1e00000000000000]) for _ in range(n)]
    else:
        call.residuals[draws.below(n)] = draws.one_of([bits(1e200), bits(-1e160), kinds.EDGES[6]])
    return call


def small_lengths(draws):
    """As lengths, where there are few rows."""
    while True:
        call = lengths(draws)
        if len(call.residuals) < 20:
            return call


def of_entry(draws, entry):
    """A sheet of the other comparisons' kinds, with rooms that serve it."""
    n = len(entry.residuals)
    exact = entry.choice == EXACT or entry.choice == DEFAULT and n < 100
    run = [x for column in entry.columns for x in column]
    return Call(entry.residuals, run, len(entry.columns), entry.alternative, entry.choice, *lent(draws, n, exact))


def of_kind(draws):
    """A sheet of 2 to 14 rows of those kinds: OLS residuals, drifts, trends, collinear, faint, noise."""
    chance = kinds.Chance(0, (2, 14), (1, 3))
    chance.draws = draws.draws
    names = ["ordinary", "drift", "trend", "collinear", "ties", "scaled", "degenerate", "faint", "noise"]
    return of_entry(draws, kinds.SHEETS[draws.one_of(names)](chance, draws.below(100)))


def generated(draws, indexes):
    """The generator's kinds in turn, of their own sizes."""
    chance = kinds.Chance(0)
    chance.draws = draws.draws
    return [of_entry(draws, kinds.mixed(chance, index)) for index in indexes]


# What a batch of 2,000 calls with full rooms has of each.
ROOMS = [
    (sized(3, 8, 4, [EXACT, DEFAULT]), 360), (sized(9, 16, 6, [EXACT, DEFAULT]), 70), (sized(17, 30, 8, [EXACT, DEFAULT]), 20),
    (sized(31, 64, 8, [EXACT]), 6), (sized(65, 128, 8, [EXACT]), 2), (sized(129, 256, 8, [EXACT]), 1), (sized(98, 101, 3, [DEFAULT]), 1),
    (sized(2, 30, 8, [NORMAL]), 560), (sized(31, 256, 8, [NORMAL]), 20),
    (structured, 280), (hostile, 360), (lengths, 260), (of_kind, 60),
]
# A light batch of 6,000 calls: few that the port or the Rust takes long to answer.
LIGHT = [
    (sized(3, 8, 4, [EXACT, DEFAULT]), 1500), (sized(9, 16, 6, [EXACT, DEFAULT]), 300), (sized(17, 30, 8, [EXACT, DEFAULT]), 60),
    (sized(2, 30, 8, [NORMAL]), 2650), (sized(31, 256, 8, [NORMAL]), 60), (structured, 780), (refused, 300), (small_lengths, 350),
]
# What a batch of sheet files has.
SHEETS = [
    (sized(3, 8, 4, [EXACT, DEFAULT]), 110), (sized(9, 16, 6, [EXACT, DEFAULT]), 30), (sized(17, 64, 8, [EXACT, DEFAULT]), 4),
    (sized(2, 30, 8, [NORMAL]), 130), (sized(65, 256, 2, [EXACT, NORMAL, DEFAULT]), 6), (structured, 110), (hostile, 90), (of_kind, 32),
]


def drawn(draws, shares):
    """The calls of a batch, in a random order."""
    makers = [make for make, count in shares for _ in range(count)]
    draws.draws.shuffle(makers)
    return [make(draws) for make in makers]
