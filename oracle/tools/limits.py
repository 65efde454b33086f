"""Sheets at the limit of 60 sweeps an index: four with a coupling left, two that end by the sixtieth sweep, one that makes none.

Each is asked as greater. LINES are their lines, by the oracle's port build as document 01 asks.
"""
from line import record_of
from sheetfile import EXACT, GREATER, NORMAL, Entry

T509, T511, T519, T528 = (2.0 ** -j for j in (509, 511, 519, 528))

FOUR_LEFT = [[0, T519, 0, 0, 0, 1], [0, 0, 1, 1, 0, 0]]
SIXTY = [[0, 0, 1, 0], [0, 0, 1, 1], [0, 1, 1, T511]]
# What each shows, residuals, columns, choice.
SHEETS = [
    ("four indexes out of sweeps", [1, -1, 2, 0, 1, -1], FOUR_LEFT, EXACT),
    ("one index out of sweeps", [1, 2, 1, -1, 1, 2, 0],
     [[T511, T511, 0, 0, 1, T511, 0], [0, 0, 1, 0, -1, 0, 0], [0, T511, 0, 0, 0, -1, 0]], EXACT),
    ("one index out of sweeps, fallback to path 3", [0, 0, 0, 1, 1],
     [[T509, 0, 1, 0, 0], [0, T509, 0, 0, 0], [0, 0, 1, -1, 1], [1, 0, 1, 0, 0]], EXACT),
    ("one index out of sweeps, fallback to path 4", [1, 1, -1, -1], [[T528, 1, 0, 0], [0, 1, -1, 0], [0, 1, 0, 1]], EXACT),
    ("done after exactly 60 sweeps of one index", [1, -1, 1, -1], SIXTY, EXACT),
    ("done after exactly 60 sweeps of one index, fallback to path 4", [1, 1, -1, -1], SIXTY, EXACT),
    ("four indexes would run out, but no sweep is made", [1, -1, 2, 0, 1, -1], FOUR_LEFT, NORMAL),
]
LINES = """\
0 0 0 4006000000000000 3feeb6e524af1818 2 0 4 242 15 465 0
1 0 0 3ff4000000000000 3fd890ce37f13cbe 2 0 4 64 15 465 0
2 0 0 3fe0000000000000 3fe0000000000000 3 1 1 65 0 0 0
3 0 0 3ff0000000000000 3ff0000000000000 4 1 1 61 0 0 0
4 0 0 4008000000000000 3ff0000000000000 2 0 1 60 0 0 1
5 0 0 3ff0000000000000 3ff0000000000000 4 1 1 60 0 0 1
6 0 0 4006000000000000 3feb60e4bace872f 3 0 0 0 0 0 1
"""


def entries():
    return [Entry.of_floats(residuals, columns, GREATER, choice) for _, residuals, columns, choice in SHEETS]


def answered():
    """Each sheet with what its line says, by name."""
    return list(zip(SHEETS, map(record_of, LINES.splitlines())))
