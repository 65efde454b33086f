#!/usr/bin/env python3
"""Writes the stored input of try_dwtest, and its lines by the oracle's first build: each refusal number with the places that a whole call reaches, each
path, the fallback, document 01's sheets P1 to P12 and those that are run only, rooms of every kind of length, and the sheets at the limit of 60 sweeps.

Usage: cases.py               writes stdin and stdout beside this file (oracle/build port first)
       cases.py --check       asks the oracle again and compares; writes nothing
       cases.py --list        prints what each call shows, above its line
"""
import os
import struct
import subprocess
import sys

HERE = os.path.dirname(os.path.abspath(__file__))
TOP = os.path.dirname(os.path.dirname(HERE))
ORACLE = os.path.join(TOP, 'oracle', 'sheets')
sys.dont_write_bytecode = True
sys.path[:0] = [os.path.join(TOP, 'oracle', 'tools'), os.path.join(TOP, 'tools')]
import limits  # noqa: E402
from line import record_and_rest  # noqa: E402

GREATER, LESS, TWO_SIDED = 0, 1, 2
DEFAULT, EXACT, NORMAL = 0, 1, 2
NAN, INFINITY = float('nan'), float('inf')
FULL = (131080, 8012)
CUT = 'the input is cut short\n'


def ones(n):
    return [1.0] * n


def unit(n, t):
    return [1.0 if s == t else 0.0 for s in range(n)]


def units(n, places):
    return [x for t in places for x in unit(n, t)]


def cubes(n):
    """Whole numbers without a drift: t^3 modulo 17, less 8."""
    return [float(t ** 3 % 17 - 8) for t in range(n)]


def powers(n, k):
    """k columns: 1, t, t^2, .., with t from -1 to 1; each power one rounded product."""
    run = ones(n)
    for j in range(1, k):
        run += [run[(j - 1) * n + t] * ((2.0 * t - (n - 1)) / (n - 1)) for t in range(n)]
    return run


def rooms_of(n):
    return n * (n + 1), 8004


def document():
    """P1 to P12 and the sheets that are run only."""
    yield 'path 1', 'P1', [1, -1], ones(2), 1, EXACT
    yield 'path 2', 'P2', [1, -1, 1, -1], ones(4), 1, EXACT
    yield 'path 2', 'P3', [1, 1, -1, -1], ones(4), 1, EXACT
    yield 'path 2', 'P4, run only too: p is 0, no evaluations', [1, 1, 0], ones(3), 1, EXACT
    yield 'path 2', 'P5, run only too: p near 1/2', [0, 1, 0], ones(3), 1, EXACT
    yield 'refusal 1 0', 'P6', [1, -1], [], 0, EXACT
    yield 'refusal 6 0', 'P7', [1], ones(1), 1, EXACT
    yield 'refusal 8 0', 'P8', [0, 0], ones(2), 1, EXACT
    yield 'refusal 9 0', 'P9', [1e200, 1e200], ones(2), 1, EXACT
    yield 'refusal 10 0', 'P10', [1, -1], ones(4), 2, EXACT
    yield 'refusal 14 0', 'P11', unit(5, 4), units(5, range(4)), 4, NORMAL
    yield 'refusal 13 1', 'P12', [1, -1], [2.0 ** -515] * 2, 1, EXACT
    yield 'path 2', 'run only: statistic 2.5, p near 2/3', [1, -1, 0], ones(3), 1, EXACT
    yield 'refusal 11 1', 'run only: two columns of ones', [1, -1, 0], ones(6), 2, EXACT
    yield 'path 2', '99 rows, default: exact', cubes(99), ones(99), 1, DEFAULT
    yield 'path 3', '100 rows, default: normal', cubes(100), ones(100), 1, DEFAULT
    yield 'path 3', '256 rows, default', cubes(256), ones(256), 1, DEFAULT
    yield 'path 2', '256 rows, exact', cubes(256), ones(256), 1, EXACT
    yield 'refusal 2 0', '257 rows', cubes(257), ones(257), 1, DEFAULT
    yield 'path 2', '8 columns', cubes(20), powers(20, 8), 8, DEFAULT
    yield 'refusal 2 1', '9 columns', cubes(20), powers(20, 9), 9, DEFAULT


def refusals():
    """The refusals that P1 to P12 leave, each place, and which of two comes first."""
    yield 'refusal 1 0', '1 before 2: 300 rows, no column', ones(300), [], 0, EXACT
    yield 'refusal 1 0', '1, where the run is not empty', [1, -1], ones(2), 0, EXACT
    yield 'refusal 2 0', '2, place 0 before place 1', ones(257), [], 9, EXACT
    yield 'refusal 2 1', '2, k is 2^64 - 1', [1, -1, 0], [], 2 ** 64 - 1, EXACT
    yield 'refusal 2 1', '2, k n is 2^64', [1, -1], [], 2 ** 63, EXACT
    yield 'refusal 2 1', '2 before 3: 9 columns, no run', [1, -1], [], 9, EXACT
    yield 'refusal 3 0', '3: a number too few', cubes(5), ones(9), 2, EXACT
    yield 'refusal 3 0', '3: a number too many', cubes(5), ones(11), 2, EXACT
    yield 'refusal 3 0', '3: no run', cubes(5), [], 1, EXACT
    yield 'refusal 3 0', '3 before 5', [], ones(1), 1, EXACT
    yield 'refusal 3 0', '3 before 4', [1, -1], [NAN], 1, EXACT
    yield 'refusal 4 0', '4, place 0', [1, -1], [INFINITY, NAN], 1, EXACT
    yield 'refusal 4 4', '4, a place in the second column', [1, -1, 0], [1, 1, 1, 1, NAN, -INFINITY], 2, EXACT
    yield 'refusal 4 2047', '4, the last place', cubes(256), ones(2047) + [-INFINITY], 8, EXACT
    yield 'refusal 4 0', '4 before 6', [1], [NAN], 1, EXACT
    yield 'refusal 4 1', '4 before 7', [NAN, 1], [1, NAN], 1, EXACT
    yield 'refusal 5 0', '5', [], [], 1, EXACT
    yield 'refusal 5 0', '5, eight empty columns', [], [], 8, DEFAULT
    yield 'refusal 6 0', '6 before 7', [NAN], ones(1), 1, EXACT
    yield 'refusal 7 0', '7, place 0', [NAN, 1], ones(2), 1, EXACT
    yield 'refusal 7 2', '7, a later place', [1, 0, INFINITY, NAN], ones(4), 1, NORMAL
    yield 'refusal 7 1', '7 before 10', [1, -INFINITY], ones(4), 2, EXACT
    yield 'refusal 8 0', '8, where squares underflow', [1e-170, -1e-170, 1e-200], ones(3), 1, EXACT
    yield 'refusal 8 0', '8, zeros of both signs', [0.0, -0.0, 0.0], ones(3), 1, NORMAL
    yield 'refusal 9 0', '9, by the squared differences alone', [2.0 ** 511, -2.0 ** 511, 0], ones(3), 1, EXACT
    yield 'refusal 9 0', '9 before 10', [1e200, 1e200], ones(4), 2, EXACT
    yield 'refusal 10 0', '10, more columns than rows', [1, -1], units(2, [0, 1, 0]), 3, EXACT
    yield 'refusal 11 0', '11, place 0: a column of zeros', [1, -1, 0], [0.0] * 3, 1, NORMAL
    yield 'refusal 11 7', '11, place 7: the first column again', cubes(9), powers(9, 7) + ones(9), 8, EXACT
    yield 'refusal 11 0', '11, by the floor of the scale', [1, -1], [1e-161] * 2, 1, EXACT
    yield 'refusal 13 1', '13, place 1: a pivot that is NaN does not fail', [1, -1, 0], ones(3) + [1e200, -1e200, 1e200], 2, EXACT
    yield 'refusal 13 3', '13, place 3', [-1, 0, 0, 1], [0, 0, 1, 2.0 ** -537], 1, EXACT
    yield 'refusal 13 5', '13, place 5', [1, -1, 1, -1, 0], [2.0 ** 510 * (-1.0) ** t for t in range(5)], 1, NORMAL
    yield 'refusal 14 0', '14 after the fallback', unit(5, 4), units(5, range(4)), 4, EXACT


def paths():
    """Every path, the fallback with each way on, the counts that are 0."""
    for choice in (DEFAULT, EXACT, NORMAL):
        yield 'path 1', 'path 1', [1, -1], [1, 2], 1, choice
    yield 'path 2', 'path 2, all weights negative: p is 1', [1, -1, 1], unit(3, 1), 1, EXACT
    yield 'path 2', 'path 2, a trend', cubes(20), powers(20, 2), 2, EXACT
    yield 'path 2', 'path 2, columns scaled by 2^200 and 2^-200', cubes(12), [x * 2.0 ** 200 for x in ones(12)] + [x * 2.0 ** -200 for x in powers(12, 2)[12:]], 2, EXACT
    yield 'path 2', 'path 2, unit vectors', cubes(9), units(9, [0, 3, 4, 8]), 4, EXACT
    yield 'path 3', 'path 3', cubes(20), powers(20, 3), 3, NORMAL
    yield 'path 3', 'path 3, five rows', [1, -1, 2, 0, 1], ones(5), 1, NORMAL
    yield 'path 4', 'path 4, four rows', [1, -1, 2, 0], ones(4), 1, NORMAL
    yield 'path 4', 'path 4, three rows', [1, -1, 2], ones(3), 1, NORMAL
    yield 'path 4', 'the fallback to path 4', [0, 0, 1], units(3, [0, 1]), 2, EXACT
    yield 'path 3', 'the fallback to path 3', unit(5, 2), units(5, [0, 4]) + [0, 1, 0, 1, 0], 3, EXACT


def lengths():
    """Rooms of other lengths."""
    a, b = rooms_of(4)
    sheet = [1, -1, 1, -1], ones(4), 1
    yield ('path 2', 'rooms just long enough',) + sheet + (EXACT, a, b)
    yield ('path 2', 'rooms one longer',) + sheet + (EXACT, a + 1, b + 1)
    yield ('refusal 12 1', '12, place 1: one too short',) + sheet + (EXACT, a - 1, b)
    yield ('refusal 12 1', '12, place 1 before place 2',) + sheet + (DEFAULT, 0, 0)
    yield ('refusal 12 2', '12, place 2: one too short',) + sheet + (EXACT, a, b - 1)
    yield ('refusal 12 2', '12, place 2: none',) + sheet + (EXACT, a, 0)
    yield ('path 4', 'normal needs no room',) + sheet + (NORMAL, 0, 0)
    yield 'path 1', 'path 1 needs no room', [1, -1], ones(2), 1, EXACT, 0, 0
    yield 'refusal 13 1', '13, place 1 before 12', [1, -1, 0], ones(3) + [1e200, -1e200, 1e200], 2, EXACT, 11, 8004
    yield 'refusal 11 1', '11 before 12', [1, -1, 0], ones(6), 2, EXACT, 0, 0
    yield 'refusal 12 1', '12 before 13, place 3', [-1, 0, 0, 1], [0, 0, 1, 2.0 ** -537], 1, EXACT, 19, 8004
    yield 'refusal 12 1', '12 at 256 rows', cubes(256), ones(256), 1, EXACT, 65791, 8004
    yield 'refusal 13 3', '13, place 3: rooms just long enough', [-1, 0, 0, 1], [0, 0, 1, 2.0 ** -537], 1, EXACT, 20, 8004


def served():
    """Matrix rooms of n (n + 1) numbers, where the groups of eight rows and the blocks of sixteen begin and end, and of up to 2n²: only the first n (n + 1) are used."""
    for n in (3, 7, 8, 9, 15, 16, 17, 256):
        yield 'path 2', '%d rows, the matrix room just long enough' % n, cubes(n), powers(n, 2), 2, EXACT, n * (n + 1), 8004
    for n in (3, 16, 17):
        yield 'refusal 12 1', '%d rows, the matrix room one too short' % n, cubes(n), powers(n, 2), 2, EXACT, n * (n + 1) - 1, 8004
        yield 'path 2', '%d rows, a matrix room of 2n² - 1' % n, cubes(n), powers(n, 2), 2, EXACT, 2 * n * n - 1, 8004
        yield 'path 2', '%d rows, a matrix room of 2n²' % n, cubes(n), powers(n, 2), 2, EXACT, 2 * n * n, 8004
    yield 'refusal 13 3', '13, place 3: a matrix room of 2n²', [-1, 0, 0, 1], [0, 0, 1, 2.0 ** -537], 1, EXACT, 32, 8004


def at_the_limit():
    """The sheets of oracle/tools/limits.py."""
    for (shows, e, columns, choice), said in limits.answered():
        yield 'path %d' % said.path, shows, e, [x for column in columns for x in column], len(columns), choice


def cases():
    """(what document 01 asks, name, residuals, columns, k, alternative, choice, matrix room, part room)"""
    for due, name, e, x, k, choice in document():
        yield due, name, e, x, k, GREATER, choice, FULL[0], FULL[1]
    for due, name, e, x, k, choice in refusals():
        yield due, name, e, x, k, TWO_SIDED, choice, FULL[0], FULL[1]
    for due, name, e, x, k, choice in paths():
        for alternative in (GREATER, LESS, TWO_SIDED):
            yield due, name, e, x, k, alternative, choice, FULL[0], FULL[1]
    for due, name, e, x, k, choice, matrix, parts in lengths():
        yield due, name, e, x, k, LESS, choice, matrix, parts
    for due, name, e, x, k, choice in at_the_limit():
        yield due, name, e, x, k, GREATER, choice, FULL[0], FULL[1]
    for due, name, e, x, k, choice, matrix, parts in served():
        yield due, name, e, x, k, TWO_SIDED, choice, matrix, parts


def call(e, x, k, alternative, choice, matrix, parts):
    run = list(e) + list(x)
    return struct.pack('<7Q', len(e), len(x), k, alternative, choice, matrix, parts) + struct.pack('<%dd' % len(run), *run)


def input_bytes():
    data = b''.join(call(*case[2:]) for case in cases())
    return data + struct.pack('<7Q', 4000, 97, 1, 0, 0, 0, 0)   # more numbers than the program has room for: it stops


def lines():
    """The oracle's line for each call."""
    data = b''.join(call(*case[2:]) for case in cases())
    try:
        asked = subprocess.run([ORACLE, 'port', '--tests'], input=data, capture_output=True)
    except OSError as why:
        raise SystemExit('cases.py: %s: %s' % (ORACLE, why.strerror))
    if asked.returncode != 0:
        raise SystemExit('cases.py: ' + asked.stderr.decode().strip())
    answers = asked.stdout.decode().splitlines()
    for case, line in zip(cases(), answers):
        hold_to(case[0], case[1], line)
    return answers


def hold_to(expected, name, line):
    """`refusal NUMBER PLACE` or `path NUMBER`, as document 01 has it."""
    said, _ = record_and_rest(line)
    met = 'refusal %d %d' % (said.refusal, said.place) if said.refusal else 'path %d' % said.path
    if met != expected:
        raise SystemExit('cases.py: %s: %s is due, and the oracle says: %s' % (name, expected, line))


def write(name, data):
    path = os.path.join(HERE, name)
    with open(path + '.part', 'wb') as out:
        out.write(data)
    os.rename(path + '.part', path)


def main():
    words = sys.argv[1:]
    if words not in ([], ['--check'], ['--list']):
        raise SystemExit(__doc__)
    answers = lines()
    stdout = ('\n'.join(answers) + '\n' + CUT).encode()
    if words == ['--list']:
        for case, line in zip(cases(), answers):
            print('# %s: n = %d, k = %d, rooms %d and %d\n%s' % (case[1], len(case[2]), case[4], case[7], case[8], line))
    elif words == ['--check']:
        for name, data in (('stdin', input_bytes()), ('stdout', stdout)):
            with open(os.path.join(HERE, name), 'rb') as stored:
                if stored.read() != data:
                    raise SystemExit('cases.py: %s is not as the oracle has it' % name)
        print('try_dwtest: %d calls are stored as the oracle answers them' % len(answers))
    else:
        write('stdin', input_bytes())
        write('stdout', stdout)


if __name__ == '__main__':
    main()
