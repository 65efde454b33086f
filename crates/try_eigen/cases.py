#!/usr/bin/env python3
"""Writes the stored input of try_eigen, and its lines by the oracle's first build: small designs, degenerate ones, inverses that no X'X has, which
reach stages 2 and 3 of refusal 13 at their own step, and designs at the limit of 60 sweeps.

Usage: cases.py               writes stdin and stdout beside this file (oracle/build port first)
       cases.py --check       asks the oracle again and compares; writes nothing
       cases.py --list        prints what each design shows, above its line
"""
import os
import struct
import subprocess
import sys

HERE = os.path.dirname(os.path.abspath(__file__))
TOP = os.path.dirname(os.path.dirname(HERE))
ORACLE = os.path.join(TOP, 'oracle', 'sheets')
sys.dont_write_bytecode = True
sys.path[:0] = [os.path.join(TOP, 'oracle', 'tools'), os.path.join(TOP, 'tools')]
import limits  # noqa: E402

NAN, INFINITY = float('nan'), float('inf')
CUT = 'the input is cut short\n'


def ones(n):
    return [1.0] * n


def units(n, places):
    return [[1.0 if s == t else 0.0 for s in range(n)] for t in places]


def powers(n, k):
    """1, t, t^2, .., with t from -1 to 1; each power one rounded product."""
    columns = [ones(n)]
    while len(columns) < k:
        columns.append([x * ((2.0 * t - (n - 1)) / (n - 1)) for t, x in enumerate(columns[-1])])
    return columns


def walsh(n, places):
    """Columns of signs, orthogonal: n is a power of two."""
    return [[(-1.0) ** bin(i & t).count('1') for t in range(n)] for i in places]


def scaled(columns, powers_of_two):
    return [[x * 2.0 ** p for x in column] for column, p in zip(columns, powers_of_two)]


def by_columns():
    """The inverse is worked out: (what document 01 asks, name, columns)."""
    yield '0 0', 'three rows', [ones(3)]
    yield '0 0', 'four rows', [ones(4)]
    yield '0 0', 'a trend', powers(20, 3)
    yield '0 0', 'eight columns', powers(24, 8)
    yield '0 0', 'one eigenvalue', powers(5, 4)
    yield '0 0', 'a unit vector in the middle: equal eigenvalues, a zero column of M', units(7, [3])
    yield '0 0', 'unit vectors at both ends', units(9, [0, 8])
    yield '0 0', 'every second unit vector: four eigenvalues of 2', units(9, [0, 2, 4, 6, 8])
    yield '0 0', 'all unit vectors but the last', units(8, range(7))
    yield '0 0', 'signs: an eigenvalue of 0, which is not kept', walsh(8, [1, 2, 4])
    yield '0 0', 'signs, six of eight', walsh(8, range(1, 7))
    yield '0 0', 'equal rows in pairs', [ones(8), [0.0, 0.0, 1.0, 1.0, 4.0, 4.0, 9.0, 9.0]]
    yield '0 0', 'columns scaled by 2^200', scaled(powers(12, 3), [200] * 3)
    yield '0 0', 'columns scaled by 2^-200', scaled(powers(12, 3), [-200] * 3)
    yield '0 0', 'columns scaled by 2^200 and 2^-200', scaled(powers(12, 2), [200, -200])
    yield '0 0', 'zeros of both signs', [[1.0, 0.0, -0.0, 0.0, -1.0, -0.0]]
    yield '0 0', '64 rows', powers(64, 2)
    yield '0 0', '256 rows', powers(256, 4)
    yield '11 0', 'a column of zeros', [[0.0] * 4]
    yield '11 1', 'ones twice', [ones(4), ones(4)]
    yield '13 1', 'the inverse overflows', [ones(4), [1e200, -1e200, 1e200, 1e200]]
    yield '13 3', "a reflection's v'v is subnormal", [[0.0, 0.0, 1.0, 2.0 ** -537]]


def by_inverse():
    """The inverse is given: (what document 01 asks, name, columns, inverse)."""
    yield '0 0', 'the inverse of ones', [ones(4)], [[0.25]]
    yield '0 0', 'an inverse of 0: M is I, and of the eigenvalues of A one is cut', [ones(6)], [[0.0]]
    yield '0 0', 'as many columns as rows: nothing is kept', units(3, range(3)), units(3, range(3))
    yield '0 0', 'an inverse that is too large: eigenvalues of 1e20', [[1.0, 1.0, 0.0, 0.0]], [[1e10]]
    yield '13 2', 'an infinite entry of the inverse', [ones(4)], [[INFINITY]]
    yield '13 2', 'a NaN in the inverse', units(4, [0, 1]), [[1.0, 0.0], [NAN, 1.0]]
    yield '13 2', 'M overflows', [[1e10] * 4], [[1e300]]
    yield '13 2', 'M A M overflows, and M does not', [[1.0, 0.0, 0.0, 0.0]], [[1e160]]
    yield '13 3', 'M A M is finite, and its squares overflow', [[1.0, 1.0, 0.0, 0.0]], [[1e80]]
    yield '13 3', 'M A M is near the largest number', [[1.0, 1.0, 0.0]], [[1.2e154]]
    yield '0 0', 'after a refusal the room holds no more than numbers to be overwritten', [ones(4)], [[0.25]]


def at_the_limit():
    """The designs of oracle/tools/limits.py, each once, with the count, the sweeps and the mark of its first sheet's line."""
    seen = []
    for (shows, _, columns, _), said in limits.answered():
        if columns not in seen:
            seen.append(columns)
            yield '0 0 %d %d %d' % (said.kept, said.sweeps, said.settled == 0), shows, columns


def cases():
    """(what is due behind the index, name, columns, inverse or None)"""
    for due, name, columns in by_columns():
        yield due, name, columns, None
    yield from by_inverse()
    for due, name, columns in at_the_limit():
        yield due, name, columns, None


def design(columns, inverse=None):
    n, k = len(columns[0]), len(columns)
    square = [[inverse[i][j] if inverse and i < k and j < k else 0.0 for j in range(8)] for i in range(8)]
    numbers = [x for row in square for x in row] + [x for column in columns for x in column]
    return struct.pack('<3Q', n, k, inverse is not None) + struct.pack('<%dd' % len(numbers), *numbers)


def oracle_lines(data, build='port'):
    try:
        asked = subprocess.run([ORACLE, build, '--spectra'], input=data, capture_output=True)
    except OSError as why:
        raise SystemExit('%s: %s' % (ORACLE, why.strerror))
    if asked.returncode != 0:
        raise SystemExit(asked.stderr.decode().strip())
    return asked.stdout.decode().splitlines()


def lines(data):
    answers = oracle_lines(data)
    for (due, name, _, _), line in zip(cases(), answers):
        if line.split()[1:len(due.split()) + 1] != due.split():
            raise SystemExit('cases.py: %s: %s is due, and the oracle says: %s' % (name, due, line))
    return answers


def write(name, data):
    path = os.path.join(HERE, name)
    with open(path + '.part', 'wb') as out:
        out.write(data)
    os.rename(path + '.part', path)


def main():
    words = sys.argv[1:]
    if words not in ([], ['--check'], ['--list']):
        raise SystemExit(__doc__)
    data = b''.join(design(*case[2:]) for case in cases())
    answers = lines(data)
    stdin = data + struct.pack('<3Q', 257, 1, 0)   # more rows than any sheet has: the program stops
    stdout = ('\n'.join(answers) + '\n' + CUT).encode()
    if words == ['--list']:
        for (_, name, columns, _), line in zip(cases(), answers):
            print('# %s: n = %d, k = %d\n%s' % (name, len(columns[0]), len(columns), line))
    elif words == ['--check']:
        for name, made in (('stdin', stdin), ('stdout', stdout)):
            with open(os.path.join(HERE, name), 'rb') as stored:
                if stored.read() != made:
                    raise SystemExit('cases.py: %s is not as the oracle has it' % name)
        print('try_eigen: %d designs are stored as the oracle answers them' % len(answers))
    else:
        write('stdin', stdin)
        write('stdout', stdout)


if __name__ == '__main__':
    main()
