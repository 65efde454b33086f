#!/usr/bin/env python3
"""Holds try_design against the oracle's first build, bit for bit: every entry of the inverse, mean, variance and p on the normal path, and each
refusal of this layer with its place. The sheets are the oracle's generator's.

Usage: compare.py --oracle DIR --program COMMAND --kind KIND --seed SEED --count COUNT [--plain]

  --oracle    the folder that has build, generate and sheets; the build `port` must have been made
  --program   the command that runs try_design, reading standard input
  --plain     put 1, -2, 3, -4, .. for the residuals, so that no sheet is refused by its residuals and every design is reached

Prints the counts, and the first disagreements; the status is 1 where there is one.
"""
import argparse
import collections
import os
import shlex
import struct
import subprocess
import sys
import tempfile

TOP = os.path.dirname(os.path.dirname(os.path.dirname(os.path.abspath(__file__))))
sys.dont_write_bytecode = True
sys.path.insert(0, os.path.join(TOP, 'tools'))
from line import record_of  # noqa: E402

BY_RESIDUALS = (5, 6, 7, 8, 9)   # the statistic's refusals: try_design is asked about the columns alone


def ask(command, data=None):
    try:
        done = subprocess.run(command, input=data, stdout=subprocess.PIPE)
    except OSError as why:
        raise SystemExit('compare.py: %s can not be run: %s' % (command[0], why.strerror))
    if done.returncode != 0:
        raise SystemExit('compare.py: %s ended with status %d' % (command[0], done.returncode))
    return done.stdout


def files_of(stream):
    at, files = 0, []
    while at < len(stream):
        size = struct.unpack_from('<I', stream, at)[0]
        files.append(bytearray(stream[at + 4:at + 4 + size]))
        at += 4 + size
    return files


def entries_of(file):
    """(where the residuals begin, n, k, alternative) of each entry: behind the body's positions, where it has any"""
    count = struct.unpack_from('<I', file, 0)[0]
    found = [struct.unpack_from('<IHHBBB', file, 4 + 16 * i) for i in range(count)]
    return [(offset + 8 * n * positions, n, k, alternative) for offset, n, k, alternative, _, positions in found]


def make_plain(file):
    for residuals, n, _, _ in entries_of(file):
        for t in range(n):
            struct.pack_into('<d', file, residuals + 8 * t, float(t + 1) * (-1.0) ** t)


def oracle_answers(text):
    """Of each call what its line says, and its named lines."""
    answers = []
    for line in text.decode().split('\n'):
        words = line.split()
        if not words or words[0] == 'sheet':
            continue
        if words[0] == 'file':
            raise SystemExit('compare.py: the oracle refuses a whole file: choose a kind of sheets, not of files')
        if words[0].isdigit():
            answers.append((record_of(line), {}))
        else:
            answers[-1][1][words[0]] = words[2:]
    return answers


def port_answers(text):
    answers = []
    for line in text.decode().split('\n'):
        words = line.split()
        if not words:
            continue
        if words[0] == 'call':
            answers.append({})
        else:
            answers[-1][words[0]] = words[1:]
    return answers


def expected(line, named):
    """The port's lines for what the oracle said; None where the residuals decide."""
    refusal, place, path = line.refusal, line.place, line.path
    if refusal in BY_RESIDUALS:
        return None
    want = {}
    if refusal in (0, 14) or (refusal, place) == (13, 5):
        want['inverse'] = named['inverse']
    if path == 3 or refusal in (13, 14) and 'inverse' in want:
        want['mean'], want['variance'] = named['law'][:1], named['law'][1:]
    if refusal:
        want['refusal'] = [str(refusal), str(place)]
    else:
        want['p'] = ['%016x' % line.p]
    return want


def main():
    words = argparse.ArgumentParser(usage=__doc__)
    for name in ('oracle', 'program', 'kind'):
        words.add_argument('--' + name, required=True)
    for name in ('seed', 'count'):
        words.add_argument('--' + name, required=True, type=int)
    words.add_argument('--plain', action='store_true')
    words = words.parse_args()

    with tempfile.TemporaryDirectory() as room:
        made = os.path.join(room, 'sheets')
        ask([os.path.join(words.oracle, 'generate'), '--kind', words.kind, '--seed', str(words.seed), '--count', str(words.count), '--choice', 'normal', '--stream', made])
        files = files_of(open(made, 'rb').read())
        if words.plain:
            for file in files:
                make_plain(file)
            with open(made, 'wb') as out:
                out.write(b''.join(struct.pack('<I', len(file)) + file for file in files))
        said = oracle_answers(ask([os.path.join(words.oracle, 'sheets'), 'port', '--document', '--dump', '--stream', made]))

    calls = []
    for file in files:
        for residuals, n, k, alternative in entries_of(file):
            statistic = said[len(calls)][0].statistic
            start = residuals + 8 * n
            head = struct.pack('<QQQQQ', n, k, n * k, alternative, statistic)
            if n * k <= 2056:
                calls.append(head + bytes(file[start:start + 8 * n * k]))
            else:
                calls.append(struct.pack('<QQQQQ', n, k, 0, alternative, 0))   # refused by its size before any number is read
    got = port_answers(ask(shlex.split(words.program), b''.join(calls)))
    if not len(said) == len(calls) == len(got):
        raise SystemExit('compare.py: %d calls, %d answers of the oracle, %d of the program' % (len(calls), len(said), len(got)))

    counts, wrong = collections.Counter(), []
    for i, ((fields, named), port) in enumerate(zip(said, got)):
        want = expected(fields, named)
        if want is None:
            counts['refused by their residuals, left out'] += 1
            continue
        counts['calls compared'] += 1
        for name in ('inverse', 'mean', 'variance', 'p'):
            counts[name + {'inverse': ' entries', 'p': ' values'}.get(name, 's')] += len(want.get(name, []))
        if 'refusal' in want:
            number, place = want['refusal']
            counts['refusal %s' % number + (', place %s' % place if number in ('2', '13') else '')] += 1
        if want != port:
            for name in sorted(set(want) | set(port)):
                if want.get(name) != port.get(name):
                    wrong.append('call %d, %s: the oracle has %s, the port %s' % (i, name, want.get(name), port.get(name)))
    print('%s, seed %d, %d sheets%s' % (words.kind, words.seed, words.count, ', plain residuals' if words.plain else ''))
    for name in sorted(counts):
        print('  %9d  %s' % (counts[name], name))
    print('  %9d  disagreements' % len(wrong))
    for text in wrong[:5]:
        print(text)
    return 1 if wrong else 0


if __name__ == '__main__':
    sys.exit(main())
