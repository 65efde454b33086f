"""Sheet files read plainly from documents 01 and 02, apart from the port and from the oracle, and the text that try_sheet prints for them."""
import os
import struct
import sys

HERE = os.path.dirname(os.path.abspath(__file__))
ROOT = os.path.dirname(os.path.dirname(HERE))
LABEL_BYTES = 24
ONE_NAN = 0x7ff8000000000000
ORACLE = os.path.join(ROOT, "oracle")


def use_oracle():
    """Lets the oracle's tools be imported."""
    tools = os.path.join(ORACLE, "tools")
    if not os.path.isfile(os.path.join(tools, "sheetfile.py")):
        sys.exit("measure/sheet: no oracle/tools/sheetfile.py, which packs sheet files")
    sys.path.insert(0, tools)


class Refused(Exception):
    """A file refusal: its number, and an entry's index (0 where none)."""

    def __init__(self, number, index=0):
        super().__init__("file %d %d" % (number, index))


def rises(words):
    return all(before < after for before, after in zip(words, words[1:]))


def entries(file):
    """The entries in order, each as (offset, rows, columns, alternative, choice, positions byte, words of the body)."""
    if not 4 <= len(file) <= 65536:
        raise Refused(1)
    count, = struct.unpack_from("<I", file)
    if not 1 <= count <= 64:
        raise Refused(2)
    due = 4 + 16 * count
    if len(file) < due:
        raise Refused(3)
    found = []
    for index in range(count):
        offset, rows, columns, alternative, choice, positions, spare = struct.unpack_from("<IHHBBB5s", file, 4 + 16 * index)
        if alternative > 2 or choice > 2 or positions > 1 or spare != bytes(5):
            raise Refused(4, index)
        if offset != due:
            raise Refused(5, index)
        words = rows * (positions + 1 + columns)
        due += 8 * words
        if due > len(file):
            raise Refused(6, index)
        body = struct.unpack_from("<%dQ" % words, file, offset)
        if positions and not rises(body[:rows]):
            raise Refused(8, index)
        found.append((offset, rows, columns, alternative, choice, positions, body))
    if due != len(file):
        raise Refused(7)
    return found


def digest(words):
    """Three times the digest of those before, and the word."""
    digested = 0
    for word in words:
        digested = (3 * digested + word) % (1 << 64)
    return digested


def number_digest(patterns):
    """The digest of numbers; every NaN has one pattern."""
    return digest(ONE_NAN if pattern & 0x7fffffffffffffff > 0x7ff0000000000000 else pattern for pattern in patterns)


def printed(label, file):
    """What try_sheet prints for a file."""
    head = label.ljust(LABEL_BYTES)
    try:
        found = entries(file)
    except Refused as refusal:
        return "%s%s\n" % (head, refusal)
    lines = []
    for index, (offset, rows, columns, alternative, choice, positions, body) in enumerate(found):
        first = rows * positions  # of the residuals
        lines.append("%s%d %d %d %016x %016x %d %d %d %d %d\n" % (
            head, index, alternative, choice, number_digest(body[first:first + rows]), number_digest(body[first + rows:]), rows, columns, offset,
            positions, digest(body[:first])))
    return "".join(lines)


def record(label, file):
    """A file as try_sheet's input has it: its length, the bytes given, a label, and the bytes up to the zeros at its end."""
    if len(label) >= LABEL_BYTES or not label.isascii():
        raise ValueError("a label has less than %d characters: %r" % (LABEL_BYTES, label))
    file = file[:65537]  # one byte over the limit says as much as more do
    given = file.rstrip(b"\0")
    return struct.pack("<II", len(file), len(given)) + label.ljust(LABEL_BYTES).encode("ascii") + given
