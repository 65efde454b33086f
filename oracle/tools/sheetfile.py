"""Sheet files of document 01, with the positions of document 02, written: contents first, then bodies, little-endian.

A number is held as its 64 bits, so that every NaN pattern can be written; a position is a whole number below 2^64.
A stream is sheet files one after another, each after its length in four bytes.
"""
import os
import struct
import tempfile

MOST_BYTES = 65536
MOST_ENTRIES = 64
GREATER, LESS, TWO_SIDED = 0, 1, 2
DEFAULT, EXACT, NORMAL = 0, 1, 2


def bits(x):
    """The bits of a float."""
    return struct.unpack("<Q", struct.pack("<d", x))[0]


def value(pattern):
    """The float with these bits."""
    return struct.unpack("<d", struct.pack("<Q", pattern))[0]


class Entry:
    """One sheet: n residuals and k columns of n numbers, all as bits, with its two codes; and n positions, or None."""

    def __init__(self, residuals, columns, alternative=GREATER, choice=DEFAULT, positions=None):
        self.positions = None if positions is None else list(positions)
        self.residuals = list(residuals)
        self.columns = [list(column) for column in columns]
        self.alternative = alternative
        self.choice = choice

    @classmethod
    def of_floats(cls, residuals, columns, alternative=GREATER, choice=DEFAULT, positions=None):
        return cls([bits(x) for x in residuals], [[bits(x) for x in column] for column in columns], alternative, choice, positions)

    def words(self):
        """What its body holds, in order."""
        return [word for run in [self.positions or [], self.residuals] + self.columns for word in run]

    def body(self):
        words = self.words()
        return struct.pack("<%dQ" % len(words), *words)

    def size(self):
        """Its bytes in a file: body and place in the contents."""
        return 16 + 8 * len(self.words())

    def contents(self, offset):
        """Its place in the contents, for a body that begins at `offset`."""
        return contents_entry(offset, len(self.residuals), len(self.columns), self.alternative, self.choice, int(self.positions is not None))


def contents_entry(offset, rows, columns, alternative, choice, positions=0):
    """16 bytes of the contents; the positions byte is 0 or 1, the five behind it are spare."""
    return struct.pack("<IHHBBB5x", offset, rows, columns, alternative, choice, positions)


def pack(entries):
    """The sheet file of these entries."""
    offset = 4 + 16 * len(entries)
    contents, bodies = [struct.pack("<I", len(entries))], []
    for entry in entries:
        body = entry.body()
        contents.append(entry.contents(offset))
        bodies.append(body)
        offset += len(body)
    return b"".join(contents + bodies)


def batches_of(entries):
    """The entries in order, in lists that a sheet file can hold, each as long as it may be."""
    batch, size = [], 4
    for entry in entries:
        if batch and (len(batch) == MOST_ENTRIES or size + entry.size() > MOST_BYTES):
            yield batch
            batch, size = [], 4
        batch.append(entry)
        size += entry.size()
    if batch:
        yield batch


def files_of(entries):
    """Sheet files that hold the entries in order, each as full as it may be."""
    return map(pack, batches_of(entries))


def stream_of(file):
    """One file as it stands in a stream."""
    return struct.pack("<I", len(file)) + file


def write_whole(path, chunks):
    """Writes the chunks to `path`, which appears only when all are written."""
    folder = os.path.dirname(os.path.abspath(path))
    handle, temporary = tempfile.mkstemp(dir=folder, prefix=".part-")
    try:
        with os.fdopen(handle, "wb") as stream:
            for chunk in chunks:
                stream.write(chunk)
        os.chmod(temporary, 0o644)
        os.replace(temporary, path)
    except BaseException:
        os.unlink(temporary)
        raise
