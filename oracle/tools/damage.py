"""Damaged sheet files: every file refusal of documents 01 and 02 by itself, two at once, and blind damage."""
import struct

import kinds
from sheetfile import MOST_BYTES, Entry, bits, contents_entry, pack

ONE, TWO = bits(1.0), bits(2.0)


def sheets(chance, least=1, most=6):
    """A few small sheets; none of them, some or all have positions."""
    halves = chance.one_of([0, 0, 1, 2])
    made = [kinds.ties(chance, index) for index in range(chance.between(least, most))]
    return [kinds.with_positions(chance, entry) if chance.below(2) < halves else entry for entry in made]


def sound(chance, least=1, most=6):
    return pack(sheets(chance, least, most))


def count_of(file):
    return struct.unpack_from("<I", file)[0]


def offset_of(file, at):
    """The offset that the entry at `at` of the contents gives."""
    return struct.unpack_from("<I", file, at)[0]


def patched(file, at, new):
    return file[:at] + new + file[at + len(new):]


def with_offset(file, at, offset):
    return patched(file, at, struct.pack("<I", offset))


def moved(file, at, by):
    """The file with every offset of the contents from `at` on that much larger."""
    for entry in range(at, 4 + 16 * count_of(file), 16):
        file = with_offset(file, entry, offset_of(file, entry) + by)
    return file


def entry_at(chance, file):
    """Where a random entry of the contents begins."""
    return 4 + 16 * chance.below(count_of(file))


# Whole files.


def too_short(chance):
    return sound(chance)[:chance.below(4)]


def too_long(chance):
    """Over the limit, sound or not; one byte over, or more."""
    if chance.below(2):
        return pack([Entry([0] * 4096, [[0] * 4096])] + [kinds.small(chance, 0)])
    return (sound(chance) + bytes(MOST_BYTES))[:MOST_BYTES + chance.one_of([1, 2, 8, 4096])]


def at_the_limit(chance):
    """The largest sound file, with positions or without, or one of 65,536 bytes with four left over."""
    has_positions = chance.below(2)
    words = (MOST_BYTES - 4 - 2 * 16 - 4) // 8 - 101 * (2 + has_positions)
    entries = [Entry([ONE] * 101, [[TWO] * 101]), Entry([ONE] * (words // (1 + has_positions)), [])]
    if has_positions:
        entries = [kinds.with_positions(chance, entry) for entry in entries]
    return pack(entries) + bytes(4 * chance.below(2))


def bad_count(chance):
    return patched(sound(chance), 0, struct.pack("<I", chance.one_of([0, 65, 66, 256, 0x10000, 0x1000001, 0xffffffff])))


def contents_cut(chance):
    file = sound(chance)
    if chance.below(2):
        return file[:4 + chance.below(16 * count_of(file))]
    return patched(file[:4 + 16 * count_of(file)], 0, struct.pack("<I", count_of(file) + 1))


def gap(chance):
    """A gap after the contents, with every offset right for it."""
    file = sound(chance)
    start, wide = 4 + 16 * count_of(file), chance.one_of([1, 8, 16])
    return moved(file, 4, wide)[:start] + bytes(wide) + file[start:]


def swapped(chance):
    """Two entries of the contents exchanged."""
    file = sound(chance, 2)
    a, b = 4, 4 + 16 * chance.between(1, count_of(file) - 1)
    return patched(patched(file, a, file[b:b + 16]), b, file[a:a + 16])


def contents_only(chance):
    """Entries of no rows: the file ends where its contents do."""
    count = chance.one_of([1, 2, 63, 64])
    end = 4 + 16 * count
    entry = [contents_entry(end, 0, chance.below(10), chance.below(3), chance.below(3), chance.below(2)) for _ in range(count)]
    return struct.pack("<I", count) + b"".join(entry)


def at_most_a_row(chance):
    """Entries of no row or one, whose positions rise whatever they are."""
    def entry(n):
        return Entry([ONE] * n, [[TWO] * n] * chance.below(3), *chance.codes(), [chance.draws.getrandbits(64)] * n)
    return pack([entry(chance.below(2)) for _ in range(chance.between(1, 6))])


def flipped(chance):
    """One to three bits flipped anywhere."""
    file = bytearray(sound(chance))
    for _ in range(chance.between(1, 3)):
        file[chance.below(len(file))] ^= 1 << chance.below(8)
    return bytes(file)


def flipped_contents(chance):
    file = bytearray(sound(chance))
    for _ in range(chance.between(1, 2)):
        file[chance.below(4 + 16 * count_of(sound_count(file)))] ^= 1 << chance.below(8)
    return bytes(file)


def sound_count(file):
    """The file with a count that its length allows, so that flips of the count don't lead past the end."""
    most = (len(file) - 4) // 16
    count = min(max(count_of(file), 1), max(most, 1), 64)
    return patched(bytes(file), 0, struct.pack("<I", count))


def truncated(chance):
    file = sound(chance)
    return file[:chance.below(len(file))]


def random_bytes(chance):
    return bytes(chance.below(256) for _ in range(chance.below(200)))


# In one entry of a file: it begins at `at` in the contents.


def wrong_code(chance, file, at):
    return patched(file, at + 8 + chance.below(2), bytes([chance.one_of([3, 4, 128, 255])]))


def wrong_positions_byte(chance, file, at):
    return patched(file, at + 10, bytes([chance.one_of([2, 3, 128, 255])]))


def wrong_spare(chance, file, at):
    return patched(file, at + 11 + chance.below(5), bytes([chance.one_of([1, 2, 255])]))


def wrong_offset(chance, file, at):
    offset = offset_of(file, at)
    wrong = [offset + 1, offset - 1, offset + 8, offset - 8, offset + 16, 0, 4, len(file), 0xffffffff, offset + 0x10000]
    return with_offset(file, at, chance.one_of(wrong))


def wrong_size(chance, file, at):
    """Another n or k, so that the body ends elsewhere."""
    at += chance.one_of([4, 6])
    size = struct.unpack_from("<H", file, at)[0]
    wrong = [size + 1, max(size - 1, 0), 0, 255, 256, 257, 32768, 65535]
    return patched(file, at, struct.pack("<H", chance.one_of(wrong)))


def byte_against_body(chance, file, at):
    """A byte that denies the positions, or that says there are some; the offsets behind fit the body, or the byte."""
    rows = struct.unpack_from("<H", file, at + 4)[0]
    said = 1 - file[at + 10]
    file = patched(file, at + 10, bytes([said]))
    return moved(file, at + 16, 8 * rows * (2 * said - 1)) if chance.below(2) else file


def body_cut(chance, file, at):
    """Cut in the body or behind it."""
    return file[:chance.between(offset_of(file, at), len(file) - 1)]


def left_over(chance, file, at):
    return file + bytes([chance.below(256)]) * chance.one_of([1, 2, 7, 8, 9, 16])


IN_AN_ENTRY = [wrong_code, wrong_positions_byte, wrong_spare, wrong_offset, wrong_size, byte_against_body, body_cut, left_over]


def in_sound(damage):
    """Files that are sound but for the damage in one entry."""
    def make(chance):
        file = sound(chance)
        return damage(chance, file, entry_at(chance, file))
    return make


def twice(chance):
    """Two of the damages at once: the first in document 01's order counts."""
    file = in_sound(chance.one_of(IN_AN_ENTRY))(chance)
    if chance.below(2):
        file = patched(file, entry_at(chance, file) + 8, b"\x07")
    return file[:-1] if chance.below(2) else file + b"\x00"


# Two positions or more that do not rise, made from as many that do.


def a_pair(chance, positions):
    """The place of a pair that follow one another: the first, the last or any."""
    last = len(positions) - 2
    return chance.one_of([0, last, chance.between(0, last)])


def one_equal(chance, positions):
    t = a_pair(chance, positions)
    return positions[:t + 1] + positions[t:t + 1] + positions[t + 2:]


def one_falls(chance, positions):
    t = a_pair(chance, positions)
    return positions[:t] + [positions[t + 1], positions[t]] + positions[t + 2:]


def all_fall(chance, positions):
    return positions[::-1]


def signed_rise(chance, positions):
    """Rising only as signed numbers: -1 is 2^64 - 1."""
    negative = chance.between(1, len(positions) - 1)
    return [(t - negative) % 2 ** 64 for t in range(len(positions))]


def floats_rise(chance, positions):
    """Rising only as floats: of two negative ones the greater has the lesser bits."""
    negative = chance.between(2, len(positions))
    return [bits(float(t - negative)) for t in range(len(positions))]


NOT_RISING = [one_equal, one_falls, all_fall, signed_rise, floats_rise]


def fallen(chance, order):
    """A file that is sound but for the positions of one entry, which have this order; and where the entry begins."""
    entries = sheets(chance)
    index = chance.below(len(entries))
    entry = kinds.with_positions(chance, entries[index])
    if len(entry.positions) > 1:
        entry.positions = order(chance, entry.positions)
    return pack(entries), 4 + 16 * index


def not_rising(order):
    """Files with positions of this order in one entry."""
    return lambda chance: fallen(chance, order)[0]


def not_rising_and_more(chance):
    """Positions that do not rise, and another damage in the same entry or in the next."""
    file, at = fallen(chance, chance.one_of(NOT_RISING))
    following = min(at + 16, 4 + 16 * (count_of(file) - 1))
    return chance.one_of(IN_AN_ENTRY)(chance, file, chance.one_of([at, following]))


DAMAGES = [too_short, too_long, at_the_limit, bad_count, contents_cut, gap, swapped, contents_only, at_most_a_row, flipped, flipped_contents,
           truncated, random_bytes, *map(in_sound, IN_AN_ENTRY), twice, *map(not_rising, NOT_RISING), not_rising_and_more, sound]


def files(chance, count):
    """damaged sheet files of every kind: cut, lengthened, wrong counts, codes, offsets, sizes and positions, flipped bits

    A sound one now and then."""
    for index in range(count):
        yield DAMAGES[index % len(DAMAGES)](chance)
