#!/usr/bin/env python3
"""Makes the vectors that crates/try_roots replays: square roots to the bit, and pairs with their hypot rounded correctly.

Usage: vectors.py            writes crates/try_roots/stdin
       vectors.py --check    compares that file with what would be written, and writes nothing
       vectors.py --list     prints the vectors as text: `sqrt X ROOT` and `hypot X Y VALUE`, by their bit patterns

The file is 8-byte words, the least byte first: the number of roots, the number of pairs, two words a root, three words a pair. A NaN is
7ff8000000000000. mpmath (Debian: python3-mpmath) decides the answers, with 4,500 bits: a root or a hypot of doubles that is not the middle of two
neighbours is further than 2^-2200 of the smallest double from it, so what is rounded here is rounded as the truth would be. The port is not called.
"""
import os
import random
import struct
import sys
from math import gcd, isqrt

try:
    from mpmath import floor, ldexp, mp, mpf, sqrt
except ImportError:
    sys.exit("vectors.py: no mpmath (Debian: python3-mpmath)")

mp.prec = 4500
ROOT = os.path.join(os.path.dirname(os.path.abspath(__file__)), "..", "..")
PLACE = os.path.join(ROOT, "crates", "try_roots", "stdin")
NAN, INF, LARGEST, NORMAL, SIGN = 0x7FF8 << 48, 0x7FF << 52, (0x7FF << 52) - 1, 1 << 52, 1 << 63


def bits(x):
    return struct.unpack("<Q", struct.pack("<d", x))[0]


def value(b):
    """The number with the pattern b, exactly; b is finite."""
    return mpf(struct.unpack("<d", struct.pack("<Q", b))[0])


def rounded(v):
    """The pattern of the double nearest to v, which is not negative; ties to even, infinity from 2^1024 - 2^970 on."""
    units = ldexp(v, 1074)
    whole = int(floor(units))
    dropped = max(whole.bit_length() - 53, 0)
    kept = whole >> dropped
    rest, half = units - mpf(kept << dropped), ldexp(mpf(1), dropped - 1)
    if rest > half or (rest == half and kept % 2 == 1):
        kept += 1
    return min((dropped << 52) + kept, INF)


def is_nan(b):
    return b % SIGN > INF


def root_of(b):
    if is_nan(b) or (b > SIGN):
        return NAN
    if b in (0, SIGN, INF):
        return b
    return rounded(sqrt(value(b)))


def hypot_of(a, b):
    if INF in (a % SIGN, b % SIGN):
        return INF
    if is_nan(a) or is_nan(b):
        return NAN
    return rounded(sqrt(value(a) ** 2 + value(b) ** 2))


def around(b):
    return [b - 1, b, b + 1]


def roots(draw):
    """The patterns whose roots are asked."""
    out = [0, SIGN, INF, SIGN + INF, NAN, NAN + 1, SIGN + NAN, bits(-1.0), SIGN + 1, SIGN + LARGEST, 1, 2, 3, LARGEST, LARGEST - 1]
    out += [bits(float(n)) for n in (1, 2, 3, 4, 5, 9, 10, 16, 100, 65536)] + [bits(0.25), bits(0.1), bits(1e300), bits(1e-300)]
    out += around(NORMAL) + around(bits(1.0)) + around(bits(2.0)) + around(bits(4.0))
    # squares of 26 digits, at even and odd exponents, and their neighbours
    for _ in range(20):
        q = draw.getrandbits(26) | 1 << 25 | 1
        out += around(rounded(ldexp(mpf(q * q), 2 * draw.randrange(-500, 480))))
    # numbers nearest to the square of a middle of two neighbours, where the root is hardest to round
    for _ in range(25):
        middle = draw.getrandbits(54) | 1 << 53 | 1
        out += around(rounded(ldexp(mpf(middle) ** 2, 2 * draw.randrange(-560, 450))))
    # subnormal numbers of every length
    out += [draw.getrandbits(n) | 1 << (n - 1) for n in range(1, 53)]
    # every sixteenth exponent, and any pattern above zero
    out += [(16 * e + draw.randrange(16)) << 52 | draw.getrandbits(52) for e in range(127)]
    out += [draw.randrange(INF) for _ in range(20)]
    return out


def tie(draw, gap):
    """Two whole numbers whose hypot is g (s^2 + t^2), an odd number of 54 digits and so the middle of two neighbours; t is less than `gap` below s. It goes
    down where g is 1, and up where g is 3."""
    while True:
        s, g = draw.randrange(2**25, 2**27), draw.choice((1, 3))
        t = s - draw.randrange(1, gap)
        x, y, middle = g * 2 * s * t, g * (s * s - t * t), g * (s * s + t * t)
        if middle % 2 == 1 and middle >> 53 == 1 and t > 0 and y >> 53 == 0:
            return x, y


def beside_tie(draw, d):
    """Whole numbers m and w with 4 m^2 + 4 w^2 = (2 c + 1)^2 - d, for a c of 53 digits and a d of 1 or -3: none come nearer to a tie. A tie would go to
    the other neighbour. (2 c + 1)^2 - (2 m)^2 = (2 w)^2 + d is u v, where u and v are a^2 + d b^2 and e^2 + d f^2, and a f + b e = 1."""
    while True:
        a, b = draw.getrandbits(27) | 1, draw.getrandbits(27) | 2
        if gcd(a, b) > 1:
            continue
        k, f = draw.randrange(-3, 4), pow(a, -1, b)
        e, f = (1 - a * f) // b + k * a, f - k * b
        u, v, w = a * a + d * b * b, e * e + d * f * f, abs(a * e - d * b * f) // 2
        c, m = (u + v) // 4, abs(v - u) // 4
        if 4 * m * m + 4 * w * w == (2 * c + 1) ** 2 - d and c >> 52 == 1 and c % 2 == (d == 1) and (m | w) >> 53 == 0:
            return m, w


def digits_below(draw, above):
    """A hair above or below a tie, by digits that lie below the last of the sum: (2 m)^2 + (w / 2^25)^2 less (2 m + 1)^2 is less than 1 in size. A tie would
    go to the other neighbour."""
    while True:
        m = (draw.getrandbits(51) | 1 << 51) * 2 + 1 - above
        w = isqrt((4 * m + 1) << 50) + above
        if 0 < abs(w * w - ((4 * m + 1) << 50)) < 1 << 50:
            return m << 26, w


def beside_power(draw, digits):
    """Two pairs of whole numbers of that many digits at most, whose hypots are the nearest to 2^digits - 1/2 that an x allows, from below and from above."""
    x = draw.getrandbits(digits - 1)
    y = isqrt((2 ** (digits + 1) - 1) ** 2 // 4 - x * x)
    return [(x, y), (x, y + 1)]


def hard_pairs(draw):
    """Pairs that are rounded right only by looking at every digit."""
    def placed(pair, low, high):
        scale = draw.randrange(low, high)
        return tuple(rounded(ldexp(mpf(n), scale)) | draw.getrandbits(1) << 63 for n in pair)

    # ties: any; of two numbers some 2^26 apart; of a subnormal number; (2^54 - 1) 2^970, from where on a value is infinity
    out = [placed(tie(draw, 2**26), -1074, 970) for _ in range(8)] + [placed(tie(draw, 4), -1074, 970) for _ in range(4)]
    out += [placed(tie(draw, 2**26), -1074, -1073) for _ in range(3)] + [placed((16956756496728720, 6081690782099583), 970, 971)]
    # a hair above or below a tie
    out += [placed(beside_tie(draw, d), -1074, 970) for d in (1, -3) for _ in range(11)]
    out += [placed(digits_below(draw, above), -1074, 940) for above in (0, 1) for _ in range(6)]
    # both subnormal, beside the least normal number; beside any power of two; beside infinity
    for digits, low, high in ((52, -1074, -1073), (53, -1074, 970)) + 3 * ((53, 971, 972),):
        out += [placed(pair, low, high) for pair in beside_power(draw, digits)]
    return out


def pairs(draw):
    """The pairs whose hypot is asked."""
    edges = [0, SIGN, bits(1.0), bits(-2.0), INF, SIGN + INF, NAN, 1, SIGN + LARGEST]
    out = [(a, b) for a in edges for b in edges]

    def number(low, high):
        return rounded(ldexp(1 + mpf(draw.getrandbits(52)) / 2**52, draw.randrange(low, high))) | draw.getrandbits(1) << 63

    # whole-number sides and hypotenuses, at every scale
    for a, b in ((3, 4), (12, 5), (20, 21), (119, 120), (9999, 200)):
        for scale in (-1074, -1030, -700, -500, -452, 0, 500, 508, 700, 1000):
            out.append((rounded(ldexp(mpf(a), scale)), rounded(ldexp(mpf(b), scale)) | SIGN))
    # 2^500 and 2^-500, together and apart
    for low, high in ((499, 501), (-501, -499)):
        out += [(number(low, high), number(low, high)) for _ in range(10)]
    out += [(number(499, 501), number(-501, -499)) for _ in range(5)]
    # next to the end of the range
    out += [(number(1022, 1023), number(1015, 1023)) for _ in range(15)] + [(LARGEST, number(900, 1000)), (LARGEST, LARGEST - 1)]
    # subnormal numbers of every length
    out += [(draw.getrandbits(n) | 1, draw.getrandbits(n) | SIGN) for n in range(1, 53, 2)]
    # alike in size, a factor of 2^30 apart at most, any two
    for _ in range(25):
        e = draw.randrange(-1022, 1020)
        out += [(number(e, e + 2), number(e, e + 2)), (number(e, e + 1), number(max(e - 30, -1022), e + 1))]
    out += [(draw.randrange(INF), draw.randrange(INF)) for _ in range(10)]
    return out + hard_pairs(draw)


def words(draw):
    asked = [(b, root_of(b)) for b in roots(draw)]
    joined = [(a, b, hypot_of(a, b)) for a, b in pairs(draw)]
    return asked, joined


def main(arguments):
    if arguments not in ([], ["--check"], ["--list"]):
        print("usage: vectors.py [--check | --list]", file=sys.stderr)
        return 2
    asked, joined = words(random.Random(20240229))
    if arguments == ["--list"]:
        for b, r in asked:
            print("sqrt %016x %016x" % (b, r))
        for a, b, r in joined:
            print("hypot %016x %016x %016x" % (a, b, r))
        return 0
    flat = [len(asked), len(joined)] + [w for row in asked + joined for w in row]
    data = struct.pack("<%dQ" % len(flat), *flat)
    if arguments == ["--check"]:
        try:
            with open(PLACE, "rb") as stream:
                same = stream.read() == data
        except OSError as error:
            print("vectors.py: %s" % error, file=sys.stderr)
            return 1
        print("%d roots, %d pairs: %s" % (len(asked), len(joined), "the same" if same else "DIFFERENT from the file"))
        return 0 if same else 1
    with open(PLACE + ".new", "wb") as stream:
        stream.write(data)
    os.replace(PLACE + ".new", PLACE)
    print("%d roots, %d pairs, %d bytes" % (len(asked), len(joined), len(data)))
    return 0


sys.exit(main(sys.argv[1:]))
