#!/usr/bin/env python3
"""Derives the constants of crates/elementary, and prints each as bits, decimal and where it comes from.

Usage: constants.py            prints the table
       constants.py --check    also holds every constant of crates/elementary/src and specs to it, and every decimal to the bits beside it

Needs mpmath (Debian: python3-mpmath), which works with 200 bits here; a constant is the double nearest to what is said. The points of the table
that atan and ln_1p share are read from src/points.rt, and what belongs to them is derived; table.py searches the points themselves, and holds the table
to its order.
"""
import glob
import os
import re
import sys

try:
    from mpmath import atan, chebyfit, erfc, exp, factorial, floor, frexp, ldexp, log, mp, mpf, pi, sqrt
except ImportError:
    sys.exit("constants.py: no mpmath (Debian: python3-mpmath)")

sys.dont_write_bytecode = True
import table
from table import bits, near_zero, of_bits

mp.prec = 200
ROOT = os.path.join(os.path.dirname(os.path.abspath(__file__)), "..", "..")


def leading(value, count):
    """The first `count` binary digits of a value above 0."""
    digits, exponent = frexp(value)
    return ldexp(floor(ldexp(digits, count)), int(exponent) - count)


def in_parts(value, counts):
    """A value as a sum: its first counts[0] digits, the next counts[1], .., the rest."""
    parts = []
    for count in counts:
        parts.append(leading(value, count))
        value -= parts[-1]
    return parts + [value]


def exp_constants():
    yield 1 / log(2), "exp: 1 / ln 2"
    shift = 3 * mpf(2) ** 51 + 2046
    yield shift, "exp: 1.5 2^52 + 2046, so that a sum with it ends in k + 2046"
    yield shift - 1146, "exp: that sum at k = -1146; below it the result is 0"
    yield shift + 1034, "exp: that sum at k = 1034; above it the result is infinity"
    for part, said in zip(in_parts(log(2), [40]), ("its first 40 digits", "the rest")):
        yield part, "exp, ln: ln 2, " + said
    for n in range(13, 1, -1):
        yield 1 / factorial(n), "exp: Taylor, 1/%d!" % n


def ln_constants():
    # ln(1 + f) = ln((1 + s) / (1 - s)) = s (2 + z L(z)), z = s^2, |s| <= 3 - 2 sqrt 2; a little more, so that a rounded s is inside
    most = (sqrt(2) - 1) / (sqrt(2) + 1) * mpf("1.0001")

    def fitted(z):
        s = sqrt(z)
        return (log((1 + s) / (1 - s)) / s - 2) / z

    coefficients, error = chebyfit(near_zero(fitted, mpf(2) / 3), [0, most**2], 7, error=True)
    for power, c in enumerate(reversed(coefficients)):
        yield c, "ln: L(z), Chebyshev's fit on [0, %s], z^%d, near 2/%d (the fit's error %s)" % (mp.nstr(most**2, 5), power, 2 * power + 3, mp.nstr(error, 2))
    least = mpf(float(sqrt(mpf(1) / 2)))
    yield least, "ln: sqrt(1/2), the least of the digits"
    yield least - 1, "ln_1p: the same less 1"
    yield mpf(2) ** -1022, "ln: the smallest normal number"
    yield (2 - mpf(2) ** -52) * mpf(2) ** 1023, "ln, ln_1p: the largest number"


def table_constants():
    points = table.of_source("src/points.rt", "POINTS", [])[: table.ROWS]
    if not points:
        return
    for i, p in enumerate(points):
        if p:
            yield mpf(p), "atan, ln_1p: the point p of row %d, as table.py finds it" % i
            yield atan(mpf(p)), "atan: atan p of row %d" % i
            yield log(1 + mpf(p * p)), "ln_1p: ln(1 + q) of row %d, q being p^2 rounded" % i
    names = ("atan: A(z)", "ln_1p: its L(z) beside a point"), ((-1, 1), (2, 2))
    for name, signs, (coefficients, error, end) in zip(*names, table.polynomials(points)):
        for power, c in enumerate(reversed(coefficients)):
            said = name, mp.nstr(end, 5), power, signs[power % 2], 2 * power + 3, mp.nstr(error, 2)
            yield c, "%s, Chebyshev's fit on [0, %s], z^%d, near %d/%d (the fit's error %s)" % said
    yield mpf(4000000), "atan, ln_1p: the reach, inside the table's last row, which ends before 2^22"


def atan_constants():
    nearest = mpf(float(pi / 2))
    yield nearest, "atan: pi/2"
    yield pi / 2 - nearest, "atan: pi/2, the rest"


def sin_constants():
    yield 2 / pi, "sin: 2 / pi"
    yield 3 * mpf(2) ** 51, "sin: 1.5 2^52, so that a sum with it ends in k"
    for part, said in zip(in_parts(pi / 2, [33, 33, 33]), ("its first 33 digits", "the next 33", "the next 33", "the rest")):
        yield part, "sin: pi/2, " + said
    yield mpf(1647099), "sin: the end of the reduction, floor(2^20 pi/2): k has 20 digits there"
    for n in range(17, 2, -2):
        yield (-1) ** (n // 2) / factorial(n), "sin: Taylor, %s1/%d!" % ("-" if n % 4 == 3 else "", n)
    for n in range(16, 3, -2):
        yield (-1) ** (n // 2) / factorial(n), "sin: Taylor of the cosine, %s1/%d!" % ("-" if n % 4 == 2 else "", n)


def tail_constants():
    # the tail beyond z >= 0 is e^(-z^2 / 2) P(u) / (z + 3/2), u = (z - 5) / (z + 5)
    def fitted(u):
        if 1 - u < mpf(10) ** -30:
            return 1 / sqrt(2 * pi)
        z = 5 * (1 + u) / (1 - u)
        if z < 200:
            return (z + mpf(3) / 2) * exp(z * z / 2) * erfc(z / sqrt(2)) / 2
        fraction = z  # Laplace's continued fraction, where the factors above leave all ranges
        for j in range(400, 0, -1):
            fraction = z + j / fraction
        return (z + mpf(3) / 2) / fraction / sqrt(2 * pi)

    coefficients, error = chebyfit(fitted, [-1, 1], 24, error=True)
    for power, c in zip(range(23, -1, -1), coefficients):
        yield c, "tails: P(u), Chebyshev's fit on [-1, 1], u^%d (the fit's error %s)" % (power, mp.nstr(error, 2))


def derived():
    """(double, where it comes from), in the order of the functions."""
    for group in (exp_constants, ln_constants, table_constants, atan_constants, sin_constants, tail_constants):
        for value, said in group():
            yield float(value), said


def is_plain(x):
    """A number that needs no derivation: at most 11 binary digits, as 0.5, 1023 or 19/16, or a power of two."""
    if x != x or x in (float("inf"), float("-inf")):
        return True
    digits, _ = frexp(abs(mpf(x)))
    return digits == 0 or ldexp(digits, 11) == floor(ldexp(digits, 11))


def check(known):
    """Complaints about constants of the crate that are not derived, or stand beside other bits."""
    complaints = []
    crate = os.path.join(ROOT, "crates", "elementary")
    sources = sorted(glob.glob(os.path.join(crate, "src", "**", "*.rt"), recursive=True))
    specs = sorted(glob.glob(os.path.join(crate, "specs", "**", "*.antt"), recursive=True))
    if not sources or not specs:
        return ["no sources or specs in crates/elementary"]
    explained = lambda x: is_plain(x) or abs(x) in known
    for path in sources:
        for number, line in enumerate(open(path, encoding="utf-8"), 1):
            code, _, comment = line.partition("//")
            literals = re.findall(r"(?<![\w.])-?\d[\d_]*\.\d[\d_]*(?:[eE][-+]?\d+)?", code)
            where = "%s:%d" % (os.path.relpath(path, ROOT), number)
            for literal in literals:
                if not explained(float(literal.replace("_", ""))):
                    complaints.append("%s: %s is not derived" % (where, literal))
            beside = re.match(r"\s*([0-9a-f]{16})\b", comment)
            if beside and (len(literals) != 1 or bits(float(literals[0].replace("_", ""))) != int(beside[1], 16)):
                complaints.append("%s: the bits %s are not those of the number" % (where, beside[1]))
    for path in specs:
        for number, line in enumerate(open(path, encoding="utf-8"), 1):
            code = line.partition("--")[0]
            for pattern in re.findall(r"\bfloat 0x([0-9a-fA-F_]+)", code) + re.findall(r"\b0x([0-9a-fA-F]{16})\b", code):
                if not explained(of_bits(int(pattern.replace("_", ""), 16))):
                    complaints.append("%s:%d: 0x%s is not derived" % (os.path.relpath(path, ROOT), number, pattern))
    return complaints


def main(words):
    if words not in ([], ["--check"]):
        print("usage: constants.py [--check]", file=sys.stderr)
        return 2
    known = list(derived())
    for x, said in known:
        print("%016x  %-24r %s" % (bits(x), x, said))
    if not words:
        return 0
    complaints = check({abs(x) for x, _ in known})
    for complaint in complaints:
        print("constants.py: " + complaint, file=sys.stderr)
    if not complaints:
        print("every constant of crates/elementary is one of these, or plain")
    return 1 if complaints else 0


sys.exit(main(sys.argv[1:]))
