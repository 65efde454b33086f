#!/usr/bin/env python3
"""Makes the table that atan and ln_1p of crates/elementary share, and the two polynomials that they use beside a point of it.

Usage: table.py            prints each row: its place, point, angle and logarithm, and the bits of the three; then the polynomials
       table.py --check    also holds crates/elementary to it: its numbers and polynomials bit for bit, in src and in specs, every decimal with its
                           own bits beside it; its rows to what is said below; and the ranges of t and s and the reach of specs/Near.antt to
                           the ends of the rows. Ends with status 1, and a line for each complaint, where one does not hold

Row i serves the y whose place (specs/Near.antt) is i: y + 2^-10 lies in the quarter i % 4 of the octave i / 4 from 2^-10 on. Its point p is searched by
Gal's way about the middle of the row, where s is as large at one end as at the other: a double such that atan p and ln(1 + q), q being p^2 rounded, are
each within 1/128 of a unit in the last place of a double, which are its angle and its logarithm, and 1 + q is within 1/16. In the first four rows, the
first octave, p is 0, with the angle +0 and the logarithm -0. The first candidate that serves is taken. mpmath with 200 bits decides, so that every
machine finds the same. That takes some twenty seconds. Needs mpmath (Debian: python3-mpmath).
"""
import math
import os
import re
import struct
import sys

try:
    from mpmath import atan, chebyfit, log, mp, mpf, sqrt
except ImportError:
    sys.exit("table.py: no mpmath (Debian: python3-mpmath)")

mp.prec = 200
ROOT = os.path.join(os.path.dirname(os.path.abspath(__file__)), "..", "..")
CRATE = os.path.join("crates", "elementary")
ROWS, QUARTERS, LEAST = 128, 4, 2.0**-10
NEAR, SUM_NEAR = 1 / 128, 1 / 16  # of a unit in the last place
STRIDE = 2**24  # from one candidate to the next on the same side, in units in the last place


def bits(x):
    return struct.unpack("<Q", struct.pack("<d", x))[0]


def of_bits(b):
    return struct.unpack("<d", struct.pack("<Q", b))[0]


def near_zero(f, limit):
    """f, and its limit where its own formula divides by 0."""
    return lambda z: limit if z < mpf(10) ** -40 else f(z)


def row_start(i):
    """The least y of row i, which is the end of the row before it."""
    return LEAST * 2.0 ** (i // QUARTERS) * (1 + i % QUARTERS / QUARTERS) - LEAST


def off(value, x):
    """How far a value is from the double x, in units in the last place of x."""
    return float(abs(value - x)) / math.ulp(x)


def sum_off(q):
    """How far 1 + q is from its double, in units of that; q >= 0. Each difference is exact."""
    double = 1 + q
    rest = q - (double - 1) if q < 1 else 1 - (double - q)
    return abs(rest) / math.ulp(double)


def candidates(i):
    """Points for row i: its middle, then below and above it by turns, each three units in the last place further up, so that the last digits vary."""
    ends = (1 + mpf(row_start(i))) * (1 + mpf(row_start(i + 1)))
    middle = float(sqrt(sqrt(ends) - 1))
    unit, k = math.ulp(middle), 0
    while True:
        turn = -(k + 1) // 2 if k % 2 else k // 2
        yield middle + unit * (STRIDE * turn + 3 * (k % 1021))
        k += 1


def row(i):
    """The point of row i, its angle and its logarithm."""
    if i < QUARTERS:
        return 0.0, 0.0, -0.0
    for p in candidates(i):
        q = p * p
        if sum_off(q) > SUM_NEAR:
            continue
        angle = atan(mpf(p))
        if off(angle, float(angle)) > NEAR:
            continue
        logarithm = log(1 + mpf(q))
        if off(logarithm, float(logarithm)) <= NEAR:
            return p, float(angle), float(logarithm)


def rows():
    return [row(i) for i in range(ROWS)]


def ranges(points):
    """The greatest sizes of t = (a - p) / (1 + p a) and s = (y - q) / (2 + y + q) at the ends of the rows; a is the root of y."""
    most_t = most_s = mpf(0)
    for i, p in enumerate(points):
        q = mpf(p * p)
        for y in (mpf(row_start(i)), mpf(row_start(i + 1))):
            a = sqrt(y)
            most_t = max(most_t, abs(a - p) / (1 + p * a))
            most_s = max(most_s, abs(y - q) / (2 + y + q))
    return most_t, most_s


def polynomials(points):
    """(coefficients, the fit's error, the end of its range) of A and of L, the highest power first.

    atan t = t + t z A(z), z = t^2; ln((1 + s) / (1 - s)) = s (2 + z L(z)), z = s^2; each fitted a little beyond what is met, so that a rounded t or s is inside.
    """

    def angle(z):
        t = sqrt(z)
        return (atan(t) / t - 1) / z

    def logarithm(z):
        s = sqrt(z)
        return (log((1 + s) / (1 - s)) / s - 2) / z

    fits = []
    for f, limit, most in zip((angle, logarithm), (-mpf(1) / 3, mpf(2) / 3), ranges(points)):
        end = (most * mpf("1.0001")) ** 2
        coefficients, error = chebyfit(near_zero(f, limit), [0, end], 4, error=True)
        fits.append(([float(c) for c in coefficients], error, end))
    return fits


def read(place):
    """A file of the crate; none where it cannot be read."""
    try:
        with open(os.path.join(ROOT, CRATE, place), encoding="utf-8") as stream:
            return stream.read()
    except OSError:
        return ""


def of_source(place, name, complaints):
    """The numbers of an array of a source, each on a line with its bits beside it."""
    found = re.search(r"^(?:const|pub static) %s: \[f64; (\d+)\] = \[\n(.*?)^\];" % name, read(place), re.DOTALL | re.MULTILINE)
    numbers = []
    for line in found[2].splitlines() if found else []:
        entry = re.match(r"\s*(-?\d+\.\d+(?:e-?\d+)?), // ([0-9a-f]{16})\b", line)
        if not entry or bits(float(entry[1])) != int(entry[2], 16):
            complaints.append("%s/%s: %s: no number with its bits beside it: %s" % (CRATE, place, name, line.strip()))
        numbers.append(float(entry[1]) if entry else math.nan)
    return numbers


def of_spec(place, name):
    """The numbers of a list of patterns of a spec."""
    found = re.search(r"^%s =\s+map float\s+\(([^)]*)\[\]\)" % name, read(place), re.MULTILINE)
    return [of_bits(int(b, 16)) for b in re.findall(r"\b0x([0-9a-f]{16})\b", found[1])] if found else []


def compare(place, name, numbers, expected, complaints):
    where = "%s/%s: %s" % (CRATE, place, name)
    if len(numbers) != len(expected):
        complaints.append("%s: %d numbers, not %d" % (where, len(numbers), len(expected)))
    for i, (x, y) in enumerate(zip(numbers, expected)):
        if bits(x) != bits(y):
            complaints.append("%s: place %d has %016x, not %016x" % (where, i, bits(x), bits(y)))


def check_rows(points, angles, logarithms, complaints):
    """Holds the rows to what is said of them, and gives how far the angles, the logarithms and the sums 1 + q are off at most."""
    worst = [0, 0, 0]
    for i, (p, angle, logarithm) in enumerate(zip(points, angles, logarithms)):
        if i < QUARTERS:
            if [bits(x) for x in (p, angle, logarithm)] != [bits(x) for x in (0.0, 0.0, -0.0)]:
                complaints.append("row %d is not 0, +0 and -0" % i)
            continue
        if not row_start(i) < p * p < row_start(i + 1):
            complaints.append("row %d: the point is outside" % i)
            continue
        q = p * p
        true_angle, true_logarithm = atan(mpf(p)), log(1 + mpf(q))
        if angle != float(true_angle) or logarithm != float(true_logarithm):
            complaints.append("row %d: the angle or the logarithm is not the nearest double" % i)
            continue
        here = off(true_angle, angle), off(true_logarithm, logarithm), sum_off(q)
        if max(here[:2]) > NEAR or here[2] > SUM_NEAR:
            complaints.append("row %d: the angle is off by %.5f units in the last place, the logarithm by %.5f, 1 + q by %.5f" % ((i,) + here))
        worst = [max(pair) for pair in zip(worst, here)]
    return worst


def check_ranges(most, complaints):
    text = read("specs/Near.antt")
    for name, size in zip("ts", most):
        stated = re.search(r"\|%s\| ≤ (\d+(?:\.\d+)?)(?: */ *(\d+))?(?!\.?\d| *\^)" % name, text)
        if not stated:
            complaints.append("%s/specs/Near.antt: no range of %s" % (CRATE, name))
        elif size > mpf(stated[1]) / mpf(stated[2] or 1):
            complaints.append("%s/specs/Near.antt: |%s| comes to %s" % (CRATE, name, mp.nstr(size, 8)))
    reach = re.search(r"^reach = float 0x([0-9a-f]{16})", text, re.MULTILINE)
    if not reach or of_bits(int(reach[1], 16)) + LEAST >= row_start(ROWS) + LEAST:
        complaints.append("%s/specs/Near.antt: the reach is not inside the last row" % CRATE)


def check(table, fits):
    """Prints a summary where all holds. Gives the complaints."""
    complaints = []
    columns = [list(column) for column in zip(*table)]
    source = of_source("src/points.rt", "POINTS", complaints)
    compare("src/points.rt", "POINTS", source, sum(columns, []), complaints)
    for name, column in zip(("tangents", "angles", "logarithms"), columns):
        compare("specs/Points.antt", name, of_spec("specs/Points.antt", name), column, complaints)
    for name, list_name, fit in zip(("ANGLE", "LOG"), ("angle_table", "log_table"), fits):
        compare("src/near.rt", name, of_source("src/near.rt", name, complaints), fit[0], complaints)
        compare("specs/Near.antt", list_name, of_spec("specs/Near.antt", list_name), fit[0], complaints)
    landed = [source[at : at + ROWS] for at in (0, ROWS, 2 * ROWS)]
    worst = check_rows(*landed, complaints)
    most = ranges(landed[0])
    check_ranges(most, complaints)
    if not complaints:
        sizes = tuple(worst) + tuple(mp.nstr(size, 6) for size in most)
        print("the table and the polynomials of crates/elementary are these: angles within %.5f units in the last place, logarithms %.5f, 1 + q %.5f; |t| to %s, |s| to %s" % sizes)
    return complaints


def main(words):
    if words not in ([], ["--check"]):
        print("usage: table.py [--check]", file=sys.stderr)
        return 2
    table = rows()
    fits = polynomials([p for p, _, _ in table])
    for i, numbers in enumerate(table):
        print("%3d  %-22r %-22r %-22r  %016x %016x %016x" % ((i,) + numbers + tuple(bits(x) for x in numbers)))
    for name, (coefficients, error, end) in zip("AL", fits):
        for power, c in zip(range(3, -1, -1), coefficients):
            print("%s z^%d  %016x  %-24r Chebyshev's fit on [0, %s], its error %s" % (name, power, bits(c), c, mp.nstr(end, 5), mp.nstr(error, 2)))
    complaints = check(table, fits) if words else []
    for complaint in complaints:
        print("table.py: " + complaint, file=sys.stderr)
    return 1 if complaints else 0


if __name__ == "__main__":
    sys.exit(main(sys.argv[1:]))
