"""Sets of eigenvalues for Imhof's probability, what the oracle says of them, and the records that crates/try_imhof reads."""
import math
import os
import random
import shutil
import struct
import subprocess
import sys

ROOT = os.path.dirname(os.path.dirname(os.path.dirname(os.path.abspath(__file__))))
OUT = os.path.join(ROOT, "target", "measure", "imhof")
PROBABILITY, INTEGRAL = 0, 1
NO_WEIGHT, NOT_FINITE, VALUE = 0, 1, 2
MOST = 256
INFINITY, NAN = float("inf"), float("nan")


class Failed(Exception):
    """What could not be done; the message says why."""


def run(words, **more):
    try:
        done = subprocess.run(words, **more)
    except OSError as error:
        raise Failed("%s: %s" % (words[0], error))
    if done.returncode:
        raise Failed("%s ends with status %d" % (os.path.basename(words[0]), done.returncode))
    return done


def bits(x):
    return struct.unpack("<Q", struct.pack("<d", x))[0]


def of_bits(pattern):
    return struct.unpack("<d", struct.pack("<Q", pattern))[0]


def weights(eigenvalues, d):
    return [value - d for value in eigenvalues]


class Draws:
    """Numbers of a seed, by random() alone, which gives the same on every machine."""

    def __init__(self, seed):
        self.next = random.Random(seed).random

    def below(self, n):
        return int(self.next() * n)

    def between(self, low, high):
        return low + (high - low) * self.next()

    def count(self):
        """1 to 256 numbers, mostly few."""
        part = self.next()
        return 1 + self.below(12) if part < 0.7 else 13 + self.below(28) if part < 0.95 else 41 + self.below(216)

    def sized(self, low, high):
        """A number of either sign, with an exponent from low on and below high."""
        return math.copysign(math.ldexp(1 + self.next(), low + self.below(high - low)), self.next() - 0.5)


def both_signs(d):
    return [d.between(0, 4) for _ in range(d.count())], d.between(0.5, 3.5)


def falling(d):
    """As the QL step delivers them, and a statistic anywhere."""
    return sorted((d.between(1e-10, 4) for _ in range(d.count())), reverse=True), d.between(0.01, 3.99)


def close_to_0(d):
    """Some eigenvalues next to the statistic, down to one unit in its last place."""
    statistic = d.between(0.5, 3.5)
    near = [statistic + d.sized(-52, -10) for _ in range(1 + d.below(4))]
    return near + [d.between(0, 4) for _ in range(d.count() - 1)][:MOST - len(near)], statistic


def one_sign(d):
    low, high = (2.0, 4.0) if d.next() < 0.5 else (0.0, 1.9)
    return [d.between(low, high) for _ in range(d.count())], d.between(1.95, 1.99)


def repeated(d):
    """Few values, each often; and pairs w, -w, whose angles cancel."""
    if d.next() < 0.3:
        half = [d.between(0, 2) for _ in range(1 + d.below(6))]
        return half + [-w for w in half], 0.0
    values = [d.between(0, 4) for _ in range(2 + d.below(2))]
    return [values[d.below(len(values))] for _ in range(d.count())], 2.0


def wide(d):
    return [d.sized(-1000, 1000) for _ in range(2 + d.below(12))], 0.0


def tiny(d):
    """Weights so small that e^s overflows inside the range: a jump, which many bisections close in on."""
    return [d.sized(-1070, -1000) for _ in range(2 + d.below(6))], 0.0


def lopsided(d):
    """Many weights of one size and a small one against them: the integrand swings often."""
    size, scale = 20 + d.below(60), -1030 if d.next() < 0.3 else 0
    many = [math.ldexp(1 + 0.01 * d.next(), scale) for _ in range(size)]
    return many + [-math.ldexp(1.0, scale - d.below(40))], 0.0


def zeros(d):
    """Eigenvalues equal to the statistic, at times all of them."""
    statistic = d.between(0, 4)
    share = 1.0 if d.next() < 0.3 else d.next()
    return [statistic if d.next() < share else d.between(0, 4) for _ in range(d.count())], statistic


def not_finite(d):
    bad = [INFINITY, -INFINITY, NAN, 1.7e308, -1.7e308]
    return [bad[d.below(5)] for _ in range(1 + d.below(3))] + [d.between(-2, 2) for _ in range(d.below(3))], d.between(-1, 1)


# Each family and how many of a hundred sets are of it.
FAMILIES = [(both_signs, 27), (falling, 20), (close_to_0, 17), (one_sign, 6), (repeated, 8), (wide, 8), (tiny, 4), (lopsided, 2), (zeros, 5), (not_finite, 3)]


def drawn(seed, count):
    """`count` times (family, eigenvalues, statistic)."""
    d = Draws(seed)
    for i in range(count):
        share = i * 37 % 100
        for family, part in FAMILIES:
            if share < part:
                break
            share -= part
        yield (family.__name__,) + family(d)


def built(name, *flags):
    """The program NAME.rs of this folder over the port's sources, all compiled by the machine's own rustc with these flags."""
    rustc = os.environ.get("RUSTC", "rustc")
    if shutil.which(rustc) is None:
        raise Failed("%s is not on the PATH" % rustc)
    port = os.path.join(OUT, "port")
    run([sys.executable, os.path.join(ROOT, "measure", "elementary", "port.py"), "imhof", port, rustc, *flags])
    program = os.path.join(OUT, name)
    externs = ["-L", port, "--extern", "imhof", "--extern", "weights", "--extern", "floats"]
    run([rustc, "--edition", "2021", "-O", *flags, *externs, "-o", program, os.path.join(ROOT, "measure", "imhof", name + ".rs")])
    return program


def tied(seed, count):
    """`count` sets with a tie in the greatest error, by ties.rs."""
    lines = run([built("ties"), str(count), str(seed)], stdout=subprocess.PIPE, text=True).stdout.split("\n")
    return [("ties", [of_bits(int(word, 16)) for word in line.split()], 0.0) for line in lines if line]


def oracle(sets):
    """What the oracle's first build says of each set: the nine words of `imhof_counts`."""
    text = "".join("imhof_counts %s\n" % " ".join("%016x" % bits(w) for w in weights(values, d)) for _, values, d in sets)
    said = run([os.path.join(ROOT, "oracle", "sheets"), "port", "--calls"], input=text, stdout=subprocess.PIPE, text=True).stdout
    answers = [[int(word, 16) for word in line.split()] for line in said.split("\n") if line]
    if len(answers) != len(sets):
        raise Failed("%d sets, and %d answers of the oracle" % (len(sets), len(answers)))
    if any(name == "ties" and not answer[4] for (name, _, _), answer in zip(sets, answers)):
        raise Failed("the oracle meets no tie in a set that ties.rs found")
    return answers


def clamped(pattern):
    x = of_bits(pattern)
    return bits(0.0 if x < 0.0 else 1.0 if x > 1.0 else x)


def record(kind, low, high, ending, numbers):
    return struct.pack("<QQddQQQQQ", kind, len(numbers), low, high, *ending) + struct.pack("<%dd" % len(numbers), *numbers)


def probability_record(values, d, answer):
    ended, raw, bisections, evaluations = answer[:4]
    ending = (ended, raw, clamped(raw), bisections, evaluations) if ended == VALUE else (ended, 0, 0, 0, 0)
    return record(PROBABILITY, d, 0.0, ending, values)


def has_integral(answer):
    """Whether the oracle worked an integral out, all of it finite."""
    return answer[0] == VALUE and answer[3] > 0


def integral_record(values, d, answer):
    """The same integral at its own step: the weights between the ends that the oracle had."""
    _, _, bisections, evaluations, _, low, high, integral, error = answer
    kept = [w for w in weights(values, d) if w != 0.0]
    return record(INTEGRAL, of_bits(low), of_bits(high), (VALUE, integral, error, bisections, evaluations), kept)


def replay(data):
    """What the compiled try_imhof prints for `data`."""
    path = os.path.join(ROOT, "crates", "try_imhof", "out", "try_imhof")
    if not os.access(path, os.X_OK):
        raise Failed("no compiled try_imhof: `rt run` in crates/try_imhof first")
    return run([path], input=data, stdout=subprocess.PIPE).stdout.decode("ascii", "replace")


def all_right(records):
    """What try_imhof prints where each of these ends as stored."""
    kinds = [struct.unpack_from("<Q", r, 32)[0] for r in records]
    said = (len(kinds), kinds.count(NO_WEIGHT), kinds.count(NOT_FINITE), kinds.count(VALUE))
    return "sets: %d, without a weight %d, not finite %d, with a value %d; not as stored: 0\n" % said
