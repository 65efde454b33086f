#!/usr/bin/env python3
"""Measures the test of the port beside the Rust of docs/src, on the same sheets, in one run, and prints the tables of docs/SPEED.md.

Usage: test.py [whole] [file] [stages] [time]      all where none is named

whole   the whole test: instructions a call, by rows, columns and path; some lines have a bound
file    a sheet file of 64 sheets: the port's program and the Rust reading the same file
stages  instructions of each stage, by rows, two columns
time    the whole test in microseconds on the machine itself, one sheet a line, the best of many rounds; nothing rests on it

Instructions are the guest's, counted under QEMU by a run of the calls less a run of none, so two runs give the same numbers on every machine.
Status 1 where a line of `whole` is above its bound (a line on standard error says which), and where something fails.
Needs the kit's rt (but not for `time` alone where the machine is no x86-64) and what setup.sh installs (it is run where target/speed is not
ready: as root, for apt-get). Writes below target/ only.
"""
import os
import platform
import shutil
import subprocess
import sys

HERE = os.path.dirname(os.path.abspath(__file__))
ROOT = os.path.dirname(os.path.dirname(HERE))
SPEED = os.path.join(ROOT, "target", "speed")
KIT = os.path.join(SPEED, "tested")
OPTIMIZED = ["--edition", "2021", "-C", "opt-level=3", "-C", "codegen-units=1"]

# Rows, path, and how many drawn sheets are called.
LINES = [(3, "exact", 20), (20, "exact", 10), (64, "exact", 4), (99, "exact", 3), (256, "exact", 2), (112, "normal", 20), (256, "normal", 20)]
# The most that the port's instructions may be of the shipped Rust's (qemu64), by rows, path and columns.
BOUNDS = {(20, "exact", 2): 0.40, (64, "exact", 2): 0.42, (99, "exact", 2): 0.42, (256, "exact", 2): 0.36}
STAGED = [(20, 8), (32, 6), (64, 4), (128, 2), (256, 1)]
STAGES = ["checks, statistic", "inverse", "M A M", "Householder", "QL, order", "integral"]

# `time`: how often each program runs a line, a tenth of a second each; and the share of the Rust's time above which a line is marked.
ROUNDS = 10
MARK = 0.9
# Programs of the port are compiled for x86-64. Elsewhere its sources are timed as Rust, and the programs for that have names of their own.
NATIVE = platform.machine() == "x86_64"
OWN = "" if NATIVE else "own-"


def fail(message):
    print("test.py: " + message, file=sys.stderr)
    sys.exit(1)


def run(words, **options):
    done = subprocess.run(words, **options)
    if done.returncode != 0:
        fail("this ended with %d: %s" % (done.returncode, " ".join(words)))
    return done


def logged(words, name, folder):
    path = os.path.join(SPEED, name)
    with open(path, "w", encoding="utf-8") as log:
        if subprocess.run(words, cwd=folder, stdin=subprocess.DEVNULL, stdout=log, stderr=log).returncode != 0:
            fail("%s failed: see %s" % (" ".join(words), os.path.relpath(path, ROOT)))


def build_kit():
    """The port as the kit compiles it: a static library that gives the stages C names."""
    crates = "floats elementary autocorrelation columns design projection tridiagonal ql eigen imhof outcome dwtest".split()
    run([os.path.join(HERE, "archive.sh"), "tested", os.path.join(HERE, "tested.rt.in"), KIT] + crates)
    run([os.path.join(SPEED, "rustc")] + OPTIMIZED + ["--cfg", "kit", "-L", KIT, "-o", os.path.join(SPEED, "test-kit"), os.path.join(HERE, "test.rs")])


def build_linked(own, name, out, libraries, flags=()):
    """The program test-NAME over Rust libraries, optimized across them."""
    words = [os.path.join(SPEED, own + "rustc")] + OPTIMIZED + ["-C", "lto=fat", "-L", out] + list(flags)
    for library in libraries:
        words += ["--extern", "%s=%s" % (library, os.path.join(out, "lib%s.rlib" % library))]
    run(words + ["-o", os.path.join(SPEED, "test-" + own + name), os.path.join(HERE, "test.rs")])


def build_rust(build, own=""):
    """The Rust of docs/src: for x86-64, or with "own-" for the machine itself."""
    out = os.path.join(SPEED, "rust", own + build)
    os.makedirs(out, exist_ok=True)
    logged([sys.executable, os.path.join(HERE, "rust.py"), build, out, SPEED, own + "rustc"], "rust-%s.log" % (own + build), ROOT)
    build_linked(own, build, out, ["answers", "staged"])


def build_sources(own):
    """The port's sources as Rust, by the compiler and with the settings of the Rust of docs/src (port.py's -O is opt-level 3)."""
    out = os.path.join(SPEED, "rust", own + "sources")
    logged([sys.executable, os.path.join(ROOT, "measure", "elementary", "port.py"), "dwtest", out, os.path.join(SPEED, own + "rustc"),
            "-C", "codegen-units=1"], "rust-%ssources.log" % own, ROOT)
    build_linked(own, "sources", out, ["dwtest", "outcome"], ["--cfg", "sources"])


def build(words):
    if NATIVE or any(word != "time" for word in words):
        build_kit()
        build_rust("port")
        build_rust("platform")
    if "time" in words:
        build_sources(OWN)
        if not NATIVE:
            build_rust("port", OWN)
            build_rust("platform", OWN)


def count(words, cpu="qemu64", given=None):
    """The instructions of a run, and what it printed."""
    options = {"stdin": open(given, "rb")} if given else {"stdin": subprocess.DEVNULL}
    done = run([os.path.join(SPEED, "count")] + words, env=dict(os.environ, CPU=cpu), capture_output=True, **options)
    said = done.stderr.decode().split("guest instructions ")
    if len(said) != 2:
        fail("no count from: " + " ".join(words))
    return int(said[1]), done.stdout.decode()


def calls(side, mode, rows, columns, how, sheets, cpu="qemu64"):
    """Instructions a call, and the sum of the p's."""
    words = [os.path.join(SPEED, "test-" + side), mode, str(rows), str(columns), str(how), str(sheets)]
    all_of_them, printed = count(words + [str(sheets)], cpu)
    none, _ = count(words + ["0"], cpu)
    return (all_of_them - none) / sheets, printed.strip()


def show(*cells):
    print("| " + " | ".join(str(cell) for cell in cells) + " |", flush=True)


def head(*cells):
    show(*cells)
    show(*["---"] * len(cells))


def thousands(number):
    return "{:,.1f}".format(number / 1000)


def line_table():
    for rows, path, sheets in LINES:
        for columns in (1, 2, 8):
            if columns < rows:
                yield rows, path, columns, sheets


def whole():
    """Gives what to complain of: the lines above their bounds."""
    print("The whole test, thousands of instructions a call\n")
    head("rows", "path", "columns", "port", "Rust, port's functions", "Rust, qemu64", "Rust, Haswell", "of the first", "of qemu64", "of Haswell",
         "bound of qemu64")
    above = []
    for rows, path, columns, sheets in line_table():
        port, p = calls("kit", "calls", rows, columns, path, sheets)
        same, p_same = calls("port", "calls", rows, columns, path, sheets)
        if p != p_same:
            fail("%d rows, %d columns, %s: the port and the Rust over its functions give other bits" % (rows, columns, path))
        plain, _ = calls("platform", "calls", rows, columns, path, sheets)
        fma, _ = calls("platform", "calls", rows, columns, path, sheets, "Haswell")
        bound = BOUNDS.get((rows, path, columns))
        said = ""
        if bound is not None:
            said = "%.2f: %s" % (bound, "met" if port <= bound * plain else "**above**")
            if port > bound * plain:
                above.append("%d rows, %s, %d columns: %.4f of the Rust's instructions (qemu64), above the bound %.2f"
                             % (rows, path, columns, port / plain, bound))
        show(rows, path, columns, thousands(port), thousands(same), thousands(plain), thousands(fma),
             "%.2f" % (port / same), "%.2f" % (port / plain), "%.2f" % (port / fma), said)
    print()
    return above


def one_file():
    drawn = os.path.join(SPEED, "full.sheet")
    with open(drawn, "wb") as out:
        run([os.path.join(SPEED, "count"), os.path.join(SPEED, "test-kit"), "draw"], stdout=out, stderr=subprocess.DEVNULL)
    folder = os.path.join(ROOT, "crates", "dwsheet")
    logged(["rt", "run"], "dwsheet.log", folder)
    port_words = [os.path.join(folder, "out", "dwsheet")]

    def of(words, cpu="qemu64"):
        read, printed = count(words, cpu, drawn)
        return read - count(words, cpu)[0], printed

    def rust_words(build):
        return [os.path.join(SPEED, "test-" + build), "file"]

    port, lines = of(port_words)
    same, lines_same = of(rust_words("port"))
    ours = [" ".join(line.split(" ")[at] for at in (0, 3, 4)) for line in lines.strip().split("\n")]
    if ours != lines_same.strip().split("\n") or len(ours) != 64:
        fail("the file: the port's program and the Rust over its functions answer otherwise")
    plain, fma = of(rust_words("platform"))[0], of(rust_words("platform"), "Haswell")[0]
    print("A file of 64 sheets, %d bytes: reading, the test, printing; thousands of instructions\n" % os.path.getsize(drawn))
    head("port", "Rust, port's functions", "Rust, qemu64", "Rust, Haswell", "of the first", "of qemu64", "of Haswell")
    show(thousands(port), thousands(same), thousands(plain), thousands(fma), "%.2f" % (port / same), "%.2f" % (port / plain), "%.2f" % (port / fma))
    print()


def stages():
    print("Stages, two columns, thousands of instructions a call; of the Rust's: qemu64\n")
    head("rows", "stage", "port", "Rust, port's functions", "Rust, qemu64", "of the first", "of qemu64")
    sides = ("kit", "port", "platform")
    for rows, sheets in STAGED:
        before = {side: 0 for side in sides}
        eigen = {side: 0 for side in sides}
        for stage, name in enumerate(STAGES):
            took = {}
            for side in sides:
                so_far, _ = calls(side, "stage", rows, 2, stage, sheets)
                took[side] = so_far - before[side]
                before[side] = so_far
                eigen[side] += took[side] if 2 <= stage <= 4 else 0
            show(rows, name, *[thousands(took[side]) for side in sides], *["%.2f" % (took["kit"] / took[side]) for side in sides[1:]])
        show(rows, "**eigenvalues** (M A M to order)", *[thousands(eigen[side]) for side in sides],
             *["%.2f" % (eigen["kit"] / eigen[side]) for side in sides[1:]])
    print()


def timed():
    """Each line is one sheet. The programs take turns at it, and the lines too, ROUNDS times; of each program the best counts. Those over the port's
    functions must agree on p."""
    sides = {"kit": "port", "sources": "port as Rust", "port": "Rust, port's functions", "platform": "Rust"}
    if not NATIVE:
        del sides["kit"]
    ported = [side for side in ("kit", "sources") if side in sides]
    best = {}
    for _ in range(ROUNDS):
        for rows, path, columns, _ in line_table():
            found = set()
            for side in sides:
                words = [os.path.join(SPEED, "test-" + (side if side == "kit" else OWN + side)), "time", str(rows), str(columns), path]
                took, p = run(words, capture_output=True).stdout.decode().split()
                best[rows, path, columns, side] = min(best.get((rows, path, columns, side), float("inf")), float(took) / 1000)
                if side != "platform":
                    found.add(p)
            if len(found) != 1:
                fail("%d rows, %d columns, %s: the port and the Rust over its functions give other bits" % (rows, columns, path))
    print("The whole test on one sheet, microseconds a call, on this machine (%s), the best of many rounds\n" % platform.machine())
    head("rows", "path", "columns", *sides.values(), *["%s, of the Rust" % sides[side] for side in ported], "above %.1f" % MARK)
    for rows, path, columns, _ in line_table():
        took = {side: best[rows, path, columns, side] for side in sides}
        share = {side: took[side] / took["platform"] for side in ported}
        show(rows, path, columns, *["%.1f" % took[side] for side in sides], *["%.2f" % share[side] for side in ported],
             ", ".join(sides[side] for side in ported if share[side] > MARK))
    print()


def main(words):
    tables = {"whole": whole, "file": one_file, "stages": stages, "time": timed}
    if any(word not in tables for word in words):
        print("usage: test.py [whole] [file] [stages] [time]", file=sys.stderr)
        return 2
    words = words or list(tables)
    if (NATIVE or words != ["time"]) and not shutil.which("rt"):
        fail("no rt on the PATH")
    run([os.path.join(HERE, "setup.sh"), SPEED])
    build(words)
    above = []
    for word in words:
        above += tables[word]() or []
    for line in above:
        print("test.py: " + line, file=sys.stderr)
    return 1 if above else 0


if __name__ == "__main__":
    sys.exit(main(sys.argv[1:]))
