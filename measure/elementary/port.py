#!/usr/bin/env python3
"""Compiles a crate of the port, and what it stands on, as Rust libraries: the very .rt sources, clauses cut out.

Usage: port.py CRATE OUT RUSTC [FLAG..]      writes OUT/libNAME.rlib for each, by RUSTC with these flags
"""
import os
import re
import subprocess
import sys

ROOT = os.path.join(os.path.dirname(os.path.abspath(__file__)), "..", "..")
sys.path.insert(0, os.path.join(ROOT, "oracle", "tools"))


def fail(message):
    print("port.py: " + message, file=sys.stderr)
    sys.exit(1)


try:
    import strip
except ImportError:
    fail("no oracle/tools/strip.py, which cuts the clauses out")


def crates_below(name):
    """The crates that `name` stands on, lowest first, and itself; the kit's own are left out."""
    needs = {}
    with open(os.path.join(ROOT, "crates.txt"), encoding="utf-8") as stream:
        for line in stream:
            found = re.match(r"(\w+):(.*)", line)
            if found:
                needs[found[1]] = found[2].split()
    if name not in needs:
        fail("crates.txt has no crate " + name)
    order = []

    def reach(crate):
        for below in needs[crate]:
            if below in needs:
                reach(below)
        if crate not in order:
            order.append(crate)

    reach(name)
    return order


def compile_library(out, rustc, name, root, below):
    command = rustc + ["--edition", "2021", "-O", "--crate-type", "rlib", "--crate-name", name, "--cap-lints", "allow"]
    command += ["-L", out, "-o", os.path.join(out, "lib%s.rlib" % name), root]
    for crate in below:
        command += ["--extern", crate]
    if subprocess.run(command).returncode != 0:
        fail("rustc refused the crate " + name)


def main(words):
    if len(words) < 3:
        print("usage: port.py CRATE OUT RUSTC [FLAG..]", file=sys.stderr)
        sys.exit(2)
    out, rustc = words[1], words[2:]
    os.makedirs(out, exist_ok=True)
    compile_library(out, rustc, "rattle_std", os.path.join(ROOT, "oracle", "standins", "rattle_std.rs"), [])
    made = ["rattle_std"]
    for crate in crates_below(words[0]):
        try:
            files = strip.rust_of_crate(os.path.join(ROOT, "crates", crate))
        except strip.StripError as error:
            fail("%s: %s" % (crate, error))
        for place, text in files.items():
            path = os.path.join(out, crate, place)
            os.makedirs(os.path.dirname(path), exist_ok=True)
            with open(path, "w", encoding="utf-8") as stream:
                stream.write(text)
        compile_library(out, rustc, crate, os.path.join(out, crate, "lib.rs"), made)
        made.append(crate)


main(sys.argv[1:])
