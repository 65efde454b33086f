#!/usr/bin/env python3
"""Compiles the Rust of docs/src as the library `answers`, from the very copies that oracle/build makes.

Usage: rust.py BUILD OUT SPEED [COMPILER]
BUILD is `platform` (over the platform's functions) or `port` (over the port's). SPEED is the folder that setup.sh made ready, and COMPILER
which of its two is taken: `rustc`, for x86-64 (unless said), or `own-rustc`, for the machine itself. OUT gets libanswers.rlib, the plain copy;
libstaged.rlib, a copy that can be told to end after a stage (STAGES below); and what they stand on.
"""
import importlib.machinery
import importlib.util
import os
import subprocess
import sys

ROOT = os.path.join(os.path.dirname(os.path.abspath(__file__)), "..", "..")
FLAGS = ["--edition", "2021", "-C", "opt-level=3", "-C", "codegen-units=1", "--cap-lints", "allow"]

# The ends of the staged copy: what each line says before, and then.
DWTEST = "answers/src/timeseries/dwtest.rs"
STAGES = [
    ("    let xtx_inv = xtx_inverse(x)?;",
     "    if crate::stage::ends(0) { return Err(StatError::EmptyData); } let xtx_inv = xtx_inverse(x)?;"
     " if crate::stage::ends(1) { return Err(StatError::EmptyData); }"),
    ("    let mut ev = symmetric_eigenvalues(b);",
     "    if crate::stage::ends(2) { std::hint::black_box(&b); return Vec::new(); } let mut ev = symmetric_eigenvalues(b);"),
    ("    // Implicit QL on the tridiagonal (d, e); e[i] couples d[i] and d[i + 1].",
     "    if crate::stage::ends(3) { std::hint::black_box(&e); return d; }"),
    ("            let shifted: Vec<f64> = ma_eigenvalues(x, &xtx_inv).iter().map(|l| l - dw).collect();",
     "            let eigenvalues = ma_eigenvalues(x, &xtx_inv); std::hint::black_box(&eigenvalues);"
     " if crate::stage::ends(2) || crate::stage::ends(3) || crate::stage::ends(4) { return Err(StatError::EmptyData); }"
     " let shifted: Vec<f64> = eigenvalues.iter().map(|l| l - dw).collect();"),
]
STAGE = """use std::sync::atomic::{AtomicUsize, Ordering};
/// The stage after which a call ends: 0 the statistic, 1 the inverse, 2 M A M, 3 Householder, 4 QL and order; above these, none.
pub static LAST: AtomicUsize = AtomicUsize::new(9);
pub fn ends(stage: usize) -> bool {
    LAST.load(Ordering::Relaxed) == stage
}
"""


def fail(message):
    print("rust.py: " + message, file=sys.stderr)
    sys.exit(1)


def oracle_build():
    path = os.path.join(ROOT, "oracle", "build")
    loader = importlib.machinery.SourceFileLoader("oracle_build", path)
    module = importlib.util.module_from_spec(importlib.util.spec_from_loader("oracle_build", loader))
    loader.exec_module(module)
    return module


def staged(text):
    lines = text.split("\n")
    for old, new in STAGES:
        if lines.count(old) != 1:
            fail("docs/src has changed: this line stands %d times: %s" % (lines.count(old), old.strip()))
        lines[lines.index(old)] = new
    return "\n".join(lines)


def dependencies(files, name):
    text = files[name + "/Cargo.toml"].split("[dependencies]")[1]
    return [line.split(" =")[0] for line in text.split("\n") if line]


def compile_library(rustc, out, name, root, needs, kind="rlib", flags=()):
    command = rustc + FLAGS + list(flags) + ["--crate-type", kind, "--crate-name", name, "-L", out, "--out-dir", out, root]
    for need in needs:
        suffix = ".so" if need == "thiserror" else ".rlib"
        command += ["--extern", "%s=%s" % (need, os.path.join(out, "lib" + need + suffix))]
    if subprocess.run(command).returncode != 0:
        fail("rustc refused the crate " + name)


def main(words):
    words = words + ["rustc"] if len(words) == 3 else words
    if len(words) != 4 or words[0] not in ("platform", "port") or words[3] not in ("rustc", "own-rustc"):
        print("usage: rust.py platform|port OUT SPEED [rustc|own-rustc]", file=sys.stderr)
        return 2
    build, out, speed, compiler = words
    oracle = oracle_build()
    files = oracle.generate(build, "rustc")
    for name in list(files):
        if name.startswith("answers/"):
            files[name.replace("answers/", "staged/", 1)] = files[name]
    files["staged/src/timeseries/dwtest.rs"] = staged(files[DWTEST])
    files["staged/src/lib.rs"] += "pub mod stage;\n"
    files["staged/src/stage.rs"] = STAGE
    sources = os.path.join(out, "src")
    oracle.write_tree(sources, files)

    # The derive macro runs in the compiler, so it is the machine's own.
    own = os.path.join(speed, "own-rustc")
    order = []

    def reach(name):
        for below in dependencies(files, name):
            reach(below)
        if name not in order:
            order.append(name)

    reach("answers")
    reach("staged")
    for name in order:
        root = os.path.join(sources, name, "src", "lib.rs")
        needs = dependencies(files, "answers" if name == "staged" else name)
        if name == "thiserror":
            compile_library([own], out, name, root, needs, "proc-macro", ["--extern", "proc_macro"])
        else:
            compile_library([os.path.join(speed, compiler)], out, name, root, needs)
    return 0


if __name__ == "__main__":
    sys.exit(main(sys.argv[1:]))
