#!/bin/sh
# Compares sqrt and hypot of crates/roots, as they stand in src/, with the platform's square root and MPFR, and prints the table of
# docs/ACCURACY.md. Usage: measure.sh [COUNT]   (patterns, and pairs a family; 1000000 unless said: half a minute)
# Needs rustc, a C compiler, MPFR with its header (Debian: libmpfr-dev) and python3. Writes below target/ only.
set -eu
count=${1:-1000000}
case $count in '' | *[!0-9]*) echo "usage: measure.sh [COUNT]" >&2; exit 2 ;; esac
cd "$(dirname "$0")/../.."
out=target/measure/roots
here=measure/roots
rustc=${RUSTC:-rustc}
cc=${CC:-cc}
for tool in "$rustc" "$cc" python3; do
    command -v "$tool" >/dev/null || { echo "measure.sh: no $tool on the PATH" >&2; exit 1; }
done
echo '#include <mpfr.h>' | "$cc" -E - >/dev/null 2>&1 || { echo "measure.sh: no mpfr.h (Debian: apt-get install libmpfr-dev)" >&2; exit 1; }
[ -f oracle/tools/strip.py ] || { echo "measure.sh: no oracle/tools/strip.py, which cuts the clauses out" >&2; exit 1; }
mkdir -p $out
# The .rt files with their clauses cut out are Rust; so are those of the crates below.
python3 measure/elementary/port.py roots $out "$rustc"
"$rustc" --edition 2021 -O --crate-type staticlib -C panic=abort -L $out --extern roots -o $out/libport.a $here/port.rs
"$cc" -O2 -Wall -Wextra -o $out/measure $here/measure.c $out/libport.a -lmpfr -lgmp -lpthread -ldl -lm
exec $out/measure "$count"
