#!/bin/sh
# Measures exp, ln, ln_1p, atan, sin and the normal tails of crates/elementary, as they stand in src/, against MPFR, and prints the tables
# of docs/ACCURACY.md. Usage: measure.sh [POINTS]   (points drawn a row, 1000000 unless said: seven minutes)
# Needs rustc, a C compiler, MPFR with its header (Debian: libmpfr-dev) and python3. Writes below target/ only.
set -eu
points=${1:-1000000}
case $points in '' | *[!0-9]*) echo "usage: measure.sh [POINTS]" >&2; exit 2 ;; esac
cd "$(dirname "$0")/../.."
out=target/measure/elementary
here=measure/elementary
for tool in "${RUSTC:-rustc}" "${CC:-cc}" python3; do
    command -v "$tool" >/dev/null || { echo "measure.sh: no $tool on the PATH" >&2; exit 1; }
done
echo '#include <mpfr.h>' | "${CC:-cc}" -E - >/dev/null 2>&1 || { echo "measure.sh: no mpfr.h (Debian: apt-get install libmpfr-dev)" >&2; exit 1; }
python3 $here/port.py elementary $out "${RUSTC:-rustc}"
"${RUSTC:-rustc}" --edition 2021 -O --crate-type staticlib -C panic=abort -L $out --extern elementary -o $out/libport.a $here/port.rs
"${CC:-cc}" -O2 -ffp-contract=off -Wall -Wextra -Wno-missing-field-initializers -o $out/measure $here/measure.c $out/libport.a -lmpfr -lgmp -lpthread -ldl -lm
exec $out/measure "$points"
