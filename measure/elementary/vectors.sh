#!/bin/sh
# Makes the vectors that the program crates/try_elementary replays, in crates/try_elementary/stdin, by MPFR. Usage: vectors.sh [text]
# `text` prints them as lines of hex digits instead, and writes no file of the repository. Needs a C compiler and MPFR (Debian: libmpfr-dev).
set -eu
[ $# -eq 0 ] || [ "$*" = text ] || { echo "usage: vectors.sh [text]" >&2; exit 2; }
cd "$(dirname "$0")/../.."
out=target/measure/elementary
mkdir -p $out
echo '#include <mpfr.h>' | "${CC:-cc}" -E - >/dev/null 2>&1 || { echo "vectors.sh: no mpfr.h (Debian: apt-get install libmpfr-dev)" >&2; exit 1; }
"${CC:-cc}" -O2 -ffp-contract=off -Wall -Wextra -o $out/vectors measure/elementary/vectors.c -lmpfr -lgmp -lm
if [ $# -eq 1 ]; then exec $out/vectors text; fi
$out/vectors >$out/stdin
mv $out/stdin crates/try_elementary/stdin
