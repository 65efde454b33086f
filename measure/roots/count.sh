#!/bin/sh
# Counts the instructions that a call of the port's sqrt and hypot takes as the kit compiles them, beside the C library's hypot, and prints the table of README.md.
# Usage: count.sh [CALLS]      (100000 unless said; two runs give the same counts)
# Needs the kit's rt and what measure/speed/setup.sh installs (it is run where target/speed is not ready). Writes below target/ only.
set -eu
calls=${1:-100000}
case $calls in '' | *[!0-9]* | 0) echo "usage: count.sh [CALLS]" >&2; exit 2 ;; esac
cd "$(dirname "$0")/../.."
command -v rt >/dev/null || { echo "count.sh: no rt on the PATH" >&2; exit 1; }
speed=target/speed
measure/speed/setup.sh $speed

# The port by the kit: a static library that gives the functions of roots C names.
out=$speed/roots
measure/speed/archive.sh counted measure/roots/counted.rt.in $out roots
$speed/cc -O2 -static -o $out/count measure/roots/count.c $out/libcounted.a -lm

# Instructions of CALLS calls, by processor, function and arguments.
count() {
    CPU=$1 $speed/count $out/count "$2" "$3" "$calls" 2>&1 >/dev/null | sed -n 's/^guest instructions //p'
}
echo "| function | arguments | instructions a call |"
echo "|---|---|---|"
while read -r f base cpu family said; do
    awk -v n="$calls" -v k="$(count "$cpu" "$f" "$family")" -v b="$(count "$cpu" "$base" "$family")" -v said="$said" 'BEGIN { printf "| %s | %.1f |\n", said, (k - b) / n }'
done <<END
sqrt one qemu64 weights sqrt | 1e-3 to 4
sqrt one qemu64 any sqrt | any number above 0 that is not subnormal
sqrt one qemu64 subnormal sqrt | subnormal
hypot two qemu64 weights hypot | 1e-3 to 4
platform two qemu64 weights glibc's hypot, qemu64 | 1e-3 to 4
platform two Haswell weights glibc's hypot, Haswell | 1e-3 to 4
END
