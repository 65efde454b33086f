#!/bin/sh
# Counts the instructions that Imhof's probability takes, the port's beside the Rust's, and prints the table of README.md.
# Usage: integral.sh [CALLS]      (40 unless said; two runs give the same counts)
# Status 1 where the port takes more than $bound instructions for a weight at an evaluation (a line on standard error says where), and where something fails.
# Needs the kit's rt, python3 and what setup.sh installs (it is run where target/speed is not ready). Writes below target/ only.
set -eu
# With 64 weights and more; with fewer the two exponentials and the sine of an evaluation are much of it. Without the pairs it is some 60 % above.
bound=44
calls=${1:-40}
case $calls in '' | *[!0-9]* | 0) echo "usage: integral.sh [CALLS]" >&2; exit 2 ;; esac
cd "$(dirname "$0")/../.."
for tool in rt python3; do command -v $tool >/dev/null || { echo "integral.sh: no $tool on the PATH" >&2; exit 1; }; done
speed=target/speed
measure/speed/setup.sh $speed
here=$speed/integral
mkdir -p $here

# The Rust: the functions of docs/src that work the probability out, and their constants, as a library.
python3 - docs/src/src/timeseries/dwtest.rs $here/source.rs <<'END'
import re
import sys

text = open(sys.argv[1], encoding="utf-8").read()
items = []
for name in ("IMHOF_TOL", "GK_X", "GK_WK", "GK_WG"):
    items += [r"^const %s: .*?;$" % name] if name == "IMHOF_TOL" else [r"^const %s: \[.*?\n\];$" % name]
items += [r"^fn %s\b.*?\n\}$" % name for name in ("gk15", "gauss_kronrod_adaptive", "imhof_prob_below_zero")]
found = [re.search(item, text, re.M | re.S) for item in items]
if not all(found):
    sys.exit("integral.sh: docs/src has changed: no " + items[found.index(None)])
with open(sys.argv[2], "w", encoding="utf-8") as out:
    out.write("\n".join(item[0] for item in found).replace("fn imhof_prob", "pub fn imhof_prob") + "\n")
END
$speed/rustc --edition 2021 -C opt-level=3 --crate-type rlib --crate-name source -o $here/libsource.rlib $here/source.rs

# The port by rustc, and by the kit: a static library that gives Imhof's probability C names.
python3 measure/elementary/port.py imhof $here/port $speed/rustc
kit=$here/kit
measure/speed/archive.sh integral measure/speed/integral.rt.in $kit floats imhof
$speed/rustc --edition 2021 -C opt-level=3 -L $here -L $here/port --extern floats --extern imhof --extern source -L $kit -o $here/integral measure/speed/integral.rs

# Instructions of CALLS calls, by processor, side and weights.
count() {
    CPU=$1 $speed/count $here/integral "$2" "$3" "$calls" 2>&1 >/dev/null | sed -n 's/^guest instructions //p'
}
above=
echo "| weights | evaluations | port, kit | port, rustc | Rust, qemu64 | Rust, Haswell | kit / qemu64 | kit / Haswell | kit, a weight and evaluation | bound |"
echo "|---|---|---|---|---|---|---|---|---|---|"
for weights in 20 64 256; do
    evaluations=$($speed/count $here/integral evaluations $weights "$calls" 2>/dev/null | cut -d ' ' -f 1)
    same=$(count qemu64 same $weights)
    same_fma=$(count Haswell same $weights)
    kit_=$(count qemu64 kit $weights)
    port=$(count qemu64 port $weights)
    plain=$(count qemu64 rust $weights)
    fma=$(count Haswell rust $weights)
    awk -v n="$calls" -v w="$weights" -v e="$evaluations" -v s="$same" -v sf="$same_fma" -v k="$kit_" -v r="$port" -v p="$plain" -v m="$fma" -v bound="$bound" 'BEGIN {
        each = (k - s) / n / e / w
        said = w < 64 ? "" : bound ": " (each <= bound ? "met" : "**above**")
        printf "| %d | %s | %.0f | %.0f | %.0f | %.0f | %.2f | %.2f | %.1f | %s |\n", w, e, (k - s) / n, (r - s) / n, (p - s) / n, (m - sf) / n, (k - s) / (p - s), (k - s) / (m - sf), each, said
        exit w >= 64 && each > bound }' || above="$above $weights"
done
for weights in $above; do
    echo "integral.sh: $weights weights: above the bound of $bound instructions a weight and evaluation" >&2
done
[ -z "$above" ]
