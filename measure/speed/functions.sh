#!/bin/sh
# Counts the instructions that a call of the port's exp, ln, ln_1p, atan and sin takes, beside the C library's, and prints the table of README.md.
# Usage: functions.sh [CALLS]      (10000 unless said; two runs give the same counts)
# Needs the kit's rt, python3 and what setup.sh installs (it is run where target/speed is not ready). Writes below target/ only.
set -eu
calls=${1:-10000}
case $calls in '' | *[!0-9]* | 0) echo "usage: functions.sh [CALLS]" >&2; exit 2 ;; esac
cd "$(dirname "$0")/../.."
for tool in rt python3; do command -v $tool >/dev/null || { echo "functions.sh: no $tool on the PATH" >&2; exit 1; }; done
speed=target/speed
measure/speed/setup.sh $speed

# The port by rustc, and by the kit: a static library that gives the functions of elementary C names.
python3 measure/elementary/port.py elementary $speed/port $speed/rustc
kit=$speed/kit
measure/speed/archive.sh counted measure/speed/counted.rt.in $kit elementary
$speed/rustc --edition 2021 -O -L $speed/port --extern elementary -L $kit -o $speed/functions measure/speed/functions.rs

# Instructions of CALLS calls, by processor, function and arguments.
count() {
    CPU=$1 $speed/count $speed/functions "$2" "$3" "$calls" 2>&1 >/dev/null | sed -n 's/^guest instructions //p'
}
echo "| function | arguments | port, kit | port, rustc | glibc, qemu64 | glibc, Haswell | kit / qemu64 | kit / Haswell |"
echo "|---|---|---|---|---|---|---|---|"
while read -r f family said; do
    same=$(count qemu64 same "$family")
    same_fma=$(count Haswell same "$family")
    kit_=$(count qemu64 "kit_$f" "$family")
    rust=$(count qemu64 "rust_$f" "$family")
    plain=$(count qemu64 "platform_$f" "$family")
    fma=$(count Haswell "platform_$f" "$family")
    awk -v n="$calls" -v s="$same" -v sf="$same_fma" -v k="$kit_" -v r="$rust" -v p="$plain" -v m="$fma" -v f="$f" -v said="$said" 'BEGIN {
        printf "| %s | %s | %.1f | %.1f | %.1f | %.1f | %.2f | %.2f |\n", f, said, (k - s) / n, (r - s) / n, (p - s) / n, (m - sf) / n, (k - s) / (p - s), (k - s) / (m - sf) }'
done <<END
atan weighted v u, s from -30 to 60
atan weighted_middle v u, s from -3 to 3
atan 3_to_3 -3 to 3
ln_1p squared (v u)^2, s from -30 to 60
ln_1p squared_middle (v u)^2, s from -3 to 3
ln_1p 0_to_3 0 to 3
ln weight a weight's size, 1e-3 to 4
ln half_to_2 1/2 to 2
exp 30_to_60 -30 to 60
exp 1_to_1 -1 to 1
sin 256_to_256 -256 to 256
sin 3_to_3 -3 to 3
END
