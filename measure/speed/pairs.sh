#!/bin/sh
# Shows where a program of the port takes two numbers to an instruction: of each function that the kit compiled, how many of its products and quotients
# are of two numbers (mulpd, divpd) and how many of one (mulsd, divsd); and the same of each loop in it whose quotients and products are all of two.
# Usage: pairs.sh [PROGRAM]      (target/speed/test-kit unless said, which test.py builds)
# Status 1 where fewer than two such loops have the three divpd of the integrand, one for each sign of a weight: then its pairs are lost.
set -eu
[ $# -le 1 ] || { echo "usage: pairs.sh [PROGRAM]" >&2; exit 2; }
program=${1:-$(dirname "$0")/../../target/speed/test-kit}
[ -f "$program" ] || { echo "pairs.sh: no $program: measure/speed/test.py builds it" >&2; exit 1; }
command -v x86_64-linux-gnu-objdump >/dev/null || { echo "pairs.sh: no x86_64-linux-gnu-objdump on the PATH: setup.sh installs it" >&2; exit 1; }

# The kit's functions have names with ::; Rust's own are mangled. A loop is what stands between a jump back and its aim.
x86_64-linux-gnu-objdump -d --no-show-raw-insn "$program" | awk '
    function counts(from, to) {
        return sprintf("%d | %d | %d | %d", mulpd[to] - mulpd[from - 1], divpd[to] - divpd[from - 1], mulsd[to] - mulsd[from - 1], divsd[to] - divsd[from - 1])
    }
    function ended(    i, from, loop) {
        if (name == "" || n == 0 || mulpd[n] + divpd[n] + mulsd[n] + divsd[n] == 0)
            return
        print "| " name " | " counts(1, n) " |"
        for (i = 1; i <= n; i++) {
            from = aim[i] in at ? at[aim[i]] : n
            if (from < i && divpd[i] > divpd[from - 1] && mulsd[i] + divsd[i] == mulsd[from - 1] + divsd[from - 1])
                loop[from] = i
        }
        for (from = 1; from <= n; from++)
            if (from in loop) {
                i = loop[from]
                print "| " name ", loop from " address[from] " to " address[i] " | " counts(from, i) " |"
                if (divpd[i] - divpd[from - 1] >= 3)
                    pairs++
            }
    }
    BEGIN {
        print "| function | mulpd | divpd | mulsd | divsd |"
        print "|---|---|---|---|---|"
    }
    /^[0-9a-f]+ <.*>:$/ {
        ended()
        split("", at)
        n = 0
        name = $2
        gsub(/^<|>:$/, "", name)
        if (name !~ /::/ || name ~ /^_/)
            name = ""
        next
    }
    name != "" && $1 ~ /^[0-9a-f]+:$/ {
        n++
        address[n] = substr($1, 1, length($1) - 1)
        at[address[n]] = n
        aim[n] = $2 ~ /^j/ ? $3 : "none"
        mulpd[n] = mulpd[n - 1] + ($2 == "mulpd")
        divpd[n] = divpd[n - 1] + ($2 == "divpd")
        mulsd[n] = mulsd[n - 1] + ($2 == "mulsd")
        divsd[n] = divsd[n - 1] + ($2 == "divsd")
    }
    END {
        ended()
        exit pairs < 2
    }' || { echo "pairs.sh: fewer than two loops have three divpd and neither mulsd nor divsd: the integrand has lost its pairs" >&2; exit 1; }
