#!/bin/sh
# Proves and writes a static library, as the kit compiles it: one .rt file that gives functions of this repository's crates C names.
# Usage: archive.sh NAME FILE OUT CRATE..      OUT/libNAME.a, of FILE over the crates named; OUT/NAME.log has what rt said
# The crates are proved where they stand, and again only if they changed. The library is a crate of a repository of its own, which is removed in the
# end: in this one rt ci wants no .rt file but those of its crates.
set -eu
[ $# -ge 4 ] || { echo "usage: archive.sh NAME FILE OUT CRATE.." >&2; exit 2; }
name=$1 file=$2 out=$3
shift 3
top=$(cd "$(dirname "$0")/../.." && pwd)
command -v rt >/dev/null || { echo "archive.sh: no rt on the PATH" >&2; exit 1; }
mkdir -p "$out"
log=$out/$name.log
: >"$log"
proved() {
    (cd "$1" && rt lib) >>"$log" 2>&1 || { tail -n 5 "$log" >&2; echo "archive.sh: the kit refused ($log)" >&2; exit 1; }
}
for crate; do proved "$top/crates/$crate"; done
room=$(mktemp -d)
trap 'rm -rf "$room"' EXIT
trap 'exit 1' HUP INT TERM
mkdir -p "$room/crates/$name/src"
(cd "$top" && tar cf - --exclude=out crates) | (cd "$room" && tar xf -)
{ cat "$top/crates.txt"; echo "$name staticlib: $*"; } >"$room/crates.txt"
cp "$file" "$room/crates/$name/src/lib.rt"
proved "$room/crates/$name"
cp "$room/crates/$name/out/lib$name.a" "$out/lib$name.a"
