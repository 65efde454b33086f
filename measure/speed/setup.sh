#!/bin/sh
# Sets up, in a folder, what it takes to compare x86-64 programs by guest instructions on any Debian bookworm:
#   DIR/rustc   an x86-64 Rust compiler (Debian's rustc-web 1.96, whose float sums start at -0 as 1.95's do; where the machine is no
#               x86-64 it is unpacked beside the x86-64 standard library, and the machine's own packages stay as they are)
#   DIR/own-rustc  the same compiler for the machine itself: macros run inside the compiler
#   DIR/cc      a C compiler and linker for x86-64
#   DIR/count   runs an x86-64 program under qemu-user and says on standard error how many instructions it took; the processor is that
#               of the variable CPU (qemu64 unless said), with what x86-64-v2 has, for which the kit compiles
# Usage: setup.sh [DIR]      (target/speed of the repository unless said; run as root, for apt-get)
# A folder that is ready is left as it is. Then, for example:  DIR/rustc -O main.rs -o main && CPU=Haswell DIR/count ./main
set -eu
[ $# -le 1 ] || { echo "usage: setup.sh [DIR]" >&2; exit 2; }
here=$(cd "$(dirname "$0")" && pwd)
dir=${1:-$here/../../target/speed}
mkdir -p "$dir"
dir=$(cd "$dir" && pwd)
cat >"$dir/count" <<END
#!/bin/sh
exec qemu-x86_64 -cpu "\${CPU:-qemu64},+ssse3,+sse4.1,+sse4.2,+popcnt" -plugin "$dir/icount.so" "\$@"
END
chmod +x "$dir/count"
[ ! -f "$dir/ready" ] || [ ! -x "$dir/own-rustc" ] || exit 0
command -v apt-get >/dev/null || { echo "setup.sh: no apt-get: this is for a Debian" >&2; exit 1; }
own=$(dpkg --print-architecture)
tools="qemu-user gcc libc6-dev"
[ "$own" = amd64 ] || tools="$tools gcc-x86-64-linux-gnu libc6-dev-amd64-cross"
export DEBIAN_FRONTEND=noninteractive
apt-get update -qq
# shellcheck disable=SC2086
apt-get install -y -qq $tools >/dev/null

# Rust, by an apt of its own that knows both processors.
status=
eval "$(apt-config shell status Dir::State::status/f)"
mkdir -p "$dir/state/lists/partial" "$dir/cache/archives/partial" "$dir/debs" "$dir/root"
private() {
    "$@" -qq -o Dir::State="$dir/state" -o Dir::State::status="$status" -o Dir::Cache="$dir/cache" \
        -o APT::Architectures::="$own" -o APT::Architectures::=amd64 -o APT::Sandbox::User=root
}
private apt-get update
cd "$dir/debs"
for p in rustc-web libstd-rust-web-dev libstd-rust-web-dev:amd64 libllvm22 libstd-rust-web-1.96; do private apt-get download "$p"; done
for d in "$dir"/debs/*.deb; do dpkg -x "$d" "$dir/root"; done
libraries=$(find "$dir/root" \( -name 'libLLVM*.so*' -o -name 'librustc_driver*.so' \) -exec dirname {} \; | sort -u | tr '\n' ':')

# The C library's libm.a is a linker script with paths of its own, which the cross linker can't follow: the library itself goes first.
mkdir -p "$dir/fix"
for l in "$(dirname "$(x86_64-linux-gnu-gcc -print-file-name=libm.a)")"/libm-*.a; do [ ! -f "$l" ] || ln -sf "$l" "$dir/fix/libm.a"; done
cat >"$dir/cc" <<END
#!/bin/sh
exec x86_64-linux-gnu-gcc -L"$dir/fix" "\$@"
END
cat >"$dir/rustc" <<END
#!/bin/sh
LD_LIBRARY_PATH=$libraries exec "$dir/root/usr/bin/rustc" --sysroot "$dir/root/usr" --target x86_64-unknown-linux-gnu -C linker="$dir/cc" -C target-feature=+crt-static "\$@"
END
cat >"$dir/own-rustc" <<END
#!/bin/sh
LD_LIBRARY_PATH=$libraries exec "$dir/root/usr/bin/rustc" --sysroot "$dir/root/usr" -C linker=gcc "\$@"
END
gcc -O2 -shared -fPIC -o "$dir/icount.so" "$here/icount.c"
chmod +x "$dir/cc" "$dir/rustc" "$dir/own-rustc"
: >"$dir/ready"
echo "ready: $dir/rustc, $dir/cc, $dir/count" >&2
