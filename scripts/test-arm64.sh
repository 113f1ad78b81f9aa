#!/bin/sh
# Tests the library for ARM64 as its callers have it: examples/c/decode.c, built by the cross compiler, decodes all streams under
# qemu-aarch64, plain and early; the shared library and the package for arm64 are looked at. The last line is 'library, ARM64: N passed, 0 failed', or
# says that it was left out and why. Debian's packages: qemu-user gcc-aarch64-linux-gnu libc6-dev-arm64-cross. CROSS_CC, CROSS_AR
# and CROSS_OBJCOPY name another cross compiler, SYSROOT its C library.
set -u
top=$(cd "$(dirname "$0")/.." && pwd)
# shellcheck source=scripts/say.sh
. "$top/scripts/say.sh"
# shellcheck source=scripts/counting.sh
. "$top/scripts/counting.sh"
cc=${CROSS_CC:-aarch64-linux-gnu-gcc}
ar=${CROSS_AR:-aarch64-linux-gnu-ar}
objcopy=${CROSS_OBJCOPY:-aarch64-linux-gnu-objcopy}
sysroot=${SYSROOT:-/usr/aarch64-linux-gnu}
vectors=$top/vectors
for tool in "$cc" "$ar" "$objcopy" qemu-aarch64; do
    if ! command -v "$tool" >/dev/null 2>&1; then
        echo "library, ARM64: left out: there is no $tool"
        exit 0
    fi
done
work=$(mktemp -d)
trap 'hush; rm -rf "$work"' EXIT
trap 'exit 130' INT TERM
in_part=ARM64
passed=0
failed=0

# ends where nothing more can be tried
stop() {
    echo "failed: ARM64: $1"
    echo "library, ARM64: $passed passed, $((failed + 1)) failed"
    exit 1
}

say 'the library for ARM64 is built, and decodes all streams under qemu-aarch64, for some minutes'
TARGET=aarch64-unknown-linux-gnu CC=$cc AR=$ar OBJCOPY=$objcopy "$top/scripts/install.sh" "$work/usr" || stop 'the library is not built'
library=$work/usr/lib/libavcdec.a

run() {
    qemu-aarch64 -L "$sysroot" "$@"
}

# whether a stream is decoded as is wanted: STREAM MD5 [--early]
is_decoded() {
    status=0
    text=/dev/null
    if [ -e "$1.refused" ]; then
        status=1
        text=$1.refused
    fi
    base=$1
    md5=$2
    shift 2
    run "$work/decode" "$@" "$base.264" "$work/out" 2>"$work/told"
    [ $? = $status ] && cmp -s "$text" "$work/told" && [ "$(md5sum <"$work/out" | cut -d ' ' -f 1)" = "$(cut -d ' ' -f 1 <"$md5")" ]
}

"$cc" -std=c99 -O2 -Wall -Wextra -Wpedantic -Werror -I"$work/usr/include" "$top/examples/c/decode.c" -o "$work/decode" "$library" ||
    stop 'examples/c/decode.c is not compiled'
reached 'the start'
tell_while cat "$work/reached"
for md5 in "$vectors"/*/*.md5; do
    base=${md5%.md5}
    [ -e "$base.264" ] || continue
    early=$base.early
    [ -e "$early" ] || early=$md5
    holds "$base" is_decoded "$base" "$md5"
    holds "$base --early" is_decoded "$base" "$early" --early
done

# the library for this machine is still the one for this machine
is_put_back() {
    [ ! -e "$top/crates/avc_c/out/libavc_c.a" ] || (cd "$work" && LIBRARY_ONLY=1 "$top/scripts/install.sh" "$work/own")
}

# whether a program with the shared library decodes
by_shared_library() {
    "$cc" -O2 -I"$work/usr/include" "$top/examples/c/decode.c" -o "$work/shared" -L"$work/usr/lib" -lavcdec || return 1
    qemu-aarch64 -L "$sysroot" -E LD_LIBRARY_PATH="$work/usr/lib" "$work/shared" "$vectors/encoder/pub_x_aud.264" "$work/out" 2>/dev/null
    [ "$(md5sum <"$work/out" | cut -d ' ' -f 1)" = "$(cut -d ' ' -f 1 <"$vectors/encoder/pub_x_aud.md5")" ]
}

is_packaged() {
    TARGET=aarch64-unknown-linux-gnu CC=$cc AR=$ar OBJCOPY=$objcopy "$top/scripts/debian.sh" "$work/debian" || return 1
    for package in "$work"/debian/*.deb; do
        [ "$(dpkg-deb --field "$package" Architecture)" = arm64 ] || return 1
    done
    # grep reads on to the end, so that dpkg-deb does not speak of a broken pipe
    dpkg-deb --contents "$work"/debian/libavcdec0_*.deb | grep './usr/lib/aarch64-linux-gnu/libavcdec.so.0' >/dev/null &&
        dpkg-deb --contents "$work"/debian/libavcdec-dev_*.deb | grep './usr/lib/aarch64-linux-gnu/libavcdec.a' >/dev/null &&
        [ "$(find "$work/debian" -name '*.deb' | wc -l)" = 2 ]
}

holds 'the shared library' by_shared_library
holds 'the library of x86-64 beside it' is_put_back
if command -v dpkg-deb >/dev/null 2>&1; then
    holds 'the package for arm64' is_packaged
else
    echo 'library, ARM64, the package: left out: there is no dpkg-deb'
fi
echo "library, ARM64: $passed passed, $failed failed"
[ "$failed" = 0 ] && [ "$passed" -gt 0 ]
