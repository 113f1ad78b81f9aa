#!/bin/sh
# time.sh [--runs N] [--times K] [--instructions] [STREAM ..]: what decoding takes without a decoder's start, processor time and memory, of
# the program and the C example, beside libavcodec (with its assembly and without) and openh264 where Debian's libavcodec-dev,
# libavutil-dev and libopenh264-dev are there; by default of the streams of vectors/speed. All take turns, 15 times, on one processor
# each: run it on a machine without other work. Wants Python and a C and C++ compiler; for --instructions valgrind.
set -eu
top=$(cd "$(dirname "$0")/.." && pwd)
work=$(mktemp -d)
trap 'rm -rf "$work"' EXIT
options=
while [ $# -gt 0 ]; do
    case $1 in
    --runs | --times) options="$options $1 $2" && shift 2 ;;
    --instructions) options="$options $1" && shift ;;
    *) break ;;
    esac
done
if [ $# -eq 0 ]; then
    for name in still call cif 720p 1080i; do
        set -- "$@" "$top/vectors/speed/$name.264"
    done
fi
"$top/avcdec" compare --help >/dev/null
LIBRARY_ONLY=1 "$top/scripts/install.sh" "$work/prefix" >/dev/null 2>&1
cc -O2 -o "$work/decode" "$top/examples/c/decode.c" -I "$work/prefix/include" "$work/prefix/lib/libavcdec.a"

# a peer's driver, where what it needs is there
peer() {
    if "$@" 2>"$work/said"; then return 0; fi
    echo "bench/time.sh: left out, since it does not build: $*" >&2
    return 1
}
has_libavcodec=false has_openh264=false
peer cc -O2 -o "$work/libavcodec" "$top/bench/peers/libavcodec.c" -lavcodec -lavutil && has_libavcodec=true
peer c++ -O2 -o "$work/openh264" "$top/bench/peers/openh264.cpp" -lopenh264 && has_openh264=true

list=$work/commands
{
    echo "program=$top/crates/avc_cli/out/avc_cli decode {}"
    echo "C example=$work/decode {} /dev/null"
    if $has_libavcodec; then
        echo "peer libavcodec=$work/libavcodec {} /dev/null"
        echo "libavcodec, plain C=$work/libavcodec {} /dev/null -c"
    fi
    if $has_openh264; then echo "peer openh264=$work/openh264 {} /dev/null"; fi
} >"$list"
# shellcheck disable=SC2086 # the options are words
python3 "$top/bench/time.py" $options "$list" "$@"
