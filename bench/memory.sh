#!/bin/sh
# Decodes 300 pictures of 352x288, nearly all of P slices (vectors/speed/cif.264 ten times), with the program: shows the most resident
# memory, and counts the allocations by valgrind.
set -eu
top=$(cd "$(dirname "$0")/.." && pwd)
stream=$(mktemp)
trap 'rm -f "$stream"' EXIT
for _ in 1 2 3 4 5 6 7 8 9 10; do cat "$top/vectors/speed/cif.264"; done >"$stream"
"$top/avcdec" compare --help >/dev/null
program=$top/crates/avc_cli/out/avc_cli
/usr/bin/time -f 'most resident memory: %M KiB' "$program" decode <"$stream" >/dev/null
valgrind "$program" decode <"$stream" 2>&1 >/dev/null | grep 'total heap usage'
