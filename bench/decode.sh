#!/bin/sh
# Decodes a stream with the program, vectors/speed/1080i.264 unless another is named, and counts processor instructions by callgrind: in
# all, and by function where they are a hundredth or more.
set -eu
top=$(cd "$(dirname "$0")/.." && pwd)
stream=${1:-$top/vectors/speed/1080i.264}
counts=$(mktemp)
trap 'rm -f "$counts"' EXIT
"$top/avcdec" compare --help >/dev/null
valgrind --tool=callgrind --callgrind-out-file="$counts" "$top/crates/avc_cli/out/avc_cli" decode <"$stream" >/dev/null 2>&1
callgrind_annotate "$counts" | grep -E '^ *[0-9,]+ \(( *[1-9][0-9]?|100)\.[0-9]+%\)'
