#!/bin/sh
# Decodes IDR pictures of 352x288 of I_PCM macroblocks: counts processor instructions a byte of the stream by callgrind, and shows the most
# resident memory for 1 picture and for 300 (about 46 MB).
set -eu
top=$(cd "$(dirname "$0")/.." && pwd)
work=$(mktemp -d)
trap 'rm -rf "$work"' EXIT

# a sequence and a picture parameter set
sets() {
    printf '\000\000\000\001\147\102\300\012\332\005\202\121\000\000\000\001\150\316\070\200'
}

# 384 samples of 80
head -c 384 /dev/zero | tr '\000' 'P' >"$work/samples"
# what stands before the samples of each macroblock but the first: mb_type 25 and the alignment
{ printf '\015\000'; cat "$work/samples"; } >"$work/macroblock"
: >"$work/others"
for _ in $(seq 395); do cat "$work/macroblock"; done >"$work/others"

# one picture; of two that follow each other idr_pic_id differs
picture() {
    printf '\000\000\001\145\210'
    if [ $(($1 % 2)) = 0 ]; then printf '\204\206\200'; else printf '\202\041\240'; fi
    cat "$work/samples" "$work/others"
    printf '\200'
}

stream() {
    sets
    for n in $(seq "$1"); do picture "$n"; done
}

for n in 1 3 300; do stream "$n" >"$work/$n.264"; done
"$top/avcdec" compare --help >/dev/null
program=$top/crates/avc_cli/out/avc_cli

count() {
    valgrind --tool=callgrind --callgrind-out-file=/dev/null "$program" decode <"$work/$1.264" 2>&1 >/dev/null |
        sed -n 's/.*Collected : //p'
}

bytes=$(($(wc -c <"$work/3.264") - $(wc -c <"$work/1.264")))
echo "$(($(count 3) - $(count 1))) instructions for $bytes bytes" |
    awk '{ printf "%.1f instructions a byte\n", $1 / $4 }'

# the most resident memory, in KiB; the input stays open for a moment, so that it can be read off
resident() {
    { cat "$work/$1.264"; sleep 1; } | "$program" decode >/dev/null &
    most=0
    while now=$(sed -n 's/^VmHWM:[^0-9]*\([0-9]*\).*/\1/p' "/proc/$!/status" 2>/dev/null) && [ -n "$now" ]; do
        most=$now
        sleep 0.02
    done
    echo "$most"
}
echo "at most $(resident 1) KiB resident for 1 picture, $(resident 300) for 300"
