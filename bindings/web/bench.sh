#!/bin/sh
# bench.sh [SECONDS]: pictures a second of the library on this machine, of the module in Node and in Chromium (wasm32 and wasm64), and of Chromium's own
# VideoDecoder in software, on the streams of vectors/speed, as a table: the best run in so many seconds (3), early output, whole access units. In each place
# stands what comes where each picture's planes are looked at where they lie, and where each is copied as I420 (by copyTo, of VideoDecoder). The columns
# before the last divide pictures in a second of the processor (of the thread that decodes, looked at, taken in turns) by the library's. Then a table
# of files with each stream sixteen times and more, whose start doesn't count, copied: by decodeSequences in one worker and in as many as there are
# processors, beside VideoDecoder (with optimizeForLatency or without, whichever is faster). Then a table of AvcVideoDecoder in a worker beside
# VideoDecoder, configured for each run over a stream, each frame copied, in turns. Then the module's size. Wants a machine without other work, and
# a quarter of an hour beside building.
set -eu
here=$(cd "$(dirname "$0")" && pwd)
top=$(cd "$here/../.." && pwd)
work=$(mktemp -d)
trap 'rm -rf "$work"' EXIT
trap 'exit 130' INT TERM
seconds=${1:-3}
for kind in wasm32 wasm64; do
    "$here/build.sh" "$work/avcdec.$kind.wasm" $kind
done
LIBRARY_ONLY=1 "$top/scripts/install.sh" "$work/usr"
"${CC:-cc}" -O2 -I"$work/usr/include" "$here/tests/bench.c" -o "$work/bench" "$work/usr/lib/libavcdec.a"
{
    for name in call cif 720p 1080i still; do
        for way in read copied; do
            echo "native $name $way $("$work/bench" "$top/vectors/speed/$name.264" "$seconds" $way)"
        done
    done
    node --experimental-wasm-memory64 "$here/tests/bench.mjs" "$work" "$seconds"
} | tee "$work/told" >&2

# a number of the list, and what part it is of another
awk '
{ rate[$1, $2, $3] = $4 }
function both(way, name) { return (way, name, "read") in rate ? sprintf("%.0f / %.0f", rate[way, name, "read"], rate[way, name, "copied"]) : "-" }
function one(way, name) { return sprintf("%.0f", rate["chromium-file-" way, name, "copied"]) }
function part(way, of, name, how) { return (way, name, how) in rate && rate[of, name, how] > 0 ? sprintf("%.2f", rate[way, name, how] / rate[of, name, how]) : "-" }
END {
    print "| Stream | native | Node, wasm32 | Node, wasm64 | Chromium, wasm32 | Chromium, wasm64 | WebCodecs | wasm32 of native | of native by the processor, Node | Chromium | wasm32 of WebCodecs, copied |"
    print "|---|---|---|---|---|---|---|---|---|---|---|"
    count = split("call cif 720p 1080i still", names, " ")
    ways = split("native node-wasm32 node-wasm64 chromium-wasm32 chromium-wasm64 chromium-WebCodecs", way, " ")
    for (i = 1; i <= count; i++) {
        line = "| " names[i] " |"
        for (j = 1; j <= ways; j++) line = line " " both(way[j], names[i]) " |"
        print line " " part("chromium-wasm32", "native", names[i], "read") " | " part("node-wasm32", "native", names[i], "cpu") " | " part("chromium-wasm32", "native", names[i], "cpu") " | " part("chromium-wasm32", "chromium-WebCodecs", names[i], "copied") " |"
    }
    print ""
    print "| File of | one worker | all workers | VideoDecoder | one of VideoDecoder | all |"
    print "|---|---|---|---|---|---|"
    for (i = 1; i <= count; i++) {
        name = names[i]
        print "| " name " | " one("one", name) " | " one("all", name) " | " one("WebCodecs", name) " | " part("chromium-file-one", "chromium-file-WebCodecs", name, "copied") " | " part("chromium-file-all", "chromium-file-WebCodecs", name, "copied") " |"
    }
    print ""
    print "| Stream | AvcVideoDecoder | VideoDecoder | of it |"
    print "|---|---|---|---|"
    for (i = 1; i <= count; i++) {
        name = names[i]
        ours = rate["chromium-shape", name, "ours"]
        theirs = rate["chromium-shape", name, "theirs"]
        if (theirs > 0) printf "| %s | %.0f | %.0f | %.2f |\n", name, ours, theirs, ours / theirs
    }
}' "$work/told"
for kind in wasm32 wasm64; do
    file=$work/avcdec.$kind.wasm
    set -- "$(wc -c <"$file")" "$(gzip -9c "$file" | wc -c)"
    if command -v brotli >/dev/null 2>&1; then set -- "$@" "$(brotli -9c "$file" | wc -c)"; fi
    echo "$kind: $1 bytes, gzip -9 $2${3:+, brotli -9 $3}"
done
