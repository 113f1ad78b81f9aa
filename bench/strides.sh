#!/bin/sh
# Whether the rows of some picture widths push one another out of a cache: the misses of a first level of 32 KiB in 8 ways while whole
# samples are copied, a macroblock (384 bytes: 6 lines read and 6 written, where none is read twice), by cachegrind. The difference
# between three rounds and one is two rounds alone.
set -eu
top=$(cd "$(dirname "$0")/.." && pwd)
copy=$(mktemp -d)
trap 'rm -rf "$copy"' EXIT

crate="$copy/crates/bench_strides"
mkdir -p "$crate/src"
for name in avc_types avc_plane avc_samples avc_inter; do
    cp -a "$top/crates/$name" "$copy/crates"
    grep "^$name:" "$top/crates.txt" >>"$copy/crates.txt"
done
cp "$top/bench/strides/main.rt.txt" "$crate/src/main.rt"
echo "bench_strides: $(cat "$top/bench/strides/uses")" >>"$copy/crates.txt"
cd "$crate"
rt run -- 1 1 1 >"$copy/log" 2>&1 || {
    cat "$copy/log"
    exit 1
}

# misses of reading and of writing in so many rounds
misses() {
    valgrind --tool=cachegrind --cache-sim=yes --cachegrind-out-file=/dev/null --D1=32768,8,64 --LL=1048576,16,64 \
        out/bench_strides "$@" 2>&1 >/dev/null | sed -n 's/.*D1  misses: .*( *\([0-9,]*\) rd *+ *\([0-9,]*\) wr).*/\1 \2/p' | tr -d ,
}

for columns in ${*:-1888 1920 2048 1024 512 4096 352 176}; do
    width=$((columns / 16))
    # as many macroblocks at each width, or nearly
    height=$((8000 / width))
    echo "$columns $((width * height)) $(misses 1 "$width" "$height") $(misses 3 "$width" "$height")"
done | awk '
    {
        reads = ($5 - $3) / 2 / $2
        writes = ($6 - $4) / 2 / $2
        printf "%d columns: %.2f misses reading and %.2f writing a macroblock\n", $1, reads, writes
    }'
