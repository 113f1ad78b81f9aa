#!/bin/sh
# bench/place.sh NAME COPY: makes bench/NAME a crate of COPY, a copy of this repository's crates and crates.txt.
set -eu
name=$1
copy=$2
top=$(cd "$(dirname "$0")/.." && pwd)
crate="$copy/crates/bench_$name"
mkdir -p "$crate/src"
cp "$top/bench/$name/main.rt.txt" "$crate/src/main.rt"
# FUNCTION.answers.txt is what is written of the proof of a function of the program
for answers in "$top/bench/$name"/*.answers.txt; do
    [ -e "$answers" ] || continue
    function=$(basename "$answers" .answers.txt)
    mkdir -p "$crate/proofs/$function"
    cp "$answers" "$crate/proofs/$function/Answers.antt"
done
echo "bench_$name: $(cat "$top/bench/$name/uses")" >>"$copy/crates.txt"
