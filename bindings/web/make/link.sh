#!/bin/sh
# link.sh IN.ll OUT.wasm wasm32|wasm64: takes the LLVM module of the library to WebAssembly, optimizes it, compiles it and links it with its heap.
#
# LLVM's optimizer asks the target what vectors cost. WebAssembly's answers leave much arithmetic of samples in single bytes, which is a fifth
# slower; so while it optimizes, the target is ARM64 with addresses of as many bits, whose vectors have 16 bytes too. Where a function often
# has nothing to do, what it asks first is made part of its callers (partial inlining): a call costs more here than on a processor. Products
# whose factors don't change in a loop are left where they stand: taken together before it, they kept samples of chroma from vectors.
set -eu
here=$(cd "$(dirname "$0")" && pwd)
clang=$(dirname "$(rt doc)")/toolchain/bin/clang
in=$1
out=$2
kind=$3
work=$(mktemp -d)
trap 'rm -rf "$work"' EXIT
python3 "$here/port.py" "$in" "$work/library.ll" "$kind"
case $kind in
wasm64) costs=arm64-apple-ios ;;
*) costs=arm64_32-apple-watchos ;;
esac
# makes the target of a module the one that another names: MODULE OTHER OUT
aim() {
    awk 'NR == FNR { if (/^target /) line[$2] = $0; next } /^target / { $0 = line[$2] } { print }' "$2" "$1" >"$3"
}
echo | "$clang" "--target=$costs" -x c -S -emit-llvm -o "$work/costs.ll" -
aim "$work/library.ll" "$work/costs.ll" "$work/plain.ll"
"$clang" "--target=$costs" -O3 --no-default-config -mllvm -sink-common-insts=false -mllvm -licm-max-num-int-reassociations=0 \
    -mllvm -enable-partial-inlining \
    -Wno-override-module -x ir "$work/plain.ll" -S -emit-llvm -o "$work/optimized.ll"
aim "$work/optimized.ll" "$work/library.ll" "$work/aimed.ll"
python3 "$here/tune.py" "$work/aimed.ll" "$work/ready.ll" "$kind"
if grep -E -n '@llvm\.aarch64|target-(cpu|features)' "$work/ready.ll"; then
    echo 'link.sh: the optimized module has something of ARM64' >&2
    exit 1
fi
compile() {
    "$clang" "--target=$kind-unknown-unknown" -mcpu=lime1 -msimd128 -O3 -ffunction-sections -fdata-sections --no-default-config "$@"
}
# the flags beside these are those that the toolchain itself gives its clang for WebAssembly
compile -mllvm -expand-div-rem-bits=64 -mllvm -expand-fp-convert-bits=64 -mllvm -trap-unreachable -mllvm -no-x86-call-frame-opt \
    -mllvm -disable-machine-licm -mllvm -disable-postra-machine-licm \
    -Wno-override-module -Xclang -disable-llvm-passes -c -x ir "$work/ready.ll" -o "$work/library.o"
for name in heap multi3; do
    compile -ffreestanding -fno-builtin -nostdinc -Wall -Wextra -Werror -c "$here/$name.c" -o "$work/$name.o"
done
case $kind in
wasm64) memory=-mwasm64 ;;
*) memory=--max-memory=4294901760 ;;
esac
# wasm-ld is the toolchain's clang under that name
ln -s "$clang" "$work/wasm-ld"
stack=1048576
unused=65536 # tune.py wants so many bytes at the stack's end that nothing comes to
"$work/wasm-ld" "$memory" --no-entry --stack-first -z stack-size=$stack --export=avcdec_allocate --export=avcdec_release --gc-sections \
    --fatal-warnings --threads=1 --strip-all -o "$work/module.wasm" "$work/library.o" "$work/heap.o" "$work/multi3.o"
python3 "$here/stack.py" "$work/module.wasm" $((stack - unused))
cp "$work/module.wasm" "$out"
echo "$out: $(wc -c <"$out") bytes"
