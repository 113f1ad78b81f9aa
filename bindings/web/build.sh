#!/bin/sh
# build.sh [FILE] [wasm32|wasm64]: makes the module of the proved library for pages, bindings/web/avcdec.wasm unless named, with addresses of
# 32 bits unless asked. What is not proved yet is proved first. Wants rt, python3, and wasm-objdump (Debian: wabt), by which the stack is
# bounded.
#
# The toolchain's own clang is stood before, so that the module of the whole library that the toolchain gives it, not yet optimized, is
# kept: that is taken to WebAssembly by make/port.py. README.md says what is trusted by this.
set -eu
here=$(cd "$(dirname "$0")" && pwd)
top=$(cd "$here/../.." && pwd)
out=${1:-$here/avcdec.wasm}
kind=${2:-wasm32}
case $kind in
wasm32 | wasm64) ;;
*)
    echo 'usage: bindings/web/build.sh [FILE] [wasm32|wasm64]' >&2
    exit 2
    ;;
esac
for tool in rt python3 wasm-objdump; do
    command -v "$tool" >/dev/null || {
        echo "build.sh: $tool is wanted" >&2
        exit 1
    }
done
kit=$(dirname "$(rt doc)")
work=$(mktemp -d)
trap 'rm -rf "$work"' EXIT

# a toolchain whose clang keeps the module
mkdir -p "$work/tool/bin" "$work/kept"
for name in clang ld.lld llvm-ar; do
    cat >"$work/tool/bin/$name" <<TOOL
#!/bin/sh
if [ -f module.bc ]; then cp module.bc "$work/kept/module.bc"; fi
exec "$kit/toolchain/bin/$name" "\$@"
TOOL
    chmod 755 "$work/tool/bin/$name"
done
ln -s "$kit/toolchain/bin/rattle-x64" "$work/tool/bin/rattle-x64"
ln -s "$kit/toolchain/lib" "$work/tool/lib"

# the library, proved and built
"$top/scripts/prove.py" --toolchain "$work/tool" --to "$work" avc_c >&2
clang=$kit/toolchain/bin/clang
"$clang" --target=x86_64-unknown-linux-gnu -x ir "$work/kept/module.bc" -S -emit-llvm -Xclang -disable-llvm-passes -O3 -o "$work/library.ll"
"$here/make/link.sh" "$work/library.ll" "$out" "$kind" >&2
