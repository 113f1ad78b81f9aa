#!/bin/sh
# install.sh PREFIX: installs the program and the library below PREFIX: bin/avcdec, lib/libavcdec.a, lib/libavcdec.so,
# include/avcdec.h, lib/pkgconfig/avcdec.pc, share/man/man3/libavcdec.3, share/man/man1/avcdec.1, share/bash-completion/completions/avcdec,
# and in share/doc/avcdec README.md, CHANGELOG.md, behaviour.md and the list of faults, faults.tsv.
# What is not proved and built yet is so first, by scripts/prove.py.
#
# DESTDIR, where it is set, stands before PREFIX, as packages want it. LIBDIR is the library's folder below PREFIX, lib unless named.
# LIBRARY_ONLY=1 leaves the program out. CC is the C compiler, AR and OBJCOPY binutils' ar and objcopy.
#
# X86_64_V3=1 builds both for x86-64-v3 too, whose processors have AVX2. The loader takes the shared library for it by itself, from
# glibc-hwcaps/x86-64-v3 in the library's folder; bin/avcdec then is a program that runs the one of libexec/avcdec that fits the processor.
#
# TARGET=aarch64-unknown-linux-gnu proves and builds the library for ARM64, over what is proved already; CC, AR and OBJCOPY are then the
# cross compiler's (aarch64-linux-gnu-gcc, -ar and -objcopy unless named). There is no program for it: the toolchain has the C code that its
# programs are linked with for x86-64 alone.
set -eu
if [ $# -ne 1 ]; then
    echo 'usage: scripts/install.sh PREFIX' >&2
    exit 2
fi
top=$(cd "$(dirname "$0")/.." && pwd)
# shellcheck source=scripts/say.sh
. "$top/scripts/say.sh"
prefix=$1
to=${DESTDIR:-}$prefix
libdir=${LIBDIR:-lib}
target=${TARGET:-x86_64-unknown-linux-gnu}
case $target in
x86_64-unknown-linux-gnu)
    cc=${CC:-cc}
    ar=${AR:-ar}
    objcopy=${OBJCOPY:-objcopy}
    # the level that the proved code is built for; where a processor has less, the loader says so and starts nothing
    level=-Wl,-z,x86-64-v2
    ;;
aarch64-unknown-linux-gnu)
    cc=${CC:-aarch64-linux-gnu-gcc}
    ar=${AR:-aarch64-linux-gnu-ar}
    objcopy=${OBJCOPY:-aarch64-linux-gnu-objcopy}
    level=
    LIBRARY_ONLY=1
    X86_64_V3=
    ;;
*)
    echo "install.sh: no such target: $target" >&2
    exit 2
    ;;
esac
work=$(mktemp -d)
trap 'hush; rm -rf "$work"' EXIT
trap 'exit 130' INT TERM

# the version that the header tells
number() {
    sed -n "s/^#define AVCDEC_VERSION_$1 //p" "$top/include/avcdec.h"
}
major=$(number MAJOR)
version=$major.$(number MINOR).$(number PATCH)

# whether a file is older than what it is made of
is_old() {
    [ ! -e "$1" ] || [ -n "$(find "$top/crates.txt" "$top"/crates/*/src "$top"/crates/*/specs "$top"/crates/*/proofs -newer "$1" -print | head -n 1)" ]
}

# build_if_old FILE WORDS..: the file is proved and built with these words of prove.py
build_if_old() {
    file=$1
    shift
    if is_old "$file"; then "$top/scripts/prove.py" "$@" >&2; fi
}

out=$top/crates/avc_c/out
program=$top/crates/avc_cli/out/avc_cli
library_v3=$out/x86-64-v3/libavc_c.a
program_v3=$top/crates/avc_cli/out/x86-64-v3/avc_cli
say "to $to"
# the whole program, which alone has `compare`
if [ -z "${LIBRARY_ONLY:-}" ]; then "$top/avcdec" compare --help >/dev/null; fi
if [ "$target" = x86_64-unknown-linux-gnu ]; then
    library=$out/libavc_c.a
    build_if_old "$library" avc_c
else
    library=$out/$target/libavc_c.a
    build_if_old "$library" --target "$target" avc_c
fi
if [ -n "${X86_64_V3:-}" ]; then
    build_if_old "$library_v3" --cpu x86-64-v3 avc_c
    if [ -z "${LIBRARY_ONLY:-}" ]; then build_if_old "$program_v3" --cpu x86-64-v3 avc_cli; fi
fi
"$cc" -O2 -fPIC -Wall -Wextra -I "$top/include" -c "$top/bindings/c/heap.c" -o "$work/heap.o"

# the static library: the proved code and the heap, as one object of which only the names of the header are seen, so that two such
# libraries stand in one program
"$cc" -r -nostdlib -o "$work/avcdec.o" ${level:+"$level"} -Wl,--whole-archive "$library" -Wl,--no-whole-archive "$work/heap.o"
"$objcopy" --wildcard --keep-global-symbol='avcdec_*' "$work/avcdec.o"
"$ar" rcsD "$work/libavcdec.a" "$work/avcdec.o"

# the shared library of these objects: of all names only those of the header are seen
share() {
    out=$1
    shift
    "$cc" -shared -o "$out" -Wl,-soname,"libavcdec.so.$major" -Wl,--version-script="$top/bindings/c/avcdec.map" -Wl,-z,relro,-z,now \
        -Wl,--whole-archive "$@" -Wl,--no-whole-archive -Wl,--no-undefined
}

share "$work/libavcdec.so" "$work/libavcdec.a"
if [ -n "${X86_64_V3:-}" ]; then share "$work/libavcdec.v3.so" "$library_v3" "$work/heap.o" -Wl,-z,x86-64-v3; fi

sed "s|@PREFIX@|$prefix|; s|@LIBDIR@|$libdir|; s|@VERSION@|$version|" "$top/bindings/c/avcdec.pc.in" >"$work/avcdec.pc"
"$top/scripts/faults.sh" >"$work/faults.tsv"

mkdir -p "$to/include" "$to/$libdir/pkgconfig" "$to/share/man/man3" "$to/share/doc/avcdec"
install -m 644 "$top/include/avcdec.h" "$to/include/avcdec.h"
install -m 644 "$work/libavcdec.a" "$to/$libdir/libavcdec.a"
install -m 644 "$work/libavcdec.so" "$to/$libdir/libavcdec.so.$version"
ln -sf "libavcdec.so.$version" "$to/$libdir/libavcdec.so.$major"
ln -sf "libavcdec.so.$major" "$to/$libdir/libavcdec.so"
if [ -n "${X86_64_V3:-}" ]; then
    mkdir -p "$to/$libdir/glibc-hwcaps/x86-64-v3"
    install -m 644 "$work/libavcdec.v3.so" "$to/$libdir/glibc-hwcaps/x86-64-v3/libavcdec.so.$version"
    ln -sf "libavcdec.so.$version" "$to/$libdir/glibc-hwcaps/x86-64-v3/libavcdec.so.$major"
fi
install -m 644 "$work/avcdec.pc" "$to/$libdir/pkgconfig/avcdec.pc"
install -m 644 "$top/docs/libavcdec.3" "$to/share/man/man3/libavcdec.3"
install -m 644 "$top/README.md" "$top/CHANGELOG.md" "$top/docs/behaviour.md" "$work/faults.tsv" "$to/share/doc/avcdec"
if [ -z "${LIBRARY_ONLY:-}" ]; then
    mkdir -p "$to/bin" "$to/share/man/man1" "$to/share/bash-completion/completions"
    if [ -n "${X86_64_V3:-}" ]; then
        mkdir -p "$to/libexec/avcdec/x86-64-v2" "$to/libexec/avcdec/x86-64-v3"
        install -m 755 "$program" "$to/libexec/avcdec/x86-64-v2/avcdec"
        install -m 755 "$program_v3" "$to/libexec/avcdec/x86-64-v3/avcdec"
        "$cc" -O2 -Wall -Wextra "$top/bindings/c/by_level.c" -o "$work/by_level"
        install -m 755 "$work/by_level" "$to/bin/avcdec"
    else
        install -m 755 "$program" "$to/bin/avcdec"
    fi
    install -m 644 "$top/docs/avcdec.1" "$to/share/man/man1/avcdec.1"
    install -m 644 "$top/docs/avcdec.bash" "$to/share/bash-completion/completions/avcdec"
fi
