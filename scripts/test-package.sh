#!/bin/sh
# test-package.sh [CLONE]: tests what package.sh makes: the release, built twice, in this repository and in CLONE where one is named (another
# folder with the same commit), is the same byte for byte, has no path of the machine, and is used as its README says; Debian's packages are
# installed, used and removed, need the libc that they say, and lintian finds no error. Each part ends in a line 'N passed, M failed', or
# says that it was left out and why.
set -u
top=$(cd "$(dirname "$0")/.." && pwd)
other=${1:-$top}
cc=${CC:-cc}
# shellcheck source=scripts/say.sh
. "$top/scripts/say.sh"
# shellcheck source=scripts/counting.sh
. "$top/scripts/counting.sh"
work=$(mktemp -d)
trap 'hush; rm -rf "$work"' EXIT
trap 'exit 130' INT TERM
stream=$top/vectors/cases/gap
all_well=true
tests=package

# whether a program that wrote $work/out, told $work/told and ended with this status decoded the stream
is_decoded() {
    [ "$1" = 1 ] && cmp -s "$work/told" "$stream.refused" && [ "$(md5sum <"$work/out" | cut -d ' ' -f 1)" = "$(cut -d ' ' -f 1 <"$stream.md5")" ]
}

if ! git -C "$top" rev-parse HEAD >/dev/null 2>&1 || ! has rt; then
    left_out 'all of it' 'there is no repository, or no toolchain'
    exit 0
fi
cat >"$work/gate" <<'GATE'
test planes::keeps_what_is_set ... ok
rt: avc_sample_tests: its tests passed
95 passed, 0 failed
GATE
sed 's/0 failed/1 failed/' "$work/gate" >"$work/refused_gate"
version=$("$top/scripts/version.sh")
release=avcdec-$version
first=$work/first
second=$work/elsewhere/of/a/longer/name
during 'the release is made' "$top/scripts/package.sh" "$first" "$work/gate" || exit 1
during 'the release is made again' "$other/scripts/package.sh" "$second" "$work/gate" || exit 1

# whether the two have the same files with the same bytes; those that differ are named
is_the_same() {
    diff -r "$first" "$second"
}

# whether no path of this machine stands in a file, that of its toolchain neither; those where one does are named
has_no_path() {
    for path in "$work" "$top" "$other" "${HOME:-}/" "${TMPDIR:-/tmp}/" "$(dirname "$(rt doc)")"; do
        case $path in / | // | .) continue ;; esac
        if grep -r -a -l -F -e "$path" "$first/$release/bin" "$first/$release/lib" "$first/$release/include" "$first/$release/PROVED-BY.txt"; then return 1; fi
    done
}

has_its_sums() {
    (cd "$first" && sha256sum --quiet -c SHA256SUMS) && (cd "$work/unpacked/$release" && sha256sum --quiet -c SHA256SUMS)
}

names_the_gate() {
    grep -qx "commit: $(git -C "$top" rev-parse HEAD)\(, with changes\)\?" "$work/unpacked/$release/PROVED-BY.txt" &&
        grep -qx '95 passed, 0 failed' "$work/unpacked/$release/PROVED-BY.txt" && ! grep -q '^test ' "$work/unpacked/$release/PROVED-BY.txt"
}

refuses_a_gate_that_failed() {
    ! "$top/scripts/package.sh" "$work/none" "$work/refused_gate" 2>"$work/told" && grep -q '1 failed' "$work/told" && [ ! -e "$work/none/$release" ]
}

# the program; then the library by pkg-config, in the folder in which it was unpacked
is_used() {
    "$work/unpacked/$release/bin/avcdec" decode "$stream.264" >"$work/out" 2>"$work/told"
    is_decoded $? || return 1
    has pkg-config && has "$cc" || return 0
    words=$(PKG_CONFIG_PATH=$work/unpacked/$release/lib/pkgconfig pkg-config --cflags --libs avcdec) || return 1
    # shellcheck disable=SC2086
    "$cc" "$work/unpacked/$release/examples/c/decode.c" -o "$work/decode" $words || return 1
    LD_LIBRARY_PATH=$work/unpacked/$release/lib "$work/decode" "$stream.264" "$work/out" 2>"$work/told"
    is_decoded $?
}

part 'release'
mkdir "$work/unpacked"
tar -C "$work/unpacked" -xzf "$first/$release.tar.gz"
holds 'twice the same' is_the_same
holds 'no path of the machine' has_no_path
holds 'checksums' has_its_sums
holds 'the lines of the gate' names_the_gate
holds 'a gate that failed' refuses_a_gate_that_failed
holds 'use' is_used
told

if ! has dpkg-deb; then
    left_out "Debian's packages" 'there is no dpkg-deb'
    "$all_well"
    exit
fi

dpkg_in_root() {
    DPKG_ROOT=$root dpkg --root="$root" --log=/dev/null --force-not-root --force-script-chrootless "$@" >"$work/dpkg" 2>&1 || { cat "$work/dpkg"; return 1; }
}

# the packages are installed in a folder, where libc6 is taken for there, used, and removed without a rest
is_installed_and_removed() {
    root=$work/root
    rm -rf "$root"
    mkdir -p "$root/var/lib/dpkg/info" "$root/var/lib/dpkg/updates" "$root/var/lib/dpkg/triggers"
    : >"$root/var/lib/dpkg/status"
    dpkg_in_root --force-depends --install "$first"/*_amd64.deb || return 1
    for file in bin/avcdec lib/x86_64-linux-gnu/libavcdec.so lib/x86_64-linux-gnu/libavcdec.so.0 lib/x86_64-linux-gnu/libavcdec.a include/avcdec.h \
        lib/x86_64-linux-gnu/pkgconfig/avcdec.pc share/man/man1/avcdec.1.gz share/man/man3/libavcdec.3.gz share/doc/avcdec/README.md \
        share/doc/avcdec/behaviour.md share/doc/avcdec/faults.tsv share/doc/libavcdec0/copyright share/doc/libavcdec-dev/changelog.gz; do
        [ -e "$root/usr/$file" ] || { echo "no $file"; return 1; }
    done
    "$root/usr/bin/avcdec" decode <"$stream.264" >"$work/out" 2>"$work/told"
    is_decoded $? || return 1
    dpkg_in_root --purge avcdec libavcdec-dev libavcdec0 || return 1
    [ -z "$(find "$root" -path "$root/var" -prune -o ! -type d -print)" ]
}

# a processor that lacks an instruction is told so, and gets no package
asks_for_processor() {
    rm -rf "$work/control"
    dpkg-deb --control "$first/$1_${version}_amd64.deb" "$work/control"
    all='fpu sse2 pni ssse3 cx16 sse4_1 sse4_2 popcnt lahf_lm'
    for flag in pni ssse3 cx16 sse4_1 sse4_2 popcnt lahf_lm; do
        echo "flags		: $(echo "$all" | sed "s/ $flag//")" >"$work/cpuinfo"
        if AVCDEC_CPUINFO=$work/cpuinfo "$work/control/preinst" install 2>"$work/told"; then return 1; fi
        grep -q "x86-64-v2.*this one has no $flag," "$work/told" || return 1
    done
    echo "flags		: $all" >"$work/cpuinfo"
    AVCDEC_CPUINFO=$work/cpuinfo "$work/control/preinst" install && AVCDEC_CPUINFO=$work/none "$work/control/preinst" upgrade 0.1.0
}

# the least libc of a package: no symbol of its file has a later version
needs_its_libc() {
    least=$(dpkg-deb --field "$first/$1_${version}_amd64.deb" Depends | sed -n 's/.*libc6 (>= \([0-9.]*\)).*/\1/p')
    rm -rf "$work/content"
    dpkg-deb --extract "$first/$1_${version}_amd64.deb" "$work/content"
    objdump -T "$work/content/$2" | grep -o 'GLIBC_[0-9.]*' | sed 's/GLIBC_//' | sort -uV | tail -n 1 >"$work/latest"
    [ -n "$least" ] && [ "$least" = "$(cat "$work/latest")" ] && [ -z "$(nm "$work/content/$2" 2>/dev/null)" ]
}

finds_no_error() {
    lintian --fail-on error --tag-display-limit 0 "$first"/*.deb >"$work/told" 2>&1 || { cat "$work/told"; return 1; }
}

part "Debian's packages"
holds 'installed and removed' is_installed_and_removed
holds 'the processor, for the program' asks_for_processor avcdec
holds 'the processor, for the library' asks_for_processor libavcdec0
holds 'the libc of the program' needs_its_libc avcdec usr/bin/avcdec
holds 'the libc of the library' needs_its_libc libavcdec0 usr/lib/x86_64-linux-gnu/libavcdec.so.0
if has lintian; then
    holds 'lintian' finds_no_error
else
    left_out 'lintian' 'it is not there'
fi
told
"$all_well"
