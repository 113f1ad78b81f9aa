#!/bin/sh
# debian.sh FOLDER: makes Debian's packages of what install.sh installs, in FOLDER: libavcdec0 (the shared library), libavcdec-dev (header,
# static library, manual) and avcdec (the program). TARGET, CC, AR and OBJCOPY are those of install.sh; for ARM64 there is no program.
# Wants dpkg-deb and binutils; STRIP is binutils' strip for the target.
#
# Dates are those of the commit, or SOURCE_DATE_EPOCH; the maintainer is DEBFULLNAME <DEBEMAIL>, else the commit's author. So two builds of
# one commit with the same compiler are the same byte for byte.
set -eu
umask 022
export LC_ALL=C
if [ $# -ne 1 ]; then
    echo 'usage: scripts/debian.sh FOLDER' >&2
    exit 2
fi
top=$(cd "$(dirname "$0")/.." && pwd)
mkdir -p "$1"
folder=$(cd "$1" && pwd)
work=$(mktemp -d)
trap 'rm -rf "$work"' EXIT
trap 'exit 130' INT TERM
case ${TARGET:-} in
aarch64-*)
    architecture=arm64
    triplet=aarch64-linux-gnu
    strip=${STRIP:-aarch64-linux-gnu-strip}
    ;;
*)
    architecture=amd64
    triplet=x86_64-linux-gnu
    strip=${STRIP:-strip}
    ;;
esac
SOURCE_DATE_EPOCH=${SOURCE_DATE_EPOCH:-$(git -C "$top" log -1 --format=%ct)}
export SOURCE_DATE_EPOCH DPKG_DEB_THREADS_MAX=1
maintainer="${DEBFULLNAME:-$(git -C "$top" log -1 --format=%an)} <${DEBEMAIL:-$(git -C "$top" log -1 --format=%ae)}>"
version=$("$top/scripts/version.sh")
major=${version%%.*}
libdir=usr/lib/$triplet

DESTDIR=$work/all LIBDIR=lib/$triplet "$top/scripts/install.sh" /usr
cd "$work"
gzip -9n all/usr/share/man/man?/*
"$strip" --strip-debug --enable-deterministic-archives "all/$libdir/libavcdec.a"
"$strip" --strip-unneeded "all/$libdir/libavcdec.so.$version"
[ ! -e all/usr/bin/avcdec ] || "$strip" --strip-all all/usr/bin/avcdec

# the packages that a file needs, with the least libc that has the versions of its symbols
needed() {
    for library in $(readelf --dynamic --wide "$1" | sed -n 's/.*(NEEDED).*\[\(.*\)\]/\1/p'); do
        case $library in
        libc.so.* | libm.so.* | libdl.so.* | libpthread.so.* | ld-linux*) ;;
        libgcc_s.so.1) echo 'libgcc-s1' ;;
        *)
            echo "debian.sh: no package is known that has $library" >&2
            return 1
            ;;
        esac
    done
    echo "libc6 (>= $(readelf --version-info --wide "$1" | grep -o 'GLIBC_[0-9][0-9.]*' | sed 's/GLIBC_//' | sort -uV | tail -n 1))"
}

# the field of the packages that a file needs
depends() {
    names=$(needed "$1")
    depends="Depends: $(echo "$names" | paste -s -d , - | sed 's/,/, /g')"
}

# moves these files of what was installed into a package
takes() {
    package=$1
    shift
    for file in "$@"; do
        mkdir -p "$work/$package/$(dirname "$file")"
        mv "all/$file" "$package/$file"
    done
}

# what each package has: changes, and what is known of its rights
documents() {
    mkdir -p "$1/usr/share/doc/$1"
    {
        printf 'avcdec (%s) unstable; urgency=medium\n\n' "$version"
        awk -v title="## $version" 'index($0, "## ") == 1 { on = index($0, title) == 1; next } on && NF { sub(/^- /, "* "); sub(/^  /, ""); print }' \
            "$top/CHANGELOG.md" | fold -s -w 74 | sed 's/ *$//; s/^[^*]/  &/; s/^/  /'
        printf '\n -- %s  %s\n' "$maintainer" "$(date -u -R -d "@$SOURCE_DATE_EPOCH")"
    } | gzip -9n >"$1/usr/share/doc/$1/changelog.gz"
    cat >"$1/usr/share/doc/$1/copyright" <<COPYRIGHT
Format: https://www.debian.org/doc/packaging-manuals/copyright-format/1.0/
Upstream-Name: avcdec
Upstream-Contact: $maintainer
Comment: No licence is given yet. The owner of avcdec chooses one; until then
 whoever has this package may use it as far as the owner has allowed. Program
 and library also hold compiled code of the library of the toolchain Rattle.

Files: *
Copyright: $(date -u -d "@$SOURCE_DATE_EPOCH" +%Y) the authors of avcdec
License: not-given-yet
 No licence is given yet.
COPYRIGHT
}

# A processor that lacks an instruction of the code would end the program without a word, so such a one gets no package. Where nothing is
# known of it, as in a machine of another kind that emulates this one, nothing is asked. AVCDEC_CPUINFO names another list of flags, as of
# the machine for which a disk is made.
asks_for_processor() {
    [ "$architecture" = amd64 ] || return 0
    cat >"$1/DEBIAN/preinst" <<'PREINST'
#!/bin/sh
set -e
case $1 in
install | upgrade)
    flags=$(sed -n '/^flags[[:space:]]*:/{s/^[^:]*://p;q}' "${AVCDEC_CPUINFO:-/proc/cpuinfo}" 2>/dev/null || true)
    if [ -n "$flags" ]; then
        for flag in pni ssse3 sse4_1 sse4_2 popcnt cx16 lahf_lm; do
            case " $flags " in
            *" $flag "*) ;;
            *)
                echo "avcdec is built for x86-64-v2, as processors since 2009 have it; this one has no $flag, so it is not installed." >&2
                exit 1
                ;;
            esac
        done
    fi
    ;;
esac
PREINST
    chmod 755 "$1/DEBIAN/preinst"
}

# closes a package: its name, section and the rest of its fields, which come on standard input
closes() {
    mkdir -p "$1/DEBIAN"
    documents "$1"
    (cd "$1" && find usr -type f -print0 | sort -z | xargs -0 md5sum) >"$1/DEBIAN/md5sums"
    {
        printf 'Package: %s\nSource: avcdec\nVersion: %s\nArchitecture: %s\nMaintainer: %s\n' "$1" "$version" "$architecture" "$maintainer"
        printf 'Installed-Size: %s\nSection: %s\nPriority: optional\n' "$(find "$1/usr" -type f -printf '%s\n' | awk '{ kib += int(($1 + 1023) / 1024) } END { print kib }')" "$2"
        cat
    } >"$1/DEBIAN/control"
    dpkg-deb --root-owner-group -Zxz --build "$1" "$folder/${1}_${version}_$architecture.deb" >/dev/null
}

takes "libavcdec$major" "$libdir/libavcdec.so.$version" "$libdir/libavcdec.so.$major"
mkdir -p "libavcdec$major/DEBIAN"
printf 'libavcdec %s libavcdec%s (>= %s)\n' "$major" "$major" "$version" >"libavcdec$major/DEBIAN/shlibs"
printf 'activate-noawait ldconfig\n' >"libavcdec$major/DEBIAN/triggers"
asks_for_processor "libavcdec$major"
depends "libavcdec$major/$libdir/libavcdec.so.$version"
closes "libavcdec$major" libs <<CONTROL
$depends
Multi-Arch: same
Description: proved decoder for H.264, Constrained Baseline profile: library
 From any byte stream (Annex B) it gives the pictures that the standard
 defines, in output order, and one numbered refusal for each faulty picture.
 That it does so is proved.
 .
 This package has the shared library.
CONTROL

takes libavcdec-dev "$libdir/libavcdec.so" "$libdir/libavcdec.a" "$libdir/pkgconfig/avcdec.pc" usr/include/avcdec.h usr/share/man/man3/libavcdec.3.gz \
    usr/share/doc/avcdec/behaviour.md usr/share/doc/avcdec/faults.tsv
mv libavcdec-dev/usr/share/doc/avcdec libavcdec-dev/usr/share/doc/libavcdec-dev
closes libavcdec-dev libdevel <<CONTROL
Depends: libavcdec$major (= $version)
Multi-Arch: same
Description: proved decoder for H.264, Constrained Baseline profile: C
 From any byte stream (Annex B) it gives the pictures that the standard
 defines, in output order, and one numbered refusal for each faulty picture.
 That it does so is proved.
 .
 This package has the header, the static library, the manual and the list of
 faults.
CONTROL

if [ -e all/usr/bin/avcdec ]; then
    mkdir -p avcdec/DEBIAN avcdec/usr/share/doc/avcdec
    cp libavcdec-dev/usr/share/doc/libavcdec-dev/* avcdec/usr/share/doc/avcdec
    takes avcdec usr/bin/avcdec usr/share/man/man1/avcdec.1.gz usr/share/bash-completion/completions/avcdec usr/share/doc/avcdec/README.md \
        usr/share/doc/avcdec/CHANGELOG.md
    asks_for_processor avcdec
    depends avcdec/usr/bin/avcdec
    closes avcdec video <<CONTROL
$depends
Description: proved decoder for H.264, Constrained Baseline profile: program
 The program avcdec decodes, lists and cuts byte streams (Annex B). From any
 bytes it gives the pictures that the standard defines, in output order, and
 one numbered refusal for each faulty picture. That it does so is proved.
CONTROL
fi
