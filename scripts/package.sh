#!/bin/sh
# package.sh FOLDER [GATE]: makes a release in FOLDER: avcdec-VERSION/ with the program, the libraries (for ARM64 too, where its cross compiler is
# there), header, manual, bindings and examples, the same as avcdec-VERSION.tar.gz, Debian's packages where dpkg-deb is there (debian.sh), and
# their SHA256SUMS. GATE is what `rt ci` said of this commit (rt ci >GATE): its lines stand in the release, in PROVED-BY.txt.
#
# Dates are those of the commit, or SOURCE_DATE_EPOCH, and no path of the machine is in it: two builds of one commit with the same toolchain,
# compiler and binutils, which PROVED-BY.txt names, are the same byte for byte (test-package.sh builds it twice).
set -eu
umask 022
export LC_ALL=C
if [ $# -ne 1 ] && [ $# -ne 2 ]; then
    echo 'usage: scripts/package.sh FOLDER [GATE]' >&2
    exit 2
fi
top=$(cd "$(dirname "$0")/.." && pwd)
# shellcheck source=scripts/say.sh
. "$top/scripts/say.sh"
mkdir -p "$1"
folder=$(cd "$1" && pwd)
version=$("$top/scripts/version.sh")
SOURCE_DATE_EPOCH=${SOURCE_DATE_EPOCH:-$(git -C "$top" log -1 --format=%ct)}
export SOURCE_DATE_EPOCH
name=avcdec-$version
to=$folder/$name

# the gate's lines: of each crate, and the count, which has no failure
if [ -n "${2:-}" ]; then
    count=$(grep -E '^[0-9]+ passed, [0-9]+ failed' "$2" | tail -n 1)
    case $count in
    *', 0 failed'*) ;;
    *)
        echo "package.sh: $2 does not end in a count without failures: '$count'" >&2
        exit 1
        ;;
    esac
fi

rm -rf "$to"
"$top/scripts/install.sh" "$to"
cross=${CROSS_CC:-aarch64-linux-gnu-gcc}
if [ -z "${TARGET:-}" ] && command -v "$cross" >/dev/null 2>&1; then
    TARGET=aarch64-unknown-linux-gnu CC=$cross AR=${CROSS_AR:-aarch64-linux-gnu-ar} OBJCOPY=${CROSS_OBJCOPY:-aarch64-linux-gnu-objcopy} \
        LIBDIR=lib/aarch64-linux-gnu "$top/scripts/install.sh" "$to"
fi
# where the folder stands is for its user to say
sed -i "s|^prefix=.*|prefix=\${pcfiledir}/../..|" "$to/lib/pkgconfig/avcdec.pc"
[ ! -e "$to/lib/aarch64-linux-gnu" ] || sed -i "s|^prefix=.*|prefix=\${pcfiledir}/../../..|" "$to/lib/aarch64-linux-gnu/pkgconfig/avcdec.pc"
gzip -9n "$to"/share/man/man?/*
[ ! -e "$to/bin/avcdec" ] || strip --strip-all "$to/bin/avcdec"

# bindings, examples and the documents that README names, without tests
git -C "$top" ls-files bindings examples docs README.md CHANGELOG.md SECURITY.md |
    grep -v -e '/tests/' -e '/test[^/]*$' -e '/\.gitignore$' -e '^bindings/web/make' | tar -C "$top" -c -h -T - | tar -C "$to" -x

# the machine's own compiler and binutils made heap.o and joined the libraries
{
    echo "$name"
    echo "commit: $(git -C "$top" rev-parse HEAD)$(git -C "$top" diff --quiet HEAD -- || echo ', with changes')"
    echo "toolchain: $(rt version)"
    echo "compiler: $(${CC:-cc} --version | head -n 1)"
    echo "binutils: $(ld --version | head -n 1)"
    echo
    if [ -n "${2:-}" ]; then
        echo 'The gate, rt ci, said of this commit:'
        grep -E '^rt: |^[0-9]+ passed, [0-9]+ failed' "$2" | cut -c 1-200
    else
        echo 'No lines of the gate were given.'
    fi
} >"$to/PROVED-BY.txt"

# what the release has, by its checksums, but for what the gate said
sums=$(cd "$to" && find . -type f ! -name PROVED-BY.txt -printf '%P\n' | sort | xargs -d '\n' sha256sum)
echo "$sums" >"$to/SHA256SUMS"
tar -C "$folder" --sort=name --mtime="@$SOURCE_DATE_EPOCH" --owner=0 --group=0 --numeric-owner --mode=u=rwX,go=rX --format=ustar -c "$name" |
    gzip -9n >"$to.tar.gz"

rm -f "$folder"/*.deb "$folder/SHA256SUMS"
if command -v dpkg-deb >/dev/null 2>&1; then
    "$top/scripts/debian.sh" "$folder"
fi
cd "$folder"
# shellcheck disable=SC2035 # no name begins with -
sums=$(sha256sum *.gz *.deb 2>/dev/null || true)
echo "$sums" >SHA256SUMS
say "$folder has $(wc -l <SHA256SUMS) files and their SHA256SUMS"
