#!/bin/sh
# Says the version, which include/avcdec.h has; where another place has another one, it says which, and its status is 1.
set -eu
cd "$(dirname "$0")/.."
number() {
    sed -n "s/^#define AVCDEC_VERSION_$1 //p" include/avcdec.h
}
major=$(number MAJOR)
minor=$(number MINOR)
patch=$(number PATCH)
version=$major.$minor.$patch
status=0
# the file, and the line in it that has the version
has() {
    if ! grep -qxF -- "$2" "$1"; then
        echo "$1: no line '$2'" >&2
        status=1
    fi
}
has crates/avc_request/src/grammar.rt "        .version(\"$version\")"
has bindings/python/pyproject.toml "version = \"$version\""
has bindings/python/avcdec/__init__.py "__version__ = \"$version\""
has bindings/rust/Cargo.toml "version = \"$version\""
has bindings/gstreamer/gstavcdec.c "#define VERSION \"$version\""
has CHANGELOG.md "## $version, not released yet"
has crates/avc_c/src/exports.rt "$(printf '    0x%02x_%02x_%02x' "$major" "$minor" "$patch")"
has bindings/python/tests/test_streams.py "        self.assertEqual(avcdec.version(), ($major, $minor, $patch))"
echo "$version"
exit "$status"
