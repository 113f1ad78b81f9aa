#!/bin/sh
# wrong-bodies.sh [CRATE..]   Tries all wrong bodies: those of must-fail/, which the gate tries, and those of wrong-bodies/, which it leaves out.
# It works in a copy of the repository, with what is proved there, and ends with a line for each; its status is 0 where all were refused.
set -eu
cd "$(dirname "$0")/.."
copy=$(mktemp -d)
trap 'rm -rf "$copy"' EXIT
cp -a . "$copy/repository"
cd "$copy/repository"
for folder in crates/*/wrong-bodies; do
    mkdir -p "${folder%/*}/must-fail"
    mv "$folder"/*.edit "${folder%/*}/must-fail"
done
rt must-fail "$@"
