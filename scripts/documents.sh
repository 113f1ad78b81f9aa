#!/bin/sh
# documents.sh [check]: makes the documents that are made of the sources; with `check` it changes none, and says which are out of date. It
# sees too that what docs/PROVED.md quotes stands in the sources, that the version is one, and that README's numbers are those of this commit.
set -eu
cd "$(dirname "$0")/.."
page=$(mktemp)
trap 'rm -f "$page"' EXIT
status=0
for made in trusted:TRUSTED.md crates:CRATES.md codewords:CODEWORDS.md manual:libavcdec.3; do
    script=scripts/${made%:*}.sh
    document=docs/${made#*:}
    "$script" >"$page"
    if ! cmp -s "$page" "$document"; then
        if [ "${1:-}" = check ]; then
            echo "$document is out of date: $script >$document" >&2
            status=1
        else
            cp "$page" "$document"
        fi
    fi
done
scripts/quoted.sh || status=1
scripts/version.sh >/dev/null || status=1
scripts/numbers.py ${1:+"$1"} || status=1
exit "$status"
