#!/bin/sh
# Writes the list of faults to standard output, a line each: number, name, when it is told, and clause, parted by tabs. It is that of
# docs/behaviour.md.
set -eu
export LC_ALL=C
cd "$(dirname "$0")/.."
awk -F ' *[|] *' '
    /^## / { listed = $0 == "## Refusals" }
    listed && $2 ~ /^[0-9]+ [A-Za-z]+$/ { sub(/ /, "\t", $2); print $2 "\t" $3 "\t" $4; count++ }
    END { exit !count }
' docs/behaviour.md
