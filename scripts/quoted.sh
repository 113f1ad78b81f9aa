#!/bin/sh
# Sees that what documents quote stands so in the sources: each line of a block that is fenced as ```LANGUAGE FILE is a line of that file.
# It says which are not, and its status is 1 then.
set -eu
cd "$(dirname "$0")/.."
for document in "${@:-docs/PROVED.md}"; do
    awk -v document="$document" '
        /^```[a-z]+ [^ ]+$/ {
            file = $2
            delete lines
            while ((getline line < file) > 0) lines[line] = 1
            close(file)
            quoting = 1
            next
        }
        /^```/ { quoting = 0; next }
        quoting && NF && !($0 in lines) { print document ": not in " file ": " $0; wrong = 1 }
        END { exit wrong }
    ' "$document"
done
