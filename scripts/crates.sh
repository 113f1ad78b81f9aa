#!/bin/sh
# Writes docs/CRATES.md to standard output: the crates by storey, from crates.txt, with what each is about, from the first sentence of
# its root file. A crate's storey is one above the highest of those that it stands on. What no line of its code names is marked as there for
# contracts and proofs alone.
set -eu
export LC_ALL=C
cd "$(dirname "$0")/.."

# `STOREY NAME DEP DEP ..`, a line a crate; libraries of the toolchain are no DEP
storeys() {
    awk -F: '{
            split($1, head, " ")
            name = head[1]
            names[++count] = name
            known[name] = 1
            below[name] = $2
        }
        END {
            for (i = 1; i <= count; i++) storey[names[i]] = 0
            for (changed = 1; changed;) {
                changed = 0
                for (i = 1; i <= count; i++) {
                    n = split(below[names[i]], deps, " ")
                    for (k = 1; k <= n; k++)
                        if (deps[k] in known && storey[names[i]] <= storey[deps[k]]) {
                            storey[names[i]] = storey[deps[k]] + 1
                            changed = 1
                        }
                }
            }
            for (i = 1; i <= count; i++) {
                line = storey[names[i]] " " names[i]
                n = split(below[names[i]], deps, " ")
                for (k = 1; k <= n; k++) if (deps[k] in known) line = line " " deps[k]
                print line
            }
        }' crates.txt | sort -k1,1n -k2,2
}

about() {
    root=crates/$1/src/lib.rt
    [ -f "$root" ] || root=crates/$1/src/main.rt
    awk '!/^\/\/! / { exit }
        { text = text (NR > 1 ? " " : "") substr($0, 5) }
        END { sub(/\. [A-Z`].*/, ".", text); print text }' "$root"
}

# whether some line of the crate $1 that is compiled names the crate $2
is_compiled_with() {
    grep -rhEv '^ *(ghost use|//)' "crates/$1/src" | grep -qw "$2"
}

# the crates that $1 stands on, those for contracts and proofs alone in italics
stands_on() {
    name=$1
    shift
    separator=
    for dep; do
        if is_compiled_with "$name" "$dep"; then mark=; else mark=_; fi
        printf '%s%s%s%s' "$separator" "$mark" "${dep#avc_}" "$mark"
        separator=', '
    done
}

cat <<TXT
# The crates

By storey, lowest first: each stands on crates of lower storeys alone. What stands in _italics_ is named by a crate's contracts and proofs
alone, and by no code. \`crates.txt\` is what the build reads; \`scripts/crates.sh\` makes this page of it.

| Storey | Crate | What it is about | Stands on |
|---|---|---|---|
TXT
storeys | while read -r storey name deps; do
    echo "| $storey | [$name](../crates/$name) | $(about "$name") | $(stands_on "$name" $deps) |"
done
