#!/bin/sh
# Read by other scripts (`. scripts/say.sh`), which say by it on standard error what they are at: at once, and each half minute.

say() {
    echo "${0##*/}: $*" >&2
}

# From here to `hush` a line each half minute has what this command prints, and for how long it goes on. It is no child of the script, whose
# `wait` waits for it else; the script's end ends it too.
tell_while() {
    teller=$(
        {
            seconds=0
            while sleep 30 2>/dev/null && kill -0 $$ 2>/dev/null; do
                seconds=$((seconds + 30))
                say "$("$@"), for $((seconds / 60)) min $((seconds % 60)) s now"
            done
        } </dev/null >/dev/null &
        echo $!
    )
}

hush() {
    [ -z "${teller:-}" ] || kill "$teller" 2>/dev/null || true
    teller=
}

# A script that counts in `passed` and `failed` notes by this how far it is, in a file of its folder $work: `tell_while cat "$work/reached"`.
reached() {
    # shellcheck disable=SC2154 # they are the script's
    echo "$passed passed and $failed failed so far, at '$1'" >"$work/reached"
}

# during WHAT COMMAND..: says what is done. What the command prints is shown where it fails alone.
during() {
    doing=$1
    shift
    kept=$(mktemp)
    say "$doing"
    tell_while echo "$doing"
    ended=0
    "$@" >"$kept" 2>&1 </dev/null || ended=$?
    hush
    [ "$ended" = 0 ] || cat "$kept" >&2
    rm -f "$kept"
    return "$ended"
}
