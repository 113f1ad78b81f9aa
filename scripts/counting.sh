#!/bin/sh
# Read by scripts that test, behind scripts/say.sh (`. scripts/counting.sh`): they count in `passed` and `failed` by this.

# holds WHAT COMMAND..: counts a test by its name, where the command says so. Where there are parts, $in_part is the one that goes on.
holds() {
    this_test=$1
    shift
    if "$@"; then
        passed=$((passed + 1))
    else
        failed=$((failed + 1))
        echo "failed: ${in_part:+$in_part: }$this_test"
    fi
    reached "$this_test"
}

has() {
    command -v "$1" >/dev/null 2>&1
}

# begins a part, of this name
part() {
    in_part=$1
    passed=0
    failed=0
    reached 'the start'
    say "tests $in_part"
    tell_while cat "$work/reached"
}

# ends it: $tests says what is tested
told() {
    hush
    # shellcheck disable=SC2154 # it is the script's
    echo "$tests, $in_part: $passed passed, $failed failed"
    # shellcheck disable=SC2034 # the script's status is by it
    [ "$failed" = 0 ] || all_well=false
}

# left_out PART WHY
left_out() {
    # shellcheck disable=SC2154 # it is the script's
    echo "$tests, $1: left out: $2"
}
