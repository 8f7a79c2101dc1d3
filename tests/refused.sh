#!/bin/sh
# Fails each allocation of a test in turn. Whichever allocation fails, the test has to pass. One test is of `admin_mgr`:
# it runs commands on a state, and if an allocation fails, compares the state with the one before, runs other commands, and
# then the same one again. Two are of `role_wire`: lines are replayed and a request is served on an office in memory.
# They are in the crate `refused_tests`.

set -u
tests=$(cd "$(dirname "$0")" && pwd) || exit 1
# The built tests of the crate, which `rt ci` leaves there.
program=$tests/../crates/refused_tests/out/refused_tests_tests
work=$(mktemp -d) || exit 1
trap 'rm -rf "$work"' EXIT
trap 'exit 1' HUP INT TERM
passed=0
failed=0

pass() {
    passed=$((passed + 1))
}

# fail WHAT: counts a failure, and prints what failed.
fail() {
    failed=$((failed + 1))
    echo "FAILED: $1"
}

# finish: prints the count as the last line, and ends with a status that is not 0 if anything failed.
finish() {
    echo "$passed passed, $failed failed"
    [ "$failed" -eq 0 ]
    exit
}

# More allocations than a test makes.
most=100000

# make_shim: builds refuse.c, by which `refusing` refuses an allocation.
make_shim() {
    cc -O1 -Wall -Wextra -Werror -shared -fPIC -o "$work/refuse.so" "$tests/refuse.c" || {
        fail "refuse.c cannot be built"
        finish
    }
}

# refusing NUMBER COMMAND..: runs the program of the command with its allocation of this number failing.
# Afterwards the file $work/refused exists, unless the program asked for fewer.
refusing() {
    at=$1
    shift
    rm -f "$work/refused"
    # `env` loads the shim into the program only, and not into `timeout`.
    timeout 60 env REFUSE="$at" REFUSED="$work/refused" LD_PRELOAD="$work/refuse.so" "$@"
}

# refuse_each TEST LEAST: the test has to make at least LEAST allocations.
refuse_each() {
    number=0
    while [ "$number" -lt "$most" ]; do
        number=$((number + 1))
        if ! refusing "$number" "$program" "$1" >"$work/output" 2>&1; then
            fail "$1, allocation $number refused: $(tail -n 1 "$work/output")"
            return
        fi
        [ -e "$work/refused" ] || break
    done
    if [ "$number" -eq "$most" ]; then
        fail "$1 asks for more than $most allocations"
    elif [ "$number" -lt "$2" ]; then
        fail "$1 asked for only $((number - 1)) allocations"
    else
        echo "$1: $((number - 1)) allocations refused in turn"
        pass
    fi
}

[ -x "$program" ] || { fail "there is no program $program"; finish; }
make_shim
# The commands, and what is shown of the state between them, make about 800 allocations.
refuse_each commands::refused_memory_changes_nothing 700
# Most allocations are for the office.
refuse_each requests::refused_memory_stops_a_replay 700
refuse_each requests::failed_allocations_are_answered_or_stop_a_request 700
finish
