# shellcheck shell=bash
# To be sourced: counts checks, and closes with a line of the form that cargo test has.

checks_passed=0
checks_failed=0

# check WHAT COMMAND..: the command has to succeed.
check() {
    local what=$1
    shift
    if "$@"; then
        echo "test $what ... ok"
        checks_passed=$((checks_passed + 1))
    else
        echo "test $what ... FAILED"
        checks_failed=$((checks_failed + 1))
    fi
}

# Prints the sums; the status is that of the whole.
close_checks() {
    local word=ok
    [ "$checks_failed" -eq 0 ] || word=FAILED
    echo "test result: $word. $checks_passed passed; $checks_failed failed; counted by $(basename "$0")"
    [ "$checks_failed" -eq 0 ]
}
