#!/usr/bin/env bash
# The interface as a C program meets it: the header, the tests in load.c, write.c, profile.c and cases.c, the
# stack that the calls take, and the example program.
set -euo pipefail
root=$(cd "$(dirname "$0")/../.." && pwd)
source "$root/tests/counted.sh"
cd "$root"

scratch=$(mktemp -d)
trap 'rm -rf "$scratch"' EXIT

header_alone() {
    "$@" -Wall -Wextra -Werror -pedantic -fsyntax-only include/pithread.h
}

under_valgrind() {
    valgrind -q --error-exitcode=1 --leak-check=full "$@"
}

# says STATUS TEXT COMMAND..: the command ends with this status and prints this text first.
says() {
    local status=0 text wanted_status=$1 wanted_text=$2
    shift 2
    text=$("$@") || status=$?
    echo "$text"
    [ "$status" -eq "$wanted_status" ] && [[ "$text" == "$wanted_text"* ]]
}

# prints FILE COMMAND..: the command succeeds and prints just what is in the file.
prints() {
    local file=$1
    shift
    "$@" >"$scratch/printed" && diff "$file" "$scratch/printed"
}

sed '5s/     1/     9/' examples/doubler.txt >"$scratch/range.txt"

check "header in C99" header_alone gcc -std=c99 -x c
check "header in C11" header_alone gcc -std=c11 -x c
check "header in C++" header_alone g++ -std=c++11 -x c++

check "load.c compiles without a warning" tests/c/build.sh load checks lines files
check "load.c" target/c/load examples
check "load.c under valgrind" under_valgrind target/c/load examples

check "write.c compiles without a warning" tests/c/build.sh write checks lines files damages
check "write.c" target/c/write examples
check "write.c under valgrind" under_valgrind target/c/write examples

check "profile.c compiles without a warning" tests/c/build.sh profile checks words lines files damages
check "profile.c" target/c/profile examples
check "profile.c under valgrind" under_valgrind target/c/profile examples

check "cases.c compiles without a warning" tests/c/build.sh cases checks words lines bench damages \
    moves meetings rows ports runs refusals sound collections seats
check "cases.c" target/c/cases
check "cases.c under valgrind" under_valgrind target/c/cases

check "stack.c compiles without a warning" tests/c/build.sh stack checks words lines files
check "stack.c" target/c/stack examples/units.txt

check "bench_hour.c compiles without a warning" tests/c/build.sh bench_hour
check "bench_hour.c" prints examples/bench_hour.out target/c/bench_hour examples/units.txt
check "bench_hour.c under valgrind" prints examples/bench_hour.out \
    under_valgrind target/c/bench_hour examples/units.txt
check "bench_hour.c on a slot of no type" says 1 "load: refused, ground 4, line 5:" \
    target/c/bench_hour "$scratch/range.txt"
close_checks
