#!/usr/bin/env bash
# The listing program, from its standard input to its standard output: the listings kept here and in
# examples/listings, refused files, the limits of a file, input in pieces, and what it says where it cannot read or
# write; and ./run.
set -euo pipefail
root=$(cd "$(dirname "$0")/../.." && pwd)
source "$root/tests/counted.sh"
cd "$root"

program=${PITHREAD_LISTING:-$root/target/bin/listing}
kept=tests/listing
scratch=$(mktemp -d)
trap 'rm -rf "$scratch"' EXIT

# lists FILE LISTING [COMMAND..]: of this file the program, or else the command, prints just what is in LISTING.
lists() {
    local file=$1 listing=$2
    shift 2
    [ $# -gt 0 ] || set -- "$program"
    "$@" <"$file" >"$scratch/printed" && cmp "$listing" "$scratch/printed"
}

# refused GROUND LINE FILE: the file is refused with one line, the two numbers in columns.
refused() {
    printf '%6d%6d\n' "$1" "$2" >"$scratch/wanted"
    lists "$3" "$scratch/wanted"
}

under_valgrind() {
    valgrind -q --error-exitcode=1 --leak-check=full "$program"
}

# The whole of a file, some bytes at a time.
in_pieces() {
    local from=0 length
    length=$(wc -c <"$1")
    while [ "$from" -lt "$length" ]; do
        tail -c "+$((from + 1))" "$1" | head -c "$2"
        from=$((from + $2))
        sleep 0.02
    done
}

pieces_list() {
    in_pieces "$1" "$3" | "$program" >"$scratch/printed" && cmp "$2" "$scratch/printed"
}

# An input without end is read no further than needed.
endless() {
    printf '%6d%6d\n' 1 0 >"$scratch/wanted"
    (yes || true) | timeout 10 "$program" >"$scratch/printed" && cmp "$scratch/wanted" "$scratch/printed"
}

# A folder cannot be read, nor can an input that is closed: nothing is printed, and standard error says so.
cannot_read() {
    "$program" <"$root" >"$scratch/printed" 2>"$scratch/said" || true
    "$program" <&- >>"$scratch/printed" 2>>"$scratch/said" || true
    [ ! -s "$scratch/printed" ] && [ "$(grep -c '^standard input: ' "$scratch/said")" -eq 2 ]
}

# Nothing more can be written to a full device.
cannot_write() {
    "$program" <examples/listing.txt >/dev/full 2>"$scratch/said" || true
    grep -q '^standard output: ' "$scratch/said"
}

# run_ends STATUS LISTING FILE: ./run ends with this status and prints this listing.
run_ends() {
    local status=0
    ./run "$3" >"$scratch/printed" || status=$?
    [ "$status" -eq "$1" ] && cmp "$2" "$scratch/printed"
}

run_shows_examples() {
    ./run >"$scratch/printed"
    local file
    for file in examples/*.txt; do
        grep -qF "./run $file" "$scratch/printed" || return 1
    done
}

for file in examples/*.txt; do
    check "the listing of $file" lists "$file" "examples/listings/$(basename "$file" .txt).out"
done
check "a run of 1,000 steps" lists "$kept/forever.txt" "$kept/forever.out"
check "a run that lacks a thread row; 63 threads collected" lists "$kept/threads.txt" "$kept/threads.out"
check "a run that lacks a channel row; 42 threads collected" lists "$kept/channels.txt" "$kept/channels.out"
check "one thread collected, one left at a port" lists "$kept/port.txt" "$kept/port.out"
check "a listing under valgrind" lists "$kept/port.txt" "$kept/port.out" under_valgrind

head -c 1 examples/doubler.txt >"$scratch/byte.txt"
head -c 72 examples/doubler.txt >"$scratch/short.txt"
sed '5s/     1/    01/' examples/doubler.txt >"$scratch/zero.txt"
sed '5s/     1/     9/' examples/doubler.txt >"$scratch/range.txt"
sed '16d' examples/listing.txt >"$scratch/total.txt"
head -n 1 examples/listing.txt | awk '{ for (i = 0; i < 866; i++) print }' >"$scratch/866.txt"
head -n 865 "$scratch/866.txt" >"$scratch/865.txt"
head -c 63146 "$scratch/866.txt" >"$scratch/63146.txt"

check "no input" lists /dev/null examples/listings/empty_slot.out
check "no input, under valgrind" lists /dev/null examples/listings/empty_slot.out under_valgrind
check "1 byte" refused 1 0 "$scratch/byte.txt"
check "72 bytes" refused 1 0 "$scratch/short.txt"
check "a leading zero" refused 2 5 "$scratch/zero.txt"
check "a line too few" refused 3 1 "$scratch/total.txt"
check "a slot of no type" refused 4 5 "$scratch/range.txt"
check "865 lines are not too many" refused 3 1 "$scratch/865.txt"
check "a byte more" refused 1 0 "$scratch/63146.txt"
check "866 lines" refused 1 0 "$scratch/866.txt"
check "an input without end" endless

check "input of no pieces" pieces_list examples/empty_slot.txt examples/listings/empty_slot.out 73
check "input in pieces of 73 bytes" pieces_list examples/listing.txt examples/listings/listing.out 73
check "input in pieces of 50 bytes" pieces_list examples/listing.txt examples/listings/listing.out 50
check "input that cannot be read" cannot_read
check "output that cannot be written" cannot_write

check "./run on a right file" run_ends 0 "$kept/port.out" "$kept/port.txt"
check "./run on a file without bytes" run_ends 0 examples/listings/empty_slot.out examples/empty_slot.txt
printf '%6d%6d\n' 4 5 >"$scratch/range.out"
check "./run on a slot of no type" run_ends 1 "$scratch/range.out" "$scratch/range.txt"
check "./run without such a file" run_ends 2 /dev/null "$scratch/none.txt"
check "./run on a folder" run_ends 2 /dev/null "$scratch"
check "./run alone" run_shows_examples
close_checks
