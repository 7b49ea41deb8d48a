#!/usr/bin/env bash
# The files in examples/refused. Each is refused with the ground and the line that the table
# `expected` there gives: those with a ground from 1 to 7 by loading, and their mended forms load; those with
# 16 or 17 load and are refused by the check for the profile, which their mended forms pass. Each of these
# grounds comes. The programs are those that PITHREAD_LISTING and PITHREAD_WORKBENCH name; without them, the
# ones in target/bin and tests/target.
set -euo pipefail
root=$(cd "$(dirname "$0")/.." && pwd)
source "$root/tests/counted.sh"
cd "$root"
folder=examples/refused

# The lines of the table: name, ground, line.
expected() {
    sed '/^#/d' "$folder/expected"
}

program=${PITHREAD_LISTING:-$root/target/bin/listing}
workbench=${PITHREAD_WORKBENCH:-$root/tests/target/release/workbench}

# first_line FILE: of what the listing program prints.
first_line() {
    "$program" <"$folder/$1" | head -n 1
}

# A refused file has the ground and the line for its listing, in columns of six characters.
refused() {
    local text
    text=$(first_line "$1.txt")
    echo "$1: $text"
    [ "$text" = "$(printf '%6d%6d' "$2" "$3")" ]
}

# The listing of a file that loads begins with the heading.
accepted() {
    [ "$(first_line "$1.txt")" = "  STEPTHREAD  NODE   ACTBRANCH  WITH" ]
}

# profiled STATUS TEXT NAME: the check for the profile ends with this status, and has this text in what it prints or says.
profiled() {
    local status=0 text
    text=$("$workbench" profile "$folder/$3.txt" 2>&1) || status=$?
    echo "$text"
    [ "$status" -eq "$1" ] && [[ "$text" == *"$2"* ]]
}

# The folder has the two files of each line of the table, and no others.
all_files_expected() {
    diff <(expected | while read -r name _; do printf '%s\n' "$name.txt" "$name.mended.txt"; done | sort) \
        <(find "$folder" -name '*.txt' -printf '%P\n' | sort)
}

all_grounds_expected() {
    [ "$(expected | awk '{ print $2 }' | sort -nu | tr '\n' ' ')" = "1 2 3 4 5 6 7 16 17 " ]
}

while read -r name ground line; do
    if [ "$ground" -lt 16 ]; then
        check "$name is refused, ground $ground, line $line" refused "$name" "$ground" "$line"
        check "$name, mended, loads" accepted "$name.mended"
    else
        check "$name loads" accepted "$name"
        check "$name is refused by the profile, ground $ground" profiled 1 "is refused, ground $ground: " "$name"
        check "$name, mended, passes" profiled 0 "keeps to the rental-shop profile: " "$name.mended"
    fi
done < <(expected)
check "the table expected names every file" all_files_expected
check "the table expected has every ground" all_grounds_expected
close_checks
