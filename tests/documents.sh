#!/usr/bin/env bash
# What the documents say of files. The names that docs/RULES.md gives are there: a definition or a wrong
# answer in the file that is linked before it, a function in the crate before its colons (or, without
# colons, in some crate). The procedure files that docs/PROCEDURES.md and examples/README.md show are those in
# examples. The list of rights in docs/SEATS.md has the bytes that stand there, and what it shows of the example
# program is what that prints. docs/architecture.svg has the arrows of crates.txt, and docs/ARCHITECTURE.md says of
# each crate what it is.
set -euo pipefail
root=$(cd "$(dirname "$0")/.." && pwd)
source "$root/tests/counted.sh"
cd "$root"

scratch=$(mktemp -d)
trap 'rm -rf "$scratch"' EXIT

definition_is_there() {
    grep -rqE --include='*.antt' "(^| )$1 (:|\()" "${2:-crates}"
}

function_is_there() {
    local crate=${1%%::*} name=${1##*::}
    if [ "$crate" = "$name" ]; then
        crate='*'
    fi
    # shellcheck disable=SC2086 # the star stands for any crate
    grep -qE "fn $name[(<]" crates/$crate/src/*.rt
}

wrong_answer_is_there() {
    grep -q "^wrong: $1 at " "$2"
}

# named NAME FILE: a name in the tables of docs/RULES.md is defined in the file that is linked before it in its cell, or is a
# wrong answer in it, if that is an edit; where no file is, it is a function, or a definition of some crate.
named() {
    case $1 in
    *.antt | */*) return 0 ;;
    *::*)
        function_is_there "$1"
        return
        ;;
    esac
    case $2 in
    '') definition_is_there "$1" || function_is_there "$1" ;;
    *.edit) wrong_answer_is_there "$1" "$2" ;;
    *) definition_is_there "$1" "$2" ;;
    esac
}

# The links, the names and the borders of cells of docs/RULES.md, in their order, from the first table of rules on. A border stands
# for an empty line too.
# shellcheck disable=SC2016 # the names stand between backquotes
marks() {
    sed -e '1,/^## The procedure file/d' -e 's/^$/|/' docs/RULES.md | grep -oE '\[`[^`]+`\]\([^)]+\)|`[^`]+`|\|'
}

all_named() {
    local mark file='' all=0 count=0
    while IFS= read -r mark; do
        case $mark in
        '|') file='' ;;
        '['*)
            file=docs/${mark##*(}
            file=${file%)}
            [ -f "$file" ] || {
                echo "docs/RULES.md leads to $file, which is not there"
                all=1
            }
            ;;
        *)
            mark=${mark//\`/}
            count=$((count + 1))
            named "$mark" "$file" || {
                echo "docs/RULES.md names $mark${file:+ in $file}, which is not there"
                all=1
            }
            ;;
        esac
    done < <(marks)
    echo "docs/RULES.md gives $count names"
    [ "$all" -eq 0 ] && [ "$count" -ge 400 ]
}

# The command that docs/PROCEDURES.md gives for making a file of short lines.
# shellcheck disable=SC2016 # for awk
columns='{ sub(/#.*/, "") } NF { for (f = 1; f <= 12; f++) printf "%6d", $f; print "" }'

# Writes the blocks of a document that show a file to the scratch folder, each as a file; prints a
# line for each: how it is shown, the path, where it was written.
blocks() {
    awk -v folder="$scratch" '
        /^```(file|short|part) / {
            block = folder "/" ++count
            print substr($1, 4), $2, block
            printf "" >block
            next
        }
        /^```/ { block = "" }
        block != "" { print >block }' "$1"
}

# shown_as HOW PATH BLOCK: the block shows the file, byte by byte (file), as short lines (short), or
# some of its lines in their order, with dots for the others (part).
shown_as() {
    case $1 in
    file) cmp "$3" "$2" ;;
    short) awk "$columns" "$3" | cmp - "$2" ;;
    part)
        awk 'NR == FNR { if ($0 != "...") wanted[++count] = $0; next }
            found < count && $0 == wanted[found + 1] { found++ }
            END { exit found < count }' "$3" "$2"
        ;;
    esac
}

# shows DOCUMENT COUNT: at least so many files, each as it is.
shows() {
    local how path block count=0 all=0
    while read -r how path block; do
        shown_as "$how" "$path" "$block" || {
            echo "$1 does not show $path as it is"
            all=1
        }
        count=$((count + 1))
    done < <(blocks "$1")
    echo "$1 shows $count files"
    [ "$all" -eq 0 ] && [ "$count" -ge "$2" ]
}

# The list of rights that docs/SEATS.md shows, made and printed by the commands that stand there: 288 bytes, and
# the lines that are shown.
rights_hold() {
    local folder=$scratch/rights
    mkdir "$folder"
    awk '/^```rights$/ { on = 1; next } /^```/ { on = 0 } on' docs/SEATS.md >"$folder/rights.txt"
    sed -nE 's/^    ((for|od) .*)$/\1/p' docs/SEATS.md >"$folder/commands"
    sed -nE 's/^    ([0-9]{7}.*)$/\1/p' docs/SEATS.md >"$folder/shown"
    (cd "$folder" && bash -e commands >printed) && [ "$(wc -c <"$folder/rights.bin")" -eq 288 ] &&
        diff "$folder/shown" "$folder/printed"
}

# What docs/SEATS.md shows of the hour at the bench is what it prints.
hour_holds() {
    sed -nE 's/^    ((give|take|run|step|collect) by .*)$/\1/p' docs/SEATS.md >"$scratch/hour"
    [ -s "$scratch/hour" ] && [ "$(grep -cxFf "$scratch/hour" examples/bench_hour.out)" -eq "$(wc -l <"$scratch/hour")" ]
}

# The arrows of crates.txt between crates of ours, and those of the picture: who uses, and what is used.
arrows_listed() {
    awk -F: '!/^#/ { sub(/ .*/, "", $1); ours[$1]; list[$1] = $2 }
        END { for (user in list) { n = split(list[user], used, " "); for (i = 1; i <= n; i++) if (used[i] in ours) print user, used[i] } }' crates.txt
}

arrows_drawn() {
    sed -nE 's|^<title>([a-z_]+)&#45;&gt;([a-z_]+)</title>$|\1 \2|p' docs/architecture.svg
}

# The arrows that it reads, with those that they imply.
with_implied() {
    awk '{ arrow[$1, $2]; name[$1]; name[$2] }
        END {
            for (b in name) for (a in name) if ((a, b) in arrow) for (c in name) if ((b, c) in arrow) arrow[a, c]
            for (pair in arrow) { split(pair, ends, SUBSEP); print ends[1], ends[2] }
        }' | sort
}

picture_holds() {
    arrows_listed | with_implied >"$scratch/listed"
    arrows_drawn | with_implied >"$scratch/drawn"
    [ -s "$scratch/listed" ] && diff "$scratch/listed" "$scratch/drawn"
}

# Each crate has a line of its own in a table of docs/ARCHITECTURE.md.
crates_told() {
    local crate all=0
    while read -r crate; do
        grep -qF "| \`$crate\` |" docs/ARCHITECTURE.md || {
            echo "docs/ARCHITECTURE.md does not say what $crate is"
            all=1
        }
    done < <(sed -nE 's/^([a-z_]+)( staticlib)?:.*/\1/p' crates.txt)
    return "$all"
}

check "every name in docs/RULES.md is there" all_named
check "docs/architecture.svg has the arrows of crates.txt" picture_holds
check "docs/ARCHITECTURE.md says what each crate is" crates_told
check "docs/PROCEDURES.md shows files as they are" shows docs/PROCEDURES.md 19
check "docs/PROCEDURES.md has the command for short lines" grep -qF "awk '$columns'" docs/PROCEDURES.md
check "examples/README.md shows files as they are" shows examples/README.md 7
check "docs/SEATS.md has the bytes of its list" rights_hold
check "docs/SEATS.md shows the hour at the bench as it is" hour_holds
close_checks
