#!/usr/bin/env bash
# ./run and its commands: files there and back, numbers set, procedures checked and drawn, help, what is refused, what is no file, output
# that cannot be written, modes, the commands that docs/PROCEDURES.md gives, and what is built before. The program is the one that
# PITHREAD_WORKBENCH names; without it, the one in tests/target. The listing program is the one that PITHREAD_LISTING names, or the one in
# target/bin.
set -euo pipefail
root=$(cd "$(dirname "$0")/.." && pwd)
source "$root/tests/counted.sh"
cd "$root"

export PITHREAD_WORKBENCH=${PITHREAD_WORKBENCH:-$root/tests/target/release/workbench}
export PITHREAD_LISTING=${PITHREAD_LISTING:-$root/target/bin/listing}
scratch=$(mktemp -d)
trap 'rm -rf "$scratch"' EXIT
table="$scratch/a table"

# ends STATUS WORD..: ./run with these words ends with this status; what it prints and says is kept.
ends() {
    local status=0 wanted=$1
    shift
    ./run "$@" >"$scratch/printed" 2>"$scratch/said" || status=$?
    [ "$status" -eq "$wanted" ]
}

# says STATUS TEXT WORD..: it ends with this status, prints nothing, and has this text in what it says.
says() {
    local text=$2
    ends "$1" "${@:3}" && [ ! -s "$scratch/printed" ] && grep -qF -- "$text" "$scratch/said"
}

# prints FILE WORD..: it is done, says nothing, and prints just what is in the file.
prints() {
    ends 0 "${@:2}" && [ ! -s "$scratch/said" ] && cmp "$1" "$scratch/printed"
}

# comes_back FILE [OTHER]: the table of the file is written as the file, or else as the other one.
comes_back() {
    ends 0 --load "$1" "$table" && prints "${2:-$1}" --write "$table"
}

# is_edited NUMBER: the limit of units.txt becomes this number, in the table and in the file.
is_edited() {
    sed "55s/   100/$(printf '%6d' "$1")/" examples/units.txt >"$scratch/wanted"
    ends 0 --load examples/units.txt "$table" && says 0 "100 became $1;" --set "$table" 55 4 "$1" &&
        prints "$scratch/wanted" --write "$table"
}

# keeps_to THREADS FILE: the file passes the check for the profile, with so many threads.
keeps_to() {
    echo "keeps to the rental-shop profile: never more than $1 at one time" >"$scratch/wanted"
    prints "$scratch/wanted" --profile "$2"
}

# all_shown BEGINNING FILE: each line of the document that begins so, behind its blanks, is a line of the file.
all_shown() {
    sed -n "s/^    \\($1 .*\\)\$/\\1/p" docs/PROCEDURES.md >"$scratch/shown"
    [ -s "$scratch/shown" ] && [ "$(grep -cxFf "$scratch/shown" "$2")" -eq "$(wc -l <"$scratch/shown")" ]
}

# The commands of the document, in a folder with ./run and the examples: they are done, but for a check that is shown to fail, print and say
# what is shown, and leave the file whose guard is gone.
document_holds() {
    local folder=$scratch/document command
    mkdir "$folder"
    ln -s "$root/run" "$root/examples" "$folder"
    sed -nE 's/^    (\.\/run (load|set|write|profile) .*)$/\1/p' docs/PROCEDURES.md >"$folder/commands"
    [ "$(wc -l <"$folder/commands")" -ge 9 ] || return 1
    while read -r command; do
        (cd "$folder" && bash -c "$command" >>printed 2>>said) || [[ "$command" == *" profile "* ]] || return 1
    done <"$folder/commands"
    all_shown workbench: "$folder/said" && all_shown "keeps to" "$folder/printed" || return 1
    sed '55s/     2     2   100/     0     0     0/' examples/units.txt | cmp - "$folder/mine.txt"
}

# A folder with ./run in which the prover and cargo only note what they are asked for and make the file that is due.
make_copy() {
    mkdir -p "$1/crates/pithread_c/out" "$1/crates/listing/out" "$1/tools" "$1/tests/target/release"
    cp run test "$1"
    cp tests/tools.sh tests/build.sh "$1/tests"
    printf '# NAME: the crates that it uses\none:\nother: one\npithread: one other\npithread_c staticlib: pithread\nlisting: one\nthird: one\n' >"$1/crates.txt"
    cat >"$1/tools/rt" <<'END'
#!/bin/sh
crate=$(basename "$PWD")
echo "rt $* in $crate" >>../../asked
case $1 in
run) printf '#!/bin/sh\n' >out/listing && chmod +x out/listing ;;
lib) echo archive >"out/lib$crate.a" ;;
esac
echo "rt: chose --jobs 2 for one"
echo "fn one::first: proved"
echo "crate one: modules loaded=0 checked=1"
echo "logic=proved functions=1"
echo "rt: something that is passed on"
echo "crate third: modules loaded=0 checked=1"
echo "logic=proved functions=1"
echo "rt: other: begins with what a check kept"
echo "crate other: modules loaded=1 checked=0"
echo "logic=proved functions=1"
echo "crate $crate: modules loaded=0 checked=1"
echo "logic=proved functions=1"
END
    cat >"$1/tools/cargo" <<'END'
#!/bin/sh
echo "cargo $1" >>asked
printf '#!/bin/sh\necho "$*"\n' >tests/target/release/workbench && chmod +x tests/target/release/workbench
END
    chmod +x "$1/tools/rt" "$1/tools/cargo"
}

# in_copy WORD..: ./run in the copy, with no program named.
in_copy() {
    (cd "$scratch/copy" && : >asked && env -u PITHREAD_WORKBENCH -u PITHREAD_LISTING PATH="$PWD/tools:$PATH" ./run "$@" >printed 2>said)
}

# asks WANTED PRINTED WORD..: in the copy, ./run asks for just this, one command after the other, and then its program prints that.
asks() {
    in_copy "${@:3}" && [ "$(paste -sd, "$scratch/copy/asked")" = "$1" ] && [ "$(paste -sd, "$scratch/copy/printed")" = "$2" ]
}

asks_for_table() {
    asks "$1" "--set one 2 3 -4" --set one 2 3 -4
}

# What was said in the copy of the last build: crates that it rests on, counted, and the time that it took.
tells_progress() {
    local said=$scratch/copy/said
    diff - <(grep -E '^rt: | is proved, ' "$said") <<'END' && grep -Eqx 'the archive is built; it took [0-9]+ min [0-9]+ s' "$said"
one is proved, 1 of at most 4 crates
rt: something that is passed on
other is proved, 2 of at most 4 crates
pithread_c is proved, 3 of at most 4 crates
END
}

# Without a prover that succeeds there is no program.
cannot_build() {
    local status=0
    printf '#!/bin/sh\necho "rt: no"\nexit 1\n' >"$scratch/copy/tools/rt"
    in_copy --write one || status=$?
    [ "$status" -eq 2 ] && grep -q '^the archive could not be built: ' "$scratch/copy/said"
}

# A folder with what the scripts need in any case, to be the whole path.
make_path() {
    local tool
    mkdir "$1"
    for tool in bash env dirname readlink find grep sed cat touch tee mktemp rm; do
        ln -s "$(command -v "$tool")" "$1/$tool"
    done
}

# lacks STATUS MISSING PRESENT SCRIPT WORD..: the script in the copy, with only the tools PRESENT on its path, names those that are
# missing and ends with this status, and nothing is asked for.
lacks() {
    local status=0 wanted=$1 missing=$2 tool path=$scratch/path
    rm -rf "$path"
    make_path "$path"
    for tool in $3; do
        printf '#!/bin/sh\necho "%s $*" >>asked\n' "$tool" >"$path/$tool" && chmod +x "$path/$tool"
    done
    (cd "$scratch/copy" && : >asked && env -i PATH="$path" bash "${@:4}" >printed 2>said) || status=$?
    [ "$status" -eq "$wanted" ] && [ ! -s "$scratch/copy/asked" ] &&
        grep -qx "nothing .*, since these are not on the path: $missing" "$scratch/copy/said"
}

# fails_to_print WHERE WORD..: with its output there, ./run ends with status 2 and says why.
fails_to_print() {
    local status=0 where=$1
    shift
    case $where in
    closed) ./run "$@" >&- 2>"$scratch/said" || status=$? ;;
    *) ./run "$@" >"$where" 2>"$scratch/said" || status=$? ;;
    esac
    [ "$status" -eq 2 ] && [ -s "$scratch/said" ]
}

# helps NAME: its help, in three ways, with its line of the overview and an example.
helps() {
    ends 0 help "$1" && cp "$scratch/printed" "$scratch/help" && prints "$scratch/help" "$1" --help && prints "$scratch/help" "--$1" --help &&
        grep -q '^Example' "$scratch/help" && grep -qF "$(head -n 1 "$scratch/help") " rust/workbench/help.txt
}

# keeps_mode MODE: a table of this mode has it still after a load and a number set.
keeps_mode() {
    rm -f "$table"
    : >"$table"
    chmod "$1" "$table"
    ends 0 load examples/units.txt "$table" && ends 0 set "$table" 55 4 5 && [ "$(stat -c %a "$table")" = "$1" ]
}

# draws FORM BEGINNING: a picture in this form begins so.
draws() {
    ends 0 draw examples/philosophers.txt 1000 "$1" && [ ! -s "$scratch/said" ] && [[ "$(head -n 1 "$scratch/printed")" == "$2"* ]]
}

# A file that has the name of a command is listed by a path.
lists_by_path() {
    cp examples/listing.txt "$scratch/load"
    (cd "$scratch" && "$root/run" ./load) | cmp - examples/listings/listing.out
}

for file in examples/*.txt examples/first/*.txt; do
    [ ! -s "$file" ] || check "$file there and back" comes_back "$file"
done
check "a file without bytes, and three lines back" comes_back examples/empty_slot.txt examples/first/1.txt
for number in 0 -1 301 -32768 32767; do
    check "a limit of $number" is_edited "$number"
done
for line in "countdown 1 thread" "listing 2 threads" "crew 4 threads" "jobs 5 threads" "philosophers 10 threads"; do
    check "examples/${line%% *}.txt comes to ${line#* }" keeps_to "${line#* }" "examples/${line%% *}.txt"
done
check "what docs/PROCEDURES.md says of tables and of the profile" document_holds

sed '5s/     1/     9/' examples/doubler.txt >"$scratch/range.txt"
head -c 20760 /dev/zero >"$scratch/zeros"
check "a file that is refused" says 1 "is refused, ground 4, line 5: " --load "$scratch/range.txt" "$scratch/none"
check "a file that is refused has no table" [ ! -e "$scratch/none" ]
check "a table that is refused" says 1 "is refused, ground 9: " --write "$scratch/zeros"
check "a file for a table" says 1 "is refused, ground 8: " --write examples/units.txt
check "a number of 17 bits" says 2 "is no number from -32768 to 32767" --set "$scratch/zeros" 1 1 32768
check "no such file" says 2 "cannot be read" --load "$scratch/none" "$table"
check "no such table" says 2 "cannot be read" --write "$scratch/none"
check "a call that the profile forbids" says 1 "ground 16: the profile forbids a call; line 9: " --profile examples/workers.txt
check "too many threads" says 1 "ground 17: " --profile examples/refused/too-many-threads.txt
check "a file that is refused has no profile" says 1 "is refused, ground 4, line 5: " --profile "$scratch/range.txt"
check "a table has no profile" says 1 "is refused, ground 1: " --profile "$scratch/zeros"
check "no file to check" says 2 "cannot be read" --profile "$scratch/none"
check "two files to check" says 2 "./run profile FILE" --profile examples/crew.txt examples/jobs.txt
check "a word too few" says 2 "./run set TABLE LINE FIELD NUMBER" --set "$scratch/zeros" 1 1
check "a word too many" says 2 "./run load FILE TABLE" --load examples/units.txt "$scratch/none" "$scratch/none"
check "a verb alone" says 2 "./run write TABLE" --write
PITHREAD_WORKBENCH=$scratch/none check "no such program" says 2 "the program, is not there" write "$table"
check "no such command" says 2 '"lod" is no command' lod "$scratch/zeros" "$table"

check "the picture of a file" draws --svg "<svg "
check "the graph of a file" draws --dot "digraph waits {"
check "a picture in no form" says 2 "is neither --svg nor --dot" draw examples/crew.txt 5 --png
check "a file with the name of a command" lists_by_path
check "./run --help" prints rust/workbench/help.txt --help
check "./run help" prints rust/workbench/help.txt help
check "the program shows what ./run shows" cmp rust/workbench/help.txt <("$PITHREAD_WORKBENCH" help)
while read -r _ name _; do
    check "./run help $name" helps "$name"
done < <(sed '/^$/,$d' rust/workbench/help.txt)
check "help for no command" says 2 "is no command" help lod

mkfifo "$scratch/fifo"
for words in "" list profile write; do
    check "a folder for ${words:-./run FILE}" says 2 "cannot be read: it is a folder" ${words:+"$words"} "$scratch"
    check "a device for ${words:-./run FILE}" says 2 "cannot be read: it is a device" ${words:+"$words"} /dev/zero
    check "a fifo without a writer for ${words:-./run FILE}" timeout 20 bash -c "! \"\$0\" \"\$@\" 2>'$scratch/said'" ./run ${words:+"$words"} "$scratch/fifo"
    check "what is said of it" grep -q "it is a fifo, and nobody writes to it" "$scratch/said"
done
check "a table at a folder" says 2 "cannot be written: it is a folder" load examples/units.txt "$scratch"
check "a table at a device" says 2 "cannot be written: it is a device" load examples/units.txt /dev/null
check "a table for a procedure" says 1 "'./run write' prints the file of a table" profile "$scratch/zeros"
check "a procedure for a table" says 1 "'./run load' makes the table of one" write examples/units.txt
for mode in 600 640 664; do
    check "a table of mode $mode" keeps_mode "$mode"
done
chmod 444 "$table"
check "a table that nobody may write" says 2 "its mode lets nobody write to it" set "$table" 55 4 6
chmod 644 "$table"

for where in /dev/full closed; do
    check "the commands, printed to $where" fails_to_print "$where"
    check "help, printed to $where" fails_to_print "$where" --help
    check "help of a command, printed to $where" fails_to_print "$where" help set
    check "a listing, printed to $where" fails_to_print "$where" examples/listing.txt
    check "a file, printed to $where" fails_to_print "$where" write "$table"
    check "an answer, printed to $where" fails_to_print "$where" profile examples/crew.txt
    check "a picture, printed to $where" fails_to_print "$where" draw examples/crew.txt 5 --svg
done

make_copy "$scratch/copy"
archive=$scratch/copy/target/staticlib/libpithread.a
check "./run without any tool" lacks 2 "rt cc cargo" "" run --write one
check "./run without a prover" lacks 2 "rt" "cargo cc" run --write one
check "./run without cargo" lacks 2 "cargo" "rt cc" run --write one
check "./run without a C compiler" lacks 2 "cc" "rt cargo" run crates.txt
check "./test without any tool" lacks 1 "rt cargo cc valgrind awk" "" test
check "./test without valgrind" lacks 1 "valgrind" "rt cargo cc awk" test
check "./test, with a tool missing, ends with what it counted" grep -qx "0 passed, 1 failed" "$scratch/copy/printed"
PITHREAD_LIB=$scratch check "no archive is made beside one that is named" asks_for_table "cargo build"
unset PITHREAD_LIB
check "the archive is made first" asks_for_table "rt lib in pithread_c,cargo build"
check "crates are counted, and the time is told" tells_progress
check "the archive is made once" asks_for_table "cargo build"
touch -d '-1 hour' "$archive"
check "the archive is made again where a source is younger" asks_for_table "rt lib in pithread_c,cargo build"
check "the listing program is made" asks "rt run in listing,cargo build" "crates.txt" crates.txt
check "the listing program is made once" asks "cargo build" "list crates.txt" list crates.txt
rm "$archive"
check "a prover that fails" cannot_build
close_checks
