#!/usr/bin/env bash
# tests/refusals.sh [EDIT..]: whether the prover refuses each wrong answer of these edits by itself; of those in crates/*/must-fail if none is
# given. `rt ci` tries an edit as a whole, and an edit holds several wrong answers, in functions of which none calls another. Each is headed by
# a line
#     wrong: NAME at PLACE
# PLACE is a function, which has to be refused and not only for one that it calls, or a file in specs/ or proofs/, with an error that does not
# only follow from another. Each edit is made in a copy of the crates, and the prover is asked for these functions there, or for the crate where
# a place is a file. PITHREAD_JOBS is how many crates are tried side by side; without it, as many as there are processors.
set -euo pipefail
root=$(cd "$(dirname "$0")/.." && pwd)
source "$root/tests/counted.sh"
source "$root/tests/copies.sh"
cd "$root"

scratch=$(mktemp -d)
trap 'rm -rf "$scratch"' EXIT

# Every replacement of an edit stands below a line that says which wrong answer it makes.
all_named() {
    awk '/^wrong: [a-z0-9_]+ at [^ ]+$/ { named = 1 } /^new:/ && !named { exit 1 } END { exit !named }' "$1"
}

places_of() {
    sed -n 's/^wrong: [^ ]* at //p' "$1"
}

# The crate of an edit: the folder above it, or the one above that which is named must-fail.
crate_of() {
    local folder
    folder=$(dirname "$1")
    [ "$(basename "$folder")" != must-fail ] || folder=$(dirname "$folder")
    basename "$folder"
}

log_of() {
    echo "$scratch/logs/$(crate_of "$1")/$(basename "$1" .edit)"
}

# ask_for EDIT CRATE: what the prover says of the edit's places, in a copy where it has been made.
ask_for() {
    local place only=()
    while read -r place; do
        case $place in
        */*)
            only=()
            break
            ;;
        *) only+=(--only "$2::$place") ;;
        esac
    done < <(places_of "$1")
    rt check --jobs 1 "${only[@]}"
}

# try_edits CRATE EDIT..: the edits of one crate, in a copy of its own, one after the other.
try_edits() {
    local crate=$1 copy=$scratch/copies/$1 edit part
    shift
    cp -al "$scratch/base" "$copy"
    for edit; do
        if apply_edit "$edit" "$copy/crates/$crate"; then
            (cd "$copy/crates/$crate" && ask_for "$edit" "$crate") || true
        fi >"$(log_of "$edit")" 2>&1
        for part in src specs proofs; do
            rm -rf "${copy:?}/crates/$crate/$part"
            [ ! -d "$scratch/base/crates/$crate/$part" ] || cp -al "$scratch/base/crates/$crate/$part" "$copy/crates/$crate"
        done
    done
    rm -rf "$copy"
}

refused_at() {
    local crate=$1 place=$2 log=$3
    case $place in
    */*) grep -v 'was not admitted' "$log" | grep "/$place:[0-9]*:[0-9]*: error" >/dev/null ;;
    *) grep -qE "^fn $crate::$place: (not proved|no proof: .*\`search\` did not prove .*)$" "$log" ;;
    esac || {
        head -n 20 "$log"
        return 1
    }
}

edits=()
for edit in "${@:-crates/*/must-fail/*.edit}"; do
    # shellcheck disable=SC2206 # the pattern stands for files
    edits+=($edit)
done

mkdir -p "$scratch/base" "$scratch/copies"
copy_crates "$scratch/base"
declare -A of_crate
for edit in "${edits[@]}"; do
    crate=$(crate_of "$edit")
    mkdir -p "$scratch/logs/$crate"
    of_crate[$crate]+=" $(realpath "$edit")"
done

jobs=${PITHREAD_JOBS:-$(nproc)}
for crate in "${!of_crate[@]}"; do
    while [ "$(jobs -rp | wc -l)" -ge "$jobs" ]; do
        wait -n || true
    done
    # shellcheck disable=SC2086 # the edits are words
    try_edits "$crate" ${of_crate[$crate]} &
done
wait

for edit in "${edits[@]}"; do
    crate=$(crate_of "$edit")
    check "$edit names its wrong answers" all_named "$edit"
    while read -r _ name _ place; do
        check "$crate: $name is refused at $place" refused_at "$crate" "$place" "$(log_of "$edit")"
    done < <(grep '^wrong: ' "$edit")
done
close_checks
