#!/usr/bin/env bash
# The instructions of one call, counted by callgrind, on both sides. A call is made once and three times, and half of the
# difference is printed, so that what comes before and after the calls does not count; the copy of the state, some hundred
# instructions, does. Needs valgrind, and the archive that `tests/build.sh pithread` writes.
#
# table: a write into no bytes, which is refused once the table has been judged; refuse: a step of a seat without the
# right, which is refused behind the table and the list of rights; judge: a step of thread 64, which is refused once
# table, rights and state have been judged; run_none: a run of no steps.
set -euo pipefail
root=$(cd "$(dirname "$0")/../.." && pwd)
cargo build --quiet --manifest-path "$root/tests/Cargo.toml" --release --offline -p bench

# count SIDE STATE CALL TIMES
count() {
    valgrind --tool=callgrind --callgrind-out-file=/dev/null "$root/tests/target/release/bench" calls "$@" 2>&1 |
        sed -n 's/.*Collected : //p'
}

# one SIDE STATE CALL
one() {
    echo $((($(count "$@" 3) - $(count "$@" 1)) / 2))
}

printf '%-12s %-9s %10s %10s\n' state call archive reference
while read -r state call; do
    printf '%-12s %-9s %10d %10d\n' "$state" "$call" "$(one archive "$state" "$call")" "$(one reference "$state" "$call")"
done <<CALLS
alone table
alone refuse
alone judge
alone step
largest table
largest refuse
largest judge
largest step
chain table
chain refuse
chain judge
chain run_none
chain collect
chain_last step
clique table
clique refuse
clique judge
clique run_none
clique collect
clique_last step
CALLS
