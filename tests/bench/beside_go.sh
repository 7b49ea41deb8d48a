#!/usr/bin/env bash
# A rendezvous of the engine beside one of Go: two loads, each in a long run of the archive and between
# two goroutines over unbuffered channels. The programs run in turn, some rounds, and a figure is the
# median of its rounds. Needs Go, and the archive that `tests/build.sh pithread` writes.
set -euo pipefail
root=$(cd "$(dirname "$0")/../.." && pwd)
rounds=${1:-5}

if ! command -v go >/dev/null; then
    echo "go is not installed, so there is nothing to compare with"
    exit 0
fi

go_program=$root/target/go/rendezvous
(cd "$root/tests/bench/go" && go build -o "$go_program" .)
cargo build --quiet --manifest-path "$root/tests/Cargo.toml" --release --offline -p bench

figures=$(mktemp)
trap 'rm -f "$figures"' EXIT

# measure SIDE COMMAND..: notes the side, the load and the nanoseconds for each line that is printed.
measure() {
    local side=$1
    shift
    "$@" | sed "s/^/$side /" >>"$figures"
}

for ((round = 0; round < rounds; round++)); do
    measure archive "$root/tests/target/release/bench" meetings
    measure go-one env GOMAXPROCS=1 "$go_program"
    measure go-all "$go_program"
done

# median SIDE LOAD
median() {
    awk -v side="$1" -v load="$2" '$1 == side && $2 == load { print $3 }' "$figures" | sort -n |
        awk '{ times[NR] = $1 } END { print times[int((NR + 1) / 2)] }'
}

echo "nanoseconds for one rendezvous, medians of $rounds rounds; $(go version); $(nproc) processors"
printf '%-12s%10s%18s%8s%18s%8s\n' load archive "Go on one" ratio "Go on all" ratio
# line LOAD GO_LOAD: goroutines have no calls between their rounds, so that a rally is their ping-pong too.
line() {
    local ours one all
    ours=$(median archive "$1") one=$(median go-one "$2") all=$(median go-all "$2")
    awk -v load="$1" -v ours="$ours" -v one="$one" -v all="$all" 'BEGIN {
        printf "%-12s%10.1f%18.1f%8.2f%18.1f%8.2f\n", load, ours, one, one / ours, all, all / ours
    }'
}

line rally ping-pong
line ping-pong ping-pong
line select select
