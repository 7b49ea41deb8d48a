#!/usr/bin/env bash
# tests/edits.sh [CRATE..]: the edits in tests/edits, of all crates or of these. Each breaks one rule, as those in
# crates/*/must-fail do, and the prover must refuse it. ./test leaves them out, since each takes as long as its crate;
# they are for whoever changes the crate.
set -euo pipefail
root=$(cd "$(dirname "$0")/.." && pwd)
source "$root/tests/counted.sh"
source "$root/tests/copies.sh"
cd "$root"

scratch=$(mktemp -d)
trap 'rm -rf "$scratch"' EXIT

# The crates as they are, with these edits in the place of their own.
copy_crates "$scratch"
crates=("$@")
if [ $# -eq 0 ]; then
    mapfile -t crates < <(ls tests/edits)
fi
edits=()
for crate in "${crates[@]}"; do
    cp -r "tests/edits/$crate" "$scratch/crates/$crate/must-fail"
    edits+=("tests/edits/$crate"/*.edit)
done

all_refused() {
    (cd "$scratch" && rt must-fail "${crates[@]}")
}

check "the edits of ${crates[*]} are refused" all_refused
close_checks
"$root/tests/refusals.sh" "${edits[@]}"
