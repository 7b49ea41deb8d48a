#!/usr/bin/env bash
# Shows that the calls are held to the claim by their contracts. In a copy the contract of each call in the crate pithread is
# changed, and its body with it, so that this crate is still proved: four contracts say less, five say something else. The
# driver has nothing but these contracts, and has to be refused at each of its calls. And what C calls has the clauses of
# the functions that it hands on to: the crates pithread_c and driver_c beside pithread and driver, by their texts.
set -euo pipefail
root=$(cd "$(dirname "$0")/.." && pwd)
source "$root/tests/counted.sh"
source "$root/tests/copies.sh"
cd "$root"

scratch=$(mktemp -d)
log=$scratch/log
trap 'rm -rf "$scratch"' EXIT

# exports_hold NAME [EXPORTS]: the exports of NAME_c, or those in another file, are the functions of the library NAME.
exports_hold() {
    awk -f tests/exports.awk "crates/$1/src/lib.rt" "${2:-crates/${1}_c/src/lib.rt}"
}

# strayed_export OLD NEW SAID: with another text in the exports of pithread_c this is said of them.
strayed_export() {
    local exports=$scratch/pithread_c/src/lib.rt
    mkdir -p "$(dirname "$exports")"
    cp crates/pithread_c/src/lib.rt "$exports"
    replace "$exports" "$1" "$2" && ! exports_hold pithread "$exports" >"$log" && grep -qxF "$3" "$log"
}

check "the exports of pithread_c have the clauses of pithread" exports_hold pithread
check "the exports of driver_c have the clauses of driver" exports_hold driver
check "an export with another clause is found" strayed_export '≡ profile_result table.now' '≡ result' \
    'pithread_profile has other parameters or clauses than in pithread'
check "an export that calls otherwise is found" strayed_export 'pithread_run(table, state, rights, seat, n)' 'pithread_run(table, state, rights, 0, n)' \
    'pithread_run does not just call pithread::pithread_run'
check "a function that is not exported is found" strayed_export 'pub extern "C" fn pithread_profile' 'extern "C" fn pithread_profile' \
    'pithread_profile is not exported'
check "an export that imports another definition is found" strayed_export 'result as answered}' 'in_numbers as answered}' \
    'answered is imported from elsewhere than in pithread'

copy_crates "$scratch"
calls=$scratch/crates/pithread/src/lib.rt
proofs=$scratch/crates/pithread/proofs

# change OLD NEW: in the source of the calls, where OLD has to stand once.
change() {
    replace "$calls" "$1" "$2" || exit 1
}

# asked CRATE: what the prover says of this crate in the copy.
asked() {
    (cd "$scratch/crates/$1" && rt check) 2>&1
}

proved() {
    asked pithread >"$log" || {
        grep -E '^fn .*: (not proved|no proof)|error' "$log" || true
        return 1
    }
}

refused() {
    ! asked driver >"$log" && grep -qx 'logic=not-proved' "$log"
}

# What that check said: that this function of the driver is refused, and not only for one that it calls, and that another is proved.
refused_at() {
    grep -qE "^fn driver::$1: (not proved|no proof: .*\`search\` did not prove .*)$" "$log"
}

still_proved() {
    grep -q "^fn driver::$1: proved" "$log"
}

all='table.now state.old rights.now seat'

# A load that names line 1 for every fault of ground 3, also where it is the kind of a later line; and a start after which
# the first turn is thread 5's.
mkdir "$scratch/crates/pithread/specs"
echo 'pub mod Strayed' >"$scratch/crates/pithread/specs/Lib.antt"
cat >"$scratch/crates/pithread/specs/Strayed.antt" <<'SPEC'
use Rattle.std.specs.Prelude.{ℕ, cond, List, ◌==◌, pos}
use Rattle.loader.specs.Load.{loaded, refusal_number, line_number}
use Rattle.interface.specs.Interface.{LoadResult, loaded_to}

unfoldable pub strayed_load : List ℕ → List ℕ → LoadResult
strayed_load file t =
    let answer = (loaded file t).answer in
    loaded_to (record { refusal = pos (refusal_number answer); line = pos (cond (refusal_number answer == 3) 1 (line_number answer)) }) (loaded file t).table
SPEC
change 'ghost use Rattle.std.specs.Prelude.{◌≡◌};' 'ghost use Rattle.std.specs.Prelude.{◌≡◌, set};
ghost use Rattle.numbers.specs.Bytes.{words};
ghost use Rattle.pithread.specs.Strayed.{strayed_load};'
change '≡ load_result file.now table.old' '≡ strayed_load file.now table.old'
change '    LoadAnswer {
' '    if refusal == 3 {
        return LoadAnswer { refusal: 3, line: 1 };
    }
    LoadAnswer {
'
cat >"$proofs/pithread_load/Answers.antt" <<'PROOF'
use Rattle.std.proofs.Common.{ℕ, ◌≤◌, ◌≡◌, List, pos, sym, ◌∙◌, w32, to_z, ne_eqb}
use Rattle.loader.specs.Load.{outcome, loaded, refusal_number, line_number}
use Rattle.loader.specs.Answers.{Loaded}
use Rattle.interface.specs.Interface.{loaded_to, numbered, load_result}
use Rattle.pithread.specs.Strayed.{strayed_load}
use Rattle.pithread.proofs.Answered.{line_fits, load_answered}
use Rattle.pithread.proofs.pithread_load.Goals as goal

module _ (file t t' : List ℕ) (a : Loaded) (e : outcome a t' ≡ loaded file t) (r : ℕ) (f : r ≡ refusal_number a) where
  strayed : r ≡ 3 → loaded_to (record { refusal = pos 3; line = pos 1 }) t' ≡ strayed_load file t
  unfolding strayed_load
  strayed q = rw (← e, ← f, q)

  as_before : (l : ℕ) → l ≡ line_number a → r ≤ 8 → (r ≡ 3 → ⊥) → loaded_to (record { refusal = to_z w32 r; line = to_z w32 l }) t' ≡ strayed_load file t
  unfolding strayed_load load_result numbered
  as_before l g h n = load_answered file t t' a e l g r f h ∙ rw (← e, ← f, ne_eqb r 3 n)

pub returns-then-refusal-eq3 : goal.returns-then-refusal-eq3
returns-then-refusal-eq3 c = search strayed

pub overflow_cast-result-2 : goal.overflow_cast-result-2
overflow_cast-result-2 c = search line_fits

pub returns : goal.returns
returns c = search as_before
PROOF
change 'answered result state.new ≡ start_result table.now state.old }' \
    'result ≡ (start_result table.now state.old).answer }
    ensures turned { words state.new ≡ set (words (start_result table.now state.old).state) 2 5 }'
change 'ensures { result ≡ (start_result' 'ensures value { result ≡ (start_result'
change '    interface::start_numbers(engine::start(table, state))' \
    '    let answer = interface::start_numbers(engine::start(table, state));
    numbers::put_word(state, 2, 5);
    answer'
cat >"$proofs/pithread_start/Answers.antt" <<'PROOF'
use Rattle.std.proofs.Common.{ℕ, ◌≡◌, List, ap, ◌∙◌, set}
use Rattle.numbers.specs.Bytes.{words}
use Rattle.rules.specs.Calls.{Outcome, outcome, start_call}
use Rattle.rules.specs.Answers.{Started}
use Rattle.interface.specs.Interface.{start_numbers, start_result, in_numbers}
use Rattle.interface.specs.declared.StartAnswer.{StartAnswer}
use Rattle.pithread.proofs.pithread_start.Goals as goal

module _ (table b b₁ : List ℕ) (a : Started) (e : outcome a b₁ ≡ start_call table b) where
  told : (r : StartAnswer) → r ≡ start_numbers a → r ≡ (start_result table b).answer
  unfolding start_result in_numbers
  told r f = f ∙ ap (λ (x : Outcome Started). start_numbers x.answer) e

  turned : (b₂ : List ℕ) → words b₂ ≡ set (words b₁) 2 5 → words b₂ ≡ set (words (start_result table b).state) 2 5
  unfolding start_result in_numbers
  turned b₂ f = f ∙ ap (λ (x : Outcome Started). set (words x.state) 2 5) e

pub returns-clause-value : goal.returns-clause-value
returns-clause-value c = search told

pub returns-clause-turned : goal.returns-clause-turned
returns-clause-turned c = search turned
PROOF

# Other calls than those asked for: a give at another port, a take for another seat, a run of another length.
change "≡ give_result $all port number" "≡ give_result $all 0 number"
change 'engine::give(table, state, rights, seat, port, ' 'engine::give(table, state, rights, seat, 0, '
change "≡ take_result $all port" "≡ take_result ${all% seat} 0 port"
change 'engine::take(table, state, rights, seat, port)' 'engine::take(table, state, rights, 0, port)'
change "≡ run_result $all n" "≡ run_result $all 1"
change 'engine::run(table, state, rights, seat, n)' 'engine::run(table, state, rights, seat, 1)'

# A step that answers what it should and then goes on: the contract says nothing of the state.
change "answered result state.new ≡ step_result $all thread" "result ≡ (step_result $all thread).answer"
change '    interface::step_numbers(engine::step(table, state, rights, seat, thread))' \
    '    let answer = interface::step_numbers(engine::step(table, state, rights, seat, thread));
    let _ = engine::run(table, state, rights, seat, 1);
    answer'
cat >"$proofs/pithread_step/Answers.antt" <<'PROOF'
use Rattle.std.proofs.Common.{ℕ, ◌≡◌, List, ap, ◌∙◌}
use Rattle.rules.specs.Calls.{Outcome, outcome}
use Rattle.rules.specs.Seats.{seated_step}
use Rattle.rules.specs.Answers.{Stepped}
use Rattle.interface.specs.Interface.{step_numbers, step_result, in_numbers}
use Rattle.interface.specs.declared.StepAnswer.{StepAnswer}
use Rattle.pithread.proofs.pithread_step.Goals as goal

told : (table b rights b₁ : List ℕ) (seat t : ℕ) (a : Stepped) (r : StepAnswer) → outcome a b₁ ≡ seated_step table b rights seat t → r ≡ step_numbers a
    → r ≡ (step_result table b rights seat t).answer
unfolding step_result in_numbers
told table b rights b₁ seat t a r e f = f ∙ ap (λ (x : Outcome Stepped). step_numbers x.answer) e

pub returns : goal.returns
returns c = search told
PROOF

# A collection that always says that it took nobody: the contract says nothing of the answer.
change "answered result state.new ≡ collect_result $all" "state.new ≡ (collect_result $all).state"
change '    interface::collect_numbers(collector::collect(table, state, rights, seat))' \
    '    let _ = collector::collect(table, state, rights, seat);
    interface::collect_numbers(Ok(0))'
cat >"$proofs/pithread_collect/Answers.antt" <<'PROOF'
use Rattle.std.proofs.Common.{ℕ, ◌≡◌, List, ap}
use Rattle.rules.specs.Calls.{Outcome, outcome}
use Rattle.collector.specs.Collect.{seated_collect}
use Rattle.collector.specs.Answers.{Collected}
use Rattle.interface.specs.Interface.{collect_result, in_numbers}
use Rattle.pithread.proofs.pithread_collect.Goals as goal

left : (table b rights b₁ : List ℕ) (seat : ℕ) (a : Collected) → outcome a b₁ ≡ seated_collect table b rights seat → b₁ ≡ (collect_result table b rights seat).state
unfolding collect_result in_numbers
left table b rights b₁ seat a e = ap (λ (x : Outcome Collected). x.state) e

pub returns : goal.returns
returns c = search left
PROOF

# A write that spoils the file which it has written: the contract says nothing of the buffer.
change 'written_to result file.new ≡ write_result table.now file.old' 'result ≡ (write_result table.now file.old).answer'
change '    let refusal = interface::write_refusal(answer);' \
    '    numbers::put_short(file, 0, 0);
    let refusal = interface::write_refusal(answer);'
cat >"$proofs/pithread_write/Answers.antt" <<'PROOF'
use Rattle.std.proofs.Common.{ℕ, ◌≤◌, ◌≡◌, List, ap, w32, to_z}
use Rattle.writer.specs.Write.{outcome, write_call, refusal_number, bytes_number}
use Rattle.writer.specs.Answers.{Written}
use Rattle.interface.specs.Interface.{WriteResult, write_result}
use Rattle.interface.specs.declared.WriteAnswer.{WriteAnswer}
use Rattle.pithread.proofs.Answered.{written_fits, write_answered}
use Rattle.pithread.proofs.pithread_write.Goals as goal

told : (t b b' : List ℕ) (a : Written) → outcome a b' ≡ write_call t b → (n : ℕ) → n ≡ bytes_number a → (r : ℕ) → r ≡ refusal_number a → r ≤ 15
    → ◌≡◌ {A = WriteAnswer} (record { refusal = to_z w32 r; bytes = to_z w32 n }) (write_result t b).answer
told t b b' a e n g r f h = ap (λ (w : WriteResult). w.answer) (write_answered t b b' a e n g r f h)

pub overflow_cast-result-2 : goal.overflow_cast-result-2
overflow_cast-result-2 c = search written_fits

pub returns : goal.returns
returns c = search told
PROOF

# A check that passes every table, with one thread: the contract says nothing.
change '
    ensures { result ≡ profile_result table.now }' ''
change 'interface::profile_numbers(profile::profile(table))' 'interface::profile_numbers(Ok(1))'

check "the calls themselves are proved with them" proved
check "the driver is refused with other contracts" refused
for call in load start step give take run collect write profile; do
    check "it is refused at the call $call" refused_at "$call"
done
check "what lays the answers down is proved as before" still_proved put_answer
close_checks
