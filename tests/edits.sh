#!/usr/bin/env bash
# Each must-fail edit was refused because a fact no longer holds, and not because a definition's text, a name or a type's arguments went wrong, because the proof file
# no longer fits the code, or by a limit of the prover's. First that judgement itself is tried on made-up lines. The argument is what `rt ci` printed: a line for each edit,
# with the first of the prover's errors that is not only about a missing name, as far as rt shows it (160 characters).
set -u
cd "$(dirname "$0")/.." || exit 1
bad=0

# whether what rt says after 'refused, as it must be' is that a fact does not hold
is_fact() {
    case $1 in
    ': '?*) ;;
    # rt's own doubts, that only a name is gone or that only a limit was met, stand in parentheses; or it says nothing
    *) return 1 ;;
    esac
    case ${1#: } in
    # a definition that is wrong in itself
    ./specs/*': error'*) return 1 ;;
    *'not in scope'* | *'has no `'* | *'has no field'* | *'is not a field of record'* | *': error: expected a'* | *'is applied to an argument'*) return 1 ;;
    # only what cites a declaration that fell
    *' that depends on `'* | *' that depend on `'* | *' not admitted'*) return 1 ;;
    # a search that stopped at a limit of its own shows nothing false
    *'gave up at'*) return 1 ;;
    # another place, or another need, than the proof file has there
    *': expected type `tie.'* | *'where one has `Rattle.'*'.Lts.'[A-Z]*) return 1 ;;
    esac
}

# a word, yes or no, and an error, of which rt shows 160 characters: whether it tells of a fact
try() {
    local verdict=yes
    is_fact ": ${2:0:160}" || verdict=no
    [ "$verdict" = "$1" ] || { echo "edits: judged $verdict: $2"; bad=1; }
}

# the same of all that rt says
try_said() {
    local verdict=yes
    is_fact "$2" || verdict=no
    [ "$verdict" = "$1" ] || { echo "edits: judged $verdict: $2"; bad=1; }
}

try_said no ''
try_said no ' (only because a proof file names what the edit took away, so this says little of the contract: change a value and keep the names): ./proofs/later/Proof.antt:31:3: error'
try_said no ' (only by a limit of the prover, which gave no verdict, so this says less of the contract: choose a change that it refuses sooner): ./proofs/f/Proof.antt:3:1: error'
try no './specs/Bytes.antt:12:34: error: `number_of`: expected type `ℕ`, but this has type `(ℕ → ℕ) → ℕ`'
try no './proofs/Bytes.antt:12:22: error: `number_same`: `g` is not in scope'
try no './proofs/Bytes.antt:12:22: error: `number_same`: this is applied to an argument but has type `ℕ`, which is not a function or extension (path) type'
try no './proofs/Bytes.antt:12:22: error: expected an expression, found `=`'
try no './proofs/number/Proof.antt:39:12: error: `overflow_add-at`: `tie.Need-overflow_add-at`: module `Rattle.codec.proofs.number.Tie` has no `Need-overflow_add-at`'
try no './proofs/number/Proof.antt:31:12: error: `room`: `tie.After-wide`: module `Rattle.codec.proofs.number.Tie` has no `After-wide` that can be named from here'
try no './proofs/number/Proof.antt:57:31: error: `loop-i-preserved`: record `Rattle.codec.proofs.number.Lts.At-loop-i` has no field `args`'
try no './proofs/put_number/Proof.antt:28:96: error: `kept`: record `Rattle.codec.proofs.put_number.Lts.After-slice_known-1` has no field `args`'
try no './proofs/put_number/Proof.antt:66:5: error: `put_number_spec`: the two types differ only where one has `Rattle.codec.proofs.put_number.Lts.Then-x` (expected)'
try no './proofs/put_number/Proof.antt:66:5: error: `put_number_spec`: expected type `tie.Need-returns invariant decreases`, but this has type `tie.Need-loop-i-init invariant decreases`'
try no './proofs/number/Proof.antt:37:30: error: `overflow_mul-x`: expected type `tie.In-loop-i invariant decreases`, but this has type `Rattle.codec.proofs.number.Lts.After-wide`'
try no './proofs/shrink_row/Proof.antt:22:5: error: 1 declaration that depends on `returns-then-u-k`, which was rejected, was not checked: shrink_row_spec'
try no './proofs/later/Proof.antt:31:3: error: `there` is not admitted: rejected'
try no 'note: src/shrink.rt:26:9: it is not proved that what the function ensures holds when it returns (`returns-then-a`); `search` gave up at one of its limits'
try yes './proofs/of_pattern/Proof.antt:39:5: error: `returns`: computed as far as they go, the two types first differ where one has `c.greatest.result` (expected) and the other has `18446744073709551615`'
try yes './proofs/number/Proof.antt:60:90: error: `loop-i-preserved`: `omega`: the goal does not follow from what it read'
try yes './proofs/Boards.antt:39:19: error: `boards_answered`: expected type `Answered boards`, but this has type `map (λ q. q.0) boards ≡ map (λ q. q.0) boards`'
try yes 'note: src/main.rt:16:5: it is not proved that what `expect` requires holds at this call (`expect-requires`)'

[ $# -eq 1 ] || { echo 'edits: give the file of what rt ci printed'; exit 1; }
for edit in crates/*/must-fail/*.edit; do
    crate=${edit#crates/}
    label="must-fail ${crate%%/*}/${edit##*/}: refused, as it must be"
    line=$(grep -F -m 1 -- "$label" "$1") || { echo "$edit: not refused"; bad=1; continue; }
    said=${line#*"$label"}
    is_fact "$said" || { echo "$edit: not refused at a fact:$said"; bad=1; }
done
exit $bad
