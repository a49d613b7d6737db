#!/usr/bin/env bash
# Each must-fail edit is refused, and for what it says: the prover could read it, and no more than a proof file's name for a thing that is gone would be told otherwise. What rt ci said is looked
# at, where that is of the files as they stand (tools/prove), else rt must-fail tries the edits that it has not tried before. The last line is 'N passed, M failed'.
set -u
cd "$(dirname "${BASH_SOURCE[0]}")/.." || exit 1
passed=0 failed=0
tmp=$(mktemp -d) || exit 1
trap 'rm -rf "$tmp"' EXIT
note() { if [ "$1" = 0 ]; then passed=$((passed + 1)); else failed=$((failed + 1)) && echo "edits: $2"; fi; }

# refused LOG CRATE/EDIT: the prover refused it, by one line of its own, and not only since a proof file names what the edit took away, nor by a limit.
refused() {
    local said
    said=$(grep -F "rt: must-fail $2.edit: " "$1") || return 1
    [ "$(printf '%s\n' "$said" | wc -l)" = 1 ] && [[ $said == "rt: must-fail $2.edit: refused, as it must be: "* ]]
}

sample() { # 0|1 LABEL LINE..
    printf '%s\n' "${@:3}" > "$tmp/log"
    refused "$tmp/log" low/one
    [ $? = "$1" ]
    note $? "a sample is not taken as it must be: $2"
}
sample 0 'a type that does not fit' 'rt: must-fail low/one.edit: refused, as it must be: ./proofs/f/Answers.antt:5:1: error: `returns`: `omega`: the goal does not follow'
sample 0 'beside another' 'rt: must-fail low/two.edit: BAD EDIT: it changes nothing' 'rt: must-fail low/one.edit: refused, as it must be: note: src/lib.rt:188:9: it is not proved'
sample 1 'a name that is gone' 'rt: must-fail low/one.edit: refused, as it must be (only because a proof file names what the edit took away, so this says little of the contract: change a value and keep the names): ./proofs/f/Answers.antt:5:1: error: `a` is not in scope'
sample 1 'a limit' 'rt: must-fail low/one.edit: refused, as it must be (only by a limit of the prover, which gave no verdict, so this says less of the contract: choose a change that it refuses sooner): stopped'
sample 1 'not refused' 'rt: must-fail low/one.edit: NOT REFUSED: the crate is still proved with this edit'
sample 1 'a bad edit' 'rt: must-fail low/one.edit: BAD EDIT: the prover cannot read the edited text, so no contract was tried: src/lib.rt:1:2: error'
sample 1 'not tried' 'rt: must-fail low/one.edit: NOT TRIED: its check was killed, most likely for memory, so nothing is known of it: run this again'
sample 1 'another edit' 'rt: must-fail low/one_more.edit: refused, as it must be: src/lib.rt:1:2: error'
sample 1 'an edit of another crate' 'rt: must-fail below/one.edit: refused, as it must be: src/lib.rt:1:2: error'
sample 1 'nothing' ''

# rt must-fail itself, on a tiny crate: of three edits one is refused, one changes nothing that is proved, one has a text that is not there.
mkdir -p "$tmp/tiny/.git" "$tmp"/tiny/crates/first/{src,must-fail}
echo first: > "$tmp/tiny/crates.txt"
printf '%s\n' '// A number.' '#![tactic(auto)]' '' 'ghost use Rattle.std.specs.Prelude.{◌≡◌};' '' 'pub fn seven() -> u32' '    ensures { result ≡ 7 }' '{' '    7' '}' > "$tmp/tiny/crates/first/src/lib.rt"
printf 'file: src/lib.rt\nold:     7\nnew:     8\n' > "$tmp/tiny/crates/first/must-fail/eight.edit"
printf 'file: src/lib.rt\nold:     7\nnew:     (7)\n' > "$tmp/tiny/crates/first/must-fail/same.edit"
printf 'file: src/lib.rt\nold: no such text\nnew: 8\n' > "$tmp/tiny/crates/first/must-fail/absent.edit"
(cd "$tmp/tiny" && rt must-fail) > "$tmp/log" 2>&1
[ $? = 1 ] && refused "$tmp/log" first/eight && ! refused "$tmp/log" first/same && ! refused "$tmp/log" first/absent
note $? "rt must-fail passes an edit that is not refused, or one that cannot be made: $(tail -n 5 "$tmp/log")"

# All of ours.
log=target/proved/log
if [ ! -s target/proved/sum ] || [ "$(tools/sources)" != "$(cat target/proved/sum)" ]; then
    log=$tmp/ours
    rt must-fail | tee "$log"
fi
for edit in crates/*/must-fail/*.edit; do
    name=${edit#crates/} name=${name%%/*}/$(basename "$edit" .edit)
    refused "$log" "$name"
    note $? "$name is not refused for what it says: $(grep -F "rt: must-fail $name.edit: " "$log" || echo 'it was not tried')"
done
echo "$passed passed, $failed failed"
[ "$failed" -eq 0 ] && [ "$passed" -gt 150 ]
