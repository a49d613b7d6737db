# Bad files for tools/audit-promises.awk: promises without a proof, proofs of what is not promised.
page='-- What is promised besides. Assumes nothing.
use Rattle.std.specs.Prelude.{◌≡◌}
use Rattle.good.specs.Half.{half}
'
more_promises=crates/good/specs/MorePromises.antt
more_proofs=crates/good/proofs/Promises.antt

worse 'l: no proof' $promises 19 'the promise No-half-is-lost has no proof' '
abbrev pub No-half-is-lost : Type 0
No-half-is-lost = half 1 ≡ 0'
bad 'l: on another page' $more_promises 5 'the promise NoHalfIsLost has no proof' "$page
abbrev pub NoHalfIsLost : Type 1
NoHalfIsLost = half 1 ≡ 0"
bad 'l: a record' $more_promises 5 'the promise Listed has no proof' "$page
pub record Listed : Type 0 where
  pub one : half 1 ≡ 0"
tree
sed -i 's/^pub a-half-is-low : .*/pub a-half-is-low : x → A-half-is-low/' "$t/$more_proofs"
holds 'l: a proof under a condition' 1 "$promises:10: the promise A-half-is-low has no proof"
tree
sed -i 's/^pub a-half-is-low : .*/x = (h : A-half-is-low) → y\n/' "$t/$more_proofs"
holds 'l: a premise is no proof' 1 "$promises:10: the promise A-half-is-low has no proof"
tree
sed -i 's/^pub a-half-is-low : /x = y\n  where\n    pub a-half-is-low : /' "$t/$more_proofs"
holds 'l: a helper is no proof' 1 "$promises:10: the promise A-half-is-low has no proof"
tree
sed -i 's/^pub a-half-is-low : .*/-- &/' "$t/$more_proofs"
sed -i 's/A-half-is-low, //' "$t/$more_proofs"
holds 'l: a comment is no proof' 1 "$promises:10: the promise A-half-is-low has no proof"
tree
sed -i 's/^use Rattle.good.specs.Promises/use Rattle.low.specs.Promises/' "$t/$more_proofs"
holds "l: another crate's promises of these names" 1 "$more_proofs:5: a proof of a promise that is not there: A-half-is-low of crates/low/specs/Promises.antt
$more_proofs:8: a proof of a promise that is not there: KeptDetermines of crates/low/specs/Promises.antt
$promises:10: the promise A-half-is-low has no proof
$promises:16: the promise KeptDetermines has no proof"
tree
sed -i 's/^pub mod Promises/pub mod Others/' "$t/crates/good/proofs/Lib.antt"
holds 'l: proofs that nobody reads' 1 "$more_proofs:5: a proof that no line \`mod\` reaches: a-half-is-low
$more_proofs:8: a proof that no line \`mod\` reaches: kept-determines
$promises:10: the promise A-half-is-low has no proof
$promises:16: the promise KeptDetermines has no proof"
worse 'l: a second proof' $more_proofs 12 'a second proof of A-half-is-low of crates/good/specs/Promises.antt' '
also-low : A-half-is-low
also-low = a-half-is-low'
tree
sed -i -e '/^abbrev pub A-half-is-low/,+2d' -e 's/^Low n = .*/&\n\nabbrev pub Lower : Type 0\nLower = Low 1/' "$t/$promises"
printf '\nlower : Lower\n' >> "$t/$more_proofs"
sed -i 's/A-half-is-low,/A-half-is-low, Lower,/' "$t/$more_proofs"
holds 'l: a promise that is gone' 1 "$more_proofs:5: a proof of a promise that is not there: A-half-is-low of crates/good/specs/Promises.antt"
worse 'l: a promise in a proof' $more_proofs 12 'a statement that is made in a proof: Every-half-is-low' '
abbrev Every-half-is-low : Type 0
Every-half-is-low = x'
worse 'l: not proved' $promises 19 'the promise All-is-well has no proof' '
abbrev pub All-is-well : Type 1
All-is-well = (A : Type 0) (a b : A) → a ≡ b → a ≡ b'
printf '\nall-is-well : All-is-well\n' >> "$t/$more_proofs"
sed -i 's/A-half-is-low,/A-half-is-low, All-is-well,/' "$t/$more_proofs"
holds 'l: a promise of nothing, which is proved' 1 "$promises:19: the promise All-is-well names nothing of the specifications"
worse 'l: not at the edge' $promises 20 'a promise that is not at the left edge: Inner-promise' '
module _ (n : ℕ) where
  abbrev pub Inner-promise : Type 0
  Inner-promise = half n ≡ n'
worse 'l: a promise with a parameter, which nobody proves' $promises 19 'No-half-is-lost is no promise, and no specification names it' '
abbrev pub No-half-is-lost : ℕ → Type 0
No-half-is-lost n = half n ≡ 0'
tree
rm "$t/$promises" "$t/crates/good/proofs/Laws.antt" "$t/$more_proofs"
holds 'l: no promise' 1 'crates.txt:1: there is no promise
tools/audit:1: contracts state Kept, and no page promises KeptDetermines'
tree
sed -i '/^abbrev pub KeptDetermines/,$d' "$t/$promises"
sed -i '/^kept-determines/,$d' "$t/$more_proofs"
sed -i 's/half, Kept}/half}/' "$t/$promises"
sed -i 's/, KeptDetermines as Determined}/}/' "$t/$more_proofs"
holds 'm: nothing that determines' 1 'tools/audit:1: contracts state Kept, and no page promises KeptDetermines'
tree
sed -i 's/ → Kept before halves b n → / → /' "$t/$promises"
holds 'm: of one alone' 1 "$promises:16: KeptDetermines does not speak of two of Kept"
tree
sed 's/^awaited=.*/awaited=Kept/' "$audit" > "$top/tools/awaits"
chmod +x "$top/tools/awaits"
audit=$top/tools/awaits holds 'm: awaited and there' 1 "$promises:16: KeptDetermines is there: tools/audit awaits it no more"
