# Bad files for tools/audit-names.awk: names of the library that mean another thing, and statements that rest on no specification.
other=crates/good/specs/Other.antt
path='use Rattle.std.specs.Prelude.{◌≡◌}'

# The one that was tried and proved: an equality of one's own, and a function that is said to return 7 and returns 8.
bad 'g: an equality of our own' $other 4 '◌≡◌ is defined here' '-- What is equal. Assumes nothing.
use Rattle.std.specs.Prelude.{ℕ}

abbrev pub ◌≡◌ : ℕ → ℕ → Type 0
◌≡◌ a b = Unit {0}'
bad 'g: and a contract with it' $more 2 '◌≡◌ comes from Rattle.good.specs.Other' '// More of it.
ghost use Rattle.good.specs.Other.{◌≡◌};
fn told() -> u8
    ensures { result ≡ 7 }
{
    8
}'
for name in '◌<◌' '◌≤◌' '◌+◌' '◌*◌' '◌/◌' '◌%◌' '◌^◌' '◌-◌' '◌∷◌' '◌++◌' length ⊥ Unit; do
    bad "g: $name" $other 2 "$name is defined here" "-- Of our own. Assumes nothing.
unfoldable pub $name {ℓ} : Type ℓ
$name = x"
done
tree
printf '%s\n' '-- Of our own. Assumes nothing.' 'abbrev pub getD : Type 0' > "$t/$other"
holds 'g: a name that no specification imports' 0 ''
printf '%s\n' '-- Another page. Assumes nothing.' 'use lib.ListN.{getD}' 'x = getD' > "$t/crates/good/specs/Third.antt"
holds 'g: and one that a specification imports' 1 "$other:2: getD is defined here"
bad 'g: in a proof' $proof 2 'length is defined here' '-- A proof of it.
length : ℕ
length = x'
bad 'g: in quotes' $other 2 'length is defined here' '-- Of our own. Assumes nothing.
«length» : Type 0'
worse 'g: under where' $specs 18 'length is defined here' '    length : Type 0
    length = x'
bad 'g: a constructor' $other 4 '◌∷◌ is defined here' '-- Of our own. Assumes nothing.

pub data Both : Type 0 where
  none-of ◌∷◌ : Both'
bad 'g: a field' $other 3 'length is defined here' '-- Of our own. Assumes nothing.
pub record Both (a : x) : Type 0 where
  pub length : y'
bad 'g: a record' $other 2 'Unit is defined here' '-- Of our own. Assumes nothing.
pub record Unit (a : x) {b : y} : Type 0 where'
bad 'g: a data type' $other 2 '⊥ is defined here' '-- Of our own. Assumes nothing.
pub data ⊥ where'
bad 'g: a derived name' $other 3 'length is defined here' '-- Of our own. Assumes nothing.
pub data Both : Type 0 where
  deriving Discrete as length'
bad 'g: a rule set' $other 2 'length is defined here' '-- Of our own. Assumes nothing.
ruleset length = (a, b)'
bad 'g: a fixity' $other 2 '◌≡◌ is defined here' '-- Of our own. Assumes nothing.
infixr 9 ◌⊕◌ ◌≡◌'
bad 'g: opened' $other 2 '◌≡◌ is defined here' '-- Of our own. Assumes nothing.
open Pointed ℕ• using (base, point as ◌≡◌)'
bad 'g: a part of an operator of ours' $other 2 '◌≡◌, the library'\''s, by ◌≡◌or◌ is defined here' '-- Of our own. Assumes nothing.
pub ◌≡◌or◌ : Type 0'
bad 'g: the sign alone' $other 2 '◌≡◌, the library'\''s, by ≡ is defined here' '-- Of our own. Assumes nothing.
≡ : Type 0'
bad 'g: a parameter' $other 2 'length is a variable here' '-- Of our own. Assumes nothing.
pub f : (xs length : x) → y'
bad 'g: a section'\''s parameter' $other 2 '◌≡◌ is a variable here' '-- Of our own. Assumes nothing.
module _ {A : x} (◌≡◌ : y) where'
bad 'g: of a function' $other 2 'length is a variable here' '-- Of our own. Assumes nothing.
f = λ x (y : z) length. length'
bad 'g: of a clause' $other 3 'length is a variable here' '-- Of our own. Assumes nothing.
pub f : x → y
f (suc n) {m = length} [] = length'
bad 'g: of a let' $other 3 'length is a variable here' '-- Of our own. Assumes nothing.
f =
    let length = x in length'
bad 'g: with its type' $other 3 'length is a variable here' '-- Of our own. Assumes nothing.
f =
    let length : x = y in length'
bad 'g: renamed' $other 2 '◌≡◌ is another name of ◌≤◌' '-- Of our own. Assumes nothing.
use Rattle.std.specs.Prelude.{◌≤◌ as ◌≡◌}
x = ◌≡◌'
bad 'g: renamed, in a contract' $more 2 '◌≡◌ is another name of ◌≈◌' '// More of it.
ghost use Rattle.good.specs.Half.{◌≈◌ as ◌≡◌};
fn told() -> u8
    ensures { result ≡ 7 }
{
}'
bad 'g: renamed, in a proof' $proof 2 'length is another name of size' '-- A proof of it.
use Rattle.good.specs.Half.{size as length}
x = length'
bad 'g: passed on' $other 2 'length is another name of size' '-- Of our own. Assumes nothing.
pub use Rattle.good.specs.Half.{size as length}'
bad 'g: from two modules of the library' $other 2 '◌≡◌ comes from std.Path here and from Rattle.std.specs.Prelude in crates/good/specs/Half.antt' '-- Of our own. Assumes nothing.
use std.Path.{◌≡◌}
x = a ≡ b'
bad 'g: a library hidden by a module' $other 2 "lib is a library's name" '-- Of our own. Assumes nothing.
use Rattle.good.specs.Half as lib
x = lib.x'
bad 'g: by the last word of a path' $other 2 "mathlib is a library's name" '-- Of our own. Assumes nothing.
use Rattle.good.specs.mathlib
x = mathlib.x'
bad 'g: by a module below' $other 2 "mathlib is a library's name" '-- Of our own. Assumes nothing.
pub mod mathlib'
bad 'g: a path through another import' $other 3 'the path begins with q, which is no library and no crate' '-- Of our own. Assumes nothing.
use Rattle.good.specs.Half as q
use q.{half}
x = half'
bad 'h: a specification rests on a proof' $other 2 'a statement imports what is no specification: Rattle.low.proofs.Laws' '-- Of our own. Assumes nothing.
use Rattle.low.proofs.Laws.{size}
x = size'
bad 'h: and a contract' $more 2 'a statement imports what is no specification: Rattle.low.proofs.Laws' '// More of it.
ghost use Rattle.low.proofs.Laws as laws;
fn told() -> u8
    ensures { laws.size result }
{
}'
