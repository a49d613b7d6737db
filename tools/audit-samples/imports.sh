# Bad files for tools/audit-imports.awk: imports that are not used.
bad 'i: a name' $proof 2 'imports refl and does not use it' '-- A proof of refl.
use mathlib.Core.Path.{◌≡◌, refl}
x = y ≡ z'
bad 'i: an operator' $proof 2 'imports ◌≡◌ and does not use it' '-- A proof of a ≡ b.
use mathlib.Core.Path.{◌≡◌, refl}
x = refl'
bad 'i: an operator of several parts' $proof 2 'imports ◌≡⟨◌⟩◌ and does not use it' '-- A proof of it.
use mathlib.Core.Path.{◌≡⟨◌⟩◌, ◌∎}
x = y ∎'
bad 'i: renamed' $proof 2 'imports pow-field and does not use it' '-- A proof of it.
use lib.Pow.{field as pow-field}
x = field'
bad 'i: only a field of that name' $proof 2 'imports length and does not use it' '-- A proof of it.
use lib.ListN.{length, take}
x = take (y .length) y.length (record { length = z; other = take }) {length = z}'
bad 'i: only of another module' $proof 2 'imports length and does not use it' '-- A proof of it.
use lib.ListN.{length}
use native.Mathlib.Lists as lists
x = lists.length'
bad 'i: a module' $proof 3 'imports lists and does not use it' '-- A proof of it.
use lib.ListN.{length}
use native.Mathlib.Lists as lists
x = length lists'
bad 'i: in a comment' $proof 3 'imports length and does not use it' '-- A proof of it.
-- length
use lib.ListN.{length}
{- length -}'
bad 'i: over lines' $proof 2 'imports take and does not use it' '-- A proof of it.
use lib.ListN.{
    length,
    take,
}
x = length'
worse 'i: in a specification' crates/good/specs/Lib.antt 1 'the first line does not say the subject
crates/good/specs/Lib.antt:4: imports length and does not use it' 'use lib.ListN.{length}'
bad 'i: in a contract' $more 2 'imports length and does not use it' '// More of it.
ghost use lib.ListN.{length};
fn told(xs: &[u8]) -> usize
    ensures { result xs }
{
    length(xs)
}'
bad 'i: a parameter of that name' $more 2 'imports tick and does not use it' '// More of it.
ghost use Rattle.good.specs.Half.{tick};
fn told(tick: u32) -> usize
    ensures { result tick }
{
}'
bad 'i: source' $more 2 'imports Thing and does not use it' '// A Thing of it.
use other::Thing;
fn told() {
    Things::new(x.Thing)
}'
bad 'i: source, of several' $more 2 'imports held and does not use it' '// More of it.
use other::{parts, Thing as Piece, held};
fn told(held: Piece) {
    parts::of(held, x.held(1))
}'
bad 'i: a constant' $more 2 'imports LAST and does not use it' '// More of it.
use other::{LAST, MOST};
fn told() {
    for i in 0..MOST { x.LAST }
}'
bad 'i: a writer that nobody writes to' $more 2 'imports Write and does not use it' '// More of it.
use std::io::{Read, Write};
fn told(file: &mut Stdin) {
    file.read(&mut write_all);
}'
