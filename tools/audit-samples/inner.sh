# Bad files for tools/audit-inner.awk: definitions for private functions alone that stand elsewhere, public ones that stand in Inner, and those that nothing needs.
inner=crates/good/specs/Inner.antt
source=crates/good/src/lib.rt
worse 'n: nothing names it' $specs 19 'no statement rests on third' '
pub third : ℕ → ℕ
third n = half n'
worse 'n: but itself' $inner 20 'no statement rests on again' '
pub again : ℕ → ℕ
again n = again n'
worse 'n: but what nothing names' $specs 19 'no statement rests on third
crates/good/specs/Half.antt:21: no statement rests on sixth' '
pub third : ℕ → ℕ
third n = half n
pub sixth : ℕ → ℕ
sixth n = third n'
worse 'n: but a field and a parameter' $specs 19 'no statement rests on number' '
pub number : ℕ → ℕ
number n = n'
tree
sed -n '/^-- of which/,$p' "$t/$inner" >> "$t/$specs"
rm "$t/$inner"
sed -i 's/specs.Inner/specs.Half/' "$t/$source"
sed -i 's/^use Rattle.std.specs.Prelude.{ℕ, suc, ◌\/◌}/use Rattle.std.specs.Prelude.{ℕ, suc, ◌\/◌, ◌<◌}/' "$t/$specs"
holds 'n: outside of Inner, for a private function' 1 "$specs:19: only private statements rest on Part, and it is not in Inner
$specs:22: only private statements rest on partOf, and it is not in Inner
$specs:27: only private statements rest on quarter, and it is not in Inner
$specs:30: only private statements rest on Low-enough, and it is not in Inner"
audit=$top/tools/loose holds 'n: in a crate that has no Inner yet' 0 ''
tree
sed -i 's/^fn quarters/pub fn quarters/; s/^    requires { .*number < 9.*/    ensures { result ≡ fourth (half 1) }/; /ensures .* result ≡ fourth number/d; s/{◌<◌, ◌+◌}/{◌+◌}/; / as inner;/d' "$t/$source"
holds 'n: in Inner, and a public function needs it' 1 "$inner:6: Part is in Inner, and a public statement rests on it
$inner:9: partOf is in Inner, and a public statement rests on it
$inner:14: quarter is in Inner, and a public statement rests on it
$inner:17: no statement rests on Low-enough"
tree
sed -i 's/^Low n = .*/Low n = inner.partOf inner.whole n ≤ n/; s/^use Rattle.*/&\nuse Rattle.good.specs.Inner as inner/' "$t/$promises"
holds 'n: in Inner, and a promise needs it, through a helper' 1 "$inner:6: Part is in Inner, and a public statement rests on it
$inner:9: partOf is in Inner, and a public statement rests on it"
