# Bad files for tools/audit-files.awk: axioms, crates that are not listed, paths and registries, first lines.
bad 'c: lem' $proof 2 'axiom: lem' '-- A proof of it.
middle = lem'
bad 'c: lem, imported' $proof 2 'axiom: lem' '-- A proof of it.
use Prim.Classical.{lem as middle}
x = middle'
bad 'c: ac, behind a comment' $proof 3 'axiom: ac' '-- A proof of it.
{- a
-} x = «ac» -- ac'
worse 'c: by its path, in specs' $specs 19 'axiom: lem' '
x = "--" (P.lem)'
bad 'c: what rests on one' $proof 2 'axiom: Axiom' '-- A proof of it.
x = Axiom.resize'
bad 'd: no folder' crates.txt 4 'crates/gone is not there' 'good:
low:
low_c staticlib: low
gone: good'
tree
mkdir "$t/crates/other"
holds 'd: not listed' 1 'crates/other:1: crates.txt does not list other'
tree
rm -r "$t/crates.txt" "$t/crates"
holds 'd: nothing there' 1 "crates.txt:1: nothing to audit here
$(for subject in contracts names promises imports inner; do echo "crates.txt:1: there are no files for tools/audit-$subject.awk"; done)"
for r in work tmp opt root home; do
    bad "e: a path, $r" docs/PLACES.md 2 'a path of one machine' "First line.
See ($s$r/x)."
done
for r in registry.example.org index.crates.io pypi.org files.pythonhosted.org repo1.maven.org; do
    bad "e: a registry, $r" tools/get 1 'a registry of packages' "get https:$s$s$r/x"
done
bad 'f: source' $more 1 'the first line does not say the subject' 'mod inner;

// More of it.'
bad 'f: a place is no subject' $proof 1 'the first line does not say the subject' '-- src/lib.rt:3:1 here'
bad 'f: an empty comment' $proof 1 'the first line does not say the subject' '--'
bad 'f: not the root' crates/good/specs/Other.antt 1 'the first line does not say the subject' 'pub mod Other'
bad 'f: a root that holds more' crates/good/specs/Lib.antt 1 'the first line does not say the subject' 'pub mod Half
x : y'

if command -v git > /dev/null; then
    tree
    git init -q "$t" 2> /dev/null
    echo target > "$t/.gitignore"
    holds 'a good repository' 0 ''
    echo "${s}tmp/x" > "$t/target.txt"
    holds 'e: a file that git does not ignore' 1 'target.txt:1: a path of one machine'
fi
