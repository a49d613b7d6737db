# Bad files for tools/audit-contracts.awk: public functions that state nothing, ask something, or do not determine their result.
path='ghost use Rattle.std.specs.Prelude.{◌≡◌};'

bad 'a: no ensures' $more 2 'public function told has no ensures' '// More of it.
pub fn told() {
}'
bad 'a: over lines, with ensures only in comments, a text and the body' $more 2 'public function told has no ensures' '// More of it.
pub fn told(
    a: u8, // ensures
    /* ensures
    */ b: [u8; 4],
) -> u8 {
    ensures { b"ensures" }
}'
bad 'a: exported' $more 3 'public function told has no ensures' '// More of it.
#[no_mangle]
pub extern "C" fn told(a: u8) -> u8
{
}'
bad 'a: with no body' $more 2 'public function told has no ensures' '// More of it.
pub fn told() -> u8;'
bad 'a: a method, before one that has it' $more 4 'public function told has no ensures' "// More of it.
$path
impl S {
    pub fn told<'a>(self) -> u8 {
    }

    pub fn next(self) -> u8
        ensures { result ≡ 1 }
    {
    }
}"
bad 'a: unsafe' $more 2 'public function told has no ensures' '// More of it.
pub unsafe fn told() {
}'
bad 'b: requires' $more 3 'public function told has a requires' "// More of it.
$path
pub fn told(a: u8) -> u8
    requires { a ≡ 3 }
    ensures { result ≡ 1 }
{
}"
bad 'b: and ensures only in a clause' $more 2 "public function told has no ensures
$more:2: public function told has a requires" '// More of it.
pub fn told()
    requires { ensures }
{
}'
bad 'b: exported, over lines, behind it' $more 3 'public function told has a requires' "// More of it.
$path
pub extern \"C\" fn told(
    a: u8,
) -> u8
    ensures { result ≡ 1 }
    requires {
        a ≡ 3
    }
{
}"

# states LABEL WHAT HEAD STATEMENT: a public function with this head and statement is refused as WHAT.
states() {
    bad "j: $1" $more 4 "public function told: $2" "// More of it.
ghost use Rattle.std.specs.Prelude.{◌≡◌, ◌⊎◌};
ghost use Rattle.good.specs.Half.{half, Kept, ◌or◌};
pub fn told$3
    ensures { $4 }
{
    // the imports are used: half Kept or
}
fn other()
    ensures { half ⊎ (Kept or half ≡ half) }
{
}"
}
states 'says nothing' 'the right side names the result itself' '(a: u8) -> u8' 'result ≡ result'
states 'the result under a function' 'the right side names the result itself' '(a: u8) -> u8' 'result ≡ half a (result)'
states 'a field by another' 'the right side names the result itself' '(a: u8) -> Two' '(result.first ≡ half (result.second)) × (result.second ≡ a)'
states 'what is lent by itself' 'the right side names a return that is not said yet: b' '(b: &mut [u8])' 'b.new ≡ b.new'
states 'what is lent by a later one' 'the right side names a return that is not said yet: c' '(b: &mut [u8], c: &mut u8)' \
    '(b.new ≡ half (c.new)) × (c.new ≡ 7)'
states 'the result by what is lent, and the other way round' 'the right side names a return that is not said yet: b' '(b: &mut [u8]) -> u8' \
    '(result ≡ half (b.new)) × (b.new ≡ half result)'
states 'only a bound' 'it states no equation: half result' '(a: u8) -> u8' 'half result'
states 'a condition' 'it states no equation: ( half a ) → ( result ≡ a )' '(a: u8) -> u8' '(half a) → (result ≡ a)'
states 'one of two' 'an operator stands outside of brackets on the right side: ⊎' '(a: u8) -> u8' 'result ≡ 7 ⊎ half a'
states 'one of two, in brackets' 'it states no equation: ( result ≡ 7 ) ⊎ ( result ≡ 8 )' '(a: u8) -> u8' '(result ≡ 7) ⊎ (result ≡ 8)'
states 'one of two, by an operator of ours' 'an operator stands outside of brackets on the right side: or' '(a: u8) -> u8' 'result ≡ 7 or half a'
states 'a condition without brackets' 'an operator stands outside of brackets on the right side: →' '(a: u8) -> u8' 'result ≡ 7 → half a'
states 'turned around' 'the left side is neither the result, its field nor what is lent: half a' '(a: u8) -> u8' 'half a ≡ result'
states 'a function of the result' 'the left side is neither the result, its field nor what is lent: half result' '(a: u8) -> u8' 'half result ≡ a'
states 'what is lent, at entry' 'the left side is neither the result, its field nor what is lent: b .old' '(b: &mut [u8])' 'b.old ≡ half 7'
states 'a blank' 'a blank stands on the right side' '(a: u8) -> u8' 'result ≡ half _'
states 'no right side' 'there is no right side' '(a: u8) -> u8' 'result ≡'
states 'no statement' 'it states nothing' '(a: u8) -> u8' ''
states 'a starred clause' 'a starred clause says what is not looked at here' '(a: u8) -> u8' 'result ≡ 7 }
    ensures* more { half a'
states 'a statement beside it' 'an operator stands outside of brackets on the right side: ∗' '(a: u8) -> u8' 'result ≡ 7 ∗ half'
states 'two statements' 'it states no equation: half a' '(a: u8) -> u8' 'result ≡ 7 }
    ensures more { half a'
states 'joined without brackets' 'what × joins stands in brackets' '(b: &mut [u8]) -> u8' 'result ≡ 7 × b.new ≡ 8'
states 'a tuple with something else' 'the left side is neither the result, its field nor what is lent: ( b .new , half result )' '(b: &mut [u8]) -> u8' \
    '(b.new, half result) ≡ half 7'
states 'a tuple that names itself' 'the right side names the result itself' '(b: &mut [u8]) -> u8' '(b.new, result) ≡ half result'
states 'a tuple without the result' 'it does not say what the result is' '(b: &mut [u8], c: &mut u8) -> u8' '(b.new, c.new) ≡ half 7'
states 'twice' 'it says twice what the result is' '(a: u8) -> u8' '(result ≡ 7) × (result ≡ 8)'
states 'twice, in two clauses' 'it says twice what the result is' '(a: u8) -> u8' 'result ≡ 7 }
    ensures again { result ≡ 8'
states 'a field left out' "it does not say what the result's second is" '(a: u8) -> Two' 'result.first ≡ half a'
states 'fields of no struct' 'it does not say what the result is' '(a: u8) -> Three' 'result.first ≡ half a'
states 'no result' 'it does not say what the result is' '(b: &mut [u8]) -> u8' 'b.new ≡ half 7'
states 'nothing of what is lent' 'it does not say what is lent as b at the return' '(b: &mut [u8]) -> u8' 'result ≡ half 7'
states 'one of two that are lent' 'it does not say what is lent as c at the return' "<'a>(b: &mut [u8], c: &'a mut u8) -> u8" '(result ≡ half 7) × (b.new ≡ half 7)'
states 'nothing of a receiver' 'it does not say what is lent as self at the return' '(&mut self) -> u8' 'result ≡ half 7'
states 'a return of what is not lent' 'what it says of a return is of no &mut: b' '(b: &[u8])' 'b.new ≡ half 7'
states 'a result that there is none of' 'there is no result' '(b: &mut [u8])' '(result ≡ 7) × (b.new ≡ half result)'
states 'a record that is not listed' 'it states no equation: Held ( b .new ) result' '(b: &mut [u8]) -> u8' 'Held (b.new) result'
states 'a record without what is lent' 'it does not say what is lent as b at the return' '(b: &mut [u8]) -> u8' 'Kept (b.old) result'
states 'a record without the result' 'it does not say what the result is' '(b: &mut [u8]) -> u8' 'Kept (b.old) (b.new)'
states 'a record with a function of the result' 'the right side names the result itself' '(b: &mut [u8]) -> u8' 'Kept (b.new) (half result)'
states 'what is right where it is no error, of what gives none' 'it states no equation: IfOk result ( λ x .x ≡ half a )' '(a: u8) -> u8' 'IfOk result (λ x. x ≡ half a)'
states 'only a bound where it is no error' 'it states no equation: half result' '(a: u8) -> Result<u8, E>' 'IfOk result (λ x. half x)'
states 'the right side, where it is no error' 'the right side names the result itself' '<W: Write>(w: &mut W) -> io::Result<u8>' 'IfOk result (λ x. x ≡ half x)'
states 'what is lent beside a writer' 'it does not say what is lent as b at the return' '<W: Write>(w: &mut W, b: &mut u8) -> io::Result<u8>' 'IfOk result (λ x. x ≡ half 7)'
states 'a field left out where it is no error' "it does not say what the result's second is" '(a: u8) -> io::Result<Two>' 'IfOk result (λ x. x.first ≡ half a)'
states 'what is lent of a type that is no writer' 'it does not say what is lent as w at the return' '<W: Display>(w: &mut W) -> u8' 'result ≡ half 7'
bad 'j: a struct that holds a &mut' $more 6 'public function told: the parameter w holds a &mut, of which nothing is looked at here' "// More of it.
$path
pub struct Writer<'a> {
    pub into: &'a mut [u8],
}
pub fn told<'a>(w: Writer<'a>) -> u8
    ensures { result ≡ 7 }
{
}"
bad 'j: one within another' $more 7 'public function told: the parameter w holds a &mut, of which nothing is looked at here' "// More of it.
$path
enum Maybe<'a> {
    Some(&'a mut [u8]),
}
pub struct Writer<'a> { pub into: Maybe<'a> }
pub fn told<'a>(n: u8, w: &Writer<'a>) -> u8
    ensures { result ≡ 7 }
{
}"
bad 'j: a result that lends' $more 3 'public function told: its result lends a &mut, of which nothing is looked at here' "// More of it.
$path
pub fn told<'a>(w: &'a [u8]) -> &'a mut [u8]
    ensures { result ≡ w }
{
}"
bad 'k: foreign' $more 2 'what a foreign function does is assumed' '// More of it.
extern "C" {
    fn told() -> u8
        ensures { result told };
}'
bad 'k: a trait' $more 2 'the functions of a trait are public, and are not looked at here' '// More of it.
pub trait Told {
    fn told(self) -> u8;
}'
bad 'k: another equality' $more 3 'public function told: ≡ is not that of the library' '// More of it.
ghost use Rattle.std.specs.Prelude.{◌+◌};
pub fn told() -> u8
    ensures { result ≡ (7 + 1) }
{
}'
bad 'k: a hidden name' $more 4 'public function told: the parameter length hides a name of the library' "// More of it.
$path
ghost use lib.ListN.{length};
pub fn told(length: u64) -> u8
    ensures { result ≡ length }
{
}
fn other(b: &[u8])
    requires { length b }
{
}"
