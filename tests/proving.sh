#!/usr/bin/env bash
# tools/where-field and tools/places, in a tiny repository, and what CONTRIBUTING.md says to those who prove. The last line is 'N passed, M failed'.
set -uo pipefail
export LC_ALL=C.UTF-8 PYTHONDONTWRITEBYTECODE=1
cd "$(dirname "${BASH_SOURCE[0]}")/.." || exit 1
top=$(mktemp -d) || exit 1
trap 'rm -rf "$top"' EXIT
passed=0 failed=0 status=0
proof=crates/low/proofs/one/Answers.antt

# note HOLDS WHAT: one thing that passes or fails; where it fails, what was said last is shown.
note() {
    if [ "$1" = 0 ]; then
        passed=$((passed + 1))
    else
        failed=$((failed + 1))
        echo "failed: $2; the status was $status, and it said:"
        cat "$top/out"
    fi
}
# runs STATUS TOOL WORDS..: a tool ends so, from a folder of the repository that is not its root.
runs() {
    local wanted=$1
    shift
    (cd "$top/repo/crates" && "../tools/$@") > "$top/out" 2>&1
    status=$?
    [ $status = "$wanted" ]
    note $? "tools/$*"
}
shows() { grep -qF -e "$1" "$top/out"; note $? "it does not show: $1"; }
hides() { ! grep -qF -e "$1" "$top/out"; note $? "it shows: $1"; }

mkdir -p "$top/repo/tools" "$top/repo/crates/low/proofs/one" "$top/repo/crates/low/src" "$top/repo/crates/low/specs"
cp tools/where-field "$top/repo/tools/"
printf '%s\n' '// One function.' 'pub fn one(t3206: u32, t3208: u32) -> u32' > "$top/repo/crates/low/src/lib.rt"
printf '%s\n' '-- What it means.' 'segmentId = 7' 'timer = T3206 + T32080' > "$top/repo/crates/low/specs/One.antt"
echo '-- It is proved.' > "$top/repo/$proof"
printf '%s\n' '#define ASTERNHAKEN_PART_SEGMENT_ID 16' > "$top/repo/low.h"
git -C "$top/repo" init -q

# ---- where-field ----

runs 0 where-field t3206
shows '    1  crates/low/src/lib.rt'
shows '    1  crates/low/specs/One.antt'
hides tools/
runs 0 where-field segment_id
shows '    1  crates/low/specs/One.antt'
shows '    1  low.h'
runs 1 where-field t3206 t3208
shows crates/low/specs/One.antt
hides crates/low/src/lib.rt
shows '1 of 2 files that name t3206 do not name t3208'
runs 0 where-field t3208 t3206
shows '0 of 1 files that name t3208 do not name t3206'
runs 0 where-field t3206 t3208,segment_id
runs 2 where-field t3210
shows 'nothing names t3210'
runs 2 where-field 'a|b'
runs 2 where-field

# ---- places ----

cp tools/places "$top/repo/tools/"
cat > "$top/repo/crates/low/src/lib.rt" << 'END'
// What places looks for.
pub enum Got { Bits(u64), Short }

pub struct At {
    pub refusal: u8,
    pub done: bool,
    pub value: u64,
}

pub struct Run {
    pub items: [u8; 4],
    // Stays: lent by C.
    pub count: usize,
}

fn wide(x: u8) -> u64
    ensures { result ≡ x }
{
    x as u64
}

fn first(s: &[u8], at: usize, kind: u64) -> u64
    requires { (at ≤ length s.now) × (kind ≤ 9) }
{
    let mut sum: u64 = 0;
    let mut i = at;
    while i < s.len() {
        sum = sum | wide(s[i]);
        i += 1;
    }
    sum
}

// Stays: tried as one function with the first, and a loop over an iterator was slower.
#[inline]
fn second<const N: usize, F: Fn(u8) -> u64>(t: &[u8], at: usize, kind: u64) -> u64
    requires { at ≤ length t.now }
{
    let mut all: u64 = 1;
    let mut k = at;
    while k < t.len() {
        all = all | thin(t[k]);
        k += 2;
    }
    all
}

fn third(t: &[u8], at: usize, kind: u64) -> u64
    requires { at ≤ length t.now }
{
    if kind == 1 { return first(t, at, kind); }
    if kind == 2 { return second(t, at, kind); }
    NONE
}

#[unsafe(no_mangle)]
pub extern "C" fn low_third(t: &[u8], ch: u32) -> u64 { 0 }
END
runs 0 places
for place in '1 crates/low/src/lib.rt:2 option lib:Got' '1 crates/low/src/lib.rt:5 refusal lib:At' '1 crates/low/src/lib.rt:6 flag done lib:At' '1 crates/low/src/lib.rt:22 kind kind lib:first' \
    '1 crates/low/src/lib.rt:53 sentinel NONE lib:third' '1 crates/low/src/lib.rt:57 kind ch lib:low_third kept' '2 crates/low/src/lib.rt:22 twins lib:first' \
    '2 crates/low/src/lib.rt:36 twins lib:second kept' '3 crates/low/src/lib.rt:27 while i lib:first' '3 crates/low/src/lib.rt:41 while k lib:second kept' '4 crates/low/src/lib.rt:16 convert lib:wide' \
    '5 crates/low/src/lib.rt:22 fact (3) <usize> ≤ length <&[u8]>.now lib:first kept' '6 crates/low/src/lib.rt:13 count count lib:Run kept' '7 crates/low/src/lib.rt:48 switch lib:third'; do
    grep -qxF -e "$place" "$top/out"
    note $? "places does not show: $place"
done
runs 0 places --count 1 2 3
shows '| `low` | 8/2 | 2/1 | 2/1 |'
runs 0 places --other --count
shows '| `low` | 3 | 2 | 2 |'
runs 0 places --list
hides low_third
runs 2 places nothing

# ---- The page ----

rt version > "$top/out"
status=$?
[ -s "$top/out" ] && grep -qF -f "$top/out" CONTRIBUTING.md
note $? 'CONTRIBUTING.md names another kit than this'
# the command that finds long lines, as the page has it, over proofs that are new since main
page=$(sed -n 's/^    \(git diff -U0 main .*\)     must print nothing$/\1/p' CONTRIBUTING.md)
long=$(printf '%0201d' 0)
git -C "$top/repo" checkout -q -b main 2> /dev/null
# long_lines FOUND LINE: the command finds this line, added to a proof, or does not.
long_lines() {
    git -C "$top/repo" add -A && git -C "$top/repo" -c user.name=a -c user.email=a@b commit -q --allow-empty -m before || exit 1
    echo "$2" >> "$top/repo/$proof"
    (cd "$top/repo" && bash -c "$page") > "$top/out" 2>&1
    if [ "$1" = 1 ]; then grep -qxF -e "+$2" "$top/out"; else [ ! -s "$top/out" ]; fi
    note $? "CONTRIBUTING.md's command, with $2"
}
for line in "$long" "  let a = $long in"; do long_lines 1 "$line"; done
for line in "${long#0}" "use ${long}"; do long_lines 0 "$line"; done

echo "$passed passed, $failed failed"
[ "$failed" = 0 ]
