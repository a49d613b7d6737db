#!/usr/bin/env bash
# docs/STATEMENTS.md is what the source says, and docs/PROMISES.md names every public function once, by its path, and none besides; what it calls a promise is one, and
# it names every page of promises. What must be believed for demand 3 is what tools/believed counts, and below a limit. Behind that, pages that must be refused, and trees that must count otherwise.
set -uo pipefail
cd "$(dirname "${BASH_SOURCE[0]}")/.." || exit 1
passed=0 failed=0
tmp=$(mktemp -d) || exit 1
trap 'rm -rf "$tmp"' EXIT
note() { if [ "$1" = 0 ]; then passed=$((passed + 1)); else failed=$((failed + 1)); echo "statements: $2"; fi; }

# rows STATEMENTS PROMISES: what is wrong with the functions that the page of promises names. They stand in the first cell of a row under a heading ###, in quotes. The first is a
# whole path, crate::module::name; one behind it that does not begin with the same crate takes the place of the last parts of the name before it.
rows() {
    awk '
    function path(name, before,    a, b, k, n, m, s) {
        n = split(name, a, "::"); m = split(before, b, "::")
        if (before == "" || a[1] == b[1]) return name
        for (k = 1; k <= m - n; k++) s = s b[k] "::"
        return s name
    }
    NR == FNR { if (sub(/^## /, "")) { stated[$0]; all++ } next }
    /^#/ { on = /^### / }
    on && /^\| `/ {
        split($0, cell, " [|] "); k = split(cell[1], word, "`"); before = ""
        for (i = 2; i <= k; i += 2) { before = path(word[i], before); if (!(before in stated)) print "no public function is named " before; if (++row[before] == 2) print before " stands in two rows" }
    }
    END { for (f in stated) if (!(f in row)) print f " stands in no row"; if (!all) print "no function is stated" }' "$1" "$2"
}
records=$(sed -n "s/^records='\(.*\)'$/\1/p" tools/audit | tr ' ' '\n')
# promises PROMISES: what is wrong with the promises that it names. A promise is a word in quotes of three or more with capitals, or one that ends in Determines, and no record of those that
# tools/audit lists; a page of promises is crate/specs/Page.
promises() {
    local page name
    sed -n -E 's/^(abbrev )?pub (record )?([^ ]+) : Type [0-9].*/\3/p' crates/*/specs/*Promises.antt > "$tmp/promised"
    [ -s "$tmp/promised" ] || echo 'no page promises anything'
    grep -oE '`[A-Z][a-z0-9]*([A-Z][a-z0-9]*([A-Z][A-Za-z0-9]*)|Determines)`' "$1" | tr -d '`' | sort -u | grep -vxF -e "$records" | while read -r name; do grep -qxF -e "$name" "$tmp/promised" || echo "$name is no promise"; done
    for page in crates/*/specs/*Promises.antt; do
        name=${page#crates/} name=${name%.antt}
        grep -qE "(^|[^a-z_])$name" "$1" || echo "it does not name the page $name"
    done
}
good() { rows docs/STATEMENTS.md "$1"; promises "$1"; }

tools/statements | cmp - docs/STATEMENTS.md
note $? "docs/STATEMENTS.md is not what tools/statements writes"
# What C calls is stated word for word as the library states it.
exports=0
for crate in $(sed -n 's/^\([a-z0-9_]*\)_c staticlib:.*/\1/p' crates.txt); do
    tools/statements "$crate" > "$tmp/library"
    tools/statements "${crate}_c" > "$tmp/static"
    sed "s/^## ${crate}_c/## $crate/" "$tmp/static" | cmp - "$tmp/library" && [ -s "$tmp/library" ]
    note $? "crates/${crate}_c does not state what crates/$crate states"
    exports=$((exports + $(grep -c '^## ' "$tmp/static")))
done
[ "$(($(grep -c '^## ' docs/STATEMENTS.md) + exports))" = "$(tools/audit | sed -n 's/^audit: \([0-9]*\) public functions.*/\1/p')" ]
note $? "tools/audit does not count the functions of docs/STATEMENTS.md and the $exports that C calls"
good docs/PROMISES.md > "$tmp/said"
sed 's/^/docs\/PROMISES.md: /' "$tmp/said"
wrong=$(wc -l < "$tmp/said")
passed=$((passed + $(grep -c '^## ' docs/STATEMENTS.md) - wrong)) failed=$((failed + wrong))

# believed [TREE]: how many lines must be believed for demand 3; nothing where that cannot be said.
believed() { BELIEVED_ROOT=${1-$PWD} tools/believed > "$tmp/list" && sed -n '$s/.* \([0-9]*\) lines$/\1/p' "$tmp/list"; }
awk '/^## / { on = $0 == "## What must be believed for demand 3" } on' docs/PROMISES.md > "$tmp/section"
tools/believed page | cmp - "$tmp/section"
note $? "the section on demand 3 of docs/PROMISES.md is not what tools/believed page writes"
all=$(believed)
[ "${all:-892}" -lt 892 ]
note $? "${all:-no} lines must be believed for demand 3, and 892 are too many"

# moves LABEL BY FILE EDIT: the specifications with this edit have so many lines more.
moves() {
    local now
    rm -rf "$tmp/tree"
    mkdir "$tmp/tree"
    cp -r --parents crates.txt docs/STATEMENTS.md crates/*/specs "$tmp/tree"
    sed -i -E "$4" "$tmp/tree/crates/$3.antt"
    now=$(believed "$tmp/tree")
    ! cmp -s "crates/$3.antt" "$tmp/tree/crates/$3.antt" && [ "$((${now:-0} - all))" = "$2" ]
    note $? "with $1, ${now:-no} lines must be believed: not $2 more than $all"
}
moves 'a clause more' 1 isolation/specs/One 's/^gone_by onFacch = .*/&\n&/'
moves 'a comment more' 0 isolation/specs/One 's/^gone_by onFacch = .*/-- as is said\n\n&/'
moves 'a definition that the promise comes to' 2 isolation/specs/Calls 's/^timer_of c s = (.*)/timer_of c s = doubled (\1)\n\nabbrev pub doubled : ℕ → ℕ\ndoubled n = n + n/'
moves 'a definition that nothing comes to' 0 isolation/specs/Calls 's/^timer_of c s = .*/&\n\nabbrev pub doubled : ℕ → ℕ\ndoubled n = n + n/'
moves 'a definition of another crate' 2 isolation/specs/Calls 's/^(use .*csn1[.]specs[.]Told[.][{])(.*)/\1is_one, \2/; s/^laid_out l = /&pick (is_one 1) [] /'
moves 'an import left out' -2 isolation/specs/Calls 's/^(use .*[.]Channels[.][{]Channel), every_channel/\1/'
moves 'a line more in a module' 1 isolation/specs/Calls 's/^      reply_by = /      reply_by =\n          /'
moves 'a promise of another name' -"$all" isolation/specs/Promises 's/TheAnswerIsTheCalls/TheAnswerIsOurs/' 2> /dev/null

# bad LABEL SAID EDIT [STATEMENT]: the page with this edit, beside one more statement if need be, is refused as SAID, and for nothing else.
bad() {
    sed -E "$3" docs/PROMISES.md > "$tmp/page"
    { cat docs/STATEMENTS.md; [ $# -lt 4 ] || printf '\n## %s\n' "$4"; } > "$tmp/stated"
    { rows "$tmp/stated" "$tmp/page"; promises "$tmp/page"; } | diff - "$tmp/said" | sed -n 's/^< //p' > "$tmp/more"
    [ "$(cat "$tmp/more")" = "$2" ]
    note $? "a page with $1 is not refused as '$2', but as '$(cat "$tmp/more")'"
}
bad 'a function left out' 'csn1::ran_out stands in no row' 's/^(\| `csn1::no_refusal`), `ran_out`/\1/'
bad 'a function that is named like one that is listed' 'bits::other::fetch stands in no row' '' bits::other::fetch
bad 'the same in another crate' 'csn1::fetch stands in no row' '' csn1::fetch
bad 'a function that is not there' 'no public function is named bits::fetched' 's/^\| `bits::fetch`/&, `fetched`/'
bad 'a path that is not whole' 'no public function is named fetch
bits::fetch stands in no row' 's/^\| `bits::fetch`/| `fetch`/'
bad 'a function in two rows' 'bits::put stands in two rows' 's/^\| `bits::fetch`/&, `put`/'
bad 'a promise that is not made' 'NoCallIsLost is no promise' '$s/$/ `NoCallIsLost`/'
bad 'a page of promises left out' 'it does not name the page facch/specs/Promises' 's#facch/specs/Promises#the promises#'
echo "$passed passed, $failed failed"
[ "$failed" = 0 ] && [ "$passed" -gt 100 ]
