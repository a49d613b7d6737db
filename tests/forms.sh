#!/usr/bin/env bash
# The table of forms in docs/ARCHITECTURE.md names a file and a line of it for each place; this holds each line to stand in its file exactly once. Behind that, tables that must be refused.
set -uo pipefail
cd "$(dirname "${BASH_SOURCE[0]}")/.." || exit 1
tmp=$(mktemp -d) || exit 1
trap 'rm -rf "$tmp"' EXIT
least=17 # rows, when this was written

# forms PAGE: what is wrong with the table of a page, and in the last line how many rows hold. Blanks before a line do not count.
forms() {
    local place file form n held=0
    while IFS='|' read -r _ place file form _; do
        place=${place# } place=${place% } file=${file// /}
        form=${form# \`} form=${form%\` }
        n=$([ ! -f "$file" ] || sed 's/^ *//' "$file" | grep -cxF -e "$form")
        if [ "$n" = 1 ]; then held=$((held + 1)); else echo "forms: $file has '$form' ${n:-no} times ($place)"; fi
    done < <(awk '/^## / { on = $0 == "## The forms that document 01 asks for" } on && /^[|] [^|]+ [|] crates\// ' "$1")
    echo "$held"
}
forms docs/ARCHITECTURE.md > "$tmp/said"
sed '$d' "$tmp/said"
rows=$(tail -n 1 "$tmp/said")
passed=$rows failed=$(($(wc -l < "$tmp/said") - 1))
[ "$rows" -ge $least ] || { failed=$((failed + 1)); echo "forms: $rows rows hold, and there were $least"; }

# bad WHAT EDIT: the page with this edit has one row less that holds.
bad() {
    sed -E "$2" docs/ARCHITECTURE.md > "$tmp/page"
    if [ "$(forms "$tmp/page" | tail -n 1)" = $((rows - 1)) ]; then passed=$((passed + 1)); else failed=$((failed + 1)) && echo "forms: $1 is not refused"; fi
}
bad 'a line that is not there' 's/`pub used: usize,`/`pub used: u64,`/'
bad 'a part of a line' 's/`pub used: usize,`/`used: usize,`/'
bad 'a line that stands there four times' "s/\`'fields: while k < 2 \{\`/\`'entries: loop {\`/"
bad 'a file that is not there' 's# crates/bits/src/reader.rt # crates/bits/src/readers.rt #'
echo "$passed passed, $failed failed"
[ "$failed" = 0 ]
