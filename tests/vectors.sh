#!/bin/sh
# What each program of vectors is run on, and must write, is what vectors/ alone give, and no less than when this was written; the last line is 'N passed, M failed'.
set -u
cd "$(dirname "$0")/.." || exit 1
passed=0 failed=0
tmp=$(mktemp) || exit 1
trap 'rm -f "$tmp"' EXIT
while read -r crate name stdin stdout; do
    for part in stdin stdout; do
        if [ $part = stdin ]; then least=$stdin; else least=$stdout; fi
        if tools/expected "$name" $part > "$tmp" && [ "$(wc -l < "$tmp")" -ge "$least" ] && cmp "$tmp" "crates/$crate/$part"; then
            passed=$((passed + 1))
        else
            failed=$((failed + 1))
            echo "vectors: crates/$crate/$part is not what vectors/ give, or has fewer than $least lines"
        fi
    done
done <<'END'
nch_vectors nch 332 332
facch_vectors facch 354 354
gcc_vectors gcc 201 201
receiver_events events 287 536
END
echo "$passed passed, $failed failed"
[ "$failed" -eq 0 ] && [ "$passed" -eq 8 ]
