#!/bin/sh
# The mending program on recorded days: for each capture of vectors/captures it must copy and list what stands beside it, octet by octet, read at once and in pieces of each size, and with little
# stack; what it has mended comes back the same, and replays without a refusal; random captures must give what the second program copies and lists; and a large one must take no more memory than
# a small one. Each comparison is then tried on programs that are wrong, which it must find. The last line is 'N passed, M failed'.
set -u
export LC_ALL=C
cd "$(dirname "$0")/.." || exit 1
tmp=$(mktemp -d) || exit 1
trap 'rm -rf "$tmp"' EXIT
unset ASTERNHAKEN_MEND ASTERNHAKEN_REPLAY ASTERNHAKEN_BENCH ASTERNHAKEN_LIB SEED # they may name another program
passed=0 failed=0
sizes='1 2 3 7 4096'

# note HOLDS WHAT: one thing that passes or fails.
note() {
    if [ "$1" = 0 ]; then passed=$((passed + 1)); else failed=$((failed + 1)) && echo "failed: $2"; fi
}

# counted WHAT COMMAND..: a command that counts for itself, by its last line; what it says is left in the file counted.
counted() {
    what=$1
    shift
    "$@" > "$tmp/counted" 2>&1
    status=$?
    n=$(sed -n '$s/^\([0-9][0-9]*\) passed, [0-9][0-9]* failed$/\1/p' "$tmp/counted")
    m=$(sed -n '$s/^[0-9][0-9]* passed, \([0-9][0-9]*\) failed$/\1/p' "$tmp/counted")
    if [ "${m:-0}" = 0 ] && { [ "$status" != 0 ] || [ "${n:-0}" = 0 ]; }; then m=1; fi
    passed=$((passed + ${n:-0})) failed=$((failed + m))
    [ "$m" = 0 ] || { echo "failed: $what, with status $status"; tail -n 60 "$tmp/counted"; }
}

# refused WHAT PATTERN COMMAND..: a command that must fail, and say a line that the pattern fits.
refused() {
    what=$1 pattern=$2
    shift 2
    ! "$@" > "$tmp/counted" 2>&1 && grep -Eq "$pattern" "$tmp/counted"
    note $? "not found: $what"
}

# mends PROGRAM CAPTURE COPY LIST: the program, a line of sh, copies and lists for the capture on its standard input what stands in these files, and ends with status 0.
mends() {
    sh -c "$1" < "$2" > "$tmp/out" 2> "$tmp/err" && cmp -s "$tmp/out" "$3" && cmp -s "$tmp/err" "$4"
}

# all PROGRAM: how many captures the program mends.
all() {
    right=0
    for capture in $captures; do ! mends "$1" "$capture" "${capture%.cap}.mended" "${capture%.cap}.list" || right=$((right + 1)); done
    echo $right
}

# same_told CAPTURE: the copy replays without a refusal, and told and dropped are those of the fields that the capture's replay accepts.
same_told() {
    $replay < "${1%.cap}.mended" > "$tmp/after"
    awk 'NR > 1 && !/^ / && $3 { exit 1 }' "$tmp/after" || return 1
    awk 'NR == 1 { next } !/^ / { kept = !$3; $1 = "" } kept' "${1%.cap}.replay" > "$tmp/told-before"
    awk 'NR == 1 { next } !/^ / { $1 = "" } 1' "$tmp/after" | cmp -s - "$tmp/told-before"
}

make replay mend > "$tmp/said" 2>&1 || { tail -n 100 "$tmp/said"; echo '0 passed, 1 failed'; exit 1; }
replay=$(tools/program replay) mend=$(tools/program mend)

# ---- Recorded days ----

captures=$(ls vectors/captures/*.cap)
many=$(echo "$captures" | wc -l)
[ "$many" -ge 69 ] && [ "$(ls vectors/captures/*.mended | wc -l)" = "$many" ] && [ "$(ls vectors/captures/*.list | wc -l)" = "$many" ]
note $? "vectors/captures has $many captures, and there must be 69, and a copy and a list for each"
cc -std=c99 -Wall -Wextra -Wpedantic -Werror -O2 tests/pieces.c -o "$tmp/pieces"
note $? 'tests/pieces.c is not built'
: > "$tmp/nothing"
for capture in $captures; do
    copy=${capture%.cap}.mended list=${capture%.cap}.list
    mends "$mend" "$capture" "$copy" "$list"
    note $? "$capture is not mended as it must be"
    for size in $sizes; do
        mends "$tmp/pieces $size $mend" "$capture" "$copy" "$list"
        note $? "$capture in pieces of $size octets"
    done
    # An emulator has a stack of its own.
    [ "$(uname -m)" != x86_64 ] || { mends "ulimit -s 256; exec env -i $mend" "$capture" "$copy" "$list"; note $? "$capture with a stack of 256 KB"; }
    mends "$mend" "$copy" "$copy" "$tmp/nothing"
    note $? "$copy does not come back the same"
    same_told "$capture"
    note $? "$copy is not told what $capture is told"
done
# block NAME: what stands in docs/CAPTURE.md between ```NAME and the next ```.
block() { sed -n "/^\`\`\`$1\$/,/^\`\`\`\$/{/^\`\`\`/!p;}" docs/CAPTURE.md; }
block capture | python3 -c 'import sys; sys.stdout.buffer.write(bytes.fromhex(sys.stdin.read()))' > "$tmp/day.cap"
$mend < "$tmp/day.cap" > "$tmp/mended.cap" 2> "$tmp/day.list" && block list | cmp - "$tmp/day.list" && [ -s "$tmp/day.list" ]
note $? 'the list in docs/CAPTURE.md'
$replay < "$tmp/mended.cap" > "$tmp/out" && block mended | cmp - "$tmp/out"
note $? 'the replay of the mended capture in docs/CAPTURE.md'
sed -n '/asternhaken mend < day.cap/,/^$/s/^    \([0-9]* [0-9]* [0-9]*\) .*/\1/p' README.md | cmp - "$tmp/day.list"
note $? 'the list in README.md'
# Where there is nothing to read, or nobody to write to, it ends.
for streams in '< /dev/null' '< .' '<&-' '> /dev/full' '>&-' '2> /dev/full' '2>&-'; do
    sh -c "timeout 20 $mend < vectors/captures/dirty-day-long.cap $streams" > "$tmp/out" 2> "$tmp/err"
    [ $? -lt 124 ]
    note $? "with $streams it does not end"
done

# ---- Random captures, and the second program ----

make lib > "$tmp/said" 2>&1 || tail -n 100 "$tmp/said"
CARGO_TARGET_DIR=$PWD/target/second cargo build --release --offline --quiet --manifest-path second/Cargo.toml
note $? 'the second program is not built'
compare=target/second/release/compare
[ "$(all "$PWD/$compare mend")" = "$many" ]
note $? 'the second program does not mend each capture'
counted 'random captures' $compare captures --mend "$mend" --count 2000

# ---- Speed and memory ----

counted 'speed and memory' env ASTERNHAKEN_MEND="$mend" second/bench/run-captures.sh mend --quick

# ---- Programs that are wrong ----

# wrong WHAT PROGRAM: the recorded days find it.
wrong() {
    [ "$(all "$2")" -lt "$many" ]
    note $? "not found: $1"
}
wrong 'everything is copied' cat
wrong 'nothing is copied' "$mend > /dev/null"
wrong 'nothing is listed' "$mend 2> /dev/null"
wrong 'the list on standard output' "$mend 2>&1"
wrong 'a bad status' "$mend; exit 3"
wrong 'an octet too many' "$mend; printf 0"
wrong 'offsets from 1 on' "{ $mend 2>&1 >&3 | awk '{ \$2++; print }' >&2; } 3>&1"
wrong 'the last line of the list is missing' "{ $mend 2>&1 >&3 | sed '\$d' >&2; } 3>&1"
# In pieces it is wrong, and at once it is right.
first='dd bs=1000000 count=1 2> /dev/null'
[ "$(all "$first | $mend")" = "$many" ]
note $? 'dd reads a file at once'
wrong 'one read for all' "$tmp/pieces 7 $first | $mend"
# What keeps a torn end, and offsets that are wrong, are seen by random captures too.
cat > "$tmp/later" << END
#!/bin/sh
{ $mend 2>&1 >&3 | awk '{ \$2 += 3; print }' >&2; } 3>&1
END
cat > "$tmp/holds" << END
#!/bin/sh
python3 -c 'import subprocess, sys; subprocess.run("$mend".split(), input=sys.stdin.buffer.read())'
END
chmod +x "$tmp/later" "$tmp/holds"
wrong 'offsets of the contents' "$tmp/later"
refused 'everything is copied, on random captures' '^DIFFERENCE ' $compare captures --stop --mend cat --count 200
refused 'offsets of the contents, on random captures' '^DIFFERENCE ' $compare captures --stop --mend "$tmp/later" --count 200
refused 'the whole capture in memory' 'the memory grows' env ASTERNHAKEN_MEND="$tmp/holds" second/bench/run-captures.sh mend --quick
echo "$passed passed, $failed failed"
[ "$failed" = 0 ]
