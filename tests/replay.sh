#!/bin/sh
# The replay program on recorded days: each capture of vectors/captures must give what stands beside it, octet by octet, read at once and in pieces of each size, and with little stack; random captures
# must give what the second program answers; and a large one must take no more memory than a small one. Each comparison is then tried on programs that are wrong, which it must find. The last
# line is 'N passed, M failed'.
set -u
export LC_ALL=C
cd "$(dirname "$0")/.." || exit 1
tmp=$(mktemp -d) || exit 1
trap 'rm -rf "$tmp"' EXIT
unset ASTERNHAKEN_REPLAY ASTERNHAKEN_BENCH ASTERNHAKEN_LIB SEED # they may name another program
passed=0 failed=0
sizes='1 2 3 7 4096'

# note HOLDS WHAT: one thing that passes or fails.
note() {
    if [ "$1" = 0 ]; then passed=$((passed + 1)); else failed=$((failed + 1)) && echo "failed: $2"; fi
}

# counted WHAT COMMAND..: a command that counts for itself, by its last line; what it says is left in the file counted.
counted() {
    what=$1
    shift
    "$@" > "$tmp/counted" 2>&1
    status=$?
    n=$(sed -n '$s/^\([0-9][0-9]*\) passed, [0-9][0-9]* failed$/\1/p' "$tmp/counted")
    m=$(sed -n '$s/^[0-9][0-9]* passed, \([0-9][0-9]*\) failed$/\1/p' "$tmp/counted")
    if [ "${m:-0}" = 0 ] && { [ "$status" != 0 ] || [ "${n:-0}" = 0 ]; }; then m=1; fi
    passed=$((passed + ${n:-0})) failed=$((failed + m))
    [ "$m" = 0 ] || { echo "failed: $what, with status $status"; tail -n 60 "$tmp/counted"; }
}

# refused WHAT PATTERN COMMAND..: a command that must fail, and say a line that the pattern fits.
refused() {
    what=$1 pattern=$2
    shift 2
    ! "$@" > "$tmp/counted" 2>&1 && grep -Eq "$pattern" "$tmp/counted"
    note $? "not found: $what"
}

# answers PROGRAM CAPTURE: the program, a line of sh, prints for the capture on its standard input what stands beside it, says nothing else and ends with status 0.
answers() {
    sh -c "$1" < "$2" > "$tmp/out" 2> "$tmp/err" && cmp -s "$tmp/out" "${2%.cap}.replay" && [ ! -s "$tmp/err" ]
}

# all PROGRAM: how many captures the program answers.
all() {
    right=0
    for capture in $captures; do ! answers "$1" "$capture" || right=$((right + 1)); done
    echo $right
}

make replay > "$tmp/said" 2>&1 || { tail -n 100 "$tmp/said"; echo '0 passed, 1 failed'; exit 1; }
replay=$(tools/program replay)

# ---- Recorded days ----

captures=$(ls vectors/captures/*.cap)
many=$(echo "$captures" | wc -l)
[ "$many" -ge 69 ] && [ "$(ls vectors/captures/*.replay | wc -l)" = "$many" ]
note $? "vectors/captures has $many captures, and there must be 69 and an answer to each"
cc -std=c99 -Wall -Wextra -Wpedantic -Werror -O2 tests/pieces.c -o "$tmp/pieces"
note $? 'tests/pieces.c is not built'
for capture in $captures; do
    answers "$replay" "$capture"
    note $? "$capture is not answered as it must be"
    for size in $sizes; do
        answers "$tmp/pieces $size $replay" "$capture"
        note $? "$capture in pieces of $size octets"
    done
    # An emulator has a stack of its own.
    [ "$(uname -m)" != x86_64 ] || { answers "ulimit -s 256; exec env -i $replay" "$capture"; note $? "$capture with a stack of 256 KB"; }
done
# block NAME: what stands in docs/CAPTURE.md between ```NAME and the next ```.
block() { sed -n "/^\`\`\`$1\$/,/^\`\`\`\$/{/^\`\`\`/!p;}" docs/CAPTURE.md; }
block capture | python3 -c 'import sys; sys.stdout.buffer.write(bytes.fromhex(sys.stdin.read()))' > "$tmp/day.cap"
block replay > "$tmp/day.replay"
[ -s "$tmp/day.cap" ] && [ -s "$tmp/day.replay" ] && answers "$replay" "$tmp/day.cap"
note $? 'the session of docs/CAPTURE.md'
printf '\000\000\014\000\000\000\000\023\210\023\210\000\000\000\003\007\000\004\000\000\000\012' | $replay > "$tmp/out"
printf 'field tag refusal dropped\n1 0 0 0\n2 7 0 0\n' | cmp - "$tmp/out"
note $? 'the worked example of §5'
# Where there is nothing to read, or nobody to write to, it ends.
for streams in '< /dev/null' '< .' '<&-' '> /dev/full' '>&-'; do
    sh -c "timeout 20 $replay < vectors/captures/clean-day-long.cap $streams" > "$tmp/out" 2> "$tmp/err"
    [ $? -lt 124 ]
    note $? "with $streams it does not end"
done

# ---- Random captures, and the second program ----

make lib > "$tmp/said" 2>&1 || tail -n 100 "$tmp/said"
CARGO_TARGET_DIR=$PWD/target/second cargo build --release --offline --quiet --manifest-path second/Cargo.toml
note $? 'the second program is not built'
compare=target/second/release/compare
[ "$(all "$PWD/$compare replay")" = "$many" ]
note $? 'the second program does not answer each capture'
counted 'random captures' $compare captures --replay "$replay" --count 2000
refused 'a run that meets too little' 'met too seldom$' $compare captures --replay "$replay" --count 20

# ---- Speed and memory ----

counted 'speed and memory' env ASTERNHAKEN_REPLAY="$replay" second/bench/run-captures.sh replay --quick

# ---- Programs that are wrong ----

# wrong WHAT PROGRAM: the recorded days find it.
wrong() {
    [ "$(all "$2")" -lt "$many" ]
    note $? "not found: $1"
}
wrong 'no answer at all' true
wrong 'the last line is missing' "$replay | sed '\$d'"
wrong 'an octet too many' "$replay; echo"
wrong 'a bad status' "$replay; exit 3"
wrong 'something on standard error' "$replay; echo >&2"
wrong 'a header that begins otherwise' "$replay | sed '1s/field/Field/'"
# In pieces it is wrong, and at once it is right.
first='dd bs=1000000 count=1 2> /dev/null'
[ "$(all "$first | $replay")" = "$many" ]
note $? 'dd reads a file at once'
wrong 'one read for all' "$tmp/pieces 7 $first | $replay"
# What follows a repeated setup, and what has run out, are seen by random captures too.
cat > "$tmp/ends" << END
#!/bin/sh
$replay | awk 'NR == 2 && \$3 == 17 { print; exit } { print } !/^ / && \$3 == 17 { exit }'
END
cat > "$tmp/none" << END
#!/bin/sh
$replay | sed '/^ /!s/^\(.* .* .*\) [1-9][0-9]*\$/\1 0/'
END
chmod +x "$tmp/ends" "$tmp/none"
for fault in ends none; do
    wrong "$fault, on recorded days" "$tmp/$fault"
    refused "$fault, on random captures" '^DIFFERENCE ' $compare captures --stop --replay "$tmp/$fault" --count 200
done
cat > "$tmp/holds" << END
#!/bin/sh
python3 -c 'import subprocess, sys; subprocess.run("$replay".split(), input=sys.stdin.buffer.read())'
END
chmod +x "$tmp/holds"
refused 'the whole capture in memory' 'the memory grows' env ASTERNHAKEN_REPLAY="$tmp/holds" second/bench/run-captures.sh replay --quick
echo "$passed passed, $failed failed"
[ "$failed" = 0 ]
