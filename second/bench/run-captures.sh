#!/bin/sh
# Replaying or mending a day: the proved program against plain C by gcc -O2 and clang -O3, on a made capture of about 30 MB, about one field in twenty of it refused, in one run. WHAT is replay or mend.
#
#   run-captures.sh WHAT           the tables in markdown: MB and fields in a second and the most memory, on 1 and on 30 MB; ns for a field and the ratios, as run.sh has them
#   run-captures.sh WHAT --quick   all write the same, the proved one takes at most 4 times what plain takes, and no more memory for 30 MB than for 1; ends in 'N passed, M failed'
#   run-captures.sh WHAT --plain   the plain ones alone, where there is no proved program
#
# ASTERNHAKEN_REPLAY and ASTERNHAKEN_MEND are the proved programs, if they are not those in target/bin, with an emulator before them where they need one; then no times are printed.
# ASTERNHAKEN_BENCH is where to build. Times are processor time, the least of nine runs.
set -eu
here=$(cd "$(dirname "$0")" && pwd)
top=$here/../..
what=${1:-} mode=${2:---table} given=
case $what in
replay) given=${ASTERNHAKEN_REPLAY:-} ;;
mend) given=${ASTERNHAKEN_MEND:-} ;;
*) mode= ;;
esac
case $mode in --table | --quick | --plain) ;; *) sed -n '2,6s/^# \{0,1\}//p' "$0" >&2; exit 2 ;; esac
proved=${given:-$("$top/tools/program" "$what")}
build=${ASTERNHAKEN_BENCH:-$top/target/bench}
mkdir -p "$build"
build=$(cd "$build" && pwd)
cd "$here"

flags="-std=c11 -Wall -Wextra -Wpedantic -Werror"
gcc -O2 $flags plain_replay.c -o "$build/replay-gcc"
[ "$what" = replay ] || gcc -O2 $flags "plain_$what.c" -o "$build/$what-gcc"
clang -O3 $flags "plain_$what.c" -o "$build/$what-clang"
gcc -O2 $flags capture.c messages.c -o "$build/capture"
gcc -O2 $flags timed.c -o "$build/timed"
small=37000 large=1100000
"$build/capture" $small > "$build/small.cap"
"$build/capture" $large > "$build/large.cap"

set -- "$build/$what-gcc" "$build/$what-clang"
[ "$mode" = --plain ] || set -- "$proved" "$@"
passed=0 failed=0
# note HOLDS WHAT: one thing that passes or fails.
note() { if [ "$1" = 0 ]; then passed=$((passed + 1)); else failed=$((failed + 1)) && echo "failed: $2"; fi; }

# fields: how many fields plain has answered. What is mended is replayed to count them, and those left out stand in the list.
fields() {
    case $what in
    replay) grep -c '^[0-9]' "$build/$size.out" ;;
    mend) { "$build/replay-gcc" < "$build/$size.out" && cat "$build/$size.list"; } | grep -c '^[0-9]' ;;
    esac
}

for size in small large; do
    "$build/$what-gcc" < "$build/$size.cap" > "$build/$size.out" 2> "$build/$size.list"
    [ "$(fields)" = "$(eval echo \$$size)" ] && same=0 || same=1
    note $same "plain does not answer each field of the $size capture"
    for program; do
        $program < "$build/$size.cap" 2> "$build/list" | cmp - "$build/$size.out" && cmp "$build/list" "$build/$size.list" && same=0 || same=1
        note $same "$program does not write what plain writes, on the $size capture"
    done
done
[ $failed = 0 ] || { echo "$passed passed, $failed failed"; exit 1; }

runs=9
[ "$mode" != --quick ] || runs=3
"$build/timed" $runs "$build/small.cap" "$@" > "$build/small.times"
"$build/timed" $runs "$build/large.cap" "$@" > "$build/large.times"
# A line "seconds KB-for-1-MB KB-for-30-MB" for each program.
paste -d ' ' "$build/small.times" "$build/large.times" | awk '{ print $(NF / 2 + 1), $2, $(NF / 2 + 2) }' > "$build/both.times"
case $mode in
--quick)
    # One process may have a few pages more than another.
    awk 'NR == 1 { exit !($3 <= $2 + 128) }' "$build/both.times" && same=0 || same=1
    note $same "the memory grows with the capture: $(sed -n 1p "$build/both.times") (seconds, KB for 1 MB, KB for 30 MB)"
    case $proved in
    *' '*) ;; # an emulator's time says nothing
    *)
        awk 'NR == 1 { proved = $1 } NR == 2 { exit !(proved <= 4 * $1) }' "$build/both.times" && same=0 || same=1
        note $same "the proved program is too slow: $(tr '\n' ';' < "$build/both.times")"
        ;;
    esac
    echo "$passed passed, $failed failed"
    [ $failed = 0 ]
    ;;
*)
    octets=$(wc -c < "$build/large.cap")
    case $proved in
    *' '*) echo 'The proved program runs in an emulator, where a time says nothing.' ;;
    *)
        echo "A made capture of $large fields, $octets octets:"
        echo
        echo "| $what | MB/s | fields/s | KB at most, 1 MB | KB at most, 30 MB |"
        echo '|---|---|---|---|---|'
        { [ "$mode" = --plain ] || echo proved; echo 'plain, gcc -O2'; echo 'plain, clang -O3'; } | paste -d '|' - "$build/both.times" |
            awk -F '[| ]' -v octets="$octets" -v fields=$large '{ i = NF - 2; printf "| %s | %.0f | %.0f | %d | %d |\n", substr($0, 1, index($0, "|") - 1), octets / $i / 1e6, fields / $i, $(i + 1), $(i + 2) }'
        echo
        echo '| ns for a field | of a capture of | library | plain, gcc -O2 | ratio | plain, clang -O3 | ratio |'
        echo '|---|---|---|---|---|---|---|'
        awk -v what="$what" -v fields=$large -v octets="$octets" '{ ns[NR] = $1 / fields * 1e9 }
            END { gcc = ns[NR - 1]; clang = ns[NR]; proved = NR > 2
                printf "| %s | %.0f MB | %s | %.0f | %s | %.0f | %s |\n", what, octets / 1e6, proved ? sprintf("%.0f", ns[1]) : "-", gcc, proved ? sprintf("%.2f", ns[1] / gcc) : "-", clang, proved ? sprintf("%.2f", ns[1] / clang) : "-" }' "$build/both.times"
        ;;
    esac
    ;;
esac
