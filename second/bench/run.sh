#!/bin/sh
# The benchmark: the proved archive against plain C by gcc -O2 and clang -O3, and against bit vectors, in one run.
#
#   run.sh                 the tables in ns, in markdown, what the ratios come to (summary.awk), and the archive's size (about a minute)
#   run.sh --quick         the answers agree, and nothing takes 10 times what plain takes (16 where halves are dropped); ends in 'N passed, M failed' (under 10 s)
#   run.sh --instructions  the same in instructions per event; these repeat on a busy machine
#   run.sh --plain         the plain sides alone, where there is no archive
#   run.sh --digits FOLDER..   ns for one reading and one writing of digits by the archive of each folder in turn, so that two versions compare
#
# ASTERNHAKEN_LIB is the folder of libasternhaken.a, ASTERNHAKEN_INCLUDE that of asternhaken.h; ASTERNHAKEN_BENCH is where to build.
#
# The toolchain's archives are for x86-64. On another processor such an archive runs under an emulator, where a time says nothing: no times are then printed, and the
# tables count instructions. There, the archive in target/native stands in for it, which tools/native-archive made for this processor of the very same module; that one is timed.
set -eu
here=$(cd "$(dirname "$0")" && pwd)
top=$here/../..
lib=$top/target/lib
[ "$(uname -m)" = x86_64 ] || lib=$top/target/native
lib=${ASTERNHAKEN_LIB:-$lib}
include=${ASTERNHAKEN_INCLUDE:-$top/include}
build=${ASTERNHAKEN_BENCH:-$top/target/bench}
mode=${1:---tables}
case $mode in --tables | --quick | --instructions | --plain | --digits) ;; *) sed -n '2,8s/^# \{0,1\}//p' "$0" >&2; exit 2 ;; esac
mkdir -p "$build"
build=$(cd "$build" && pwd)
flags="-std=c11 -Wall -Wextra -Wpedantic -Werror"

# digits NAME FOLDER: the program that times the digits of a folder's archive.
digits() { gcc -O2 $flags -I "$include" "$here/digits.c" "$2/libasternhaken.a" -o "$build/$1"; }
if [ "$mode" = --digits ]; then
    shift
    [ $# -gt 0 ] || set -- "$lib"
    k=0
    for folder; do digits "digits-$((k += 1))" "$folder"; done
    echo '| archive | reading | writing |'
    echo '|---|---|---|'
    for turn in 1 2 3 4 5 6; do
        k=0
        for folder; do echo "$((k += 1)) $("$build/digits-$k" 2000) $folder"; done
    done | awk '{ if (!($1 in name) || $3 < reading[$1]) reading[$1] = $3; if (!($1 in name) || $6 < writing[$1]) writing[$1] = $6; name[$1] = $8; n = $1 > n ? $1 : n }
        END { for (k = 1; k <= n; k++) printf "| %s | %.1f | %.1f |\n", name[k], reading[k], writing[k] }'
    exit
fi
cd "$here"

defines= archive=$lib/libasternhaken.a emulated= what=
[ "$mode" != --plain ] || { defines=-DNO_LIBRARY archive=; }
if [ -n "$archive" ]; then
    [ -f "$archive" ] || { echo "no archive at $archive: build it first, or name its folder in ASTERNHAKEN_LIB" >&2; exit 1; }
    case $(readelf -h "$archive" | grep -m 1 Machine:)/$(uname -m) in
    *X86-64/x86_64) what='The archive for x86-64, on x86-64.' ;;
    *X86-64/*) emulated=1 what='The archive for x86-64, under an emulator: no times, only instructions.' ;;
    *AArch64/aarch64) what='A stand-in for the archive: the same module, compiled for aarch64, on aarch64.' ;;
    *) echo "$archive is for another processor" >&2; exit 1 ;;
    esac
fi

# How to compile, link and run, by the processor that the archive is for.
gcc='gcc -O2' clang='clang -O3' gcc_named='gcc -O2'
link() { gcc "$@" -o "$build/bench"; }
run() { "$build/bench" "$@"; }
if [ "$emulated" ]; then
    rt=$(readlink -f "$(command -v rt)")
    kit=$(dirname "$(dirname "$rt")")
    emulator=$(command -v qemu-x86_64 || echo "$kit/toolchain/bin/qemu-x86_64")
    # what plain.c takes of this machine's headers is the same for x86-64
    cross="clang --target=x86_64-linux-gnu -isystem /usr/include/$(gcc -print-multiarch)"
    clang="$cross -O3 -fPIE"
    if command -v x86_64-linux-gnu-gcc >/dev/null; then
        gcc='x86_64-linux-gnu-gcc -O2'
        link() { x86_64-linux-gnu-gcc -static "$@" -o "$build/bench"; }
        run() { "$emulator" ${trace:-} "$build/bench" "$@"; }
    else
        gcc="$cross -O2 -fPIE" gcc_named='clang -O2'
        link() { "$kit/bin/rattle-link" --target x86_64-unknown-linux-gnu --toolchain "$kit/toolchain" -o "$build/bench" "$@" 2>/dev/null; }
        run() { "$emulator" ${trace:-} "$kit/toolchain/lib/ld-linux-x86-64.so.2" --library-path "$kit/toolchain/lib" "$build/bench" "$@"; }
    fi
elif [ "$mode" = --instructions ]; then
    defines="$defines -DCOUNT_INSTRUCTIONS"
fi
$gcc $flags -DPLAIN=plain_gcc -c plain.c -o "$build/plain-gcc.o"
$clang $flags -DPLAIN=plain_clang -c plain.c -o "$build/plain-clang.o"
for f in bitwise messages agree yards library bench; do
    $gcc $flags $defines -I "$include" -c $f.c -o "$build/$f.o"
done
link "$build"/bench.o "$build"/library.o "$build"/agree.o "$build"/yards.o "$build"/messages.o "$build"/plain-gcc.o "$build"/plain-clang.o "$build"/bitwise.o $archive

# A line "row|halves|runner|instructions" for each run, in the order of the rows.
count()
{
    if [ "$emulated" ]; then
        # every line of the emulator's trace is one instruction; the program itself says where its marks are
        rm -f "$build/trace"
        mkfifo "$build/trace"
        trace="-singlestep -d nochain,exec -D $build/trace"
        run --count >"$build/order" 2>/dev/null &
        awk -F/ '{ print $2 }' "$build/trace" >"$build/places"
        wait $!
        awk 'NR == FNR && FNR == 1 { from = sprintf("%16s", $1); to = sprintf("%16s", $2); gsub(/ /, "0", from); gsub(/ /, "0", to); events = $3; next }
            NR == FNR { name[++names] = $0; next }
            $1 == from { inside = 1; n = 0 }
            $1 == to && inside { inside = 0; printf "%s|%.1f\n", name[++k], n / events }
            inside { n++ }' "$build/order" "$build/places"
        rm -f "$build/trace" "$build/places"
    else
        rm -f "$build"/callgrind*
        valgrind --tool=callgrind --callgrind-out-file="$build/callgrind" "$build/bench" --count >"$build/order" 2>"$build/valgrind.log" || { cat "$build/valgrind.log" >&2; exit 1; }
        events=$(awk 'NR == 1 { print $3 }' "$build/order")
        k=0
        sed 1d "$build/order" | while IFS= read -r name; do
            k=$((k + 1))
            awk -v name="$name" -v events="$events" '/^summary: / { printf "%s|%.1f\n", name, $2 / events }' "$build/callgrind.$k"
        done
    fi
}

tables() { awk -v gcc="$gcc_named" -f instructions.awk "$build/counts"; }

sizes()
{
    echo
    echo 'Code and constants, in octets (`size`):'
    echo
    if [ -n "$archive" ]; then
        size -t "$archive" | awk 'END { print "- the archive, all of it: text " $1 ", data " $2 ", bss " $3 }'
        echo "- what it asks of others (\`nm -u\`):$(nm -u "$archive" | awk '$1 == "U" && !seen[$2]++ { printf " %s", $2 }')"
    fi
    size "$build/plain-gcc.o" | awk -v gcc="$gcc_named" 'END { print "- plain by " gcc ", without the GCC elements: text " $1 }'
    size "$build/plain-clang.o" | awk 'END { print "- plain by clang -O3, likewise: text " $1 }'
}

[ -z "$what" ] || echo "$what"
case $mode in
--quick)
    if [ "$emulated" ]; then
        run --answers --messages 20000 --sequences 400 >"$build/answers" || { cat "$build/answers"; exit 1; }
        sed '$d' "$build/answers"
        count >"$build/counts"
        awk -v limit=10 -f instructions.awk "$build/counts" >"$build/guard" || :
        sed '$d' "$build/guard"
        cat "$build/answers" "$build/guard" | awk '/^[0-9]+ passed, / { p += $1; f += $3 } END { printf "%d passed, %d failed\n", p, f; exit f > 0 || !p }'
    else
        digits digits "$lib"
        "$build/digits" 20
        run --quick
    fi
    ;;
--instructions)
    count >"$build/counts"
    tables | awk -v gcc="$gcc_named" -f summary.awk
    ;;
*)
    if [ "$emulated" ]; then
        run --answers --messages 100000 --sequences 2000
        count >"$build/counts"
        tables >"$build/tables"
    else
        run >"$build/tables" || { cat "$build/tables"; exit 1; }
    fi
    awk -v gcc="$gcc_named" -f summary.awk "$build/tables"
    sizes
    ;;
esac
