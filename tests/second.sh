#!/usr/bin/env bash
# The second program held against the library, then errors put into the second program, which the comparison must find, then the benchmark's answers.
#
# What the library was asked in a tenth of that is asked again of the archive for x86-64 that users get, target/lib. On another processor it runs in an emulator,
# and the comparison before it was with a stand-in. On x86-64 both are the same archive, and no emulator is needed; EMULATOR=qemu-x86_64 takes one all the same.
set -uo pipefail
cd "$(dirname "${BASH_SOURCE[0]}")/.." || exit 1
# the programs too, for the errors that are looked for on captures
make lib replay mend || exit 1
passed=0 failed=0
# count NAME COMMAND..: shows what the command writes, and takes its last line, 'N passed, M failed'.
count() {
    local name=$1 last start=$SECONDS
    shift
    "$@" 2>&1 | tee target/second.log
    last=$(tail -n 1 target/second.log)
    if [[ $last =~ ^([1-9][0-9]*)\ passed,\ ([0-9]+)\ failed$ ]]; then
        passed=$((passed + BASH_REMATCH[1])) failed=$((failed + BASH_REMATCH[2]))
    else
        failed=$((failed + 1))
        echo "second: $name ended with '$last'"
    fi
    echo "$name took $((SECONDS - start)) s"
}
# refused NAME PATTERN COMMAND..: a command that must fail, with a last line that the pattern fits.
refused() {
    local name=$1 pattern=$2
    shift 2
    if ! "$@" > target/second.log 2>&1 && [[ $(tail -n 1 target/second.log) =~ $pattern ]]; then
        passed=$((passed + 1))
    else
        failed=$((failed + 1))
        echo "second: $name is not refused; it ended with '$(tail -n 1 target/second.log)'"
    fi
}

export CARGO_TARGET_DIR=$PWD/target/second
cargo build --release --offline --quiet --manifest-path second/Cargo.toml || failed=$((failed + 1))
compare=target/second/release/compare
count 'the comparison' $compare
refused 'a run that meets too little' '^[0-9]+ passed, [1-9][0-9]* failed$' $compare --random --messages 1000 --steps 100

case $(uname -m) in
x86_64) cc='gcc -static' run=${EMULATOR:-} ;;
*) cc='x86_64-linux-gnu-gcc -static' run=${EMULATOR:-qemu-x86_64} ;;
esac
# recorded OPTION..: a run of the comparison, with its record on standard output.
recorded() { $compare "$@" --record /dev/fd/3 3>&1 > target/record.log 2>&1; }
replayed() {
    recorded --messages 100000 --steps 10000 | $run target/replay
    [ "${PIPESTATUS[0]}" = 0 ] || { tail -n 3 target/record.log && echo 'the run that was recorded failed'; }
}
spoiled() { recorded --random --messages 3000 --steps 300 | $run target/replay --spoil; }
cut_off() { recorded --random --messages 100 --steps 10 | head -c 99999 | $run target/replay; }
nothing() { $run target/replay < /dev/null; }
if $cc -std=c99 -Wall -Wextra -Wpedantic -Werror -O2 -Iinclude second/replay.c target/lib/libasternhaken.a -o target/replay; then
    count 'the archive for x86-64' replayed
    refused 'an archive with one wrong answer of each function' ' passed, 59 failed$' spoiled
    refused 'a record that is cut off' '^0 passed, 1 failed$' cut_off
    refused 'a record of nothing' '^0 passed, 59 failed$' nothing
else
    failed=$((failed + 1))
fi

refused 'an empty list of errors' '^0 passed, 1 failed$' second/seeded-errors.sh --list /dev/null
refused 'a list of errors that is not there' '^0 passed, 1 failed$' second/seeded-errors.sh --list target/no-errors.txt
awk '/^@ / && ++n == 1 { skip = 1 } /^$/ { skip = 0 } !skip' second/seeded-errors.txt > target/fewer-errors.txt
refused 'a list with one error less' '^0 passed, 1 failed$' second/seeded-errors.sh --list target/fewer-errors.txt
awk '{ print } /^@ / && ++n == 1 { name = $0 } /^@ / && n == 2 { print name }' second/seeded-errors.txt > target/fewer-errors.txt
refused 'a list with one error twice' '^0 passed, 1 failed$' second/seeded-errors.sh --list target/fewer-errors.txt
count 'seeded errors' env -u CARGO_TARGET_DIR second/seeded-errors.sh
count 'the benchmark' second/bench/run.sh --quick
echo "$passed passed, $failed failed"
[ "$failed" = 0 ]
