#!/bin/sh
# The answers of others: target/drive is given the commands of vectors/vNN.txt, and each of its lines is held to the answer there. Then the driver's own watches, and the
# comparison, are tried on seeded faults (tests/drive-stub.c), which they must find. The last line is 'N passed, M failed'.
set -u
export LC_ALL=C
cd "$(dirname "$0")/.." || exit 1
tmp=$(mktemp -d) || exit 1
trap 'rm -rf "$tmp"' EXIT
passed=0 failed=0
strict='-Wall -Wextra -Wpedantic -Werror'
unset ASTERNHAKEN_LIB # it may name another archive
archive=target/$([ "$(uname -m)" = x86_64 ] && echo lib || echo native)/libasternhaken.a

# compare PROGRAM FILE: gives the program, a line of sh, the commands of the file. Each answer counts, so does an answer too many, and a status that is not 0. The file compared
# says how many passed and failed in its last line, and before it what failed, the first ten of them.
compare() {
    sed -n 's/^> //p' "$2" | sh -c "$1" > "$tmp/got" 2> "$tmp/said"
    awk -v status=$? -v got="$tmp/got" '
        function fails(what) { if (++failed <= 10) print what }
        /^> / { if (open) fails("no answer stands behind: " command); command = substr($0, 3); open = 1; next }
        /^< / {
            there = (getline answer < got) > 0
            if (open && there && answer == substr($0, 3)) passed++
            else fails((open ? command : "no command stands before an answer") "\n  must answer: " substr($0, 3) "\n  and answered: " (there ? answer : "nothing"))
            open = 0
            next
        }
        !/^(#|$)/ { fails("neither command nor answer: " $0) }
        END {
            if (open) fails("no answer stands behind: " command)
            while ((getline answer < got) > 0) fails("answered too much: " answer)
            if (status) fails("the program ended with status " status)
            if (!passed) fails("nothing was compared")
            if (failed > 10) print "and " (failed - 10) " more"
            printf "%d passed, %d failed\n", passed, failed
        }' "$2" > "$tmp/compared"
}

# note HOLDS WHAT: one thing that passes or fails; where it fails, what was compared and said last is shown.
note() {
    if [ "$1" = 0 ]; then
        passed=$((passed + 1))
    else
        failed=$((failed + 1))
        echo "failed: $2"
        cat "$tmp/compared" "$tmp/said"
    fi
}

# finds WHAT PROGRAM FILE [TEXT]: the comparison fails, and the text stands in the answers or in what was compared.
finds() {
    compare "$2" "$3"
    ! grep -q ' passed, 0 failed$' "$tmp/compared" && cat "$tmp/got" "$tmp/compared" | grep -q "${4:-}"
    note $? "not found: $1"
}

# builds COMPILER..: the command succeeds, and says nothing.
builds() {
    : > "$tmp/compared"
    "$@" > "$tmp/said" 2>&1 && [ ! -s "$tmp/said" ]
    note $? "$*"
}

make drive || { echo "0 passed, 1 failed"; exit 1; }

set -- vectors/v[0-9][0-9].txt
file=$1
[ $# = 1 ] || { echo "vectors/ has $# files vNN.txt, and only the newest belongs there"; failed=1; }
compare target/drive "$file"
n=$(sed -n '$s/^\([0-9]*\) passed, [0-9]* failed$/\1/p' "$tmp/compared")
m=$(sed -n '$s/^[0-9]* passed, \([0-9]*\) failed$/\1/p' "$tmp/compared")
passed=$((passed + ${n:-0})) failed=$((failed + ${m:-1}))
[ "${m:-1}" = 0 ] || { echo "failed: $file"; cat "$tmp/compared" "$tmp/said"; }

# ---- The driver is plain C, which C++ takes too, and touches nothing that is not its own ----

for cc in 'gcc -std=c99' 'clang -std=c99' 'g++ -x c++' 'clang++ -x c++'; do builds $cc $strict -O2 -Iinclude -c tests/drive.c -o "$tmp/drive.o"; done
compare 'valgrind -q --error-exitcode=9 --leak-check=full target/drive' "$file"
grep -q ' passed, 0 failed$' "$tmp/compared"
note $? 'valgrind on the driver'

# ---- Faults of the library ----

wraps=$(sed -n 's/^uint32_t __wrap_\([a-z0-9_]*\)(.*/-Wl,--wrap=\1/p' tests/drive-stub.c)
builds cc -std=c99 $strict -O2 -Iinclude tests/drive.c tests/drive-stub.c $wraps "$archive" -o "$tmp/faulty"
# The newest file need not come to every fault. Behind its rows stand some of ours: a Paging Cause that is written for a call, a refused setup while somebody is
# paged, and a refused tick of the uplink.
{
    cat "$file"
    echo '> wfacch 7 0 0 1 0 2 5 0 0 0 0 0 0 0 0 0 0 0 0 0 0 0 0 0 0 0 0 0 0 0 0 0 0 0 0 0 0 0 0 0 1 0 1 1 1' && echo '< 0 52 00000000092a7b'
    echo '> setup 7 1000 5000 5000 5000 / 9422 / 2' && echo '< 0'
    echo '> ev facch 1001 0482fa091a2b3c572b' && echo '< 0 0 0 0'
    echo '> setup 7 1002 0 5000 5000 / 9422 / 2' && echo '< 10'
    echo '> paged' && echo '< 1 5 244 18 52 86 120 0 0 0 0 2 1 3 0 0'
    echo '> usetup 1000 5000' && echo '< 0'
    echo '> uev tick 999' && echo '< 9 0 -'
} > "$tmp/rows"
compare "$tmp/faulty" "$tmp/rows"
grep -q ' passed, 0 failed$' "$tmp/compared"
note $? 'without a fault the faulty library is the library'
while IFS=: read -r seeded text; do
    finds "$seeded" "FAULT='$seeded' $tmp/faulty" "$tmp/rows" "$text"
done << 'END'
a refused setup writes:^FAULT .*a refused call changed lent memory: state, octet 4711$
a refused event moves the clock:^FAULT .*a refused call changed lent memory: state, octet [0-3]$
a refused writing writes:^FAULT .*a refused call changed lent memory: octets, octet [0-9][0-9]*$
a writing is an octet too long:^FAULT .*a write behind what was lent: octets, octet 20$
a writing begins an octet before:^FAULT .*a write before what was lent, counted backwards: octets, octet 1$
a reading is too long:^FAULT .*a write behind what was lent: numbers, octet 848$
a refused reading leaves a number:^FAULT .*a refused reading is not all zeros: numbers, octet 840$
a setup writes the keys:^FAULT .*a call changed what it may not write: keys, octet 0$
a setup writes the sets:^FAULT .*a call changed what it may not write: sets, octet 0$
reading a part writes the state:^FAULT .*a call changed what it may not write: state, octet 10255$
a refused PCH entry drops a half:^FAULT .*a refused call changed lent memory: state, octet [45][0-9][0-9]$
a PCH entry is written:^FAULT .*a call changed what it may not write: numbers, octet 104$
a PCH entry is handed in twice:must answer: 0 0 
leaving idle mode is a tick alone:must answer: 0 0 1 0$
the bit is a tick alone:must answer: 0 0 0 0 | .* [23] [0-3]$
a bit above 1 is taken:must answer: 12 0 0 0$
a refused bit is kept:^FAULT .*a refused call changed lent memory: state, octet 18$
the first set is that of every key:must answer: 0 0 .* [123] [0-3]
a refused setup gives another number:must answer: 10$
a refused setup forgets who is paged:^FAULT .*a refused call changed lent memory: state, octet 9592$
who is paged stays over the next event:must answer: 0$
a page drops the halves:must answer: 0 0 0 0 | [0-9]* 3 
an octet of who is paged is another:must answer: 1 [2-9] 
a part is unlike its number:^FAULT .*a part is unlike its number: paged, octet 4$
nobody is paged for a short message:^FAULT .*nobody is paged, and a number is not zero: paged, octet 8$
looking who is paged writes the state:^FAULT .*a call changed what it may not write: state, octet 9592$
an octet of an identity is another:must answer: 0 0 [0-9]* 1 0 
the Paging Cause of a call is thrown away:^FAULT .*what was written reads as another record: numbers, octet 224$
the bit of an absent release is not counted:must answer: 0 0 [0-9]* [01] .* 0 0 0 0 0$
a bit too many for an absent release:must answer: 0 [0-9]* 00[0-9a-f]*$
a refused FACCH writing writes:^FAULT .*a refused call changed lent memory: octets, octet [0-9][0-9]*$
the length of an identity is a range:must answer: 8 0 -$
a first octet is not zero:must answer: 0 [0-9]* 00[0-9a-f]*$
a FACCH writing leaves the last octet:must answer: 0 [0-9]* 00[0-9a-f]*2b$
a FACCH writing is an octet too long:^FAULT .*a write behind what was lent: octets, octet [0-9][0-9]*$
an event has an upper bit:must answer: 0 0 
a reading is another:must answer: 0 0 4 
a bit number is another:must answer: 2 [1-9]
Release 6 is not told apart:must answer: 14 [1-9]
a part is another:must answer: 0 0 
a kept count is another:must answer: 0 0 .* 3 [1-3]
no count is no key:must answer: 0 0 .* 2 0
a clear call has no key:^FAULT .*an entry that is not told 2 or 3 is said to be followed, or not: entry
a place is another:must answer: [0-9-]*$
a seventh look:^FAULT .*there are more than places for them: looks
a second look at one key:^FAULT .*there are more than places for them: looks
a look at no keys:^FAULT .*there are more than places for them: looks
a refused setup of the uplink writes:^FAULT .*a refused call changed lent memory: uplink, octet 7$
a refused tick moves the clock of the uplink:^FAULT .*a refused call changed lent memory: uplink, octet 3$
a refused tick of the uplink tells something:^FAULT .*a result that means nothing: uplink, octet
a "free" is an octet too long:^FAULT .*a write behind what was lent: uplink, octet 16$
a tick tells a rejection:^FAULT .*a result that means nothing: uplink, octet
a grant is told twice:^FAULT .*a result that means nothing: uplink, octet
a "free" that comes too late grants:must answer: 0 1 -$
a "busy" is a tick alone:must answer: 0 0 waiting$
a request rejects nobody:must answer: 0 1 waiting$
a second request is told to wait:must answer: 0 0 already$
a ninth key is taken:must answer: 10$
an odd key is taken:must answer: 10$
a refused setup of a yard set writes:^FAULT .*a refused call changed lent memory: yard, octet 10733$
a call is gone a millisecond early:must answer: [1-8] | 
a call stays a millisecond longer:^FAULT .*a call is shown that ran out: call, octet 0$
another NLN takes no call away:must answer: 0$
another NLN takes its own calls away too:must answer: [1-8] | 
the first NLN takes the calls away:must answer: [1-8] | 
a refused message takes the calls away:^FAULT .*a refused call changed lent memory: yard, octet 10[2-8][0-9][0-9]$
the older record wins:must answer: [1-8] | 
a call is lost where another is joined:must answer: [1-8] | 
the calls outlive a reselection:must answer: 0$
the NLN of the old cell is kept:must answer: [1-8] | 
the clock is looked at before 19:must answer: 19 0 0 0$
a yard set is handed over:must answer: 19 0 0 0$
a handover moves the clock:^FAULT .*a refused call changed lent memory: yard, octet [0-3]$
a yard set reads the FACCH:must answer: 19 0 0 0$
showing a call writes the state:^FAULT .*a call changed what it may not write: yard, octet 10256$
a call is shown too long:^FAULT .*a write behind what was lent: numbers, octet 280$
there is one more call:^FAULT .*behind the last call there is another: numbers, octet 0$
the count of now is shown:must answer: [1-8] | .* 3 [0-3]
a part of a shown call is another:must answer: [1-8] | 
an age is that of a call that is gone:^FAULT .*a call is shown that ran out: call, octet 0$
a call is shown as it is not told:^FAULT .*a call is shown that was not told complete: call, octet 0$
a clear call is shown with no key:^FAULT .*a call that is not ciphered is said to be followed, or not: call, octet [0-7]$
the calls are shown by falling key:^FAULT .*the keys of the calls do not rise: call, octet 1$
a call is not counted:^FAULT .*behind the last call there is another: numbers, octet 0$
END

# ---- Faults of the driver, and of the file ----

finds 'no answer at all' true "$file" 'and answered: nothing'
finds 'a line is missing' 'target/drive | sed 5d' "$file" '^and [0-9]* more$'
finds 'the last line is missing' "target/drive | sed '\$d'" "$file" 'and answered: nothing'
finds 'a line too many' 'target/drive; echo 0' "$file" 'answered too much: 0'
finds 'a bad status' 'target/drive; exit 1' "$file" '^[1-9][0-9]* passed, 1 failed$'
printf '%s\n' '> call_state 0' '< 0 0 0' '> frob 1' '< 0' > "$tmp/file"
finds 'no such command' target/drive "$tmp/file" 'and answered: ? no such command'
printf '%s\n' '> call_state 0' '< 0 0 0' '> call_state 0' > "$tmp/file"
finds 'a command without an answer' target/drive "$tmp/file" 'no answer stands behind'
printf '%s\n' '> call_state 0' '< 0 0 0' 'call_state 0' > "$tmp/file"
finds 'a line that is neither' target/drive "$tmp/file" 'neither command nor answer'
echo '# nothing' > "$tmp/file"
finds 'nothing to compare' target/drive "$tmp/file" 'nothing was compared'

echo "$passed passed, $failed failed"
[ "$failed" = 0 ]
