#!/bin/sh
# The C library as its users meet it: the header, the symbols, every function, the examples, memory, stack, by gcc, clang, g++ and clang++, and from Python (tests/install.sh has its
# installation). The last line is 'N passed, M failed'.
#
#   tests/host.sh             the library is built (make lib) and tried
#   tests/host.sh FOLDER..    the libasternhaken.a of each folder is tried instead
#
# On another processor than x86-64 two archives are tried: that of tools/library, with programs for x86-64 in an emulator, and the one that is made of the same
# module for the machine itself, which is the one that valgrind can follow.
set -u
export LC_ALL=C
cd "$(dirname "$0")/.." || exit 1
root=$(pwd)
tmp=$(mktemp -d) || exit 1
trap 'rm -rf "$tmp"' EXIT
passed=0 failed=0
strict='-Wall -Wextra -Wpedantic -Werror'

# holds WHAT COMMAND..: one thing that passes where the command does.
holds() {
    what=$1
    shift
    if "$@" > "$tmp/said" 2>&1; then
        passed=$((passed + 1))
    else
        failed=$((failed + 1))
        echo "failed: $what"
        cat "$tmp/said"
    fi
}

# counted WHAT COMMAND..: a program that counts for itself, by its last line; what it says is left in the file counted.
counted() {
    what=$1
    shift
    "$@" > "$tmp/counted" 2>&1
    status=$?
    n=$(sed -n '$s/^\([0-9][0-9]*\) passed, [0-9][0-9]* failed$/\1/p' "$tmp/counted")
    m=$(sed -n '$s/^[0-9][0-9]* passed, \([0-9][0-9]*\) failed$/\1/p' "$tmp/counted")
    if [ "${m:-0}" = 0 ] && { [ "$status" != 0 ] || [ "${n:-0}" = 0 ]; }; then m=1; fi
    passed=$((passed + ${n:-0})) failed=$((failed + m))
    [ "$m" = 0 ] || { echo "failed: $what, with status $status"; cat "$tmp/counted"; }
}

# The header's figures are those of the code: HEADER-NAME CODE-NAME FILE, each by its one definition.
figures() {
    while read -r name code file; do
        said=$(sed -n "s/^#define ASTERNHAKEN_$name \([0-9][0-9]*\).*/\1/p" include/asternhaken.h)
        meant=$(sed -n "s/^ *pub const $code: [a-z0-9]* = \([0-9][0-9]*\);\$/\1/p" "crates/$file")
        holds "ASTERNHAKEN_$name is '$said' in the header, and $code is '$meant' in crates/$file" test -n "$said" -a "$said" = "$meant"
    done <<'END'
KEYS KEYS receiver/src/start.rt
ENTRIES MOST_ENTRIES receiver/src/lib.rt
LONGEST LONGEST receiver/src/start.rt
T3206 T3206 receiver/src/start.rt
T3208 T3208 receiver/src/start.rt
T3210 T3210 receiver/src/start.rt
LAST_KEY LAST_KEY pch/src/lib.rt
LAST_GROUP_KEY LAST_GROUP_KEY receiver/src/count.rt
PCH_NUMBERS LENGTH pch/src/lib.rt
UPLINK_LENGTH LENGTH uplink_lent/src/lib.rt
UPLINK_FREE FREE uplink/src/lib.rt
LONGEST LONGEST uplink/src/lib.rt
END
}

finish() {
    echo "$passed passed, $failed failed"
    [ "$failed" -eq 0 ]
    exit
}

if [ $# = 0 ]; then
    unset ASTERNHAKEN_LIB # it may name another archive
    make lib || { failed=1; finish; }
    set -- target/lib
    [ "$(uname -m)" = x86_64 ] || set -- target/lib target/native
fi

# ---- The header alone ----

printf '#include <asternhaken.h>\n#include <asternhaken.h>\n' | tee "$tmp/twice.c" > "$tmp/twice.cc"
# ignored CALL..: a file of C or C++ with such calls, whose results nobody uses.
ignored() {
    echo '#include <asternhaken.h>'
    n=0
    for call; do n=$((n + 1)) && echo "void f$n(uint8_t *s, uint32_t *k, uint64_t *v, struct asternhaken_cause *c); void f$n(uint8_t *s, uint32_t *k, uint64_t *v, struct asternhaken_cause *c) { (void)s, (void)k, (void)v, (void)c; $call; }"; done
}
# must_use COMPILER KIND: it warns of each of these calls, and of none of those that say all by what they write.
must_use() {
    set -- "$1" "$tmp/ignored.$2" 'asternhaken_setup(s, 1, k, 1, k, 1, 0, 1, 1, 1)' 'asternhaken_nch(s, 1, 0, s, 1)' 'asternhaken_facch(s, 1, 0, s, 1)' 'asternhaken_pch(s, 1, 0, v, 1)' \
        'asternhaken_joined(s, 1, 0, 1)' 'asternhaken_reselected(s, 1, 0)' 'asternhaken_handed_over(s, 1, 0)' 'asternhaken_reconfigured(s, 1, 0)' 'asternhaken_left_idle(s, 1, 0)' 'asternhaken_bit_22(s, 1, 0, 1)' \
        'asternhaken_tick(s, 1, 0)' 'asternhaken_yard_setup(s, 1, k, 1, k, 1, 0, 1, 1, 1)' 'asternhaken_yard_nch(s, 1, 0, s, 1)' 'asternhaken_yard_tick(s, 1, 0)' 'asternhaken_find(k, 1, 1, v, v + 1)' 'asternhaken_nch_read(s, 1, v, 1)' 'asternhaken_nch_write(v, 1, s, 1)' 'asternhaken_facch_read(s, 1, v, 1)' 'asternhaken_facch_write(v, 1, s, 1)' 'asternhaken_nch_trace(s, 1, v, 1)' 'asternhaken_facch_trace(s, 1, v, 1)' 'asternhaken_cause_decode(s, 1, c)' \
        'asternhaken_cause_encode(c, s, 1)' 'asternhaken_uplink_setup(s, 1, 0, 1)' 'asternhaken_uplink_free(s, 1, 0)' 'asternhaken_uplink_busy(s, 1, 0)' 'asternhaken_uplink_request(s, 1, 0)' \
        'asternhaken_uplink_tick(s, 1, 0)'
    by=$1 file=$2
    shift 2
    ignored "$@" > "$file"
    $by -Wall -Wextra -Wpedantic -Iinclude -c "$file" -o "$tmp/ignored.o" > "$tmp/warned" 2>&1
    [ "$(grep -c 'warning: .*\(unused-result\|nodiscard\)' "$tmp/warned")" = $# ] || { cat "$tmp/warned"; return 1; }
    ignored 'asternhaken_read(s, 1, 0, 0, v)' 'asternhaken_entry_numbers(s, 1, 0, v, 1)' 'asternhaken_paged_numbers(s, 1, v, 1)' 'asternhaken_held_count(s, 1, v)' 'asternhaken_next_expiry(s, 1, v)' 'asternhaken_yard_count(s, 1, v)' 'asternhaken_yard_call_numbers(s, 1, 0, v, 1)' > "$file"
    $by $strict -Iinclude -c "$file" -o "$tmp/ignored.o"
}
# too_short COMPILER KIND: where a struct lacks a member, the header does not compile.
mkdir "$tmp/short"
sed 's/ priority, cipher_key_number, allocation_octets,/ priority, cipher_key_number,/' include/asternhaken.h > "$tmp/short/asternhaken.h"
too_short() { ! $1 -fsyntax-only -I"$tmp/short" "$tmp/twice.$2" > "$tmp/warned" 2>&1 && grep 'error: .*asternhaken_record' "$tmp/warned"; }
more='-Wconversion -Wsign-conversion -Wshadow -Wcast-qual -Wundef'
for std in c99 c11 c2x c++98 c++11 c++17; do
    case $std in
    c++*) compilers='g++ clang++' kind=cc also=-Wold-style-cast ;;
    *) compilers='gcc clang' kind=c also=-Wstrict-prototypes ;;
    esac
    for cc in $compilers; do
        holds "the header as $std, $cc" $cc -std=$std $strict $more $also -fsyntax-only -Iinclude "$tmp/twice.$kind"
        holds "results that must be used as $std, $cc" must_use "$cc -std=$std" $kind
        holds "a struct that is too short as $std, $cc" too_short "$cc -std=$std" $kind
    done
done
sed -n -E 's/^(ASTERNHAKEN_MUST_USE )?(uint32_t |const char \*)(asternhaken_[a-z0-9_]*)\(.*/\3/p' include/asternhaken.h | sort > "$tmp/functions"
sed -n -E 's/^(ASTERNHAKEN_MUST_USE )?static inline uint32_t (asternhaken_[a-z0-9_]*)\(.*/\2/p' include/asternhaken.h | sort > "$tmp/inlines"
holds 'the header declares functions, and has some of its own' test -s "$tmp/functions" -a -s "$tmp/inlines"
figures
while read -r f; do holds "tests/stack.c does not call $f" grep -qw "$f" tests/stack.c; done < "$tmp/functions"
cat "$tmp/inlines" "$tmp/functions" > "$tmp/called"
while read -r f; do holds "none of tests/header.c, tests/views.c, tests/uplink.c, tests/yard.c and tests/trace.c calls $f" grep -qw "$f" tests/header.c tests/views.c tests/uplink.c tests/yard.c tests/trace.c; done < "$tmp/called"
# names HEADER: refusals, told numbers, what is said of following and of the uplink, parts and the numbers of a page have their prefixes, and behind them no two have the same name; a flag that says whether something is there ends in _GIVEN.
names() {
    sed -n 's/^    ASTERNHAKEN_\([A-Z0-9_]*\) = .*/\1/p' "$1" | grep -v -e '^PCH_' -e '^FIELD_' > "$tmp/names"
    ! grep -v -e '^ACCEPTED$' -e '^REFUSED_' -e '^TOLD_' -e '^FOLLOW_' -e '^UPLINK_' -e '^PART_' -e '^IDENTITY_' -e '^CHANNEL_FIRST_' -e '^PAGED_FOR_' "$tmp/names" && [ "$(wc -l < "$tmp/names")" -ge 91 ] && [ -z "$(sed 's/^[A-Z]*_//' "$tmp/names" | sort | uniq -d)" ] || return 1
    [ "$(grep -cE '^    ASTERNHAKEN_.*_GIVEN = .* (is|are) there' "$1")" -ge 13 ] && ! grep -E '^    ASTERNHAKEN_.* = .* (is|are) there' "$1" | grep -v '_GIVEN = '
}
not_names() { sed "$1" include/asternhaken.h > "$tmp/names.h" && ! cmp -s include/asternhaken.h "$tmp/names.h" && ! names "$tmp/names.h"; }
holds 'the names of refusals, told numbers, what is said of following and of the uplink, parts and the numbers of a page' names include/asternhaken.h
holds 'a refusal without its prefix is refused' not_names 's/ASTERNHAKEN_REFUSED_CLOCK = /ASTERNHAKEN_CLOCK = /'
holds 'a part with the name of a refusal is refused' not_names 's/ASTERNHAKEN_PART_HOPS = /ASTERNHAKEN_PART_HOPPING = /'
holds 'a number of following without its prefix is refused' not_names 's/ASTERNHAKEN_FOLLOW_NO_KEY = /ASTERNHAKEN_NO_KEY = /'
holds 'a kind of identity without its prefix is refused' not_names 's/ASTERNHAKEN_IDENTITY_TMSI = /ASTERNHAKEN_TMSI = /'
holds 'a number of the uplink without its prefix is refused' not_names 's/ASTERNHAKEN_UPLINK_WAITING = /ASTERNHAKEN_WAITING = /'
holds 'a flag under another name is refused' not_names 's/ASTERNHAKEN_PART_COUNT_GIVEN = /ASTERNHAKEN_PART_COUNTED = /'
# kinds HEADER [SPECS]: the kinds of field are those of the code and of the specification, by name and number, from 1 on; a flag among them that says whether something follows ends in _GIVEN.
kinds() {
    sed -n 's/^    ASTERNHAKEN_FIELD_\([A-Z0-9_]*\) = \([0-9]*\).*/\1 \2/p' "$1" > "$tmp/kinds"
    sed -n 's/^pub const \([A-Z0-9_]*\): u64 = \([0-9]*\);$/\1 \2/p' crates/trace/src/kinds.rt | diff - "$tmp/kinds" || return 1
    tr -d _ < "$tmp/kinds" > "$tmp/kinds.plain"
    sed -n 's/^\([a-z][A-Za-z0-9_]*\) = \([0-9]*\)$/\1 \2/p' "${2:-crates/trace/specs/Names.antt}" | tr -d _ | diff -i - "$tmp/kinds.plain" || return 1
    [ "$(wc -l < "$tmp/kinds")" -ge 50 ] && awk '$2 != NR { exit 1 }' "$tmp/kinds" && [ -z "$(cut -d ' ' -f 1 "$tmp/kinds" | sort | uniq -d)" ] || return 1
    ! grep -E '^    ASTERNHAKEN_FIELD_.*[.] (0 no|1 a|1 an) .* follows?' "$1" | grep -v '_GIVEN = '
}
not_kinds() { sed "$1" include/asternhaken.h > "$tmp/names.h" && ! cmp -s include/asternhaken.h "$tmp/names.h" && ! kinds "$tmp/names.h"; }
not_specified() { sed "$1" crates/trace/specs/Names.antt > "$tmp/names.antt" && ! cmp -s crates/trace/specs/Names.antt "$tmp/names.antt" && ! kinds include/asternhaken.h "$tmp/names.antt"; }
holds 'the kinds of field' kinds include/asternhaken.h
holds 'a kind of field with another number is refused' not_kinds 's/ASTERNHAKEN_FIELD_HOPS = 13/ASTERNHAKEN_FIELD_HOPS = 14/'
holds 'a kind of field under another name is refused' not_kinds 's/ASTERNHAKEN_FIELD_COUNT_GIVEN = /ASTERNHAKEN_FIELD_COUNTED = /'
holds 'a kind of field that is specified with another number is refused' not_specified 's/^hops = 13/hops = 14/'
# may_be_left HEADER: all results but those of what only looks at a state or at a page, and of the version, must be used.
may_be_left() {
    sed -n -E 's/^(static inline )?uint32_t (asternhaken_[a-z0-9_]*)\(.*/\2/p' "$1" | sort > "$tmp/left"
    printf 'asternhaken_%s\n' answer_get entry_get entry_numbers held_count held_get held_numbers identity_octet is_set_up next_expiry paged_get paged_numbers read version yard_call_get yard_call_numbers yard_count | diff - "$tmp/left"
}
not_left() { sed 's/^ASTERNHAKEN_MUST_USE \(uint32_t asternhaken_digits_write\)/\1/' include/asternhaken.h > "$tmp/names.h" && ! may_be_left "$tmp/names.h"; }
holds 'the results that may be left' may_be_left include/asternhaken.h
holds 'a writer whose result may be left is refused' not_left
# pages FILE..: what the pages for users name is in the header.
pages() {
    grep -ohE '(asternhaken|ASTERNHAKEN)_[A-Za-z0-9_]*[a-zA-Z0-9]' "$@" | sort -u | grep -vx ASTERNHAKEN_LIBRARY > "$tmp/names"
    [ "$(wc -l < "$tmp/names")" -ge 20 ] && while read -r f; do grep -qw "$f" include/asternhaken.h || { echo "$f"; return 1; }; done < "$tmp/names"
}
not_pages() { sed 's/asternhaken_held_get/asternhaken_held_take/' docs/C-API.md > "$tmp/page.md" && ! pages "$tmp/page.md"; }
for page in README.md docs/C-API.md docs/asternhaken.3 'docs/STATE.md examples/control_room.c examples/live_list.c examples/driver.c examples/yard_set.c'; do holds "what $page names" pages $page; done
holds 'a page with a name that is not there is refused' not_pages

# ---- Each archive ----

# symbols: what the archive defines for others is what the header declares, and it asks for nothing but memcpy and memset; the objects of c/ ask for nothing at all.
symbols() {
    for file in c/*.c; do
        object=$(basename "$file" .c).o
        ar p "$archive" "$object" > "$tmp/$object" && [ -s "$tmp/$object" ] && ! nm -u "$tmp/$object" | grep . || { echo "$object"; return 1; }
    done
    nm -g --defined-only "$archive" | awk 'NF == 3 { print $3 }' | sort > "$tmp/defined"
    nm -u "$archive" | awk '$1 ~ /^[Uwv]$/ { print $2 }' | sort -u | comm -23 - "$tmp/defined" | grep -vx -e memcpy -e memset > "$tmp/asked"
    diff "$tmp/functions" "$tmp/defined" && ! grep . "$tmp/asked"
}

# build NAME FILE: a program of this file and the archive.
build() { $cc -std=c99 $strict -O1 -g -Iinclude "$2" "$archive" -o "$tmp/$1"; }

yard() { [ -s examples/yard.expected ] && $run "$tmp/yard_set" < examples/yard.txt > "$tmp/shown" && diff examples/yard.expected "$tmp/shown"; }
# What a yard set takes no line for is named, and what is refused is said; the keys of a setup may come in any order.
yard_lines() {
    printf '%s\n' 'tick' 'tick x' 'frob 1' 'facch 1 2b2b' 'nch 1 2b2' 'nch 1 2g' 'nch 1' 'setup 0 a=b=3' 'setup 0 thirteen_long=3' 'setup 0 1 2 3 4 5 6 7 8 9' 'setup 0 7 9 8:3,4 # the keys are sorted' 'nch 1 2b' 'joined 1 4294967296' 'joined 2 7' 'tick 1' 'bit_22 2 2' 'bit_22 2 1' | \
        $run "$tmp/yard_set" > "$tmp/shown" 2> "$tmp/wrong"
    [ $? = 1 ] && diff - "$tmp/wrong" <<'END' && diff - "$tmp/shown" <<'OUT'
line 1: an event has a TICK
line 2: a word is no number of 32 bits
line 3: no such event
line 4: no such event
line 5: HEX is not two digits for each octet
line 6: HEX is not two digits for each octet
line 7: no such event
line 8: a word is no number of 32 bits
line 9: a call is NAME=REFERENCE:GROUP,.., with a name of twelve characters at most
line 13: a word is no number of 32 bits
END
---- setup refused: setup

---- 0.000 s ----

no call

---- nch refused: message length

---- tick refused: clock

---- bit_22 refused: range

OUT
}
sample() { [ -s examples/sample.expected ] && $run "$tmp/control_room" < examples/sample.txt > "$tmp/shown" && diff examples/sample.expected "$tmp/shown"; }

# The events of vectors/ and their answers, by what $expected writes; there are no fewer than when this was written.
expected=tools/expected least_events=280
events() {
    $expected events stdin > "$tmp/fed" && $expected events stdout > "$tmp/due" || return 1
    [ "$(wc -l < "$tmp/fed")" -ge $least_events ] && [ "$(wc -l < "$tmp/due")" -ge $least_events ] || { echo "there are fewer than $least_events events"; return 1; }
    $run "$tmp/events" < "$tmp/fed" > "$tmp/answers" && diff "$tmp/due" "$tmp/answers"
}
# Nothing to compare, and events without answers, must fail.
few_events() { tools/expected "$@" | head -n $((least_events - 1)); }
without_answers() { [ "$2" = stdout ] || tools/expected "$@"; }
no_events() { (for expected in true few_events without_answers; do ! events > "$tmp/shown" || { echo "$expected passes"; exit 1; }; done); }

# The example names each line that is wrong and goes on.
wrong_lines() {
    {
        printf '%s\n' 'tick 5' 'setup 0 5000 5000' 'setup x 5000 5000 5000 9422' 'setup 0 5000 5000 5000 4711/VXS' 'setup 0 5000 5000 5000 thirteen_long=9422' \
            'setup 0 5000 5000 60001 9422' '  # a comment, then a setup' 'setup 0 5000 5000 5000 yard=4711/VBS # the yard' '' 'nch 1 2b2' 'nch 1 2g' 'nch 1' \
            'nch 4294967296 2b' 'nch 1 2b' 'joined 1 4711/' 'joined 1' 'tick 1 2' 'frob 1' 'setup 0 1 1 x' 'pch 1' 'pch 1 4711/' 'pch 1 9422 rand=' 'pch 1 9422 rand' \
            'pch 1 9422 rand=0123456789abcdef0' 'pch 1 9422 rand=g' 'pch 1 9422 frob=1' 'pch 1 9422 count=4' 'pch 1 9422 ciphered rand=7' 'left_idle 1 2' 'left_idle 1' \
            'bit_22 1' 'bit_22 1 x' 'bit_22 1 2' 'bit_22 1 1' 'setup 0 1 1 1 9422:' 'setup 0 1 1 1 9422:3,' 'setup 0 1 1 1 9422:32' 'setup 0 1 1 1 :3' 'setup 0 1 1 1 9422:0' 'setup 0 1 1 1 9422:3,16' \
            'setup 1 5000 5000 5000 yard=4711/VBS:15,3,1' 'facch 1 0482fa091a2b3c572b' 'facch 1 0480'
        head -c 5000 /dev/zero | tr '\0' 1
        printf '\nti\0ck 1\ntick 1'
    } | $run "$tmp/control_room" > "$tmp/shown" 2> "$tmp/wrong"
    status=$?
    [ $status = 1 ] || { echo "status $status"; cat "$tmp/wrong"; return 1; }
    diff - "$tmp/wrong" <<'END' || return 1
line 1: no setup was accepted yet
line 2: a setup is TICK T3206 T3208 T3210 CALL..
line 3: TICK is no number of 32 bits
line 4: CALL is no key, REFERENCE/VBS or REFERENCE/VGCS
line 5: a name is too long
line 10: HEX is not two hexadecimal digits for each octet
line 11: HEX is not two hexadecimal digits for each octet
line 12: the words are TICK HEX
line 13: TICK is no number of 32 bits
line 15: CALL is no key, REFERENCE/VBS or REFERENCE/VGCS
line 16: the words are TICK CALL
line 17: nothing stands behind the TICK
line 18: no such event
line 19: T3210 is no number of 32 bits
line 20: the words are TICK CALL PART..
line 21: CALL is no key, REFERENCE/VBS or REFERENCE/VGCS
line 22: PART is no ciphered, full=, channel=, allocation=, list=, rand= or count= with up to 16 digits
line 23: PART is no ciphered, full=, channel=, allocation=, list=, rand= or count= with up to 16 digits
line 24: PART is no ciphered, full=, channel=, allocation=, list=, rand= or count= with up to 16 digits
line 25: PART is no ciphered, full=, channel=, allocation=, list=, rand= or count= with up to 16 digits
line 26: PART is no ciphered, full=, channel=, allocation=, list=, rand= or count= with up to 16 digits
line 29: nothing stands behind the TICK
line 31: the words are TICK VALUE
line 32: VALUE is no number of 32 bits
line 35: behind CALL: stand no numbers of group keys
line 36: behind CALL: stand no numbers of group keys
line 37: behind CALL: stand no numbers of group keys
line 38: CALL is no key, REFERENCE/VBS or REFERENCE/VGCS
line 44: the line is too long
line 45: the line is no text
END
    diff - "$tmp/shown" <<'END'
      tick  event         name          call           told                   channel  follow
         0  setup         refused 10: setup
         0  setup         T3206 5000 ms, T3208 5000 ms, T3210 5000 ms
                          yard          VBS      4711
         1  nch           refused 1: message length
         1  pch           refused 12: range
         1  pch           yard          VBS      4711  4 half stored
         1  left_idle     1 half dropped
         1  bit_22        refused 12: range
         1  bit_22        -
         0  setup         refused 10: setup
         0  setup         refused 10: setup

Call list
  yard          VBS      4711  not complete yet

         1  setup         T3206 5000 ms, T3208 5000 ms, T3210 5000 ms
                          yard          VBS      4711  group keys: 1, 3, 15
         1  facch         paging TMSI f412345678, TCH/F, priority 3, mobile terminating call
         1  facch         refused 2 at bit 9: bits ran out
         1  tick          -

Call list
  yard          VBS      4711  not complete yet
END
}

# The live list: a half comes, is shown with its time, and is gone when that is over; a message that is too short is named, and so is a refused setup.
live_list() {
    : > "$tmp/shown"
    {
        echo b00024cea3852091922b2b2b2b2b2b2b2b2b2b2b
        for i in $(seq 200); do [ "$(wc -l < "$tmp/shown")" -lt 4 ] && sleep 0.1; done
        echo 2b
    } | $run "$tmp/live_list" 300 9422 9423 > "$tmp/shown" || return 1
    printf '%s\n' 'accepted; 0 held' 'accepted; 1 held' '    4711 VBS   first half on the NCH, 0.3 s left' 'accepted; 0 held' 'message length; 0 held' | diff - "$tmp/shown" || return 1
    ! $run "$tmp/live_list" 0 9422 < /dev/null > "$tmp/shown" && [ "$(cat "$tmp/shown")" = 'setup; 0 held' ]
}
# The driver's set: what the driver is shown, and a line that is wrong is named and passed over.
driver() { [ -s examples/driver.expected ] && $run "$tmp/driver" < examples/driver.txt > "$tmp/shown" && diff examples/driver.expected "$tmp/shown"; }
driver_wrong_lines() {
    printf '%s\n' 'press 5' 'setup 5' 'setup 0 0' 'setup 0 60001' '  # a comment' '' 'setup 0 100' 'press' 'press x' 'press 4294967296' 'setup 0 4294967296' 'press 1 2' 'frob 1' 'setup 1 2 3' 'press 0' |
        $run "$tmp/driver" > "$tmp/shown" 2> "$tmp/wrong"
    status=$?
    [ $status = 1 ] || { echo "status $status"; cat "$tmp/wrong"; return 1; }
    diff - "$tmp/wrong" <<'END' || return 1
line 1: no setup was accepted yet
line 2: a line is WORD TICK, or setup TICK T3128
line 8: a line is WORD TICK, or setup TICK T3128
line 9: a line is WORD TICK, or setup TICK T3128
line 10: a number has more than 32 bits
line 11: a number has more than 32 bits
line 12: a line is WORD TICK, or setup TICK T3128
line 13: no such event
line 14: a line is WORD TICK, or setup TICK T3128
END
    diff - "$tmp/shown" <<'END'
         0  setup  refused 10: setup
         0  setup  refused 10: setup
         0  setup
         0  press  please wait
END
}
# by COMPILER..: every function, the views, the uplink, the yard set, the traces, the events and the examples as that compiler takes them.
by() {
    for program in tests/header tests/views tests/uplink tests/yard tests/trace tests/events examples/control_room examples/live_list examples/driver examples/yard_set; do
        "$@" $strict -O2 -Iinclude $program.c -x none "$archive" -o "$tmp/$(basename $program)" || return 1
    done
    for program in header views uplink yard trace; do "$tmp/$program" > "$tmp/shown" && tail -n 1 "$tmp/shown" | grep '^[1-9][0-9]* passed, 0 failed$' || { cat "$tmp/shown"; return 1; }; done
    events && sample && live_list && driver && yard
}

# from_python: the module over the shared library of this archive, held to the header and known answers, and the example in it.
from_python() {
    env -u MAKEFLAGS -u MAKELEVEL make install DESTDIR= PREFIX="$tmp/there" ASTERNHAKEN_LIB="$folder" CC=cc || return 1
    (PYTHONPATH=$tmp/there/share/asternhaken PYTHONDONTWRITEBYTECODE=1 && export PYTHONPATH PYTHONDONTWRITEBYTECODE && unset ASTERNHAKEN_LIBRARY && python3 tests/receiver.py include/asternhaken.h) || return 1
    PYTHONDONTWRITEBYTECODE=1 python3 "$tmp/there/share/asternhaken/control_room.py" < examples/sample.txt > "$tmp/shown" && diff examples/sample.expected "$tmp/shown"
}

demo() { make demo ASTERNHAKEN_LIB="$folder" > "$tmp/shown" && diff examples/sample.expected "$tmp/shown"; }

for folder; do
    folder=$(cd "$folder" && pwd) && archive=$folder/libasternhaken.a
    name=${folder#"$root/"}
    # what its programs are compiled and run by here; all functions of the C library are looked for at the start, or tests/stack.c would count that
    case $(readelf -h "$archive" 2>&1 | sed -n 's/^ *Machine: *//p' | sort -u)/$(uname -m) in
    *X86-64/x86_64 | AArch64/aarch64) cc='cc -Wl,-z,now' run= ;;
    *X86-64/*) cc='x86_64-linux-gnu-gcc -static' run=qemu-x86_64 ;;
    *) holds "$archive is no archive for x86-64 or this machine" false; continue ;;
    esac
    holds "$name: symbols" symbols
    for program in header views uplink yard trace stack events; do holds "$name: tests/$program.c" build $program tests/$program.c; done
    for program in control_room live_list driver yard_set; do holds "$name: examples/$program.c" build $program examples/$program.c; done
    counted "$name: tests/header.c" $run "$tmp/header"
    counted "$name: tests/views.c" $run "$tmp/views"
    counted "$name: tests/uplink.c" $run "$tmp/uplink"
    counted "$name: tests/yard.c" $run "$tmp/yard"
    counted "$name: tests/trace.c" $run "$tmp/trace"
    holds "$name: the events of vectors/" events
    holds "$name: too few events are refused" no_events
    holds "$name: the sample" sample
    holds "$name: wrong lines" wrong_lines
    holds "$name: the live list" live_list
    holds "$name: the driver's set" driver
    holds "$name: wrong lines of the driver's set" driver_wrong_lines
    holds "$name: the yard set" yard
    holds "$name: wrong lines for the yard set" yard_lines
    counted "$name: tests/stack.c" $run "$tmp/stack"
    echo "$name: $(grep deepest "$tmp/counted")"
    [ -z "$run" ] || continue
    run='valgrind -q --error-exitcode=9 --leak-check=full'
    holds "$name: valgrind on tests/header.c" $run "$tmp/header"
    holds "$name: valgrind on tests/views.c" $run "$tmp/views"
    holds "$name: valgrind on tests/uplink.c" $run "$tmp/uplink"
    holds "$name: valgrind on tests/yard.c" $run "$tmp/yard"
    holds "$name: valgrind on tests/trace.c" $run "$tmp/trace"
    holds "$name: valgrind on the sample" sample
    holds "$name: valgrind on wrong lines" wrong_lines
    holds "$name: valgrind on the live list" live_list
    holds "$name: valgrind on the driver's set" driver
    holds "$name: valgrind on the yard set" yard
    holds "$name: valgrind on wrong lines for the yard set" yard_lines
    run=
    holds "$name: gcc" by gcc -std=c99
    holds "$name: clang" by clang -std=c99
    holds "$name: g++" by g++ -std=c++17 -x c++
    holds "$name: clang++" by clang++ -std=c++17 -x c++
    holds "$name: from Python" from_python
    holds "$name: make demo" demo
done
finish
