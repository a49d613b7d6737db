#!/usr/bin/env bash
# The command for field staff: sessions as a new user has them, on captures that we made and that other code made; vectors through decode and through the Wireshark dissector, which must list the
# same fields; import held to replay; damaged files; valgrind, sanitizers and the fuzzer's seeds; a terminal. The last line is 'N passed, M failed'.
#
#   tests/field.sh            all of it
#   tests/field.sh --write    writes what the sessions say now into tests/field/*.session, to be read before it is kept
#
# On another processor than x86-64 the command is built over the stand-in for the machine itself, and replay runs in an emulator: libpcap is there for the machine alone.
set -uo pipefail
export LC_ALL=C.UTF-8 TZ=UTC PYTHONDONTWRITEBYTECODE=1 ASAN_OPTIONS=detect_leaks=0 # valgrind looks for leaks
cd "$(dirname "${BASH_SOURCE[0]}")/.." || exit 1
top=$(mktemp -d) || exit 1
trap 'rm -rf "$top"' EXIT
unset MAKEFLAGS MAKELEVEL DESTDIR PREFIX CC ASTERNHAKEN_LIB ASTERNHAKEN_PROGRAMS NO_COLOR
passed=0 failed=0 write=${1:-}

# holds WHAT COMMAND..: one thing that passes where the command does.
holds() {
    local what=$1
    shift
    if "$@" > "$top/said" 2>&1; then passed=$((passed + 1)); else failed=$((failed + 1)) && echo "failed: $what" && tail -n 40 "$top/said"; fi
}
not() { ! "$@"; }
# counted WHAT COMMAND..: a command that counts for itself, by its last line.
counted() {
    local what=$1 last
    shift
    "$@" > "$top/said" 2>&1
    last=$(tail -n 1 "$top/said")
    if [[ $last =~ ^([0-9]+)\ passed,\ ([0-9]+)\ failed$ ]] && [ "${BASH_REMATCH[1]}" != 0 ]; then
        passed=$((passed + BASH_REMATCH[1])) failed=$((failed + BASH_REMATCH[2]))
        [ "${BASH_REMATCH[2]}" = 0 ] || { echo "failed: $what"; tail -n 40 "$top/said"; }
    else
        failed=$((failed + 1))
        echo "failed: $what ended with '$last'"
    fi
}
check() { python3 tests/field/check.py "$@"; }
finish() {
    echo "$passed passed, $failed failed"
    [ "$failed" = 0 ]
    exit
}

make command > "$top/said" 2>&1 && make replay >> "$top/said" 2>&1 || { tail -n 60 "$top/said"; failed=1; finish; }
archive=target/$([ "$(uname -m)" = x86_64 ] && echo lib || echo native)/libasternhaken.a
own=$(ls field/*.c | grep -v '/main.c$')
strict='-std=c11 -D_GNU_SOURCE -Wall -Wextra -Wpedantic -Werror -Iinclude'

# ---- Built strictly, and with sanitizers ----

# clang's sanitizers and its fuzzer are a package of their own, which has no command that tools/gate could ask for.
has_fuzzer() { echo 'int LLVMFuzzerTestOneInput(const unsigned char *at, unsigned long n) { return !at && n; }' | clang -x c -fsanitize=fuzzer,address,undefined - -o "$top/probe" > "$top/said" 2>&1; }
has_fuzzer || { apt-get -qq update && DEBIAN_FRONTEND=noninteractive apt-get -qq install -y --no-install-recommends libclang-rt-dev; } > "$top/said" 2>&1
holds 'gcc, strictly' gcc $strict -O2 field/*.c "$archive" -lpcap -o "$top/by-gcc"
holds 'clang, strictly' clang $strict -O2 field/*.c "$archive" -lpcap -o "$top/by-clang"
holds 'with sanitizers' gcc $strict -g -O1 -fsanitize=address,undefined -fno-sanitize-recover=all field/*.c "$archive" -lpcap -o "$top/sanitized"
holds 'the fuzzer' clang $strict -g -O1 -fsanitize=fuzzer,address,undefined tests/field/fuzz.c $own "$archive" -lpcap -o target/field/fuzz

# ---- The folder of a new user: the command, replay, captures of ours and of others ----

work=$top/work bin=$top/bin
mkdir "$work" "$bin" "$top/programs"
cp target/field/asternhaken "$bin"
cp tests/field/*.pcap tests/field/*.script examples/day.script "$work"
printf '#!/bin/sh\nexec %s\n' "$(tools/program replay)" > "$top/programs/replay"
chmod +x "$top/programs/replay"
export ASTERNHAKEN_PROGRAMS=$top/programs
check foreign "$work" || failed=$((failed + 1))
text2pcap -q -t '%Y-%m-%d %H:%M:%S.%f' -u 4729,4729 tests/field/halves.hex "$work/by-text2pcap.pcapng" > "$top/said" 2>&1
tshark -r "$work/by-text2pcap.pcapng" -F pcap -w "$work/by-tshark.pcap" >> "$top/said" 2>&1
editcap -s 70 "$work/by-text2pcap.pcapng" "$work/clipped.pcap" >> "$top/said" 2>&1
holds 'text2pcap, tshark and editcap wrote captures' test -s "$work/by-text2pcap.pcapng" -a -s "$work/by-tshark.pcap" -a -s "$work/clipped.pcap"

# ---- Sessions ----

in_work() { (cd "$work" && python3 "$OLDPWD/tests/field/check.py" session "$@"); }
for session in tests/field/*.session; do
    counted "$session" in_work "$bin" "$PWD/$session" ${write:+--write}
done
[ -z "$write" ] || finish
sed -n '/^```session$/,/^```$/{/^```/!p;}' README.md > "$top/readme.session"
counted 'the session of the README' in_work "$bin" "$top/readme.session"
# Each command is also run by a build that looks at memory, and says the same.
mkdir "$top/sanitized-bin" && cp "$top/sanitized" "$top/sanitized-bin/asternhaken"
for session in tests/field/*.session; do counted "$session, with sanitizers" in_work "$top/sanitized-bin" "$PWD/$session"; done

# Commands that are wrong are found: one by its words, one by its status, one that says nothing on standard error, and errors that are put into its source.
mkdir "$top/wrong"
finds() {
    local session
    for session in tests/field/*.session; do in_work "$top/wrong" "$PWD/$session" > "$top/said" 2>&1 || return 0; done
    return 1
}
wrong() {
    printf '#!/bin/bash\n%s\n' "$2" > "$top/wrong/asternhaken"
    chmod +x "$top/wrong/asternhaken"
    holds "not found: $1" finds
}
wrong 'other words' "$bin/asternhaken \"\$@\" | sed 's/joined/one piece/'; exit \${PIPESTATUS[0]}"
wrong 'no status' "$bin/asternhaken \"\$@\"; exit 0"
wrong 'no complaints' "exec $bin/asternhaken \"\$@\" 2> /dev/null"
n=0
while read -r file edit; do
    rm -rf "$top/source" && mkdir "$top/source" && cp -r field "$top/source"
    sed -i "$edit" "$top/source/field/$file"
    if cmp -s "field/$file" "$top/source/field/$file"; then holds "'$edit' changes nothing in $file" false; continue; fi
    holds "$file with $edit is built" gcc -std=c11 -D_GNU_SOURCE -w -O0 -Iinclude "$top"/source/field/*.c "$archive" -lpcap -o "$top/wrong/asternhaken"
    holds "not found: $file with $edit" finds
    n=$((n + 1))
done << 'END'
frames.c s/piece->sent >= BLOCK ? 2 : 0/piece->sent >= BLOCK ? 0 : 0/
frames.c s/if (arfcn & 0x4000) return KIND_UPLINK/if (arfcn \& 0x2000) return KIND_UPLINK/
frames.c s/if (piece->captured < piece->sent) return KIND_CLIPPED;//
frames.c s/type == 0x8100 ||//
frames.c s/if (fragment) return KIND_FRAGMENT;//
capture.c s/if (ms < capture->ms) capture->went_back++;/if (ms < capture->ms) capture->ms = ms;/
cells.c s/if (to - from <= PAUSE) return 0;/return 0;/
cells.c s/frame->is_pcs << 14 | frame->arfcn/0/
trial.c s/gaps.gap\[i\] + 1;/gaps.gap[i];/
trial.c s/kept->cell != account->cell ||//
account.c s/random->segment_id ? SIGHT_SEGMENT/!random->segment_id ? SIGHT_SEGMENT/
verdict.c s/finding.is_parted/!finding.is_parted/
names.c s/bits >> 13 & 7/bits >> 12 \& 7/
calls.c s/which >> vgcs & 1/which >> !vgcs \& 1/
import.c s/put(4 + count, 2)/put(count, 2)/
cell.c s/event->half != HALF_FIRST;/event->half == HALF_FIRST;/
trace.c s/0x2bu >> (7/0x2bu >> (6/
END
holds 'the errors put into the command' test "$n" = 17

# ---- Vectors: decode, the answers of others, and the dissector ----

lua=wireshark/asternhaken.lua
# named HEADER: each kind of field of the header has its words in the command and in the dissector, and nothing else has.
named() {
    sed -n 's/^    ASTERNHAKEN_FIELD_\([A-Z0-9_]*\) = .*/\1/p' "$1" > "$top/kinds"
    [ "$(wc -l < "$top/kinds")" -ge 50 ] && sed -n 's/^    ROW(\([A-Z0-9_]*\), .*/\1/p' field/names.c | diff - "$top/kinds" || return 1
    sed -n '/^local titles = {$/,/^}$/p' $lua | grep -o '[A-Z][A-Z0-9_]* = ' | cut -d ' ' -f 1 | sort | diff - <(sort "$top/kinds")
}
unnamed() { sed '/FIELD_HOPS = /s/HOPS/HOPPING/' include/asternhaken.h > "$top/other.h" && not named "$top/other.h"; }
holds 'each kind of field has its words' named include/asternhaken.h
holds 'a kind of field without words is found' unnamed
dissected() { tshark -X "lua_script:$1" -r "$2" -T fields -e asternhaken.refusal -e asternhaken.refused_bit -e asternhaken.read_to -e asternhaken.trace 2> /dev/null; }
for kind in nch facch; do
    check messages $kind | target/field/asternhaken decode -c $kind --json - > "$top/$kind.json"
    counted "$kind: decode and the answers of others" check answers $kind "$top/$kind.json"
    # the first octet of a FACCH message, by which the dissector finds it, is another in some vectors
    check messages $kind $([ $kind = nch ] || echo 04) > "$top/$kind.hex"
    target/field/asternhaken decode -c $kind --json - < "$top/$kind.hex" > "$top/$kind.json"
    check capture $kind "$top/$kind.hex" "$top/$kind.pcap"
    dissected $lua "$top/$kind.pcap" > "$top/$kind.tshark"
    counted "$kind: decode and the dissector" check trace "$top/$kind.hex" "$top/$kind.json" "$top/$kind.tshark"
done
# Errors that are put into the dissector are found.
n=0
while read -r edit; do
    sed "$edit" $lua > "$top/wrong.lua"
    cmp -s $lua "$top/wrong.lua" && { failed=$((failed + 1)); echo "failed: '$edit' changes nothing"; continue; }
    for kind in nch facch; do dissected "$top/wrong.lua" "$top/$kind.pcap" > "$top/$kind.wrong"; done
    found() { ! check trace "$top/nch.hex" "$top/nch.json" "$top/nch.wrong" || ! check trace "$top/facch.hex" "$top/facch.json" "$top/facch.wrong"; }
    holds "not found: the dissector with $edit" found
    n=$((n + 1))
done << 'END'
s/"VSTK_RAND", 36/"VSTK_RAND", 35/
s/> 99999999/> 99999998/
s/m.randoms > ciphered/m.randoms > ciphered + 1/
s/1, 0, 1, 0, 1, 1 }/1, 0, 1, 0, 1, 0 }/
s/octets > 9)/octets > 10)/
s/2 ^ 12/2 ^ 11/
s/"PAGING_CAUSE", 1/"PAGING_CAUSE", 2/
END
holds 'the errors put into the dissector' test "$n" = 7
shown() {
    tshark -X lua_script:$lua -r tests/field/day.pcap > "$top/lines" 2> /dev/null && grep -q 'NCH: 4711 VBS with a channel, key 3' "$top/lines" || return 1
    tshark -X lua_script:$lua -r tests/field/day.pcap -V > "$top/tree" 2> /dev/null && grep -q 'Cipher key number: 3 (bit 36, 4 bits)' "$top/tree"
}
holds 'the info column and the tree' shown
filtered() { [ "$(tshark -X lua_script:$lua -r tests/field/day.pcap -Y 'asternhaken.call_reference == 4711' 2> /dev/null | wc -l)" = 16 ]; }
holds 'a display filter' filtered

# ---- Channels, as tshark reads them in IMMEDIATE ASSIGNMENT ----

counted 'channel descriptions, and tshark' check channels "$bin/asternhaken" "$top"

# ---- import and replay ----

for name in day odd by-hand-raw pause back mixed; do
    "$bin/asternhaken" watch --all --json "$work/$name.pcap" 4711 815 4712 4713 4714 4731 4732 4733 66428757 > "$top/watched"
    "$bin/asternhaken" import "$work/$name.pcap" 4711 815 4712 4713 4714 4731 4732 4733 66428757 | "$bin/asternhaken" replay > "$top/replayed"
    counted "$name: import and replay" check told "$top/watched" "$top/replayed"
done
sed '/"told":3/d' "$top/watched" > "$top/fewer"
holds 'not found: an answer less' not check told "$top/fewer" "$top/replayed"

# mend, once its program is there: as it stands beside each capture, what it copies and what it lists.
mends() {
    local cap
    for cap in vectors/captures/*.cap; do
        "$bin/asternhaken" mend < "$cap" > "$top/mended" 2> "$top/list" && cmp "$top/mended" "${cap%.cap}.mended" && cmp "$top/list" "${cap%.cap}.list" || { echo "$cap"; return 1; }
    done
}
if [ -d crates/mend ]; then
    make mend > "$top/said" 2>&1 && printf '#!/bin/sh\nexec %s\n' "$(tools/program mend)" > "$top/programs/mend" && chmod +x "$top/programs/mend"
    holds mend mends
fi

# ---- Damage ----

counted 'damaged captures, watch' check damage "$top" "$top/sanitized" watch "$work/day.pcap"
counted 'damaged captures, why' check damage "$top" "$top/sanitized" why "$work/cells.pcap"
holds 'the seeds of the fuzzer' target/field/fuzz -runs=0 tests/field/seeds
grind() { valgrind --quiet --error-exitcode=9 --leak-check=full --errors-for-leak-kinds=definite "$bin/asternhaken" "$@" > /dev/null; [ $? -le 1 ]; }
for words in "watch $work/cells.pcap" "why $work/day.pcap" "why $work/odd.pcap 4711" "decode b00024cea3852091922b2b2b2b2b2b2b2b2b2b2b" "import $work/day.pcap 4711" "cell $work/cells.script" "watch --json $work/mixed.pcap 4711"; do
    holds "valgrind: $words" grind $words
done

# ---- A terminal ----

# In one there are colours, and nothing of them in a file, by NO_COLOR or in a dumb one.
on_terminal() {
    tmux -L "field$$" -f /dev/null new-session -d -x 200 -y 50 "$1; sleep 20" || return 1
    local i
    for i in $(seq 50); do
        sleep 0.1
        tmux -L "field$$" capture-pane -e -p > "$top/screen" && grep -q "$2" "$top/screen" && break
    done
    tmux -L "field$$" kill-server
    grep -q "$2" "$top/screen"
}
coloured() { on_terminal "$bin/asternhaken watch $work/day.pcap 4711/VBS" '40 frames' && grep -q $'\e\\[32m' "$top/screen"; }
uncoloured() { on_terminal "NO_COLOR=1 $bin/asternhaken watch $work/day.pcap 4711/VBS" '40 frames' && ! grep -q $'\e\\[3[12]m' "$top/screen"; }
in_a_file() { "$bin/asternhaken" watch "$work/day.pcap" 4711/VBS > "$top/file"; grep -q joined "$top/file" && ! grep $'\e' "$top/file"; }
refuses_terminal() { on_terminal "$bin/asternhaken cell $work/day.script" 'is no text'; }
holds 'colours on a terminal' coloured
holds 'no colours with NO_COLOR' uncoloured
holds 'no colours in a file' in_a_file
holds 'no capture on a terminal' refuses_terminal
# How far it is stands on standard error where that is a terminal, and there alone.
progress() {
    printf 'call a 9/VBS channel=0b2064\nsend a from 0 to 70000 every 1\n' | "$bin/asternhaken" cell - > "$top/long.pcap" || return 1
    script -qec "$bin/asternhaken watch $top/long.pcap 8/VBS > /dev/null" /dev/null > "$top/typed"
    grep -q '65536 frames, 9[0-9] %' "$top/typed" || return 1
    "$bin/asternhaken" watch "$top/long.pcap" 8/VBS 2> "$top/errors" > /dev/null
    [ ! -s "$top/errors" ]
}
holds 'how far it is' progress
# A capture under way: each line is there before the next frame comes.
live() {
    mkfifo "$top/pipe" && { "$bin/asternhaken" watch - 4711/VBS < "$top/pipe" > "$top/live" & } || return 1
    local watching=$! i
    exec 9> "$top/pipe"
    head -c 150 "$work/by-hand-raw.pcap" >&9 # one frame, and a part of the next
    for i in $(seq 50); do grep -q 'half stored' "$top/live" && break; sleep 0.1; done
    grep -q 'half stored' "$top/live" && ! grep -q joined "$top/live" || return 1
    tail -c +151 "$work/by-hand-raw.pcap" >&9
    exec 9>&-
    wait $watching && grep -q joined "$top/live"
}
holds 'a capture under way' live

# ---- Completion ----

offered() {
    COMP_WORDS=("$@") COMP_CWORD=$(($# - 1))
    _asternhaken
    echo "${COMPREPLY[*]}"
}
complete_all() {
    (
        . field/completion.bash
        [ "$(offered asternhaken w)" = 'watch why' ] && [ "$(offered asternhaken watch --t)" = '--t3206 --t3208' ] && [ "$(offered asternhaken decode -c f)" = facch ] && [ "$(offered asternhaken cell --link c)" = cooked ]
    )
}
holds 'completion' complete_all
# Every command of --help, and every option of each, is offered, and stands in the man page.
all_there() {
    local command option
    for command in $(target/field/asternhaken --help | awk '/^  asternhaken / { print $2 }'); do
        grep -q "^\\\\fBasternhaken $command" docs/asternhaken.1 || grep -q "asternhaken $command" docs/asternhaken.1 || { echo "$command is not in the man page"; return 1; }
        (. field/completion.bash && [[ " $(offered asternhaken '') " == *" $command "* ]]) || { echo "$command is not offered"; return 1; }
        for option in $(target/field/asternhaken "$command" --help | grep -o -e '--[a-z0-9]*' | sort -u); do
            grep -q -e "${option//-/\\\\-}" docs/asternhaken.1 || { echo "$option is not in the man page"; return 1; }
            (. field/completion.bash && [[ " $(offered asternhaken "$command" --) " == *" $option "* ]]) || { echo "$command $option is not offered"; return 1; }
        done
    done
}
holds 'completion and the man page have all' all_there
finish
