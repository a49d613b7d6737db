#!/bin/sh
# How fast asternhaken watch goes through a capture, beside tshark -T fields on the same file, in one run.
#
#   run-watch.sh [FRAMES]      1,000,000 frames, all of them notifications, unless another number is named
#
# A line for each: seconds of processor time (the least of three runs), ns a frame, the most memory in KB; then by how much tshark takes longer than watch with a line for each entry.
set -eu
cd "$(dirname "$0")/../.."
frames=${1:-1000000}
make command > /dev/null
build=target/bench
mkdir -p "$build"
gcc -O2 -std=c11 -Wall -Wextra -Wpedantic -Werror second/bench/timed.c -o "$build/timed"
command=target/field/asternhaken day=$build/day.pcap

# Four frames every 20 ms: the halves of a ciphered call, a clear one on the NCH, and one on the FACCH.
printf '%s\n' 'nln 1' 'count 2' 'call yard 4711/VBS channel=0a4123 cipher=3 rand=123456789' 'call works 815/VGCS channel=0a2064' 'call other 9/VBS channel=0b2064' \
    "send yard from 0 to $((frames * 5)) every 20 gap 5" "send works from 10 to $((frames * 5 + 10)) every 20" "send other on facch from 15 to $((frames * 5 + 15)) every 20" | $command cell - > "$day"
calls='4711/VBS 815/VGCS 9/VBS'
"$build/timed" 3 /dev/null "$command watch $day 9/VBS" "$command watch $day $calls" "$command watch --json $day $calls" "$command why $day $calls" "$command import $day $calls" \
    "tshark -r $day -T fields -e frame.number -e frame.time_epoch -e gsmtap.arfcn -e gsmtap.chan_type" 2> /dev/null |
    awk -v n="$frames" '
        { time[NR] = $1; name = $3 == "tshark" ? "tshark -T fields" : $4 ($5 == "--json" ? " --json" : "") (NF > 6 ? ", all calls" : ", a call of three"); printf "%-28s %8.3f s %7.0f ns a frame %8d KB\n", name, $1, $1 * 1e9 / n, $2 }
        END { printf "tshark takes %.1f times as long as watch, all calls\n", time[6] / time[2] }'
rm -f "$day"
