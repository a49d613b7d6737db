#!/usr/bin/env bash
# Building as a newcomer meets it: make's own targets, tools/library and tools/progress, in a tiny repository with a stand-in for rt. The last line is 'N passed, M failed'.
set -uo pipefail
export LC_ALL=C
cd "$(dirname "${BASH_SOURCE[0]}")/.." || exit 1
top=$(mktemp -d) || exit 1
trap 'rm -rf "$top"' EXIT
unset MAKEFLAGS MAKELEVEL ASTERNHAKEN_LIB PROGRESS_BEGAN # the gate itself runs under make
passed=0 failed=0 status=0

# note HOLDS WHAT: one thing that passes or fails; where it fails, what was said last is shown.
note() {
    if [ "$1" = 0 ]; then
        passed=$((passed + 1))
    else
        failed=$((failed + 1))
        echo "failed: $2; the status was $status, and it said:"
        cat "$top/out" "$top/shown"
    fi
}

# builds STATUS WORDS..: make ends with 0 or another status; out has what it wrote to standard output, shown what it wrote to standard error.
builds() {
    local wanted=$1
    shift
    (cd "$top/repo" && PATH=$top/bin:$PATH make "$@") > "$top/out" 2> "$top/shown"
    status=$?
    [ $((status != 0)) = "$wanted" ]
    note $? "make $*"
}
shows() { grep -Exq "$1" "$top/shown"; note $? "it does not show: $1"; }
hides() { ! grep -Eq "$1" "$top/out" "$top/shown"; note $? "it shows: $1"; }

# fresh PROOF STATUS: a repository of six libraries over one other, each with the static library that C calls, and an rt that says PROOF of that one. tools/module is a stand-in too.
fresh() {
    rm -rf "$top/repo" "$top/bin"
    mkdir -p "$top/bin" "$top/repo/tools" "$top/repo/examples" "$top/repo/include"
    cp Makefile "$top/repo/"
    cp tools/build-program tools/library tools/plain-c tools/progress tools/sources "$top/repo/tools/"
    cp examples/* "$top/repo/examples/"
    cp include/* "$top/repo/include/"
    cp -r c "$top/repo/"
    printf '%s\n' 'low:' 'host: low' 'host_views: low' 'host_uplink: low' 'host_yard: low' 'host_codecs: low' 'host_trace: low' '# what C calls' 'host_c staticlib: low host' 'host_views_c staticlib: low host_views' \
        'host_uplink_c staticlib: low host_uplink' 'host_yard_c staticlib: low host_yard' 'host_codecs_c staticlib: low host_codecs' 'host_trace_c staticlib: low host_trace' 'replay: low' > "$top/repo/crates.txt"
    for crate in $(sed 's/^#.*//; s/[ :].*//' "$top/repo/crates.txt"); do mkdir -p "$top/repo/crates/$crate/src"; : > "$top/repo/crates/$crate/src/lib.rt"; done
    mv "$top/repo/crates/replay/src/lib.rt" "$top/repo/crates/replay/src/main.rt"
    cat > "$top/bin/rt" << END
#!/bin/sh
crate=\${PWD##*/}
echo "\$* in \$crate" >> "$top/repo/asked"
echo 'rt: chose --jobs 2 for low'
if [ ! -e "$top/repo/low" ]; then
    echo 'fn low::one: proved'
    echo '$1'
    [ $2 = 0 ] || exit $2
    : > "$top/repo/low"
fi
if [ "\$1" = run ]; then mkdir -p out && echo 'echo ran' > "out/\$crate" && echo told && exit 3; fi
printf '%s\n' "fn \$crate::one: proved" 'statements low: modules loaded=2 checked=0' "crate \$crate: modules loaded=0 checked=3" 'logic=proved functions=1'
END
    cat > "$top/repo/tools/module" << END
#!/bin/sh
echo "module \$*" >> "$top/repo/asked"
mkdir -p \${2%/*} \${3%/*} && cp "$top/object.o" \$1.o && ar rcs \$2 \$1.o && rm \$1.o && : > \$3
echo 'logic=proved functions=1'
END
    chmod +x "$top/bin/rt" "$top/repo/tools/module"
}
echo 'int a_number;' > "$top/object.c"
cc -c "$top/object.c" -o "$top/object.o"
proved='crate low: modules loaded=0 checked=2
logic=proved functions=1'
parts='host host_views host_uplink host_yard host_codecs host_trace'
# modules: what tools/module is asked for, in order.
modules() { for part in $parts; do echo "module ${part}_c target/parts/lib${part}_c.a target/modules/${part}_c.ll"; done; }

# ---- What there is to make ----

fresh "$proved" 0
builds 0
cp "$top/out" "$top/help"
builds 0 help
cmp "$top/help" "$top/out"
note $? 'make alone is make help'
for target in $(sed -n 's/^\.PHONY: //p' Makefile); do
    grep -q "^make $target  *[^ ]" "$top/out"
    note $? "make help does not have $target"
done

# ---- The library ----

builds 0 target/lib/libasternhaken.a
shows '.* 13 crates are proved and built\. The first time takes .* on two free cores, and .*\.'
shows ' +[0-9]+:[0-9]{2}   1 of 13  low proved \([0-9]+ s\)'
n=1
for part in $parts; do n=$((n + 1)) && shows " +[0-9]+:[0-9]{2} +$n of 13  $part proved \\([0-9]+ s\\)"; done
for part in $parts; do n=$((n + 1)) && shows " +[0-9]+:[0-9]{2} +$n of 13  ${part}_c proved and compiled \\([0-9]+ s\\)"; done
hides 'fn |rt: |make -j|logic'
[ ! -s "$top/out" ]
note $? 'it writes to standard output'
{ for part in $parts; do echo "lib in $part"; done; modules; } | cmp - "$top/repo/asked"
note $? 'rt is asked for something else'
[ "$(ar t "$top/repo/target/lib/libasternhaken.a" | sort | tr '\n' ' ')" = 'host_c.o host_codecs_c.o host_trace_c.o host_uplink_c.o host_views_c.o host_yard_c.o version.o words.o ' ]
note $? 'the archive does not have all parts'
[ "$(grep -c '^fn .*::one: proved$' "$top/repo/target/library.log")" = 7 ]
note $? 'target/library.log does not have all that rt said'
builds 0 target/lib/libasternhaken.a
[ "$(wc -l < "$top/repo/asked")" = 12 ] && [ ! -s "$top/shown" ]
note $? 'a second run does it again'
for part in $parts; do [ -e "$top/repo/target/modules/${part}_c.ll" ] || note 1 "there is no module of $part"; done
# A new sentence comes into the archive, and nothing is proved again for it.
sed -i 's/Nothing is refused/No ground was found/' "$top/repo/c/words.c"
touch -d '+2 seconds' "$top/repo/c/words.c"
builds 0 target/lib/libasternhaken.a
[ "$(wc -l < "$top/repo/asked")" = 12 ] && grep -q 'No ground was found' "$top/repo/target/lib/libasternhaken.a"
note $? 'a new sentence is not in the archive, or is proved'
echo 'not C' > "$top/repo/c/words.c"
touch -d '+4 seconds' "$top/repo/c/words.c"
builds 1 target/lib/libasternhaken.a

fresh "$proved" 0
builds 0 -j2 target/lib/libasternhaken.a
shows 'make -j changes nothing here: .*'

# What rt ci has just proved is not proved again; where a file changed since, or rt's own commands have been there, it is.
left() {
    fresh "$proved" 0
    for crate in low $parts; do mkdir -p "$top/repo/crates/$crate/out/rlib/$crate.rlib"; done
    mkdir -p "$top/repo/target/proved"
    "$top/repo/tools/sources" > "$top/repo/target/proved/sum"
}
left
builds 0 target/lib/libasternhaken.a
shows '.* 6 static libraries are proved and compiled over what rt ci proved, .*'
modules | cmp - "$top/repo/asked"
note $? 'what rt ci proved is proved again'
for change in 'crates/low/src/lib.rt' 'crates/low/out/rlib/stamp' 'target/proved/sum'; do
    left
    echo '// more' > "$top/repo/$change"
    builds 0 target/lib/libasternhaken.a
    shows '.* 13 crates are proved and built\. .*'
done

fresh 'low/Laws.antt:1:2: error: no proof
logic=not-proved functions=1' 1
builds 1 target/lib/libasternhaken.a
shows 'low/Laws\.antt:1:2: error: no proof'
shows 'logic=not-proved functions=1'
shows 'failed, with status 1'
shows 'target/library\.log has all that was said'
hides '^fn '
[ ! -e "$top/repo/target/lib/libasternhaken.a" ] && [ "$(cat "$top/repo/asked")" = 'lib in host' ]
note $? 'it goes on where a proof fails'

fresh 'the compiler stopped' 77
builds 1 target/lib/libasternhaken.a
shows 'the compiler stopped'
shows 'failed, with status 77'

fresh '' 0
rm "$top/bin/rt"
for c in bash sh make find uname sed dirname readlink cat mkdir; do ln -s "$(command -v $c)" "$top/bin/$c"; done
(cd "$top/repo" && PATH=$top/bin make target/lib/libasternhaken.a) > "$top/out" 2> "$top/shown"
status=$?
[ "$status" != 0 ]
note $? 'make without rt'
shows 'rt is missing: put .* on PATH'
hides 'not found'

# ---- A program ----

fresh "$proved" 0
builds 0 replay
[ "$(sh "$top/repo/target/bin/replay")" = ran ] && [ "$(cat "$top/repo/asked")" = 'run in replay' ]
note $? 'the program is not built, or rt is asked for something else'
hides told
# As rt ci left it, where the text is the same.
mkdir -p "$top/repo/target/proved"
"$top/repo/tools/sources" > "$top/repo/target/proved/sum"
echo 'echo of the gate' > "$top/repo/crates/replay/out/replay"
builds 0 replay
[ "$(sh "$top/repo/target/bin/replay")" = 'of the gate' ] && [ "$(wc -l < "$top/repo/asked")" = 1 ]
note $? 'what rt ci left is built again'
echo '// more' > "$top/repo/crates/low/src/lib.rt"
builds 0 replay
[ "$(sh "$top/repo/target/bin/replay")" = ran ]
note $? 'an old program is taken for a new one'
fresh 'low/Laws.antt:1:2: error: no proof' 1
builds 1 replay
shows 'low/Laws\.antt:1:2: error: no proof'
[ ! -e "$top/repo/target/bin/replay" ]
note $? 'a program that is not proved is there'

# ---- tools/progress by itself ----

# progress STATUS SCRIPT: its status is that of the command, here a script of sh.
progress() {
    tools/progress "$top/log" 0 sh -c "$2" > "$top/out" 2> "$top/shown"
    status=$?
    cat "$top/out" >> "$top/shown"
    [ "$status" = "$1" ]
    note $? "tools/progress with status $1"
}
progress 0 'echo one; echo two >&2; printf three'
[ ! -s "$top/out" ] && [ "$(tr '\n' ' ' < "$top/log")" = 'one two three' ]
note $? 'what is said goes to the log alone'
progress 9 'echo one; echo two >&2; printf three; exit 9'
printf '%s\n' one two three 'failed, with status 9' | cmp - "$top/out"
note $? 'where it fails, it is shown'
progress 7 'seq 200; exit 7'
shows 101
hides '^100$'
progress 0 'echo "rt: a warning that nobody knows"'
shows 'rt: a warning that nobody knows'
tools/progress "$top/none/log" 0 true > "$top/out" 2> "$top/shown"
status=$?
[ "$status" != 0 ]
note $? 'a log that cannot be written'

echo "$passed passed, $failed failed"
[ "$failed" = 0 ]
