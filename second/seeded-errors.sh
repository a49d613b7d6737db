#!/usr/bin/env bash
# Tries the comparison itself: each error of seeded-errors.txt is put into a copy of the second program, which is then built and compared
# with the archive in a short run of random inputs alone; the hand-written scenes and the vectors are left out. Every error must show up as
# a difference, where it names a comparison in that one, and one that keeps the random inputs from something as that being met too seldom. An
# error that a short run does not meet must show up in a run with as many events as the comparison itself has. An error of src/capture.rs or
# src/captures.rs must show up on random captures, beside the programs replay and mend, in target/bin or what ASTERNHAKEN_REPLAY and ASTERNHAKEN_MEND say. The copy
# without an error must show nothing. The last line is `N passed, M failed`.
#
#   seeded-errors.sh               all of it
#   seeded-errors.sh --list FILE   only that the list is long enough, of FILE
set -u
# How many errors must be listed, of either kind: those that give a wrong answer, and those that are met too seldom.
least_wrong=491 least_seldom=34
here=$(cd "$(dirname "$0")" && pwd)
case $(uname -m) in x86_64) lib=$here/../target/lib ;; *) lib=$here/../target/native ;; esac
# What the environment names is meant from this folder, as build.rs means it.
lib=${ASTERNHAKEN_LIB:-$lib}
case $lib in /*) ;; *) lib=$here/$lib ;; esac
export ASTERNHAKEN_LIB=$lib
workers=${WORKERS:-$(nproc)}
if [ "$workers" -gt 8 ]; then workers=8; fi
replay=${ASTERNHAKEN_REPLAY:-$("$here/../tools/program" replay)}
mend=${ASTERNHAKEN_MEND:-$("$here/../tools/program" mend)}
runs=(--random --messages 20000 --steps 12000)
long_runs=(--random --messages 20000 --steps 100000)
replays=(captures --replay "$replay" --mend "$mend" --count 1000)
work=$here/target/seeded-errors
list=$here/seeded-errors.txt
if [ "${1:-}" = --list ]; then list=$2; fi
mkdir -p "$work" && rm -f "$work"/*.result

# Names, files and pairs of all errors, in arrays; pairs are found by error number.
names=() files=() shows=() olds=() news=() owners=()
old= new= mode=none
end_pair() {
    if [ "$mode" != none ]; then
        olds+=("$old") news+=("$new") owners+=($((${#names[@]} - 1)))
        old= new= mode=none
    fi
}
newline=$'\n'
while IFS= read -r line; do
    case $line in
        "@ "*) end_pair; names+=("${line#@ }"); files+=("") shows+=("DIFFERENCE") ;;
        "! "*) end_pair; shows[${#names[@]} - 1]=${line#! } ;;
        "- "*)
            if [ "$mode" = new ]; then end_pair; fi
            if [ "$mode" = old ]; then old+=$newline; fi
            mode=old old+=${line#- } ;;
        "+"*)
            if [ "$mode" = new ]; then new+=$newline; fi
            mode=new line=${line#+}; new+=${line# } ;;
        src/*) files[${#names[@]} - 1]=$line ;;
        *) end_pair ;;
    esac
done <"$list"
end_pair

# Too few errors, or one under two names, fail before anything is built.
wrong=0 seldom=0
for show in "${shows[@]}"; do case $show in DIFFERENCE | 'more subscriptions'*) wrong=$((wrong + 1)) ;; *) seldom=$((seldom + 1)) ;; esac; done
twice=$(printf '%s\n' "${names[@]}" | sort | uniq -d)
if [ "$wrong" -lt $least_wrong ] || [ "$seldom" -lt $least_seldom ] || [ -n "$twice" ]; then
    echo "FAILED: $wrong errors with a wrong answer are listed, $seldom that are met too seldom; there must be $least_wrong and $least_seldom"
    [ -z "$twice" ] || echo "FAILED: listed twice: $twice"
    echo '0 passed, 1 failed'
    exit 1
fi
if [ "${1:-}" = --list ]; then
    echo "$((wrong + seldom)) passed, 0 failed"
    exit
fi

# Puts error $1 into the copy $2; each old text must stand there exactly once.
apply() {
    local file=$2/${files[$1]} text rest pair
    text=$(<"$file")
    for pair in "${!owners[@]}"; do
        [ "${owners[$pair]}" = "$1" ] || continue
        rest=${text/"${olds[$pair]}"/}
        if [ "$rest" = "$text" ] || [[ $rest == *"${olds[$pair]}"* ]]; then return 1; fi
        text=${text/"${olds[$pair]}"/"${news[$pair]}"}
    done
    printf '%s\n' "$text" >"$file"
}

# Builds and runs the copy $1, with its output in $1/output; file $2 has the error. (A run on captures starts thousands of programs, on another processor than x86-64 each in an emulator.)
compare() {
    (cd "$1" && CARGO_TARGET_DIR=$1/target cargo build --offline --quiet --profile seeded) >"$1/output" 2>&1 || return 2
    case $2 in
        src/capture.rs | src/captures.rs) timeout 900 "$1/target/seeded/compare" "${replays[@]}" --stop >"$1/output" 2>&1 ;;
        *) timeout 120 "$1/target/seeded/compare" --stop "${runs[@]}" >"$1/output" 2>&1 ;;
    esac
}
# Runs what was built once more, for longer.
compare_longer() { timeout 600 "$1/target/seeded/compare" --stop "${long_runs[@]}" >"$1/output" 2>&1; }

# Worker $1 of $workers takes every so many-th error. The first of its runs is the program as it is: where that differs, a difference
# behind an error would say nothing, and none is tried.
take_errors() {
    local copy=$work/copy$1 i verdict
    mkdir -p "$copy"
    cp "$here/Cargo.toml" "$here/build.rs" "$copy/"
    rm -rf "$copy/src" && cp -r "$here/src" "$copy/src"
    if ! compare "$copy" src/receiver.rs || ! compare "$copy" src/capture.rs; then
        cp "$copy/output" "$work/clean.output"
        echo "FAILED: no error, and yet a difference or no build" >"$work/000.result"
        return
    fi
    if [ "$1" = 0 ]; then echo "passed: no error, no difference" >"$work/000.result"; fi
    for ((i = $1; i < ${#names[@]}; i += workers)); do
        cp "$here"/src/*.rs "$copy/src/"
        if ! apply "$i" "$copy"; then verdict="FAILED: does not apply"
        else
            compare "$copy" "${files[$i]}" && compare_longer "$copy"
            case $? in
                1) if grep -qE "^ *${shows[$i]}" "$copy/output"; then verdict=passed; else verdict="FAILED: not found"; fi ;;
                2) verdict="FAILED: does not build"; cp "$copy/output" "$work/build-$i.output" ;;
                0) verdict="FAILED: not found" ;;
                *) verdict="FAILED: stopped without a difference"; cp "$copy/output" "$work/stopped-$i.output" ;;
            esac
        fi
        echo "$verdict: ${names[$i]}" >"$work/$(printf %03d $((i + 1))).result"
    done
}

for ((worker = 0; worker < workers; worker++)); do take_errors "$worker" & done
wait
cat "$work"/*.result
passed=$(cat "$work"/*.result | grep -c '^passed')
failed=$((${#names[@]} + 1 - passed))
echo "$passed passed, $failed failed"
[ "$failed" = 0 ]
