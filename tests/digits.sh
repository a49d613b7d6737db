#!/bin/sh
# No division of 64 bits is in the C library (document 02, §6), neither in the digits nor elsewhere. The last line is 'N passed, M failed'.
#
#   tests/digits.sh           the library is built (make lib) and looked at
#   tests/digits.sh FOLDER    the libasternhaken.a of this folder, and modules of this tree
#
# Looked at: the archive's instructions; the modules that it is compiled from, optimized, where a division by a constant still stands as one and a shift does not; and what
# the toolchain makes of the modules for processors of 32 bits, where a wide division is a call. Each look must find it in a sample that has it, and nothing in one that has none.
set -u
export LC_ALL=C
cd "$(dirname "$0")/.." || exit 1
tmp=$(mktemp -d) || exit 1
trap 'rm -rf "$tmp"' EXIT
passed=0 failed=0
clang=$(dirname "$(readlink -f "$(command -v rt)")")/../toolchain/bin/clang
objdump=objdump
[ "$(uname -m)" = x86_64 ] || objdump=x86_64-linux-gnu-objdump
# x86, Cortex-M3, Cortex-M0 (which divides nothing) and RISC-V
narrow='i686-none-elf thumbv7m-none-eabi thumbv6m-none-eabi riscv32-none-elf'

holds() {
    what=$1
    shift
    if "$@" > "$tmp/said" 2>&1; then
        passed=$((passed + 1))
    else
        failed=$((failed + 1))
        echo "failed: $what"
        head -n 20 "$tmp/said"
    fi
}

# The three looks: each shows the wide divisions of a file, and passes where there is none.
instructions() {
    $objdump -d --no-show-raw-insn "$1" > "$tmp/code" && grep -q '<.*>:$' "$tmp/code" || { echo "no code in $1"; return 1; }
    ! grep -E '[[:space:]]i?div(q[[:space:]]|[[:space:]]+%r([abcd]x|[sd]i|[sb]p|[89]|1[0-5])([[:space:]]|$))' "$tmp/code"
}
optimized() {
    "$clang" --target=x86_64-unknown-linux-gnu -O2 -S -emit-llvm -x ir "$1" -o "$tmp/optimized.ll" && grep -q '^define' "$tmp/optimized.ll" || { echo "no functions in $1"; return 1; }
    ! awk 'match($0, /= [us](div|rem) (exact )?(<[0-9]+ x )?i[0-9]+/) { t = substr($0, RSTART, RLENGTH); sub(/.*i/, "", t); if (t + 0 > 32) print }' "$tmp/optimized.ll" | grep .
}
# calls FILE TARGET: the module is compiled without what names its processor.
calls() {
    sed -e '/^target datalayout/d' -e "s/^target triple.*/target triple = \"$2\"/" -e 's/"\(target-cpu\|target-features\|tune-cpu\)"="[^"]*"//g' "$1" > "$tmp/narrow.ll"
    "$clang" --target="$2" -O2 -S -x ir "$tmp/narrow.ll" -o "$tmp/narrow.s" && [ -s "$tmp/narrow.s" ] || { echo "no code for $2"; return 1; }
    ! grep -E '__(u?(div|mod)(mod)?[dt]i[34]|aeabi_u?ldivmod)' "$tmp/narrow.s"
}
finds() { ! "$@"; }
# plain FILE.c FILE.ll: the module of a file of c/, with the few names of the headers that it asks for, as in tools/plain-c.
plain() {
    echo 'typedef __UINT8_TYPE__ uint8_t; typedef __UINT32_TYPE__ uint32_t; typedef __UINT64_TYPE__ uint64_t;' > "$tmp/stdint.h"
    echo 'typedef __SIZE_TYPE__ size_t;' > "$tmp/stddef.h"
    "$clang" --target=x86_64-unknown-linux-gnu -nostdinc -ffreestanding -I"$tmp" -Iinclude -O1 -S -emit-llvm "$1" -o "$2"
}

# ---- The looks themselves ----

module() { "$clang" --target=x86_64-unknown-linux-gnu -O1 -S -emit-llvm "$tmp/$1.c" -o "$tmp/$1.ll" && "$clang" --target=x86_64-unknown-linux-gnu -O2 -c -x ir "$tmp/$1.ll" -o "$tmp/$1.o"; }
echo 'unsigned long long f(unsigned long long a, unsigned long long b) { return a / b; }' > "$tmp/wide.c"
echo 'unsigned long long f(unsigned long long a) { return a % 10; }' > "$tmp/constant.c"
echo 'unsigned long long f(unsigned long long a, unsigned b, unsigned c) { return a / 65536 + a % 256 + a % (1ull << c % 64) + b / c + b % 10; }' > "$tmp/small.c"
for sample in wide constant small; do holds "the sample $sample" module $sample; done
holds 'a wide division is not found in the code' finds instructions "$tmp/wide.o"
holds 'small divisions are taken for wide ones in the code' instructions "$tmp/small.o"
for sample in wide constant; do holds "a wide division is not found in the module $sample" finds optimized "$tmp/$sample.ll"; done
holds 'small divisions and shifts are taken for wide divisions in the module' optimized "$tmp/small.ll"
for target in $narrow; do
    holds "a wide division is not found in the code for $target" finds calls "$tmp/wide.ll" "$target"
    holds "small divisions are taken for wide ones in the code for $target" calls "$tmp/small.ll" "$target"
done

# ---- The library ----

if [ $# = 0 ]; then
    unset ASTERNHAKEN_LIB
    holds 'make lib' make lib
    set -- target/lib
fi
holds 'the archive has a division of 64 bits' instructions "$1/libasternhaken.a"
for f in asternhaken_digits_read asternhaken_digits_write; do holds "$f is not in the archive" grep -q "<$f>:" "$tmp/code"; done
parts=$(sed -n "s/^parts='\(.*\)'\$/\1/p" tools/library)
holds 'tools/library names the crates of exported functions' test -n "$parts"
modules=
for part in $parts; do modules="$modules target/modules/$part.ll"; done
holds 'the modules' make $modules
for part in $parts; do holds "the module of $part" cp "target/modules/$part.ll" "$tmp/"; done
for file in c/*.c; do
    part=$(basename "$file" .c)
    holds "the module of $file" plain "$file" "$tmp/$part.ll"
    parts="$parts $part"
done
for part in $parts; do
    holds "the module of $part has a division of 64 bits" optimized "$tmp/$part.ll"
    for target in $narrow; do holds "$part for $target calls a division of 64 bits" calls "$tmp/$part.ll" "$target"; done
done
echo "$passed passed, $failed failed"
[ "$failed" -eq 0 ]
