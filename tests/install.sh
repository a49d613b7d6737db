#!/usr/bin/env bash
# The library as it is installed: what make install brings and make uninstall takes away, a program over the shared library and over the archive, the man page, the Python module with its
# example, the command for field staff, and the one version in all of them. The last line is 'N passed, M failed'.
#
#   tests/install.sh             the library is built (make lib) and installed
#   tests/install.sh FOLDER..    the libasternhaken.a of each folder is installed instead
#
# On another processor than x86-64 two archives are tried: the stand-in for the machine itself in all of this, and that of tools/library in what a program linked with it does; the
# command is built over the first alone, since libpcap is there for the machine itself.
set -uo pipefail
export LC_ALL=C.UTF-8 PYTHONDONTWRITEBYTECODE=1
cd "$(dirname "${BASH_SOURCE[0]}")/.." || exit 1
top=$(mktemp -d) || exit 1
trap 'rm -rf "$top"' EXIT
unset MAKEFLAGS MAKELEVEL DESTDIR PREFIX CC ASTERNHAKEN_LIBRARY LD_LIBRARY_PATH PYTHONPATH PKG_CONFIG_PATH # the gate itself runs under make
passed=0 failed=0

# holds WHAT COMMAND..: one thing that passes where the command does.
holds() {
    local what=$1
    shift
    if "$@" > "$top/said" 2>&1; then
        passed=$((passed + 1))
    else
        failed=$((failed + 1))
        echo "failed: $what"
        cat "$top/said"
    fi
}
# refused WHAT COMMAND..: one thing that passes where the command fails.
not() { ! "$@"; }
refused() { local what=$1; shift; holds "$what" not "$@"; }

finish() {
    echo "$passed passed, $failed failed"
    [ "$failed" = 0 ]
    exit
}

if [ $# = 0 ]; then
    unset ASTERNHAKEN_LIB # it may name another archive
    make lib || { failed=1; finish; }
    set -- target/lib
    [ "$(uname -m)" = x86_64 ] || set -- target/lib target/native
fi

# files FOLDER: what stands in it, folders left out.
files() { (cd "$1" && find . ! -type d | sort); }

# brings: make install into an empty folder brings these, and no more.
brings() {
    make install DESTDIR="$top/package" PREFIX=/usr ASTERNHAKEN_LIB="$folder" CC="$cc" COMMAND=$command || return 1
    files "$top/package" | diff <(wanted "$version") -
}
wanted() {
    local version=$1
    {
        printf './usr/%s\n' include/asternhaken.h lib/libasternhaken.a lib/libasternhaken.so "lib/libasternhaken.so.${version%%.*}" "lib/libasternhaken.so.$version" lib/pkgconfig/asternhaken.pc \
            share/asternhaken/{asternhaken.py,control_room.c,control_room.py,driver.c,driver.txt,live_list.c,sample.txt,yard_set.c,yard.txt} share/man/man3/asternhaken.3
        if [ $command = yes ]; then
            printf './usr/%s\n' bin/asternhaken share/asternhaken/{asternhaken.lua,day.script} share/bash-completion/completions/asternhaken share/man/man1/asternhaken.1
            for program in replay mend; do
                [ ! -d crates/$program ] || printf './usr/libexec/asternhaken/%s\n' $program $([ "$(uname -m)" = x86_64 ] || echo $program.x86_64)
            done
        fi
    } | sort
}
# A packager's folder is not named in what is installed, and nothing waits to be filled in.
filled_in() { ! grep -rlF -e "$top" -e '@VERSION@' -e '@PREFIX@' "$top/package"; }

# leaves_nothing: make uninstall takes away what make install brought, what Python made of it too, and nothing else, though it stands beside.
leaves_nothing() {
    local there=$top/package/usr
    mkdir -p "$there/share/asternhaken/__pycache__"
    : > "$there/share/asternhaken/__pycache__/asternhaken.cpython-311.pyc"
    : > "$there/lib/libasternhaken-of-others.a"
    : > "$there/lib/pkgconfig/another.pc"
    make uninstall DESTDIR="$top/package" PREFIX=/usr || return 1
    files "$top/package" | diff - <(printf '%s\n' ./usr/lib/libasternhaken-of-others.a ./usr/lib/pkgconfig/another.pc) || return 1
    [ ! -e "$there/share/asternhaken" ] && [ -d "$there/include" ] || { echo 'a folder is left that is ours, or gone that is not'; return 1; }
    make uninstall DESTDIR="$top/package" PREFIX=/usr # again, where nothing is
}
leaves_theirs() {
    : > "$top/there/share/asternhaken/notes.txt"
    make uninstall PREFIX="$top/there" && [ "$(files "$top/there")" = ./share/asternhaken/notes.txt ]
}

# same_files: header and archive are those of this repository.
same_files() { cmp include/asternhaken.h "$top/there/include/asternhaken.h" && cmp "$folder/libasternhaken.a" "$top/there/lib/libasternhaken.a"; }

# ---- The shared library ----

shared=$top/there/lib/libasternhaken.so
soname() { [ "$(readelf -dW "$shared" | sed -n 's/.*(SONAME).*\[\(.*\)\]$/\1/p')" = "libasternhaken.so.${version%%.*}" ]; }
# links: the name that a compiler looks for, the soname and the file follow each other.
links() { [ "$(readlink "$shared")" = "libasternhaken.so.${version%%.*}" ] && [ "$(readlink "$shared.${version%%.*}")" = "libasternhaken.so.$version" ] && [ ! -L "$shared.$version" ]; }
# shown: it shows the functions of the header and no other name, and asks for memcpy and memset alone.
shown() {
    sed -n -E 's/^(ASTERNHAKEN_MUST_USE )?(uint32_t |const char \*)(asternhaken_[a-z0-9_]*)\(.*/\3/p' include/asternhaken.h | sort > "$top/declared"
    [ -s "$top/declared" ] && nm -D --defined-only "$shared" | awk '{ print $3 }' | sort | diff "$top/declared" - || return 1
    nm -D --undefined-only "$shared" | awk '{ sub(/@.*/, "", $2); print $2 }' | sort | diff - <(printf '%s\n' memcpy memset)
}
no_code_on_the_stack() { ! readelf -lW "$shared" | grep 'GNU_STACK.*RWE'; }

# ---- A new user: the library is installed, and the program of the README is all there is in their folder ----

# told_by COMMAND..: what the program of the README says.
told_by() { "$@" > "$top/told" && printf '4711 VBS: half stored\n4711 VBS: complete, joined, channel 0a4123: no count\n' | diff - "$top/told"; }
pc() { PKG_CONFIG_PATH=$top/there/lib/pkgconfig pkg-config "$@" asternhaken; }
by_shared() {
    (cd "$top/empty" && $cc $(pc --cflags) use.c $(pc --libs) -o shared) || return 1
    readelf -dW "$top/empty/shared" | grep -F "[libasternhaken.so.${version%%.*}]" && told_by env LD_LIBRARY_PATH="$top/there/lib" "$top/empty/shared"
}
by_static() {
    (cd "$top/empty" && $cc -static $(pc --cflags) use.c $(pc --static --libs) -o static) || return 1
    ! readelf -dW "$top/empty/static" | grep NEEDED && told_by $run "$top/empty/static"
}
by_archive() {
    (cd "$top/empty" && $cc $(pc --cflags) use.c "$(pc --variable=archive)" -o archive) || return 1
    ! readelf -dW "$top/empty/archive" | grep -F libasternhaken && told_by "$top/empty/archive"
}

# ---- The man page ----

page=$top/there/share/man/man3/asternhaken.3
# renders PAGE: it is shown without a warning, no line wider than 80, with the version at its foot.
renders() {
    MANWIDTH=80 man --warnings=w -l "$1" > "$top/shown" 2> "$top/warned" && [ ! -s "$top/warned" ] || { cat "$top/warned"; return 1; }
    ! awk 'length > 80' "$top/shown" | grep . && grep -q "^Asternhaken $version " "$top/shown"
}
# names_all PAGE: every function, those that the header itself has too, and every refusal, told number, number of following and of the uplink and number of a page of the header stands in it.
names_all() {
    local name
    { cat "$top/declared"; sed -n -E 's/^(ASTERNHAKEN_MUST_USE )?static inline uint32_t (asternhaken_[a-z0-9_]*)\(.*/\2/p' include/asternhaken.h; awk '/^enum asternhaken_(refusal|told|follow|uplink|identity|channel_first|paging_cause) / { on = 1 } /^}/ { on = 0 } on && /=/ { print $1 }' include/asternhaken.h; } > "$top/names"
    [ "$(wc -l < "$top/names")" -ge 131 ] || return 1
    while read -r name; do grep -qE "(^|[^A-Za-z_])$name([^A-Za-z_]|\$)" "$1" || { echo "$name is not there"; return 1; }; done < "$top/names"
}
# The command: found where it is installed, with its programs, it tells a new user of a day.
of_command() {
    local there=$top/there
    [ "$("$there/bin/asternhaken" --version)" = "asternhaken $version" ] || return 1
    "$there/bin/asternhaken" cell "$there/share/asternhaken/day.script" > "$top/day.pcap" && "$there/bin/asternhaken" why "$top/day.pcap" 4712 > "$top/told"
    grep -q 'a longer T3206: with 12,241 ms' "$top/told" || return 1
    "$there/bin/asternhaken" import "$top/day.pcap" 4711 | "$there/bin/asternhaken" replay > "$top/told" && grep -qx '  9422 3' "$top/told"
}
a_wrong_page() { { cat "$page"; echo '.BX wrong'; } > "$top/wrong.3" && renders "$top/wrong.3"; }
a_page_without() { sed 's/asternhaken_handed_over/asternhaken_handed/' "$page" > "$top/wrong.3" && names_all "$top/wrong.3"; }

# ---- Python ----

python_sample() { python3 "$1/control_room.py" < examples/sample.txt > "$top/shown" && [ -s examples/sample.expected ] && diff examples/sample.expected "$top/shown"; }
# wrong_lines: of lines that are wrong, refused or set up anew both control rooms say the same, and each of them says something.
wrong_lines() {
    printf '%s\n' 'tick 5' 'setup 0 5000 5000' 'setup x 5000 5000 5000 9422' 'setup 0 5000 5000 5000 4711/VXS' 'setup 0 5000 5000 5000 thirteen_long=9422' 'setup 0 5000 5000 60001 9422' '  # a comment' \
        'pch 1 9422' 'setup 0 5000 5000 5000 yard=4711/VBS # the yard' '' 'nch 1 2b2' 'nch 1 2g' 'nch 1' 'nch 4294967296 2b' 'nch 1 2b' 'joined 1 4711/' 'joined 1' 'tick 1 2' 'frob 1' 'tick' $'tick\t1\r' $'\xff 1' \
        'nch 2 b00024cea38520919a8b2b2b2b2b2b2b2b2b2b2b' 'pch 2' 'pch 2 4711/' 'pch 2 9422 rand=' 'pch 2 9422 rand' 'pch 2 9422 rand=0123456789abcdef0' 'pch 2 9422 rand=g' 'pch 2 9422 rand=1=2' 'pch 2 9422 frob=1' \
        'pch 2 9422 ciphered=1' 'pch x 9422 rand=1' 'pch 2 9422 count=4' 'pch 2 4711/VBS ciphered rand=7' 'pch 3 4711/VBS ciphered full=00024cEA3 channel=0a5123 allocation=123 count=1' \
        'pch 3 9422 full=24ce00 channel=5b9456 list=8000000000000001' 'pch 3 9422 ciphered rand=7' 'left_idle 3 4' 'left_idle 4' 'left_idle 3' \
        'setup 0 1 1 1' 'setup 9 1 1 1 a=b=3 4' 'setup 9 1 1 1 =3 4/VGCS' 'tick 10' 'setup 0 1 1 1 4294967295' 'bit_22 10' 'bit_22 10 x' 'bit_22 10 2' 'bit_22 10 1' 'bit_22 9 0' 'bit_22 10 0 0' \
        'setup 0 1 1 1 9422:' 'setup 0 1 1 1 9422:3,' 'setup 0 1 1 1 9422:,3' 'setup 0 1 1 1 9422:32' 'setup 0 1 1 1 9422:4294967299' 'setup 0 1 1 1 :3' 'setup 0 1 1 1 a:b=3:4:5' 'setup 0 1 1 1 9422:0' 'setup 0 1 1 1 9422:3,16' \
        'setup 0 5000 5000 5000 dispatcher=4711/VGCS:04,15,4 a:b=4711/VBS:2' 'pch 1 9423 ciphered full=24cf54 channel=5b8456 rand=7' 'pch 2 9423 ciphered full=24cf54 channel=5b8456 rand=7 count=3' \
        'pch 3 9422 ciphered full=24cea3 channel=0a4123 rand=8' 'bit_22 4 1' 'bit_22 5 0' 'pch 6 9423 ciphered full=24cf54 channel=5b8456 rand=9' 'handed_over 7' 'pch 8 9423 ciphered full=24cf54 channel=5b8456 rand=9' \
        'facch 9 0482fa091a2b3c572b' 'facch 9 048414930810a1b2c3848fab' 'facch 9 048499ab80810182028303fed891a2b3c4df2b2b2b2b2b' 'facch 9 0480fa2b' 'facch 9 0480838b' 'facch 9 0480f80b' 'facch 9 048000' \
        'pch 9 9422 ciphered rand=9' 'facch 5009 0480fa2b' 'facch 5009 0480' > "$top/lines"
    $cc -std=c99 $(pc --cflags) "$top/there/share/asternhaken/control_room.c" "$(pc --variable=archive)" -o "$top/empty/room" || return 1
    "$top/empty/room" < "$top/lines" > "$top/c.out" 2> "$top/c.err"
    [ $? = 1 ] && [ "$(wc -l < "$top/c.out")" -ge 63 ] && [ "$(wc -l < "$top/c.err")" -ge 38 ] || return 1
    python3 "$top/there/share/asternhaken/control_room.py" < "$top/lines" > "$top/python.out" 2> "$top/python.err"
    [ $? = 1 ] && diff "$top/c.out" "$top/python.out" && diff "$top/c.err" "$top/python.err"
}
# from_elsewhere: the module is found by pkg-config's variable, and the library by the name that is given.
from_elsewhere() {
    mkdir -p "$top/alone" && cp "$top/there/share/asternhaken/asternhaken.py" examples/control_room.py "$top/alone/" || return 1
    (export ASTERNHAKEN_LIBRARY=$shared && python_sample "$top/alone") && (export LD_LIBRARY_PATH=$top/there/lib && python_sample "$top/alone") || return 1
    cp examples/control_room.py "$top/empty/" && (PYTHONPATH=$(pc --variable=python) && export PYTHONPATH && python_sample "$top/empty")
}
# the README's program in Python says what its program in C does
python_readme() { awk '/^```python$/ { code = 1; next } /^```$/ { code = 0 } code' README.md > "$top/empty/use.py" && PYTHONPATH=$(pc --variable=python) told_by python3 "$top/empty/use.py"; }
python_tests() { PYTHONPATH=$(pc --variable=python) python3 tests/receiver.py include/asternhaken.h; }

# ---- One version ----

called() {
    local a b c
    printf '#include <asternhaken.h>\n#include <stdio.h>\nint main(void) { return printf("%%s %%lu %%lu\\n", ASTERNHAKEN_VERSION, (unsigned long)ASTERNHAKEN_VERSION_NUMBER, (unsigned long)asternhaken_version()) < 0; }\n' > "$top/empty/version.c"
    (cd "$top/empty" && $cc -static $(pc --cflags) version.c $(pc --static --libs) -o version) && $run "$top/empty/version" > "$top/told" || return 1
    IFS=. read -r a b c <<< "$version"
    echo "$version $((a * 10000 + b * 100 + c)) $((a * 10000 + b * 100 + c))" | diff - "$top/told"
}
# The changelog goes on at its end.
newest() { [ "$(sed -n 's/^## \([0-9][0-9.]*\).*/\1/p' CHANGELOG.md | tail -n 1)" = "$version" ]; }
of_pkg_config() { [ "$(pc --modversion)" = "$version" ]; }
of_python() { [ "$(PYTHONPATH=$(pc --variable=python) python3 -c 'import asternhaken; print(asternhaken.__version__)')" = "$version" ]; }
# follows: a header of another version gives its number to all of them; nothing else names one.
follows() {
    rm -rf "$top/other"
    mkdir "$top/other"
    cp -r Makefile c include docs examples python tools field wireshark "$top/other" || return 1
    sed -i -E 's/(VERSION_MAJOR) [0-9]+$/\1 7/; s/(VERSION_MINOR) [0-9]+$/\1 31/; s/(VERSION_PATCH) [0-9]+$/\1 4/' "$top/other/include/asternhaken.h"
    (programs=$PWD/target/bin && cd "$top/other" && make install DESTDIR="$top/seven" PREFIX=/usr ASTERNHAKEN_LIB="$folder" CC="$cc" COMMAND=$command PROGRAMS="$programs") || return 1
    files "$top/seven" | diff <(wanted 7.31.4) - && grep -qx 'Version: 7.31.4' "$top/seven/usr/lib/pkgconfig/asternhaken.pc" && grep -q 'Asternhaken 7\.31\.4' "$top/seven/usr/share/man/man3/asternhaken.3"
}

version=$(sed -n 's/^#define ASTERNHAKEN_VERSION_\(MAJOR\|MINOR\|PATCH\) //p' include/asternhaken.h | paste -sd.)
holds 'the header has a version' grep -Exq '[0-9]+\.[0-9]+\.[0-9]+' <<< "$version"
holds 'the newest heading of CHANGELOG.md is the version' newest

for folder; do
    folder=$(cd "$folder" && pwd) || finish
    name=${folder#"$PWD/"}
    case $(readelf -h "$folder/libasternhaken.a" 2>&1 | sed -n 's/^ *Machine: *//p' | sort -u)/$(uname -m) in
    *X86-64/x86_64 | AArch64/aarch64) cc=cc run='' command=yes ;;
    *X86-64/*) cc=x86_64-linux-gnu-gcc run=qemu-x86_64 command=no ;;
    *) holds "$folder has no archive for x86-64 or this machine" false; continue ;;
    esac
    rm -rf "$top/there" "$top/empty" "$top/package" "$top/seven" "$top/alone"
    mkdir "$top/empty"
    awk '/^```c$/ { code = 1; next } /^```$/ { code = 0 } code' README.md > "$top/empty/use.c"
    holds "$name: make install" brings
    holds "$name: what is installed is filled in" filled_in
    holds "$name: make install with another PREFIX" make install PREFIX="$top/there" ASTERNHAKEN_LIB="$folder" CC="$cc" COMMAND=$command
    holds "$name: the files are ours" same_files
    holds "$name: the soname" soname
    holds "$name: the links" links
    holds "$name: what the shared library shows" shown
    holds "$name: no code on the stack" no_code_on_the_stack
    holds "$name: a new user, static" by_static
    holds "$name: the version by the header and a call" called
    holds "$name: the version of pkg-config" of_pkg_config
    if [ -z "$run" ]; then
        holds "$name: a new user, shared" by_shared
        holds "$name: a new user, by the archive's own name" by_archive
        holds "$name: the man page" renders "$page"
        holds "$name: the man page of the command" renders "$top/there/share/man/man1/asternhaken.1"
        holds "$name: the man page of the repository itself" grep -q . <(MANWIDTH=80 man -l docs/asternhaken.3)
        holds "$name: the command" of_command
        refused "$name: a man page with a wrong word passes" a_wrong_page
        holds "$name: the man page names all" names_all "$page"
        refused "$name: a man page without a function passes" a_page_without
        holds "$name: the Python example" python_sample "$top/there/share/asternhaken"
        holds "$name: wrong lines in C and in Python" wrong_lines
        holds "$name: the Python example from elsewhere" from_elsewhere
        holds "$name: a new user in Python" python_readme
        holds "$name: tests/receiver.py" python_tests
        holds "$name: the version of Python" of_python
        holds "$name: another version" follows
    fi
    holds "$name: make uninstall" leaves_nothing
    holds "$name: make uninstall leaves what others put into our folder" leaves_theirs
done
finish
