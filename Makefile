# make help      these lines
# make demo      proves and builds the C library, and shows what a small control room is told of a piece of a day
# make test      the gate: every proof and its layout, the must-fail edits, audit and tests; its last line is 'N passed, M failed'
# make lib       the C library: target/lib/libasternhaken.a
# make drive     target/drive: the C library by lines, a command to a line, as vectors/README.md says
# make replay    proves and builds target/bin/replay: a recorded day on standard input, its answers on standard output (docs/CAPTURE.md)
# make mend      proves and builds target/bin/mend: a recorded day without the fields that replay refuses, and a list of them on standard error
# make command   target/field/asternhaken: the command for field staff (asternhaken --help), with libpcap
# make install   header, archive, shared library, pkg-config file, man pages, Python module and the command, into PREFIX (/usr/local); DESTDIR, if there is one, goes before it; COMMAND=no leaves the command out
# make uninstall takes away what make install of this version brought, from the same PREFIX and DESTDIR
MAKEFLAGS += --no-print-directory
PREFIX = /usr/local
prefix := $(abspath $(PREFIX))
there = $(DESTDIR)$(prefix)

# The version stands in the header, and nowhere else.
number = $(shell sed -n 's/^.define ASTERNHAKEN_VERSION_$1 //p' include/asternhaken.h)
major := $(call number,MAJOR)
version := $(major).$(call number,MINOR).$(call number,PATCH)

# The archive that rattle compiles is for x86-64. On another processor, programs of this machine link one that is made of the same modules.
ASTERNHAKEN_LIB ?= $(if $(filter x86_64,$(shell uname -m)),target/lib,target/native)
archive := $(ASTERNHAKEN_LIB)/libasternhaken.a

need_cc = command -v $(firstword $(CC)) > /dev/null || { apt-get -qq update && apt-get -qq install -y gcc libc6-dev; }
# A program of one C file over the library.
compile = @$(need_cc); mkdir -p $(dir $2) && $(CC) -std=c99 -O2 -Iinclude $1 $(archive) -o $2
# All steps use one target/, so make takes them one after the other.
one_by_one = @case ' $(MAKEFLAGS)' in *' -j'*) echo 'make -j changes nothing here: rt proves side by side by itself, as many crates as RT_JOBS says.' >&2 ;; esac

.NOTPARALLEL:
.DELETE_ON_ERROR:
.PHONY: help test demo lib drive replay mend command install uninstall

help:
	@sed -n 's/^# make/make/p' Makefile

test:
	$(one_by_one)
	@env -u MAKEFLAGS -u MAKELEVEL tools/gate

lib: $(archive)

# The proved functions alone. What is plain C (c/) is put beside them afterwards, so that a new sentence there proves nothing again.
target/proved/x86_64.a: crates.txt $(shell find crates -name out -prune -o \( -name '*.rt' -o -name '*.antt' \) -print) tools/library tools/module
	$(one_by_one)
	@tools/library $@ >&2

# The static libraries of exported functions, as tools/library names them.
parts := $(shell sed -n "s/^parts='\(.*\)'$$/\1/p" tools/library)

# The modules that they are compiled from, as text, which come with the archive: tests/digits.sh looks at them too.
modules := $(parts:%=target/modules/%.ll)

target/modules/%.ll: target/proved/x86_64.a
	@touch -c $@ && [ -f $@ ]

target/proved/native.a: $(modules) tools/native-archive
	@rm -f $@
	@for module in $(modules); do tools/native-archive $@ $$module >&2 || exit; done

plain := $(wildcard c/*.c) include/asternhaken.h tools/plain-c

target/lib/libasternhaken.a: target/proved/x86_64.a $(plain)
	@tools/plain-c $< $@ x86_64

target/native/libasternhaken.a: target/proved/native.a target/lib/libasternhaken.a $(plain)
	@tools/plain-c $< $@ $(shell uname -m)

demo: $(archive)
	$(call compile,examples/control_room.c,target/demo/control_room)
	@target/demo/control_room < examples/sample.txt

drive: $(archive)
	$(call compile,tests/drive.c,target/drive)

replay mend:
	$(one_by_one)
	@mkdir -p target && tools/progress target/$@.log 0 tools/build-program $@ >&2

# The command for field staff.
COMMAND = yes
with_command := $(filter yes,$(COMMAND))
field := $(wildcard field/*.c)
need_pcap = echo '\#include <pcap/pcap.h>' | $(CC) -E - > /dev/null 2>&1 || { apt-get -qq update && apt-get -qq install -y libpcap-dev; }
build_command = @$(need_cc); $(need_pcap); $(CC) -std=c11 -D_GNU_SOURCE -O2 -Iinclude $(field) '$(archive)' -lpcap -o $1

target/field/asternhaken: $(archive) $(field) $(wildcard field/*.h) include/asternhaken.h
	@mkdir -p $(@D)
	$(call build_command,$@)

command: target/field/asternhaken

# The proved programs that the command calls, as far as they are there.
PROGRAMS = target/bin
programs := $(foreach program,replay mend,$(if $(wildcard crates/$(program) $(PROGRAMS)/$(program)),$(program)))

# What is installed, each by its place in PREFIX: what install brings, uninstall takes away, and a folder only where it is ours alone.
so := lib/libasternhaken.so
ours := share/asternhaken
installed := include/asternhaken.h lib/libasternhaken.a $(so) $(so).$(major) $(so).$(version) lib/pkgconfig/asternhaken.pc share/man/man3/asternhaken.3 \
    $(addprefix $(ours)/,asternhaken.py control_room.py control_room.c live_list.c driver.c yard_set.c sample.txt driver.txt yard.txt)
of_command := bin/asternhaken share/man/man1/asternhaken.1 share/bash-completion/completions/asternhaken $(ours)/asternhaken.lua $(ours)/day.script $(addprefix libexec/asternhaken/,$(programs))
# On another processor than x86-64 the programs run in an emulator, as tests have it.
emulated := $(if $(filter x86_64,$(shell uname -m)),,$(addsuffix .x86_64,$(addprefix libexec/asternhaken/,$(programs))))
# A file with the version and the place of installation put in.
filled = sed -e 's|@VERSION@|$(version)|g' -e 's|@PREFIX@|$(prefix)|g' $1 > '$(there)/$2' && chmod 644 '$(there)/$2'

install: $(archive) $(if $(with_command),$(foreach program,$(programs),$(if $(wildcard crates/$(program)),$(program))))
	@$(need_cc)
	@install -d $(foreach folder,$(sort $(dir $(installed) $(if $(with_command),$(of_command)))),'$(there)/$(folder)')
	@install -m 644 include/asternhaken.h '$(there)/include'
	@install -m 644 '$(archive)' '$(there)/lib'
	@$(CC) -shared -nostartfiles -Wl,-soname,libasternhaken.so.$(major) -Wl,--version-script=c/asternhaken.map -Wl,-z,defs -Wl,-z,now \
	    -Wl,--whole-archive '$(archive)' -Wl,--no-whole-archive -o '$(there)/$(so).$(version)'
	@chmod 644 '$(there)/$(so).$(version)'
	@ln -sf libasternhaken.so.$(version) '$(there)/$(so).$(major)'
	@ln -sf libasternhaken.so.$(major) '$(there)/$(so)'
	@$(call filled,c/asternhaken.pc.in,lib/pkgconfig/asternhaken.pc)
	@$(call filled,docs/asternhaken.3,share/man/man3/asternhaken.3)
	@install -m 644 python/asternhaken.py examples/control_room.py examples/control_room.c examples/live_list.c examples/driver.c examples/yard_set.c examples/sample.txt examples/driver.txt examples/yard.txt '$(there)/$(ours)'
	$(if $(with_command),$(call build_command,'$(there)/bin/asternhaken'))
	$(if $(with_command),@$(call filled,docs/asternhaken.1,share/man/man1/asternhaken.1))
	$(if $(with_command),@install -m 644 field/completion.bash '$(there)/share/bash-completion/completions/asternhaken')
	$(if $(with_command),@install -m 644 wireshark/asternhaken.lua examples/day.script '$(there)/$(ours)')
	$(if $(with_command),@for program in $(programs); do tools/install-program '$(PROGRAMS)' $$program '$(there)/libexec/asternhaken' || exit; done)
	@echo 'Asternhaken $(version), of $(archive), is in $(there)$(if $(with_command),, without the command). Where that is searched for shared libraries, run ldconfig once.'

# Python keeps its own form of the module beside it.
uninstall:
	@[ ! -d '$(there)' ] || { cd '$(there)' && rm -f $(installed) $(of_command) $(emulated) $(ours)/__pycache__/asternhaken.*.pyc; }
	@[ ! -d '$(there)/libexec/asternhaken' ] || rmdir --ignore-fail-on-non-empty '$(there)/libexec/asternhaken'
	@[ ! -d '$(there)/$(ours)/__pycache__' ] || rmdir --ignore-fail-on-non-empty '$(there)/$(ours)/__pycache__'
	@[ ! -d '$(there)/$(ours)' ] || rmdir --ignore-fail-on-non-empty '$(there)/$(ours)'
