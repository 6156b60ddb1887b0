# make first            proves and builds crates/omf/out/omf, and relocates examples/first.omf
# make try FILE=x.obj   checks your file by a program built without its proofs; JOB=list, JOB=reloc PLACE=x.place or JOB=canon runs
#                       another subcommand, FLAG=--refuse-vendor-comments passes the flag. The first run builds it (a minute) and keeps
#                       it in build/unproved/
# make draft FILE=x.obj drafts a placement the same way; WORDS=--real, or WORDS="--base 7C00 --flat 1B", has the options
# make look             the first example the same way
# make try-all          builds the six programs without their proofs, under their names in build/unproved/bin (minutes, once)
# make library          proves and builds the library for C: build/libomf.a, build/libomf.so; with UNPROVED=1 both are in build/unproved/,
#                       built without proofs in some minutes
# make try-c            tests the library for C (tests/c/run.sh) over examples/ and the folder MODULES
# make page             proves and builds the programs, and makes the page from them: build/omf.html (docs/PAGE.md); with UNPROVED=1 it is
#                       build/unproved/omf.html, from programs built without proofs in some minutes
# make try-page         tries the page in headless Chromium (tests/page.sh) over examples/ and the folder MODULES
# make install          builds the programs and the library, and installs them under PREFIX: bin/omf, bin/omf-place, bin/omf-link,
#                       bin/omf-dump, bin/omf-lib, bin/omf-find, share/man/man1/omf.1, omf-place.1, omf-link.1, omf-dump.1, omf-lib.1 and
#                       omf-find.1,
#                       lib/libomf.a, lib/libomf.so,
#                       include/omf.h, lib/pkgconfig/omf.pc; the Python package is installed by `pip install ./python`, which needs no network
# make dist             packs the proved programs, man pages, completions, the library, the wheel, the examples and the page into
#                       build/omf-VERSION-x86_64-linux.tar.xz, the same bytes for the same sources (dist/pack.sh); `dist/gate.sh LOG` before adds the
#                       last line of a log of `.ci/run`, `dist/release.sh make` after puts the tar and the page into dist/
# make wheel            packs the Python package with the library (UNPROVED=1: without its proofs) into build/omf-VERSION-py3-none-linux_x86_64.whl
# make vendor DEST=DIR  copies the crates CRATES (omf_check) and those below them, with their lines of crates.txt, into the repository DIR
# make shown            runs the commands that the pages show with the installed programs, and compares what they print; OMF, OMF_PLACE,
#                       OMF_LINK, OMF_DUMP, OMF_LIB, OMF_FIND and LIBOMF name others (tests/shown.sh)
# make release          runs what the gate leaves out: the C library, the Python package, the page in Chromium, the cases and other programs on
#                       the built programs, failing devices, the examples in emulators, the commands of the pages, the package in a fresh Debian
#                       and made anew beside dist/, and tests/fuzz for MINUTES
#                       (10) a target; PLANTED=1 adds tests/planted.sh, MODULES a folder of modules, STAGES="page fuzz" runs these alone. It
#                       builds none of them: `make build library page` does, before (tests/release.py)
# make docs             writes docs/CALLS.md, docs/BELIEVE.md, docs/REFUSALS.md and the tables of docs/INDEX.md from the sources
# make ci               the gate: the documents, the commands of docs/REASONS.md, and then `rt ci`, which proves and tests everything

PREFIX ?= /usr/local
VERSION := $(shell cat VERSION)
MODULES ?=
JOB ?= check
WORDS ?=
DEST ?=
CRATES ?= omf_check
UNPROVED ?=
STAGES ?=
export FILE PLACE UNPROVED MODULES

# Programs of `tests/unproved.sh` for a test of what was built without proofs.
unproved_programs = OMF=$$(tests/unproved.sh omf) OMF_DUMP=$$(tests/unproved.sh omf_dump) OMF_LINK=$$(tests/unproved.sh omf_link) OMF_PLACE=$$(tests/unproved.sh omf_place) OMF_LIB=$$(tests/unproved.sh omf_lib)

.PHONY: first look try try-all draft build library try-c page try-page wheel proved install dist vendor shown release docs ci

first:
	@cd crates/omf && cat ../../examples/first.omf ../../examples/first.place | rt run -- reloc
	@echo "the program is crates/omf/out/omf; make install puts it on the path" >&2

look:
	@program=$$(tests/unproved.sh omf) && cat examples/first.omf examples/first.place | "$$program" reloc

try:
	@test -n "$$FILE" || { echo "usage: make try FILE=x.obj [JOB=check|list|reloc|canon] [PLACE=x.place] [FLAG=--refuse-vendor-comments]"; exit 2; }
	@test -f "$$FILE" || { echo "no such file: $$FILE"; exit 2; }
	@test -z "$$PLACE" || test -f "$$PLACE" || { echo "no such file: $$PLACE"; exit 2; }
	@program=$$(tests/unproved.sh omf) && cat "$$FILE" $${PLACE:+"$$PLACE"} | "$$program" "$(JOB)" $(FLAG)

try-all:
	@mkdir -p build/unproved/bin
	@for crate in omf omf_place omf_link omf_dump omf_lib omf_find; do \
		program=$$(tests/unproved.sh $$crate) && ln -sf "../$$crate" "build/unproved/bin/$$(echo $$crate | tr _ -)" || exit 1; \
	done
	@echo "the programs are in build/unproved/bin, built without their proofs"

draft:
	@test -n "$$FILE" || { echo "usage: make draft FILE=x.obj [WORDS=\"--base 7C00 --real\"]"; exit 2; }
	@test -f "$$FILE" || { echo "no such file: $$FILE"; exit 2; }
	@program=$$(tests/unproved.sh omf_place) && "$$program" $(WORDS) < "$$FILE"

build:
	@cat examples/first.omf examples/first.place | (cd crates/omf && rt run -- reloc) > /dev/null
	@(cd crates/omf_place && rt run) < examples/first.omf > /dev/null
	@cat examples/link/start.obj examples/link/say.obj examples/link/mark.obj examples/link/program.link | (cd crates/omf_link && rt run -- image) > /dev/null
	@(cd crates/omf_dump && rt run) < examples/first.omf > /dev/null
	@(cd crates/omf_lib && rt run -- list -) < examples/library/small.lib > /dev/null
	@(cd crates/omf_find && rt run -- --base 0 - ../../examples/library/small.lib) < examples/first.omf > /dev/null

ifeq ($(UNPROVED),1)
library:
	dist/unproved_library.sh

try-c: library
	LIBRARY=build/unproved/libomf.a $(unproved_programs) tests/c/run.sh $(MODULES)
else
library:
	cd crates/omf_c && rt lib
	dist/library.sh

try-c: build library
	LIBRARY=build/libomf.a OMF=crates/omf/out/omf OMF_DUMP=crates/omf_dump/out/omf_dump OMF_LINK=crates/omf_link/out/omf_link tests/c/run.sh $(MODULES)
endif

ifeq ($(UNPROVED),1)
page:
	page/build.sh

try-page: page
	PAGE=build/unproved/omf.html $(unproved_programs) tests/page.sh $(MODULES)
else
page: build
	page/build.sh

try-page: page
	tests/page.sh $(MODULES)
endif

wheel: library
	dist/wheel.sh $(if $(filter 1,$(UNPROVED)),build/unproved/libomf.so,build/libomf.so)

# What is installed or packed is proved.
proved:
	@test -z "$(UNPROVED)" || { echo "install and dist take proved programs: leave UNPROVED out"; exit 2; }

install: proved build library
	install -d $(DESTDIR)$(PREFIX)/bin $(DESTDIR)$(PREFIX)/share/man/man1 $(DESTDIR)$(PREFIX)/include $(DESTDIR)$(PREFIX)/lib/pkgconfig
	install -m 755 crates/omf/out/omf $(DESTDIR)$(PREFIX)/bin/omf
	install -m 755 crates/omf_place/out/omf_place $(DESTDIR)$(PREFIX)/bin/omf-place
	install -m 755 crates/omf_link/out/omf_link $(DESTDIR)$(PREFIX)/bin/omf-link
	install -m 755 crates/omf_dump/out/omf_dump $(DESTDIR)$(PREFIX)/bin/omf-dump
	install -m 755 crates/omf_lib/out/omf_lib $(DESTDIR)$(PREFIX)/bin/omf-lib
	install -m 755 crates/omf_find/out/omf_find $(DESTDIR)$(PREFIX)/bin/omf-find
	install -m 644 man/omf.1 $(DESTDIR)$(PREFIX)/share/man/man1/omf.1
	install -m 644 man/omf-place.1 $(DESTDIR)$(PREFIX)/share/man/man1/omf-place.1
	install -m 644 man/omf-link.1 $(DESTDIR)$(PREFIX)/share/man/man1/omf-link.1
	install -m 644 man/omf-dump.1 $(DESTDIR)$(PREFIX)/share/man/man1/omf-dump.1
	install -m 644 man/omf-lib.1 $(DESTDIR)$(PREFIX)/share/man/man1/omf-lib.1
	install -m 644 man/omf-find.1 $(DESTDIR)$(PREFIX)/share/man/man1/omf-find.1
	install -D -m 644 completions/omf.bash $(DESTDIR)$(PREFIX)/share/bash-completion/completions/omf
	for name in omf-place omf-link omf-dump omf-lib omf-find; do ln -sf omf $(DESTDIR)$(PREFIX)/share/bash-completion/completions/$$name; done
	install -D -m 644 completions/_omf $(DESTDIR)$(PREFIX)/share/zsh/site-functions/_omf
	install -D -m 644 completions/omf.fish $(DESTDIR)$(PREFIX)/share/fish/vendor_completions.d/omf.fish
	install -m 644 include/omf.h $(DESTDIR)$(PREFIX)/include/omf.h
	install -m 644 build/libomf.a $(DESTDIR)$(PREFIX)/lib/libomf.a
	install -m 755 build/libomf.so $(DESTDIR)$(PREFIX)/lib/libomf.so
	sed 's|@PREFIX@|$(PREFIX)|; s|@VERSION@|$(VERSION)|' include/omf.pc.in > $(DESTDIR)$(PREFIX)/lib/pkgconfig/omf.pc

dist: proved build library page
	dist/pack.sh omf=crates/omf/out/omf omf-place=crates/omf_place/out/omf_place omf-link=crates/omf_link/out/omf_link omf-dump=crates/omf_dump/out/omf_dump omf-lib=crates/omf_lib/out/omf_lib omf-find=crates/omf_find/out/omf_find

vendor:
	@test -n "$(DEST)" || { echo "usage: make vendor DEST=DIR [CRATES='omf_check ..']"; exit 2; }
	dist/vendor.sh "$(DEST)" $(CRATES)

shown:
	tests/shown.sh README.md docs/*.md

release:
	tests/release.py $(STAGES)

docs:
	tests/docs.py --write

ci:
	.ci/run
