# make test         the gate: every proof, test and must-fail edit, then the tests outside the prover
# make test-more    what takes hours or needs further packages: other programs that read what this one writes, sanitizers, other
#                   platforms, browsers, wrong ideas
# make docs         what tools make of sources: manual page, completions, trust, cases; `git diff` shows what differs
# make help         these lines, and the parts of the three, each of which runs alone: make test-cases, make docs-trust
#
# make run          proves and builds the program (once) and prints the page of examples/hello.bas
# make build        proves and builds the program, crates/print1525/out/print1525
# make try          prints that page within a minute or two, by a build of which nothing is proved
# make lib          proves and builds libprint1525.a and libprint1525.so, the library for C programs (docs/C.md)
# make web          makes web/print1525.html, the page in a browser, with its WebAssembly module of proved crates (web/README.md says
#                   how; it needs wasm-opt, Debian's package binaryen), and says whether the committed file is another one
# make install      copies the built program, the library for C with its headers and what pkg-config and CMake need, the manual page
#                   and the completions of bash, zsh and fish to $(DESTDIR)$(PREFIX), where PREFIX is /usr/local unless it is given;
#                   LIBDIR is where the library goes, $(PREFIX)/lib unless it is given
# make dist         packs an archive for each platform of docs/PLATFORMS.md, and the library as one C file: program, library, page in the
#                   browser, examples, cases and documents, as out/print1525-VERSION-PLATFORM.tar.gz or .zip with its SHA-256: of one
#                   commit always the same bytes
# make bench        speed and peak memory beside `wc -l`, with the aim of each
#
# While you write (each says more with --help):
# tools/check NAME            proves a crate; with GATE=TREE over the libraries that the gate in another copy, TREE, has proved
# cases/run --try NAME..      cases, by a build of which nothing is proved
# tools/edits NAME            each wrong idea of a crate: which function is refused, by which clause; NAME/IDEA tries one (a minute),
#                             --compile NAME says which can still be applied and compiled (seconds, after `make test`)
# tools/plants --minutes 10 NAME..   wrong bodies that the crates' contracts let through, into tests/evidence/plants.md
# tools/gate-times make test  the gate, with the processor minutes of each crate
# tools/trust CLAIM           the definitions that a claim of docs/TRUST.md rests on
# tools/definitions WORD      all definitions that have a word
# tools/calls CRATE           the public calls of a crate; with --names all its public names
# tools/port/exports          the exports, and who calls each
# tools/house                 before a release: what is long or repeated, lines to believe, minutes

SHELL := /bin/bash
export PYTHONDONTWRITEBYTECODE := 1
PREFIX ?= /usr/local
LIBDIR ?= $(PREFIX)/lib
PROGRAM := crates/print1525/out/print1525
LIBRARY := libprint1525.a
MODULE := out/print1525.wasm
VERSION := 1.0.0
# The library's own version, and the names of the shared one, of which programs look for the second.
LIBRARY_VERSION := $(shell sed -n 's/^.define PRINT1525_VERSION "\(.*\)"/\1/p' include/print1525.h)
SHARED := libprint1525.so.$(LIBRARY_VERSION)
MAJOR := $(firstword $(subst ., ,$(LIBRARY_VERSION)))
SONAME := libprint1525.so.$(MAJOR)

# The tests that go on after a refused allocation (tests/rows/growths).
TEST_CRATES := pr_tests_core pr_tests_forms
TESTS := $(foreach crate,$(TEST_CRATES),crates/$(crate)/out/$(crate)_tests)

# The static libraries that the library for C is made of.
PART_CRATES := pr_ear pr_exports
PARTS := $(foreach crate,$(PART_CRATES),crates/$(crate)/out/lib$(crate).a)

# What the program and the tests are built from.
SOURCES := crates.txt $(shell find crates -path '*/out' -prune -o \( -name '*.rt' -o -name '*.antt' \) -print)

# What is made for other platforms (tools/port): of the LLVM modules of these crates.
PORT := out/port
LLVM := $(PORT)/llvm
LLVM_MODULES := $(foreach crate,$(PART_CRATES) print1525,$(LLVM)/$(crate).ll)
PLATFORMS := aarch64-linux riscv64-linux x86_64-windows arm64-macos x86_64-macos
PORTED := $(foreach platform,$(PLATFORMS),$(PORT)/$(platform)/made) $(PORT)/universal/made $(PORT)/c/print1525.c

# No rule of make's own: it would make the script tools/port/amalgamation of amalgamation.c beside it.
.SUFFIXES:
%: %.c

.PHONY: help run try build tests test test-more docs bench lib web install ports dist

help:
	@sed -n '/^#/!q; s/^# \{0,1\}//p' Makefile
	@tests/run --parts

run: build
	@$(PROGRAM) pages < examples/hello.bas

build: $(PROGRAM)

# `rt run` proves, builds and runs. `rt ci` leaves the program too: it is built again only after a change.
$(PROGRAM): $(SOURCES)
	@cd crates/print1525 && set -o pipefail && rt run -- --help 2>&1 | tee out.log | ../../tools/progress || \
		{ cat out.log; rm -f out.log; exit 1; }; rm -f out.log
	@touch $@

try:
	@echo 'Nothing is proved in this build: it only shows a page. make run proves it.'
	@cd crates/print1525 && rt try -- pages < ../../examples/hello.bas

# tests/run has the parts of test, test-more and docs, and what each needs.
test:
	@tests/run --build test

test-more:
	@tests/run --build more

docs:
	@tests/run --build docs

test-% docs-%:
	@tests/run --build $*

# The tests of crates that go on after a refused allocation.
tests: $(TESTS)

$(TESTS): $(SOURCES)
	@cd $(@D)/.. && rt test > out.log 2>&1 || { cat out.log; exit 1; }; rm -f out.log

# The library for C programs, an archive and a shared library: the archives of two crates, the part of the toolchain's that calls
# malloc, and the C code of library/.
lib: $(LIBRARY) $(LIBRARY:.a=.so)

$(LIBRARY) $(LIBRARY:.a=.so) &: $(PARTS) tools/archive tests/c/header.py $(wildcard include/*.h library/*.[ch])
	@tools/archive $(LIBRARY) $(PART_CRATES)

$(PARTS) &: $(SOURCES) tools/crates.py tools/library
	@tools/library $(PART_CRATES)
	@touch $(PARTS)

bench: build lib $(TESTS)
	@tools/bench $(PROGRAM)

# Not a part of the gate, which knows no WebAssembly. The module is made anew where a crate changed.
web: $(MODULE)
	@web/make $(MODULE)
	@if git diff --quiet HEAD -- web/print1525.html; then echo 'web/print1525.html is the committed file.'; else \
		echo 'web/print1525.html is another file than the committed one.'; exit 1; fi

$(MODULE): $(SOURCES) tools/crates.py tools/llvm.py web/module
	@mkdir -p $(@D)
	web/module $@

# What pkg-config and CMake are told: places from the prefix and from the library, so that an installed tree may be moved.
FOUND_BY = sed -e 's|@PREFIX@|$(PREFIX)|g' -e 's|@LIBDIR@|$(patsubst $(PREFIX)/%,$${prefix}/%,$(LIBDIR))|' \
	-e "s|@INCLUDE@|$$(realpath -ms --relative-to=$(LIBDIR) $(PREFIX)/include)|" -e 's|@VERSION@|$(LIBRARY_VERSION)|g' \
	-e 's|@MAJOR@|$(MAJOR)|g'

install: build lib
	install -d $(DESTDIR)$(PREFIX)/bin $(DESTDIR)$(PREFIX)/include $(DESTDIR)$(PREFIX)/share/man/man1
	install -d $(DESTDIR)$(LIBDIR)/pkgconfig $(DESTDIR)$(LIBDIR)/cmake/print1525
	install -d $(DESTDIR)$(PREFIX)/share/bash-completion/completions $(DESTDIR)$(PREFIX)/share/zsh/site-functions
	install -d $(DESTDIR)$(PREFIX)/share/fish/vendor_completions.d
	install $(PROGRAM) $(DESTDIR)$(PREFIX)/bin/print1525
	install -m 644 include/print1525.h include/print1525.hpp $(DESTDIR)$(PREFIX)/include
	install -m 644 $(LIBRARY) $(DESTDIR)$(LIBDIR)/libprint1525.a
	install $(LIBRARY:.a=.so) $(DESTDIR)$(LIBDIR)/$(SHARED)
	ln -sf $(SHARED) $(DESTDIR)$(LIBDIR)/$(SONAME)
	ln -sf $(SONAME) $(DESTDIR)$(LIBDIR)/libprint1525.so
	install -m 644 docs/print1525.1 $(DESTDIR)$(PREFIX)/share/man/man1/print1525.1
	install -m 644 completions/print1525.bash $(DESTDIR)$(PREFIX)/share/bash-completion/completions/print1525
	install -m 644 completions/_print1525 $(DESTDIR)$(PREFIX)/share/zsh/site-functions/_print1525
	install -m 644 completions/print1525.fish $(DESTDIR)$(PREFIX)/share/fish/vendor_completions.d/print1525.fish
	$(FOUND_BY) include/print1525.pc.in > $(DESTDIR)$(LIBDIR)/pkgconfig/print1525.pc
	$(FOUND_BY) include/print1525Config.cmake.in > $(DESTDIR)$(LIBDIR)/cmake/print1525/print1525Config.cmake
	$(FOUND_BY) include/print1525ConfigVersion.cmake.in > $(DESTDIR)$(LIBDIR)/cmake/print1525/print1525ConfigVersion.cmake
	chmod 644 $(DESTDIR)$(LIBDIR)/pkgconfig/print1525.pc $(DESTDIR)$(LIBDIR)/cmake/print1525/*.cmake
	@[ -n "$(DESTDIR)" ] || ldconfig 2> /dev/null || echo 'Run ldconfig, or set LD_LIBRARY_PATH, for the shared library.'

$(LLVM_MODULES) &: $(SOURCES) tools/crates.py tools/llvm.py tools/port/modules
	@tools/port/modules $(LLVM) $(PART_CRATES) print1525

PORT_TOOLS := $(LLVM_MODULES) tools/llvm.py $(wildcard include/*.h library/*.[ch]) \
	$(filter-out %/exports %/modules %/speed %/speed.c %/trusted.md,$(wildcard tools/port/* tools/port/mac/*))

$(PORT)/universal/made: $(PORT)/arm64-macos/made $(PORT)/x86_64-macos/made
	@tools/port/build.py universal $(PORT)/arm64-macos $(PORT)/x86_64-macos $(@D) && touch $@

$(PORT)/%/made: $(PORT_TOOLS)
	@tools/port/build.py $* $(LLVM) $(@D) && touch $@

$(PORT)/c/print1525.c: $(PORT_TOOLS)
	@mkdir -p $(@D)
	@tools/port/amalgamation $(LLVM) $@

ports: $(PORTED)

# The gate makes and tests what is for x86-64 Linux; the rest is made of the same proved crates, four at a time.
dist: build lib
	@$(MAKE) --no-print-directory -j4 ports
	@tools/dist $(VERSION) out
