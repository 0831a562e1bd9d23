# drumbook: `make run` shows it at work, `make test` is the whole gate, `make help` lists the rest.
CC ?= cc
CFLAGS ?= -O2
PREFIX ?= /usr/local
SECONDS ?= 60
PYTHON ?= python3

WARNINGS = -std=c11 -Wall -Wextra -Werror

# the version has one source, the header's three numbers; while the major number is 0 a new minor one may change calls
# and structs, so the shared library's name has both
header_number = $(shell sed -nE 's/^.define DRUMBOOK_VERSION_$(1) ([0-9]+)$$/\1/p' include/drumbook.h)
MAJOR := $(call header_number,MAJOR)
MINOR := $(call header_number,MINOR)
VERSION := $(MAJOR).$(MINOR).$(call header_number,PATCH)

ARCHIVE = target/staticlib/libdrumbook.a
LISTING = target/bin/listing
SHEET = target/bin/sheet
SONAME = libdrumbook.so.$(MAJOR).$(MINOR)
SHARED = target/shared/libdrumbook.so.$(VERSION)
EXAMPLES = target/examples

# what a crate's proof and code come from, folders too, so that a file taken away is noticed
folders = $(addprefix crates/,$(shell scripts/uses $(1)))
sources = crates.txt $(shell find $(call folders,$(1)) -mindepth 1 \( -name must-fail -o -name out \) -prune -o -print)

export CC PREFIX DESTDIR VERSION SONAME

.PHONY: run run-sheet run-python stack test archive shared listing sheet bench fuzz faults census
.PHONY: prefix current install install-shared uninstall clean help
.NOTPARALLEL:
.SECONDARY:
.DELETE_ON_ERROR:

## run: the listing program on the rinse book and the run 0 1 2
run: $(LISTING)
	@$(LISTING) < crates/listing/stdin

## run-sheet: the program `sheet` on the rinse book's sheet
run-sheet: $(SHEET)
	@$(SHEET) < crates/sheet/stdin

## run-example: compile a book from C, read runs, print a tree and refusals (also run-form, run-refused, run-board)
run-%: $(EXAMPLES)/%
	@scripts/same host/$*.out $<

## run-python: the same from Python, by the shared library
run-python: $(SHARED)
	@scripts/same host/python.out $(PYTHON) host/python.py target/shared/libdrumbook.so

## stack: how much stack each call takes, held to bounds
stack: $(EXAMPLES)/stack
	@$<

## test: the gate: proves every crate, tries the must-fail edits, runs the host tests
test:
	@scripts/gate

## archive: target/staticlib/libdrumbook.a, proved; links into C and Rust
archive: $(ARCHIVE)

## shared: target/shared/libdrumbook.so, the same code as a shared library
shared: $(SHARED)

## listing: target/bin/listing, the proved listing program
listing: $(LISTING)

## sheet: target/bin/sheet, the proved program that tells a sheet's book, or where the sheet goes wrong
sheet: $(SHEET)

$(ARCHIVE): $(call sources,drumbook)
	@scripts/prove drumbook $(SINCE)
	@touch $@

$(LISTING): $(call sources,listing)
	@scripts/prove listing $(SINCE)
	@touch $@

$(SHEET): $(call sources,sheet)
	@scripts/prove sheet $(SINCE)
	@touch $@

$(SHARED): $(ARCHIVE) include/drumbook.h scripts/shared
	@scripts/shared $(ARCHIVE) $@

$(EXAMPLES)/%: host/%.c host/rinse.h host/stages.h host/words.h include/drumbook.h $(ARCHIVE)
	@mkdir -p $(EXAMPLES)
	@$(CC) $(CFLAGS) $(WARNINGS) -Iinclude $< $(ARCHIVE) -o $@

## bench: measures against a plain C implementation, and writes docs/BENCHMARKS.md
bench: $(ARCHIVE)
	@scripts/bench

## fuzz: random and damaged inputs against independent implementations (SECONDS=60, SEED=..)
fuzz: $(ARCHIVE) $(LISTING)
	@CARGO_TARGET_DIR=$(CURDIR)/target/host cargo run --quiet --offline --manifest-path host/Cargo.toml --bin fuzz -- \
		--seconds $(SECONDS) $(if $(SEED),--seed $(SEED))

## faults: puts faults between the archive and its tests, and says which test catches each; takes minutes
faults: $(ARCHIVE) $(LISTING)
	@scripts/faults

## census: lines by crate, what must be read, laws that nothing rests on, must-fail edits
census:
	@scripts/census

## install: the header, the archive and a pkg-config file, below PREFIX (default /usr/local)
install: prefix current $(ARCHIVE)
	@scripts/install static

## install-shared: the shared library, below PREFIX
install-shared: prefix current $(SHARED)
	@scripts/install shared

## uninstall: takes away what install and install-shared put below PREFIX
uninstall: prefix
	@scripts/install remove

# refuses a PREFIX that cannot be served, before anything is made
prefix:
	@scripts/install prefix

# refuses to prove under sudo: the archive is made as the user who asked for it
current:
	@if [ -n "$${SUDO_USER:-}" ] && ! $(MAKE) --no-print-directory --question archive; then \
		echo "the archive is older than its sources or missing: run 'make archive' without sudo first" >&2; exit 1; fi

## clean: removes all that was built
clean:
	rm -rf target

## help: these lines
help:
	@sed -nE 's/^## ([a-z-]+): (.*)/make \1\t\2/p' Makefile | expand -t 22
