# A proved mapping cache. The pieces stand in mk/; `make help` prints the commands, which are these and those there:
#
#   make                   the library and the replay program
#   make run [TRACE=file]  a trace in text through the replay program, its answers in text
#   make library           the archive that hosts link, crates/mapcache/out/libmapcache.a
#   make replay            the replay program, crates/replay/out/replay
#   make tidy              nothing unused, no long line, no name with two meanings, one door to the store, no rule cited in vain, no
#                          promise in proofs/ (tools/tidy); what has to be believed is listed (tools/believe)
#   make gate-test         the gate's order, failures and last line, tried with an rt that proves nothing
#   make store-example     the bytes that docs/STORE.md shows are those that the library writes
#   make chains            the table of docs/STORE.md on chains is what its formula gives
#   make clean             remove target/ and what rt keeps in the crates' out/, and with it what is proved here
#   make help              this list

all: library replay

# What may be set on the command line. ORIGINAL is the folder that holds the original's src/ (README.md says where to get
# it). Where it is not there, or a tool is missing (groff, pkg-config, valgrind), what needs it says so and is left out; with
# STRICT=1 that is a failure. WITHOUT names tools that cannot be had and may be missing all the same.
ORIGINAL ?= ../shared/docs/src
STRICT ?=
WITHOUT ?=
HOSTS ?=
PREFIX ?= /usr/local
DESTDIR ?=
TRACE ?= examples/first.trace
SEED ?= 1
CALLS ?= 5000000
REQUESTS ?= 20000000

ARCHIVE := crates/mapcache/out/libmapcache.a
REPLAY := crates/replay/out/replay
HOST := target/host
INCLUDE := $(HOST)/include
HEADER := $(INCLUDE)/mapcache.h
SOURCES := crates.txt $(shell find crates -path 'crates/*/out' -prune -o \( -name '*.rt' -o -name '*.antt' \) -print)

# The version stands in one place in the proved code, and everything else has it from there.
VERSION_SOURCES := tools/version crates/s3_fifo/src/lib.rt
VERSION := $(shell tools/version)
$(if $(VERSION),,$(error there is no version))
VERSION_PARTS := $(subst ., ,$(VERSION))
FILL_IN := sed -e 's|@VERSION@|$(VERSION)|' -e 's|@VERSION_MAJOR@|$(word 1,$(VERSION_PARTS))|' \
	-e 's|@VERSION_MINOR@|$(word 2,$(VERSION_PARTS))|'

CFLAGS := -std=c11 -Wall -Wextra -Wpedantic -Werror -O2 -g -I$(INCLUDE)
HAVE_ORIGINAL := $(wildcard $(ORIGINAL)/src/policy/s3_fifo.rs)
# Cargo counts its jobs by itself, and is not told of make's.
cargo_over = MAKEFLAGS= ORIGINAL='$(abspath $(ORIGINAL))' MAPCACHE_LIB_DIR='$(abspath $(dir $(1)))' cargo
CARGO_HERE := $(call cargo_over,$(ARCHIVE))
CARGO_FLAGS := --quiet --release --offline --locked
RECORDED := crates/recorded/data

# Says that the tool $(1) is missing and that $(2) is left out: a failure with STRICT=1, unless WITHOUT names the tool.
left_out = { echo '$@: there is no $(1): $(2)'; test '$(STRICT)' != 1 || test -n '$(filter $(1),$(WITHOUT))'; }

# Runs the command $(2), shows what it prints, and keeps it as $(1), for `make figures` to hold against the documents.
SAID := $(HOST)/said
said = mkdir -p $(SAID) && status=0 && { $(2) > $(SAID)/$(1).part 2>&1 || status=$$?; } && cat $(SAID)/$(1).part && \
	test $$status = 0 && mv $(SAID)/$(1).part $(SAID)/$(1)

include mk/machine.mk
# Builds what is run; CARGO_HERE only looks at sources.
CARGO := $(CROSS) $(CARGO_HERE)
include mk/host.mk
include mk/install.mk
include mk/differential.mk
include mk/programs.mk
include mk/gate.mk

# What asks rt for the same crates would wait for one another. The gate says SIDE_BY_SIDE where one target alone still asks it for anything.
ifeq ($(SIDE_BY_SIDE),)
.NOTPARALLEL:
endif

# What a rule did not write to its end is not there.
.DELETE_ON_ERROR:

.PHONY: all help clean library replay run tidy gate-test chains sentences store-example

help:
	@sed -n 's/^#   \(make.*\)/  \1/p' Makefile mk/*.mk

clean:
	rm -rf target crates/*/out

# rt keeps what it proves in the crates' out/, so these cost little where nothing has changed. rt ci clears that for its own run and then
# puts it back; what it leaves besides are the programs, and no archive.
$(ARCHIVE): $(SOURCES)
	@rm -f $@
	@tools/progress mapcache rt lib
	@test -s $@ || { echo '$@: rt has left no archive' >&2; exit 1; }

# rt has no command that builds a program and does not run it: this run only says the version. Where rt finds nothing changed it leaves
# the program as it is, and only its time is set. It links it from its object, so a program that is older than that is one of before.
$(REPLAY): $(SOURCES)
	@tools/progress replay rt run -- --version
	@test -s $@ && test -x $@ || { echo '$@: rt has left no program (make clean, and again)' >&2; exit 1; }
	@! test $@ -ot $@.o || { echo '$@: rt has left an older program there' >&2; exit 1; }
	@touch $@

library: $(ARCHIVE)

replay: $(REPLAY)

$(HOST) $(INCLUDE):
	@mkdir -p $@

$(HEADER): host/mapcache.h.in $(VERSION_SOURCES) | $(INCLUDE)
	@$(FILL_IN) $< > $@

# The bytes that docs/STORE.md shows are the bytes that the library writes.
store-example: $(ARCHIVE) $(HEADER)
	@$(CC) $(CFLAGS) tests/store/trace_b.c $(ARCHIVE) -o $(HOST)/trace_b
	@$(HOST)/trace_b > $(HOST)/trace_b.store
	@python3 tests/store/compare.py docs/STORE.md $(HOST)/trace_b.store

chains: | $(HOST)
	@python3 tests/store/chains.py > $(HOST)/chains.md
	@python3 tests/docs/tables.py docs/STORE.md $(HOST)/chains.md

# Figures of documents that follow from files alone; `make figures` has all.
sentences:
	@python3 tests/docs/figures.py

tidy:
	@tools/tidy
	@python3 tests/tools/test_tidy.py
	@python3 tests/tools/test_edits_judge.py
	@tools/believe --check
	@python3 tests/tools/test_believe.py
	@python3 tests/docs/names.py
	@python3 tests/tools/test_names.py

gate-test:
	@python3 tests/tools/test_gate.py
