# For hosts: their tests, the fuzzer, the lints of all Rust.
#
#   make host-test                   hosts in C (plain, sanitized, under valgrind) and Rust, the example host, the tools
#   make pieces                      a long stream of requests cut at random, beside the same requests in whole calls
#   make rust-lint                   rustfmt (rust-fmt) and clippy (rust-clippy) over hosts, tests and benchmark, warnings as errors
#   make constants                   header, wrapper and tools have the constants of the proved code
#   make fuzz-gate                   bad input at scale: the calls that `make test` makes, a fixed seed
#   make fuzz SEED=7 CALLS=10000000  any seed, any number of calls

VALGRIND := valgrind -q --error-exitcode=9 --leak-check=full
FUZZ := $(CARGO) run $(CARGO_FLAGS) -p mapcache-fuzz --

# All Rust of the workspace, as far as it can be built: some of it is made of the original.
THIN_FEATURES := $(if $(HAVE_ORIGINAL),--features thin-runs/original)
RUST := --workspace $(if $(HAVE_ORIGINAL),$(THIN_FEATURES),--exclude original --exclude differential --exclude bench)

.PHONY: host-test host-c host-rust host-thin host-tools host-run pieces rust-lint rust-fmt rust-clippy constants fuzz-gate fuzz

host-test: host-c host-rust pieces host-thin host-tools host-run host-install

rust-lint: rust-fmt rust-clippy

# observe.rs is named by a file that the build writes, so cargo does not find it. A host needs nothing of the tests.
rust-fmt:
	@cargo fmt --all --check
	@rustfmt --check --edition 2024 tests/original/src/observe.rs
	@grep -nE 'path = .*(tests|bench)/' host/*/Cargo.toml; test $$? = 1 || { echo 'host/ depends on what is outside it' >&2; exit 1; }
	@echo 'rust-fmt: formatted'

rust-clippy: $(ARCHIVE)
	@$(CARGO_HERE) clippy $(CARGO_FLAGS) $(RUST) --all-targets -- -D warnings
	@echo 'rust-clippy: no warning$(if $(HAVE_ORIGINAL),, (without what is made of the original))'

# The header's worked examples are cut out of its comment, so that what people copy is what is compiled.
EXAMPLE_SAYS := 38 bytes: NW 0, then ES 7 70, NW 1
PIECES_SAY := NW 0, ES 7, NW 1, refused: 9 at offset 36
$(HOST)/example.c: $(HEADER)
	@sed -n '/--- example begins ---/,/--- example ends ---/{//!s/^ \* \{0,1\}//p}' $< > $@
	@test -s $@ || { echo '$<: there is no example in it' >&2; exit 1; }

$(HOST)/pieces.c: $(HEADER)
	@sed -n '/--- pieces begin ---/,/--- pieces end ---/{//!s/^ \* \{0,1\}//p}' $< > $@
	@test -s $@ || { echo '$<: there is no example of pieces in it' >&2; exit 1; }

# Compiles the header's example $(1), which has to print $(2).
header_example = $(CC) $(CFLAGS) $(HOST)/$(1).c $(ARCHIVE) -o $(HOST)/$(1) && test "$$($(HOST)/$(1))" = '$(2)' || \
	{ echo 'host/mapcache.h.in: its example $(1) prints something else' >&2; exit 1; }

host-c: $(ARCHIVE) $(HEADER) $(HOST)/example.c $(HOST)/pieces.c
	@tests/archive/check $(NM) $(ARCHIVE)
	@$(call header_example,example,$(EXAMPLE_SAYS))
	@$(call header_example,pieces,$(PIECES_SAY))
	@for host in test feed; do $(CC) $(CFLAGS) host/c/$$host.c $(ARCHIVE) -o $(HOST)/$$host && \
		$(CC) $(CFLAGS) $(SANITIZE) host/c/$$host.c $(ARCHIVE) -o $(HOST)/$$host-sanitized || exit 1; done
	@$(call said,c-host,$(HOST)/test $(RECORDED)/calls.bin $(GATE_RANDOM_CALLS) $(HOST)/trace_d.store)
	@$(call said,c-host-feed,$(HOST)/feed $(GATE_STREAMS))
	@echo 'c host, sanitizers of $(if $(NATIVE),addresses and )undefined behaviour:' && \
		$(HOST)/test-sanitized $(RECORDED)/calls.bin $(GATE_RANDOM_CALLS) && $(HOST)/feed-sanitized $(GATE_STREAMS)
	@if test -z '$(NATIVE)'; then echo 'host-c: valgrind cannot look into an emulator: that run is left out'; \
	elif command -v valgrind > /dev/null; then \
		echo 'c host, valgrind:' && \
		$(call said,c-host-valgrind,$(VALGRIND) $(HOST)/test $(RECORDED)/calls.bin $(VALGRIND_CALLS)) && \
		$(call said,c-host-feed-valgrind,$(VALGRIND) $(HOST)/feed $(VALGRIND_STREAMS)); \
	else $(call left_out,valgrind,that run of the host in C is left out); fi

host-rust: $(ARCHIVE)
	@$(call said,host-rust,$(CARGO) test $(CARGO_FLAGS) -p common -p mapcache)

pieces: $(ARCHIVE)
	@$(CARGO) run $(CARGO_FLAGS) -p mapcache --example pieces

# The scenario that it shows to people, then random runs.
host-thin: $(ARCHIVE) | $(HOST)
	@$(CARGO) run $(CARGO_FLAGS) -p thin -- --map $(HOST)/thin.map > $(HOST)/thin.told
	@cmp $(HOST)/thin.told examples/thin.told && echo 'thin: the scenario goes as examples/thin.told says'
	@test "$$($(CARGO) run $(CARGO_FLAGS) -p thin -- --version)" = 'thin $(VERSION)' || \
		{ echo 'host-thin: thin --version does not say thin $(VERSION)' >&2; exit 1; }
	@test -n '$(HAVE_ORIGINAL)' || \
		{ echo 'host-thin: ORIGINAL=$(ORIGINAL) does not hold the original: that half is left out'; test '$(STRICT)' != 1; }
	@$(call said,thin-runs,$(CARGO) run $(CARGO_FLAGS) -p thin-runs $(THIN_FEATURES) -- --runs $(GATE_THIN_RUNS) --map $(HOST)/thin.map)

host-tools: host-c manual
	@$(call said,tools-mapcache,HEADER='$(abspath $(HEADER))' STORE='$(abspath $(HOST)/trace_d.store)' python3 tests/tools/test_mapcache.py)
	@$(call said,tools-scripts,python3 tests/tools/test_scripts.py)
	@if command -v groff > /dev/null; then \
		said=$$(groff -man -Tutf8 -ww -z $(MANUAL) 2>&1) && test -z "$$said" || { echo "groff: $$said" >&2; exit 1; }; \
		echo 'manual pages: groff has nothing to say of them'; \
	else $(call left_out,groff,the manual pages are not looked at); fi

constants: $(ARCHIVE) $(HEADER)
	@$(call said,constants,HEADER='$(abspath $(HEADER))' WRAPPER="$(CARGO) run $(CARGO_FLAGS) -p mapcache --example constants" \
		python3 tests/constants/test_constants.py)

# The answers to the trace $(1), as text.
run_trace = tools/mapcache encode $(1) > $(HOST)/run.requests && \
	$(REPLAY) < $(HOST)/run.requests | tools/mapcache replies --trace $(1)

run: $(REPLAY) | $(HOST)
	@$(call run_trace,$(TRACE))

host-run: $(REPLAY) | $(HOST)
	@$(call run_trace,examples/first.trace) > $(HOST)/first.answers
	@cmp $(HOST)/first.answers examples/first.answers && echo 'make run: the example gives its answers'
	@test "$$($(REPLAY) --version < /dev/null)" = 'mapcache-replay $(VERSION)' || \
		{ echo 'host-run: $(REPLAY) --version does not say mapcache-replay $(VERSION)' >&2; exit 1; }

fuzz-gate: $(ARCHIVE)
	@$(call said,fuzz,$(FUZZ) --seed $(GATE_FUZZ_SEED) --calls $(GATE_FUZZ_CALLS))

fuzz: $(ARCHIVE)
	@$(FUZZ) --seed $(SEED) --calls $(CALLS)
