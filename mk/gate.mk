# The gate. rt ci proves everything, from nothing or as it kept it from a run of the same files, and tries each edit. What is run outside the
# prover is run on the same files: on the program that rt ci has left, and on the archive, which only `rt lib` writes (it proves
# `mapcache` and what is below it, over what earlier checks kept where they did).
#
#   make test [STRICT=1]   the gate: everything; with STRICT=1 a missing original or tool is a failure, not a note
#   make assumptions       what each program and the archive assume of code that is not Rattle's, as the check of each counts it
#   make figures           the figures of the documents are those that the gate's runs have just printed

TALLY := $(HOST)/tally
CI_SAID := $(HOST)/rt-ci

# What is fast comes first.
AT_ONCE := tidy generated chains sentences gate-test rust-fmt

# What is run outside the prover, once rt ci has proved it. HOSTS=none is for a machine of another processor that cannot run
# hosts: the proofs are the same there.
RUN_OUTSIDE := machine replay-cases differential-gate fuzz-gate host-test constants store-example replay-streams
AFTER := rust-clippy $(if $(filter none,$(HOSTS)),hosts-left-out,assumptions $(RUN_OUTSIDE))

# How much the gate runs. An emulator is slow, so there it is less; each run still fails where something that must come up did
# not. docs/RELIABILITY.md has the figures of both, and `make figures` compares them.
GATE_SEED := 1
GATE_FUZZ_SEED := 1
VALGRIND_CALLS := 300
VALGRIND_STREAMS := 50
ifneq ($(NATIVE),)
GATE_FUZZ_CALLS := 200000
GATE_RANDOM_CALLS := 20000
GATE_STREAMS := 2000
GATE_THIN_RUNS := 1000
GATE_REQUESTS := 4000000
else
GATE_FUZZ_CALLS := 66000
GATE_RANDOM_CALLS := 5000
GATE_STREAMS := 200
GATE_THIN_RUNS := 200
GATE_REQUESTS := 1000000
endif

.PHONY: test hosts-left-out assumptions figures

# Each line stops the gate where it fails. The last one prints rt ci's last line again, 'N passed, 0 failed'. (That the crates are laid out
# is rt ci's to say: it refuses what `rt fmt` would change.) What earlier runs printed is no figure of this one.
test:
	@$(MAKE) --no-print-directory $(AT_ONCE)
	@tools/rt-ci $(TALLY) $(CI_SAID)
	@rm -rf $(SAID)
	@$(MAKE) --no-print-directory library replay
	@echo 'test: two at a time, each shown when it is done: $(AFTER)'
	@$(MAKE) --no-print-directory --jobs=2 --output-sync=target SIDE_BY_SIDE=yes $(AFTER)
	@$(if $(filter none,$(HOSTS)),,$(MAKE) --no-print-directory figures)
	@tools/edits-judge $(CI_SAID)
	@cat $(TALLY)

hosts-left-out:
	@test -z '$(NATIVE)' || { echo 'HOSTS=none is for machines that are not x86-64' >&2; exit 1; }
	@echo 'test: $(MACHINE): HOSTS=none leaves out what has to run outside the prover: $(RUN_OUTSIDE)'

assumptions: $(SAID)/last-lines
	@sed -n 's/^\([^:]*\): .* axioms=\([0-9]*\) .*/assumptions: \1 counts \2/p' $<

$(SAID)/last-lines: $(CI_SAID) $(ARCHIVE)
	@mkdir -p $(SAID)
	@tools/last-lines $(CI_SAID) > $@

figures: $(SAID)/last-lines
	@python3 tests/docs/figures.py $(SAID) $(if $(NATIVE),x86-64,other) $(if $(HAVE_ORIGINAL),,without-original)
