# The proved library against the original: differential runs, recorded answers, benchmark.
#
#   make differential-gate                       the comparison that `make test` makes: a fixed seed; recorded answers; departures
#   make differential SEED=7 REQUESTS=100000000  any seed, any number of requests from 1,000,000 on
#   make departures                              the tables of docs/DIFFERENCES.md, each row tried
#   make record                                  write crates/recorded/data and crates/ghosts' stdin and stdout anew from the original
#   make bench                                   the figures of docs/SPEED.md, on any processor
#
# Where the original is not there the gate goes on, since its recorded answers are compared without it. The other targets
# need it.

GHOSTS := crates/ghosts
RECORDED_CASES := $(addprefix $(RECORDED)/,few.bin many.bin most.bin)

DIFFERENTIAL := $(CARGO) run $(CARGO_FLAGS) -p differential --bin differential --
RECORD := $(CARGO) run $(CARGO_FLAGS) -p differential --bin record --
# Built as hosts build, and not with the checks of the tests; and for this processor, whichever it is, since under an emulator
# times say nothing.
BENCH := $(call cargo_over,$(TIMED_ARCHIVE)) run \
	$(filter-out --release,$(CARGO_FLAGS)) --profile timed -p bench --

.PHONY: differential-gate differential departures record bench need-original

ifneq ($(HAVE_ORIGINAL),)
differential-gate: $(ARCHIVE)
	@$(call said,record,$(RECORD) check $(RECORDED) $(GHOSTS))
	@$(DIFFERENTIAL) replay $(RECORDED_CASES)
	@$(call said,departures,$(DIFFERENTIAL) departures)
	@python3 tests/docs/tables.py docs/DIFFERENCES.md $(SAID)/departures
	@$(call said,differential,$(DIFFERENTIAL) run $(GATE_SEED) $(GATE_REQUESTS))
else
differential-gate:
	@echo 'differential-gate: ORIGINAL=$(ORIGINAL) does not hold the original: only its recorded answers are compared'
	@test '$(STRICT)' != 1
endif

need-original:
	@test -n '$(HAVE_ORIGINAL)' || { echo 'ORIGINAL=$(ORIGINAL) does not hold the original (src/policy/s3_fifo.rs): README.md says where to get it' >&2; exit 1; }

differential: need-original $(ARCHIVE)
	@$(DIFFERENTIAL) run $(SEED) $(REQUESTS)

departures: need-original $(ARCHIVE)
	@$(DIFFERENTIAL) departures

record: need-original $(ARCHIVE)
	@mkdir -p $(RECORDED)
	@$(RECORD) write $(RECORDED) $(GHOSTS)

ifeq ($(NATIVE),)
$(TIMED_ARCHIVE): $(ARCHIVE) tools/own-archive
	@tools/own-archive $@
endif

bench: need-original $(TIMED_ARCHIVE)
	@test '$(STRICT)' != 1 || command -v valgrind > /dev/null || { echo 'bench: there is no valgrind to count instructions' >&2; exit 1; }
	@$(BENCH)
