# The replay program on recorded cases and on streams.
#
#   make replay-cases    pipes the recorded cases through the replay program and compares byte for byte
#   make replay-streams  the program on slow, long and broken streams
#   make generated       the files that scripts write are what the scripts give (tests/generated/check.py has the list)
#   make calls           writes the calls with the rules' answers anew (tools/make_calls.py)
#   make sizes           writes what the program `sizes` is run on anew (tools/make_sizes.py)

.PHONY: replay-cases replay-streams generated calls sizes

replay-cases: $(REPLAY) | $(HOST)
	@python3 tools/make_calls.py $(HOST)/calls.steps $(HOST)/calls.cases $(HOST)
	@$(call said,replay-cases,python3 tests/replay/cases.py $(REPLAY) $(RECORDED_CASES) $(HOST)/calls.cases)

replay-streams: $(REPLAY)
	@$(call said,replay-streams,REPLAY='$(abspath $(REPLAY))' STRICT='$(STRICT)' python3 tests/replay/test_streams.py)

generated:
	@python3 tests/generated/check.py

calls: | $(HOST)
	@python3 tools/make_calls.py $(RECORDED)/calls.bin $(HOST)/calls.cases crates/replay

sizes:
	@python3 tools/make_sizes.py crates/sizes
