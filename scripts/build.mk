# Proves the crates that the program needs, independent ones in parallel, and builds it: `make -f scripts/build.mk`, at the top of the
# repository. `scripts/run` calls it. A line of crates.txt reads as a rule: a crate is made after those that it uses.

# the name with which messages begin
NAME = cpmrun
export NAME

# A proof takes at most 3,000 MB with one job, and 1,500 MB more for each further job.
MEMORY := $(shell awk '/^MemAvailable:/ { print int($$2 / 1024) }' /proc/meminfo)
LANES := $(shell cores=$$(nproc) lanes=$$(($(MEMORY) / 5000)); echo $$((lanes < 1 ? 1 : lanes < cores ? lanes : cores)))
MAKEFLAGS += --no-builtin-rules --no-print-directory --jobs=$(LANES)

CRATES := $(notdir $(wildcard crates/*))
# A build takes as long as its longest chain of crates. These are in no long chain: each gets one job, and the time that is left. Every
# other crate gets as many jobs as there are lanes.
SIDE := $(filter records command_words command_tail folders loading,$(CRATES))

.PHONY: program $(CRATES)

program: $(filter i8080,$(CRATES)) executable

include crates.txt

$(filter-out $(SIDE),$(CRATES)):
	@scripts/prove $@ $(LANES) $(filter $(CRATES),$^)

$(SIDE):
	@nice scripts/prove $@ 1 $(filter $(CRATES),$^)

# a library of the kit
.DEFAULT:
	@:
