# make test      proves every crate, tries the must-fail edits, runs the programs and the C tests; ends with 'N passed, 0 failed'
# make run       decodes the records of samples/three.bin; INPUT=file decodes another file's
# make lost      decodes the first record of samples/grease.bin with columns 1 and 4 lost; INPUT=file and LOST=1,4 give others
# make salvage   keeps the records of INPUT=file that decode as corrected, in CLEAN=target/clean.bin, and lists what it kept and skipped
# make lib       builds target/staticlib/libfirmware.a for C callers, and the examples with it, and runs those
# make compare   the library against the second program; COUNT=100000 calls, SEED=1
# make powers    how often rows are corrected by their powers beyond half the distance; ROWS=20000 rows of each code
# make bench     a table of the standard cases, beside a plain C decoder
# make fuzz      arbitrary bytes for the C functions and for the record program; SECONDS_EACH=30 for each, SEED=1
# make check     the proofs alone; make fmt lays the sources out; make clean removes what was built
INPUT ?= samples/three.bin
COUNT ?= 100000
SEED ?= 20261115
SECONDS_EACH ?= 30
.PHONY: all test run lost salvage lib compare powers bench fuzz check fmt clean

all: test

test:
	@tests/run

run:
	@tests/decode '$(INPUT)'

lost: INPUT = samples/grease.bin
lost: LOST = 1,4
lost:
	@tests/lost '$(INPUT)' '$(LOST)'

salvage: INPUT = samples/card.bin
salvage: CLEAN = target/clean.bin
salvage:
	@tests/keep '$(INPUT)' '$(CLEAN)'

lib:
	@tests/example

compare:
	@COUNT=$(COUNT) SEED=$(SEED) tests/firmware

powers:
	@tests/powers

bench:
	@tests/bench/run

fuzz:
	@SECONDS_EACH=$(SECONDS_EACH) SEED=$(SEED) tests/fuzz

check:
	@rt all check

fmt:
	@for crate in crates/*/; do (cd "$$crate" && rt fmt) || exit 1; done

clean:
	rm -rf target crates/*/out
