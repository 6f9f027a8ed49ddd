# make run    the program tallies on its network
# make test   the gate: every proof and must-fail edit, then the comparison with the second implementation and the lists
# make library the static library, target/staticlib/libengine.a
# make inspect the program inspect, target/bin/inspect
# make lists  lists of calls from a third implementation, with their answers
# make bench  engine and second implementation side by side
# make fuzz   coverage-guided fuzzing of the C interface under AddressSanitizer, an hour on two cores
# make long-compare a long comparison on generated input
# make memory lists of calls under valgrind
# make scenarios published set-ups, with the published figure and ours side by side

CARGO = cargo --offline
HARNESS = harness/target/release
LIBRARY = target/staticlib/libengine.a
SOURCES := crates.txt $(shell find crates -type f -not -path '*/out/*')
CFLAGS = -std=c11 -Wall -Wextra -Werror -pedantic -O1 -g
VALGRIND = valgrind --error-exitcode=9 -q
FILES = 200000
INPUTS = 10000000
FUZZ_SECONDS = 3600
MEMORY = 300
SEED = 20261115

.PHONY: run test lists library inspect bench fuzz fuzzer fuzz-check long-compare harness oracle-tests c-tests inspect-tests memory scenarios

run:
	cd crates/tallies && rt run < stdin

test:
	bash tools/gate FILES=$(FILES) SEED=$(SEED)

# tests/lists/README.md says where they come from and how they are written.
lists: harness
	$(HARNESS)/play tests/lists

bench: harness
	$(HARNESS)/bench

long-compare: harness
	$(HARNESS)/compare --fuzz $(INPUTS) --seed $(SEED)

# docs/RELIABILITY.md says what is instrumented and what a finding looks like. Not a part of the gate.
fuzz: fuzzer
	fuzz/run $(FUZZ_SECONDS) $(SEED)

fuzzer: target/fuzz/libengine.a
	cd fuzz && ENGINE_DIR=../target/fuzz $(CARGO) build --release
	clang -fsanitize=fuzzer,address fuzz/target/release/libfuzz.a -lm -o target/fuzz/fuzz

# That the target still compiles, with the library as it is.
fuzz-check: $(LIBRARY)
	cd fuzz && $(CARGO) check -q --release

target/fuzz/libengine.a: fuzz/instrument $(LIBRARY)
	fuzz/instrument

# The static library is rebuilt from proved crates only: rt refuses to write it otherwise.
$(LIBRARY): $(SOURCES)
	cd crates/engine && rt lib
	mkdir -p target/staticlib
	cp crates/engine/out/libengine.a $@

library: $(LIBRARY)

harness: $(LIBRARY)
	cd harness && $(CARGO) build --release

# docs/SCENARIOS.md says what each run takes from its source and what it assumes. Not a part of the gate.
scenarios: harness
	$(HARNESS)/scenarios

oracle-tests:
	cd oracle && $(CARGO) test -q

c-tests: target/c/tallies target/c/first
	target/c/tallies
	target/c/first < tests/inspect/network | diff target/c/first.expected -

target/c/tallies: tests/c/tallies.c include/engine.h $(LIBRARY)
	mkdir -p target/c
	gcc $(CFLAGS) -Iinclude $< $(LIBRARY) -o $@

# README's first study, as it stands there, and what README says that it prints.
target/c/first: README.md include/engine.h $(LIBRARY)
	mkdir -p target/c
	sed -n '/^```c$$/,/^```$$/p' README.md | sed '1d;$$d' > $@.c
	sed -n '/^live:/p;/^held:/p' README.md > $@.expected
	gcc $(CFLAGS) -Iinclude $@.c $(LIBRARY) -o $@

inspect: target/bin/inspect

inspect-tests: target/bin/inspect
	tests/inspect/run target/bin/inspect

target/bin/inspect: $(SOURCES)
	cd crates/inspect && rt run < stdin > /dev/null
	mkdir -p target/bin
	cp crates/inspect/out/inspect $@

# In every second list the arrays end where what is lent ends, so that valgrind sees any touch past it.
memory: harness target/c/tallies
	@command -v valgrind > /dev/null || { echo 'valgrind is not installed: memory is not checked'; exit 1; }
	$(VALGRIND) target/c/tallies
	$(VALGRIND) $(HARNESS)/compare --calls $(MEMORY) --seed $(SEED)
