# Builds the library for C, installs it, compares it with the second program, times it beside its twin in C, and runs its example and its
# tests. All that is built lies under target/, out/ and crates/*/out/, but for the picture docs/speed.svg.

PREFIX = /usr/local
DESTDIR =
CFLAGS = -O2
INSTALL = install

header = include/scaltrovina.h
archive = target/staticlib/libscaltrovina.a
example = target/examples/line
sources := crates.txt $(shell find crates -name out -prune -o \( -name '*.rt' -o -name '*.antt' \) -print)

# The version stands in the header alone.
version = $(shell awk '$$2 ~ /^SCAL_VERSION_(MAJOR|MINOR|PATCH)$$/ { v = v dot $$3; dot = "." } END { print v }' $(header))

all: $(archive)

# `rt all check` proves on all processors, and `rt lib` leaves the archive in the folder of its crate.
$(archive): $(sources)
	rt all check --jobs $$(nproc)
	cd crates/scaltrovina && rt lib
	mkdir -p $(@D)
	cp crates/scaltrovina/out/libscaltrovina.a $@

install: $(archive)
	$(INSTALL) -d '$(DESTDIR)$(PREFIX)/include' '$(DESTDIR)$(PREFIX)/lib/pkgconfig'
	$(INSTALL) -m 644 $(header) '$(DESTDIR)$(PREFIX)/include/'
	$(INSTALL) -m 644 $(archive) '$(DESTDIR)$(PREFIX)/lib/'
	prefix='$(PREFIX)' awk '/@PREFIX@/ { print "prefix=" ENVIRON["prefix"]; next } { sub(/@VERSION@/, "$(version)"); print }' \
		scaltrovina.pc.in >'$(DESTDIR)$(PREFIX)/lib/pkgconfig/scaltrovina.pc'
	chmod 644 '$(DESTDIR)$(PREFIX)/lib/pkgconfig/scaltrovina.pc'

$(example): examples/line.c $(header) $(archive)
	mkdir -p $(@D)
	$(CC) -std=c99 -Wall -Wextra -Wpedantic -Werror $(CFLAGS) -Iinclude -o $@ examples/line.c $(archive)

example: $(example)
	$(example)

# Rust's installer puts cargo into a folder that a plain PATH may not have.
compare mutants: export PATH := $(PATH):$(or $(CARGO_HOME),$(HOME)/.cargo)/bin

# The library against the second program, for so many seconds behind what is always tried.
SECONDS = 60

compare: $(archive)
	CARGO_TARGET_DIR='$(CURDIR)/target/cargo' cargo run --offline --release -q --manifest-path tests/compare/Cargo.toml -- --seconds $(SECONDS)

# Slips in the second program and faults of the library, which the comparison has to report.
mutants: $(archive)
	PYTHONDONTWRITEBYTECODE=1 python3 tests/compare/mutants.py

# Each call against its hand-written twin in C; the programs differ in where their code lies.
bench = target/bench/bench
benches = $(bench) $(bench)1 $(bench)2 $(bench)3

$(benches): tests/bench/bench.c tests/bench/twin.c tests/bench/twin.h $(header) $(archive)
	mkdir -p $(@D)
	$(CC) -std=c99 -O3 -DPLACEMENT=0$(@:$(bench)%=%) -Iinclude -o $@ tests/bench/bench.c tests/bench/twin.c $(archive)

bench: $(bench)
	$(bench)

# The picture docs/speed.svg, and its rows with their instructions as a Markdown table.
ROUNDS = 400

speed: $(benches)
	tests/bench/count.sh $(archive) >target/bench/counts.csv
	for each in $(benches); do $$each --csv --calls 0 --rounds $(ROUNDS) || exit 1; done >target/bench/times.csv
	python3 tests/bench/plot.py target/bench/times.csv target/bench/counts.csv docs/speed.svg

test:
	.ci/run

clean:
	rm -rf target out crates/*/out

.PHONY: all install example compare mutants bench speed test clean
