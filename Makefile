# What a person types; README.md starts with the first two, CONTRIBUTING.md with the next.
PREFIX ?= /usr/local
SEED ?= 1
MINUTES ?= 10
SHELL := bash
.SHELLFLAGS := -eu -o pipefail -c
CRATES = $(shell sed -nE 's/^(\w+)( staticlib)?:.*/\1/p' crates.txt)
.PHONY: bench test dev quick soak benchmark archive install format

# proves and builds the bench, then runs the worked example
bench:
	. tests/lib.sh; build_bench
	bin/run-hex examples/half-the-copies.hex

# the gate: layout, every proof, every edit that must fail, the programs; then each folder of tests/: C, documentation,
# the scenarios of examples/, valgrind, Rust
test:
	bash .ci/run

# the edit loop of one crate, CRATE: what it rests on is proved first, then an edit costs seconds; not the verdict
dev:
	$(if $(filter $(CRATES),$(CRATE)),,$(error make dev CRATE=NAME, where NAME is one of crates.txt: $(CRATES)))
	cd crates/$(CRATE) && rt check

# the gate's quick part: every proof that a change reached; then documentation and the scenarios of examples/
quick:
	rt all check
	bash tests/docs/run
	bash tests/examples/run

# compares the archive and the bench with the second implementation on random inputs, for MINUTES but once at least
soak:
	bash tests/rust/soak $(SEED) $(MINUTES)

# ratios of the archive's times to the plain version's
benchmark:
	bash tests/rust/benchmark

# proves and builds target/staticlib/libloargwen.a
archive:
	. tests/lib.sh; build_archive loargwen

install: archive
	. tests/lib.sh; build_bench
	install -D -m 755 crates/bench/out/bench $(DESTDIR)$(PREFIX)/bin/loargwen-bench
	install -D -m 644 include/loargwen.h $(DESTDIR)$(PREFIX)/include/loargwen.h
	install -D -m 644 target/staticlib/libloargwen.a $(DESTDIR)$(PREFIX)/lib/libloargwen.a
	install -d $(DESTDIR)$(PREFIX)/lib/pkgconfig
	sed 's|@PREFIX@|$(PREFIX)|' loargwen.pc.in >$(DESTDIR)$(PREFIX)/lib/pkgconfig/loargwen.pc

format:
	$(foreach crate,$(CRATES),(cd crates/$(crate) && rt fmt);)
