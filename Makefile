# Two commands do everything: `make run` and `make test`.
.PHONY: help run test bench fuzz annotate ttw install ready-arm library library-arm test-arm install-arm

# Where `make install` puts things; how long and from which seed `make fuzz` runs.
PREFIX = /usr/local
SECONDS = 60
SEED = 1

CARGO = ../scripts/x86-64 cargo --offline --quiet
BUILD_TTW = cd host && $(CARGO) build --release --package ttw

# For scripts/install, whatever bytes it has. DESTDIR, where it is given, make hands on by itself.
export PREFIX

help:
	@echo 'make run       print the labels of the sample files and cut their packs'
	@echo 'make test      prove every crate, try the must-fail edits, run the host tests'
	@echo 'make ttw       build the command ttw: host/target/release/ttw'
	@echo 'make install   copy library, header, pkg-config file, ttw and its man page below PREFIX=/usr/local, staged in DESTDIR'
	@echo 'make bench     time each call beside a plain compiled version'
	@echo 'make fuzz      try the calls on mutated and hand-made input for SECONDS=60 from SEED=1'
	@echo 'make annotate  print the packs of docs/PACK.md byte by byte'
	@echo 'make ready-arm fetch what an Arm machine needs to run all this (root, Debian 12)'
	@echo 'make library-arm  build the library for the handset, an AArch64 machine'
	@echo 'make test-arm     compare its calls with the second program, under an emulator'
	@echo 'make install-arm  copy it with header and pkg-config file below PREFIX=..'

# The samples have a code that is refused, which ttw tells with status 1.
run:
	@scripts/prove ttwibonal labels
	@$(BUILD_TTW)
	@cd samples && ../target/bin/labels
	@host/target/release/ttw pack samples/changes1 samples/changes2 --all --out target/packs 2>&1; [ $$? -le 1 ]

test:
	@scripts/test

ready-arm:
	@scripts/ready-arm

# The proved libraries, for all that links them.
library:
	@scripts/prove ttwibonal ttwvan

ttw: library
	@$(BUILD_TTW)

install: ttw
	@scripts/install "$$PREFIX"

# The same for the handset's machine. What stands below /usr/local is this machine's, so PREFIX has to be said.
library-arm: library
	@scripts/library-arm ttwibonal
	@scripts/library-arm ttwvan

test-arm:
	@scripts/test-arm

install-arm:
	@[ '$(origin PREFIX)' != file ] || { echo 'usage: make install-arm PREFIX=..' >&2; exit 2; }
	@$(MAKE) --no-print-directory library-arm
	@scripts/install --arm "$$PREFIX"

# On Arm it is the handset's library that is timed: that one runs there without an emulator.
bench: $(if $(filter aarch64,$(shell uname -m)),library-arm,library)
	@cd host && cargo --offline --quiet build --release --target-dir target/bench --package ttw --package ttw-bench
	@host/target/bench/release/bench

fuzz: library
	@cd host && $(CARGO) run --release --package ttw-fuzz -- --seconds $(SECONDS) --seed $(SEED)

annotate:
	@scripts/prove ttwibonal test_leaves
	@cd host && $(CARGO) run --package ttw-trials --bin annotate
