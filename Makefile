# `make` alone lists the targets. `rt` is the prover; RT=.. names another command for it, on the PATH or by its whole path.
RT      ?= rt
ARCHIVE ?= target/libhislip.a
# the crate whose exported functions are the interface
EXPORTS  = hislip_c

# the program that judges a journal, and where the prover leaves it
VERIFY  ?= target/verify
JUDGE   ?= crates/verify/out/verify

.PHONY: help test library verify

help:
	@echo 'make gateway        build the proved library and serve it on 127.0.0.1:4880 (PORT=5000 for another port)'
	@echo "make query          a small HiSLIP client to try it with: make query ARGS='\"*IDN?\"'"
	@echo 'make test           the gate: prove every crate, try every must-fail edit, run every test'
	@echo 'make library        the archive that a host links: $(ARCHIVE), with the headers of include/'
	@echo "make verify         the program that judges a journal: $(VERIFY) FILE VENDOR MODE"
	@echo 'make install        headers, archive and pkg-config file to PREFIX (/usr/local)'
	@echo 'make host-test      the tests of the host kit against the archive'
	@echo 'make selftest       every wrong server must be found by the comparison that conform makes'
	@echo 'make conform        the library beside the reference on nine million events; make soak MINUTES=60 for longer'
	@echo 'make bench          speed beside an ordinary Rust server, to target/speed.md; make bench-docs to docs/SPEED.md'
	@echo 'make instructions   the same in instructions of a call, counted by valgrind'
	@echo "make timeline       a gateway's log, or a list of events, as a picture, one lane a session (LIST=, PICTURE=, FROM=, TO=)"
	@echo "make journal        a journal's entries, or its readings with what led to each: make journal ARGS='readings FILE'"
	@echo 'make believe        the definitions that a reader must believe, with their lines'
	@echo 'make evidence       one page of what was built, proved, run and measured, and what was not: target/evidence.md'

# `make test` is what the gate runs.
test:
	bash .ci/run

# What is proved already is not proved again: nothing at all if no source has changed, else rt says which crates.
library:
	@bash host/build_archive.sh $(ARCHIVE) $(RT) $(EXPORTS)

# The prover builds a program by running it: on a book that is accepted.
verify:
	cd crates/verify && $(RT) run -- data/book 4141 synchronized
	@mkdir -p $(dir $(VERIFY))
	install -m 755 $(JUDGE) $(VERIFY)

include include/install.mk
include host/Makefile.inc
include host/pages.mk
