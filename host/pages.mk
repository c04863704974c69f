# Pages and pictures of what the host kit and the prover have to tell, for the root Makefile to include
# behind Makefile.inc, whose names it uses.

.PHONY: bench bench-docs instructions speed-plot believe evidence timeline

# Nanoseconds beside an ordinary Rust server: to target/speed.md, with a picture.
bench: library
	$(CARGO) run $(HOST_FLAGS) --profile speed -q -p bench -- --write target/speed.md --plot target/speed.svg

# The same to the page and the picture in docs/, on a machine with nothing else to do.
bench-docs: library
	$(CARGO) run $(HOST_FLAGS) --profile speed -q -p bench -- --write docs/SPEED.md --plot docs/speed.svg

# Instructions of a call, library and ordinary server, workload by workload; valgrind counts them. WRITE=docs/SPEED.md
# puts the table into that page.
instructions: library
	$(CARGO) run $(HOST_FLAGS) --profile speed -q -p bench -- --instructions 60000 $(if $(WRITE),--write $(WRITE))

# The picture of the table that docs/SPEED.md has, without measuring.
speed-plot:
	$(CARGO) run $(HOST_FLAGS) -q -p bench -- --from docs/SPEED.md --plot docs/speed.svg

# The definitions that a reader must believe (docs/believe.txt), with their lines.
believe:
	@$(CARGO) run $(HOST_FLAGS) -q -p record --bin believe

# One page of what was built, proved, run and measured, and what was not: target/evidence.md. The
# archive is built a second time from a copy of the sources; FRESH=1 proves that copy from nothing.
evidence:
	bash $(HOST)/prove.sh $(RT)
	$(MAKE) --no-print-directory bench
	RT=$(RT) bash $(HOST)/second_build.sh $(ARCHIVE) target/second.a $(FRESH)
	$(CARGO) run $(HOST_FLAGS) --release -q -p evidence -- --second target/second.a --write target/evidence.md

# make timeline LIST=my.txt PICTURE=my.svg: a list of events with their answers, one lane a session.
# make timeline LIST=gateway.log PICTURE=my.svg FROM=2026-11-16T06:50 TO=2026-11-16T06:55: the same of a
# gateway's log; without FROM and TO all of it.
LIST    ?= $(HOST)/timeline/lists/three_programs.txt
PICTURE ?= docs/timeline.svg
timeline:
	@$(CARGO) run $(HOST_FLAGS) -q -p timeline -- $(LIST) $(PICTURE) $(FROM) $(TO)
