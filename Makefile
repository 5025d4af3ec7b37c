# `make run` proves the program and what it uses, and reads the sample lines of the tomato card.
.PHONY: run
run:
	cd crates/lines && rt run < /dev/null > /dev/null
	@tools/sample

# `make lib` leaves the archive and its header in one folder.
.PHONY: lib
lib:
	@tools/archive

# `make test` is the gate: it proves everything from nothing, tries every edit that must be refused, and compares what was built.
.PHONY: test
test:
	.ci/run

# `make bench` times the calls against another implementation, in one run, and writes docs/bench.csv and docs/read-time.svg.
.PHONY: bench
bench: lib
	tools/compare bench
