# Commands on a machine that has the kit: `make demo`, `make build`, `make test`, `make bench`.

.PHONY: demo build test bench

# Shows what the program does on a fresh spool in a folder of its own, and delivers a message to q_hop.
# That alone is proved first, since it is to run as a process. What the tools say is kept apart, and shown
# where they fail.
demo:
	@log=$$(mktemp) && if (cd crates/q_hop && rt run) >$$log.out 2>$$log && \
	(cd crates/demo_spool && rt try -- $(CURDIR)/crates/q_hop/out/q_hop) >$$log.out 2>$$log; \
	then grep -v -e '^checked: ' -e '^run=' $$log.out; status=0; else cat $$log.out $$log; status=1; fi; \
	rm -f $$log $$log.out; exit $$status

# Proves what the program stands on, without tests and refused edits, and leaves it as build/qmgr.
build:
	cd crates/qmgr && rt run -- --version
	mkdir -p build && cp crates/qmgr/out/qmgr build/qmgr

# Proves everything and runs every test: the gate.
test:
	.ci/run

# Measures the built program on real folders, and how fast it delivers mail to q_hop.
bench: build
	cd crates/q_hop && rt run
	bench/spool
	bench/drain
	bench/marks
	bench/intake
