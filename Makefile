# `make` alone lists what there is. Nothing but the toolchain is needed; the gate also wants cargo, for the second program, and Python, for its zlib.

.PHONY: help run join replay trail test
help:
	@echo "make run                 the board after a sample match (samples/match.kmsg)"
	@echo "make run INPUT=file      the board after one's own lines"
	@echo "make join                a referee's lines put together from their pieces (samples/referee.kmsg)"
	@echo "make join INPUT=file     the same for one's own lines"
	@echo "make replay              what a box answers to a sample script of calls (samples/rehearsal.script)"
	@echo "make replay INPUT=file   the same for one's own script"
	@echo "make trail               the records of a sample saved trail, and how it ended (samples/trail.image)"
	@echo "make trail INPUT=file    the same for one's own image, as samples/trail-callers.image, whose records have callers, or samples/trail-cut.image, which a power cut left over an older one"
	@echo "make test                the whole gate: every crate proved, every wrong program refused, every program run and compared; an hour or two from nothing, minutes where the machine keeps what it proved"
	@echo
	@echo "README.md says what the calls are, docs/ARCHITECTURE.md where things stand."

run: INPUT ?= samples/match.kmsg
run:
	@bash tools/proved receiver
	@echo "the board after $(INPUT):"
	@crates/receiver/out/receiver <"$(INPUT)"

join: INPUT ?= samples/referee.kmsg
join:
	@bash tools/proved join_lines
	@echo "the texts of $(INPUT), put together:"
	@crates/join_lines/out/join_lines <"$(INPUT)"

replay: INPUT ?= samples/rehearsal.script
replay:
	@bash tools/proved replay
	@crates/replay/out/replay <"$(INPUT)"

trail: INPUT ?= samples/trail.image
trail:
	@bash tools/proved trail
	@crates/trail/out/trail <"$(INPUT)"

test:
	bash .ci/run
