# make run: builds what is needed, plays the first example, says in words what happened, and explains a client's bytes.
# make test: the whole test, as it is run before every landing.
# make soak SECONDS=600: compares the built programs with the second opinion in reference/ for so many seconds, with new seeds.
.PHONY: run test soak
SHELL = bash
.SHELLFLAGS = -o pipefail -c

run:
	bash tests/build
	@echo "--- examples/first.script:"
	target/bin/gate < examples/first.script | bash tools/words
	@echo "--- examples/client.http:"
	target/bin/explain examples/client.settings < examples/client.http

test:
	bash tests/run

SECONDS ?= 600
soak:
	cargo build --quiet --release --offline --manifest-path reference/Cargo.toml --target-dir reference/target
	reference/target/release/compare --gate target/bin/gate --explain target/bin/explain --scripts 100 --inputs 300 --soak $(SECONDS)
