# make plan     proves, builds the programs, and plans the sample line
# make build    bin/plan, bin/check and the archive for C, target/staticlib/libmasters.a
# make test     the gate: all proofs and all tests
# make check    proves what changed
# make fmt      lays out every source
# make bench    measures the verified calls beside plain Rust
# make stack    measures the stack that calls and programs take
SHELL = /bin/sh
.PHONY: plan build test test-rest check fmt bench edits sizes names stack

plan: build
	@bin/plan <examples/pasteuriser.book

build: check
	@mkdir -p bin target
	@sh tests/build plan check_list masters >target/build.log 2>&1 || { cat target/build.log; exit 1; }
	@cp target/bin/plan bin/plan
	@cp target/bin/check_list bin/check

test:
	@.ci/run

# the tests beside rt ci, after it: tests/*/*.sh, counted
test-rest:
	@sh tests/all

check:
	@rt all check

fmt:
	@for crate in crates/*/; do (cd "$$crate" && rt fmt) || exit 1; done

bench:
	@sh tests/made
	@cargo run --offline --locked --quiet --release --manifest-path tests/reference/compare/Cargo.toml --bin bench

stack:
	@tests/masters/stack.sh

# docs/EDITS.md, from what the last run of the gate said of each edit
edits:
	@{ printf '# Must-fail edits\n\nEach edit keeps the code'"'"'s shape, and the prover refuses it. The witness is an input, the right answer and the wrong one; the file, in the edit'"'"'s crate, is where the prover finds the first fact that fails.\n'; \
	printf 'The gate holds this page against its own run; `make edits` writes it.\n\n| edit | witness | refused at |\n|---|---|---|\n'; \
	awk -f tests/gate/edits.awk target/ci.log | LC_ALL=C sort; } >docs/EDITS.md

# docs/SIZES.md, from the sources and the last run of the gate
sizes:
	@mkdir -p target
	@sh tests/gate/sizes >target/sizes && cp target/sizes docs/SIZES.md

# docs/NAMES.md: where each name of docs/PROMISES.md stands
names:
	@mkdir -p target
	@sh tests/gate/where.sh page >target/names && cp target/names docs/NAMES.md
