# bench: plays lines on the bench program.   test: the whole gate.   compare: the proved code against the independent program.
# mistakes: looks up that each mistake of the must-fail edits is refused for itself.
# speed: the proved code beside plain Rust.   size: where the library's bytes go.   picture: a motif in target/picture.pgm.
# example: the sample line from C.
# What is being proved, and how far the comparison is, goes to standard error.
COUNT ?= 120000
SEED ?= 1
DRAWINGS ?= 10000
IMAGES ?= 20000
STRETCHES ?= 14000
OUTLINES ?= 20000
INPUT ?= crates/bench/stdin

.PHONY: bench test mistakes compare speed size picture example library

bench:
	@scripts/prove.sh run bench
	@crates/bench/out/bench < $(INPUT)

test:
	.ci/run

mistakes:
	@tests/mistakes.sh

compare: library
	@cargo run --offline --quiet --release --manifest-path compare/Cargo.toml --bin compare -- \
		seed=$(SEED) images=$(IMAGES) drawings=$(DRAWINGS) stretches=$(STRETCHES) outlines=$(OUTLINES) sequences=$(COUNT)

speed: library
	@cargo run --offline --quiet --profile speed --manifest-path compare/Cargo.toml --bin speed
	@size target/staticlib/libboard.a | awk 'NR > 1 { text += $$1 } END { print "libboard.a: " text " bytes of text" }'

size: library
	@scripts/size.sh target/staticlib/libboard.a
	@scripts/size.sh target/staticlib/libleaves.a

picture: library
	@cargo run --offline --quiet --release --manifest-path compare/Cargo.toml --bin picture -- target/picture.pgm

example: library
	@gcc -std=c99 -Wall -Wextra -Werror -pedantic -O2 c/sample.c target/staticlib/libboard.a -o target/sample
	@! command -v g++ > /dev/null || g++ -Wall -Wextra -Werror -pedantic -fsyntax-only -x c++ c/xga.h
	@target/sample > target/sample.out
	@diff target/sample.out c/sample.out && cat target/sample.out

# The archives take the names of the libraries, and stay as they are where nothing in them changed.
library:
	@mkdir -p target/staticlib
	@for name in leaves board; do \
		scripts/prove.sh lib $${name}_c || exit 1; \
		cmp -s crates/$${name}_c/out/lib$${name}_c.a target/staticlib/lib$$name.a || \
			cp crates/$${name}_c/out/lib$${name}_c.a target/staticlib/lib$$name.a || exit 1; \
	done
