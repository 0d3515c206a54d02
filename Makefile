# The static library, the tests and benchmarks from outside, and the server. The gate itself is `rt ci`.
SHELL := /bin/bash
.SHELLFLAGS := -eu -o pipefail -c

LIB := target/staticlib/libbirkenschuh.a
HEADER := include/birkenschuh.h
# Where `rt lib` leaves it. Beside it are copies of sources, which nothing is made from here.
MADE := crates/birkenschuh/out/libbirkenschuh.a
RATTLE := $(shell find crates -name out -prune -o \( -path '*/src*' -o -path '*/specs*' -o -path '*/proofs*' \) -print) crates.txt
CARGO := cargo --quiet

# What a failed rule left behind must not be taken for its result.
.DELETE_ON_ERROR:

.PHONY: check check-all lib check-host check-scripts bench

# Every crate proved and every program run (not the edits that must be refused: those are the gate's), then the tests from
# outside. The last line counts them all.
check:
	@scripts/need rt cc g++ cargo pkg-config
	@scripts/total $(MAKE) --no-print-directory check-all

check-all:
	@scripts/prove target/check.log . all test
	@$(MAKE) --no-print-directory check-host check-scripts

# Proves the crates below the library and builds it; nothing is done where nothing changed.
lib: $(LIB)
	@echo "library: $(CURDIR)/$(LIB)"
	@echo "header:  $(CURDIR)/$(HEADER)"

$(LIB): $(RATTLE)
	@scripts/prove target/staticlib.log crates/birkenschuh lib
	@mkdir -p $(@D)
	@cp $(MADE) $@

# The header from C and C++; the stack that each call needs; the wrapper's tests; the library against an implementation of its own, some
# millions of calls.
STRICT := -O2 -pedantic-errors -Wall -Wextra -Werror -Iinclude
check-host: lib
	cc -std=c11 $(STRICT) include/tests/header.c $(LIB) -o target/header
	scripts/counted target/header.log target/header
	g++ -std=c++17 $(STRICT) -x c++ include/tests/header.c -x none $(LIB) -o target/header-c++
	scripts/counted target/header-c++.log target/header-c++
	cc -std=c11 $(STRICT) include/tests/stack.c $(LIB) -o target/stack
	scripts/counted target/stack.log target/stack
	cd rust && ../scripts/counted ../target/cargo-test.log $(CARGO) test --release --workspace --exclude bench

# What somebody sees in the first minutes, with tools that only pretend; and what `make install` leaves.
check-scripts: lib
	scripts/counted target/first-minutes.log scripts/tests/first-minutes
	scripts/counted target/install.log scripts/tests/install

# One table: ours beside a peer, same input, same run (docs/PERFORMANCE.md).
bench: lib
	cd rust && $(CARGO) run --release -p bench

-include rust/epmd/server.mk rust/epmd/dist/install.mk
