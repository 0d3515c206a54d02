# The port mapper for real Erlang nodes. Included by the Makefile at the top; all paths are from there.
#
#   make program                  prove and build it
#   make run ARGS='--port 4369'   prove, build and start it
#   make check-interop            its tests, with real Erlang nodes and against the real epmd; and whole handshakes with real nodes
#   make bench-epmd               look-ups and registrations a second, against the real epmd

PROGRAM := rust/target/release/birken-epmd
PROGRAM_SOURCES := $(shell find rust/src rust/epmd/src -name '*.rs') \
    rust/build.rs rust/Cargo.toml rust/Cargo.lock rust/epmd/Cargo.toml

.PHONY: program run need-program check-interop bench-epmd erlang

program: need-program $(PROGRAM)

run: program
	@exec $(PROGRAM) $(ARGS)

$(PROGRAM): $(LIB) $(PROGRAM_SOURCES)
	@scripts/need cc cargo
	@echo "building $@"
	@cd rust && cargo build --quiet --release -p birken-epmd
	@touch $@

# On a fresh machine all that is missing is told at once, before anything is proved.
need-program:
	@[ -e $(PROGRAM) ] || scripts/need $(if $(wildcard $(LIB)),,rt) cc cargo

# Real nodes: Debian's erlang-base has erl and epmd.
erlang:
	@scripts/erlang

# Every wait in the tests is bounded; the time limit ends them, with all that they started, should one hang after all.
check-interop: need-program lib erlang
	@cd rust && cargo test --quiet --no-run -p birken-epmd
	@cd rust && timeout --kill-after=10 120 cargo test --quiet -p birken-epmd
	@cd rust && timeout --kill-after=10 360 cargo test --quiet -p birken-epmd --test interop -- \
	    --include-ignored --test-threads=1 --nocapture

bench-epmd: need-program lib erlang
	@cd rust && timeout --kill-after=10 180 cargo bench --quiet -p birken-epmd --bench epmd
