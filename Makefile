# The two commands: `make monitor` shows a sample in words, `make test` is the whole gate.
# `make test` asks for the kit, runs `rt ci`, and then the tests that stand outside Rattle over what rt ci proved; rt ci's last line,
# 'N passed, 0 failed', is printed behind all of them, and only if all passed and no must-fail edit was bad. What needs Rust, a C compiler,
# valgrind or the original's sources is skipped aloud where they are missing; with CI=true they must be there.

KIT := rattle-kit-13f logic dac8208d650f15bf
SOURCES := $(or $(DEEPMIND_SRC),../shared/docs/src)
export DEEPMIND_SRC := $(abspath $(SOURCES))
LIBRARY := target/staticlib/libcobnutdrill.a
PROVED := Makefile crates.txt crates $(shell find crates -mindepth 2 -name out -prune -o -print)
# What make itself is called: $(MAKE) in a recipe would run that line under `make -n` too.
SELF := $(MAKE)
CARGO := RUSTFLAGS="-D warnings" cargo
IN_COMPARE := --quiet --release --offline --manifest-path compare/Cargo.toml --target-dir target/compare
ORIGINAL := the comparison with the original Rust (DEEPMIND_SRC names its sources)

# Ends a recipe where a tool or a folder is missing: well where that may be, and badly with CI=true.
need = { .ci/need $(1); case $$? in 0) ;; 1) exit 0 ;; *) exit 1 ;; esac; }
need_sources = $(call need,"$(ORIGINAL)" "$(SOURCES)/deepmind-midi")

.PHONY: check test kit outside test-gate lib bench compare compare-all benchmark stack host test-rust test-host test-stack record recorded monitor test-monitor picture

check: kit
	@rt all check

test: kit
	@.ci/gate 'rt ci' 'MAKEFLAGS= $(SELF) --no-print-directory outside'

# The kit that the proofs were checked with.
kit:
	@said=$$(rt version) || { echo "make: the Rattle kit's command rt is needed" >&2; exit 1; }; \
	[ "$$said" = "$(KIT)" ] || { echo "make: this is checked with '$(KIT)', and rt version says '$$said'" >&2; exit 1; }

# The archive for C and Rust to link: the static library cobnutdrill, whose exports are the entry points of every crate host_*.
lib: kit $(LIBRARY)

$(LIBRARY): $(PROVED)
	@mkdir -p $(dir $@)
	@.ci/prove target/lib.log cobnutdrill
	@cp crates/cobnutdrill/out/$(notdir $@) $@

# The bench's programs: over the engine at target/bench, and over the original at target/bench-origin where its sources are at hand.
bench: lib
	@$(call need,"the bench's programs" cargo cc); \
	$(CARGO) build $(IN_COMPARE) -p engine && cp target/compare/release/bench target/ && \
	$(need_sources) && $(CARGO) build $(IN_COMPARE) -p origin -p both && cp target/compare/release/bench-origin target/

# The same requests to the engine and to the original, for some seconds; and that a difference is seen where there is one.
compare: bench
	@$(call need,"$(ORIGINAL)" cargo cc); $(need_sources); \
	target/compare/release/compare --small && \
	! target/compare/release/compare --small --original-limit 2353 > target/compare.other || \
	{ echo "make: the two differ, or an original with another limit was not told apart" >&2; exit 1; }

# Some tens of millions of requests, in a few minutes.
compare-all: bench
	@$(call need,"$(ORIGINAL)" cargo cc); $(need_sources); target/compare/release/compare

# Times the engine beside the original, a line a workload, in some minutes; writes docs/BENCHMARK.md and docs/benchmark.svg. Every function of
# both starts at a cache line, so that a time does not hang on what is linked beside it.
benchmark: lib
	@$(call need,"the benchmark beside the original Rust (DEEPMIND_SRC names its sources)" cargo cc objcopy "$(SOURCES)/deepmind-midi"); \
	mkdir -p target/benchmark && objcopy --set-section-alignment '.text.*=64' $(LIBRARY) target/benchmark/$(notdir $(LIBRARY)) && \
	ENGINE_LIB=$(abspath target/benchmark) RUSTFLAGS="-D warnings -C llvm-args=-align-all-functions=6" \
	cargo build $(subst target/compare,target/benchmark,$(IN_COMPARE)) -p benchmark && KIT='$(KIT)' target/benchmark/release/benchmark docs

# How many bytes of stack each entry point takes at most.
stack: lib
	@$(call need,"the reading of the stack" objdump); examples/stack $(LIBRARY)

# The C host, at target/host.
host: lib
	@$(call need,"the C host" gcc); rm -rf target/host && \
	gcc -std=c99 -Wall -Wextra -Werror -O2 -Iinclude examples/host.c $(LIBRARY) -o target/host

# The picture of the crates, docs/crates.svg, from crates.txt; the tests of compare/ ask that it is current.
picture:
	@$(call need,"the picture of the crates" cargo cc); mkdir -p target && \
	$(CARGO) run $(IN_COMPARE) -p documents -- crates.txt > target/crates.svg && mv target/crates.svg docs/crates.svg

# The tests of compare/.
test-rust: lib
	@$(call need,"the tests in Rust" cargo cc); \
	$(CARGO) test $(IN_COMPARE) -p words -p header -p engine -p documents && \
	$(need_sources) && $(CARGO) test $(IN_COMPARE) -p origin -p both -p benchmark

test-host: lib
	@$(call need,"the tests of the header and the C host" gcc); mkdir -p target/host-test && examples/test-host $(LIBRARY) target/host-test

# The reading of the stack: what it refuses, what it counts, and that dm_feed was not seen to take more.
test-stack: lib
	@$(call need,"the test of the reading of the stack" gcc ar objdump); mkdir -p target/stack-test && examples/test-stack $(LIBRARY) target/stack-test

# The gate's own scripts, with stand-ins for rt and for the tests.
test-gate:
	@.ci/test-gate .ci/gate
	@.ci/test-prove .ci/prove

# The tests that stand outside Rattle. By itself this proves what has changed, and says how far it is.
outside: test-gate
outside: test-rust
outside: compare
outside: test-host
outside: test-stack
outside: recorded
outside: test-monitor

# The programs: the recorded answers of the original (crates/replay), and the monitor (crates/monitor).

# Writes the recorded answers again, and altered ones that the replay must tell apart.
record:
	@$(call need,"recording" cargo cc); $(need_sources); \
	$(CARGO) build $(IN_COMPARE) -p origin && \
	target/compare/release/record > crates/replay/data/answers && \
	target/compare/release/record altered > crates/replay/data/altered

# Recording again gives the same files.
recorded:
	@$(call need,"recording again" cargo cc); $(need_sources); \
	$(CARGO) build $(IN_COMPARE) -p origin && \
	target/compare/release/record | cmp - crates/replay/data/answers && \
	target/compare/release/record altered | cmp - crates/replay/data/altered

# The monitor, at target/bin/monitor.
target/bin/monitor: $(PROVED)
	@mkdir -p $(dir $@)
	@.ci/prove target/monitor.log monitor
	@cp crates/monitor/out/monitor $@

# The monitor over a sample: make monitor SAMPLE=FILE.
SAMPLE ?= examples/pulled.syx

monitor: kit target/bin/monitor
	@target/bin/monitor $(SAMPLE)

# What is said to words on the command line, which rt ci gives in one way only.
test-monitor: kit target/bin/monitor
	@crates/monitor/test-words target/bin/monitor
