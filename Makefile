# Two commands: `make` proves and builds all and lists a sample; `make test` is the gate.
# `make setup` installs the Debian packages that are lacking; the gate does so too, and `make` itself as root.
# `make bench` measures (PART=blocks, messages, acts or master: that part alone); `make fuzz` fuzzes for
# FUZZ_SECONDS; `make clean` removes target/ and crates/*/out/, which is all that is ever made here.

.DEFAULT_GOAL := all
.NOTPARALLEL:
.PHONY: all tools all_tools setup prove sample test bench fuzz clean

export PATH := $(PATH):$(HOME)/.cargo/bin

archive := target/staticlib/libgiamuvich.a
header := target/include/giamuvich.h
driver := target/driver/gmv_driver
station := target/driver/x328
proved_sources := crates.txt $(shell find crates -type f \( -name '*.rt' -o -name '*.antt' \) -not -path 'crates/*/out/*')

# The library and its header for a driver, and the tools, all proved; and the example driver and station.
all: tools prove $(archive) $(header) $(driver) $(station) sample

# What this needs is here, or is installed as root; else it says what is lacking.
tools:
	@tests/setup build

# What the tests, the bench and the fuzzers need is here; else it says what is lacking.
all_tools:
	@tests/setup --check all

# Needs no network where nothing is lacking.
setup:
	@tests/setup

# Proves every crate.
prove: tools
	cd crates && rt all check

# The archive, and target/bin/blocklist beside it.
$(archive): $(proved_sources) | tools
	tests/build_proved

$(header): include/giamuvich.h
	@mkdir -p $(@D)
	cp $< $@

# Both ends of a link, and linkstatus beside it.
$(driver): $(archive) $(header) $(shell find examples/driver -name '*.[ch]')
	tests/driver/build $(@D)

# A station on an X3.28 line, and a null modem to try it with.
$(station): $(archive) $(header) $(shell find examples/x328 examples/driver -name '*.[ch]')
	tests/x328/build $(@D)

# Offset of SB, number (0: accepted), data length, for each block of the capture.
sample: $(archive)
	target/bin/blocklist < samples/capture.bin

test:
	@tests/gate

bench: all_tools $(archive)
	CARGO_TARGET_DIR=$(CURDIR)/target/bench cargo run --release --offline --manifest-path bench/Cargo.toml --bin bench -- $(PART)
	bench/gate_times

FUZZ_SECONDS ?= 600
fuzz: all_tools $(archive)
	tests/fuzz/run --seconds $(FUZZ_SECONDS)

clean:
	rm -rf target crates/*/out
