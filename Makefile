# The archive, its installation and its examples. `make help` prints what there is.

PREFIX ?= /usr/local
DESTDIR ?=
CFLAGS ?= -O2
CARGO ?= cargo

# The Rust wrapper and the installed library have one version.
VERSION := $(shell sed -n 's/^version = "\(.*\)"$$/\1/p' rust/libretto/Cargo.toml)

header = include/libretto.h
archive = crates/libretto/out/liblibretto.a
programs = crates/finder/out/finder crates/page_table/out/page_table
proved := crates.txt $(shell find crates -type f -not -path '*/out/*')
examples := $(patsubst examples/%.c,target/examples/%,$(wildcard examples/*.c))

lib = $(DESTDIR)$(PREFIX)/lib
include = $(DESTDIR)$(PREFIX)/include

.PHONY: all install uninstall test rust-test examples bench clean help

# The prover spreads its work by itself, and two provers over one target folder would be in each other's way.
.NOTPARALLEL:

all: $(archive) $(header)

# The prover leaves a file alone whose sources it has proved before, so the date that make goes by is set here.
$(archive): $(proved)
	cd crates/libretto && rt lib
	@touch $@

# `rt run` proves and builds a program and then runs it, here on no input.
$(programs): $(proved)
	cd crates/$(@F) && rt run < /dev/null > /dev/null
	@touch $@

install: all libretto.pc.in
	install -d '$(lib)/pkgconfig' '$(include)'
	install -m 644 $(archive) '$(lib)/liblibretto.a'
	install -m 644 $(header) '$(include)/libretto.h'
	sed -e 's|@PREFIX@|$(PREFIX)|' -e 's|@VERSION@|$(VERSION)|' libretto.pc.in > '$(lib)/pkgconfig/libretto.pc'
	chmod 644 '$(lib)/pkgconfig/libretto.pc'

uninstall:
	rm -f '$(lib)/liblibretto.a' '$(include)/libretto.h' '$(lib)/pkgconfig/libretto.pc'

test:
	bash .ci/run

rust-test: $(archive) $(programs)
	$(CARGO) test --offline --manifest-path rust/Cargo.toml

examples: $(examples)

target/examples/%: examples/%.c $(wildcard examples/*.h) $(header) $(archive)
	@mkdir -p $(@D)
	$(CC) -std=c99 -Wall -Wextra -Wpedantic $(CFLAGS) -I include $< $(archive) $(LDFLAGS) -o $@

bench: $(archive)
	bash bench/run

# What the prover has made stays: proving it again takes long.
clean:
	rm -rf target/examples rust/target

help:
	@echo 'make                 proves the library and builds $(archive), for $(header)'
	@echo 'make install         installs archive, header and pkg-config file under PREFIX ($(PREFIX)), within DESTDIR'
	@echo 'make uninstall       removes what make install has put there'
	@echo 'make test            runs the gate: every proof, every must-fail edit, every test'
	@echo 'make rust-test       runs the Rust tests alone'
	@echo 'make examples        builds the C examples into target/examples'
	@echo 'make bench           measures the engines'
	@echo 'make clean           removes target/examples and rust/target; proofs and archive stay'
	@echo 'make help            prints this'
