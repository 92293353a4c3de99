# make check               prove the listing program and all below it, and run it on the example
# make test                the gate (rt ci), then header, C examples, Rust and Python packages, an installation, the pictures, paths in proofs, crates.txt, what nothing uses, and the toolchain's identity;
#                          the last line counts what passed, if all did
# make install PREFIX=DIR  archive, header and pkg-config file
# make shared              target/shared/libnigvalds.so, for Python
# make bench               the library beside plain C, tables of ratios
# make picture             docs/pattern.svg and docs/clock.svg, from stored runs
PREFIX ?= /usr/local
CC ?= cc
ARCHIVE = target/staticlib/libnigvalds.a
SHARED = target/shared/libnigvalds.so
VERSION = $(shell sed -n 's/^\#define NIGVALDS_VERSION "\(.*\)"$$/\1/p' include/nigvalds.h)
EXAMPLE = crates/listing/stdin crates/listing/stdout
STATES = host/examples/drawing.out
TRY = $(CURDIR)/target/try
TESTS = test-header test-c test-rust test-python test-install test-picture test-paths test-crates test-streams test-unused test-toolchain
MAKEFLAGS += --no-print-directory

check:
	tools/progress check listing
	@cd crates/listing && rt run < stdin 2> $(CURDIR)/target/log/run.log || { cat $(CURDIR)/target/log/run.log >&2; exit 1; }

# The gate takes all processors, so the rest waits for it. Its own last line comes last.
test:
	@tools/gate && $(MAKE) -j2 -O $(TESTS) && tail -n 1 target/log/gate.log

test-header: $(ARCHIVE)
	tools/check-header $(ARCHIVE)
	tools/check-header --drifts

test-c: $(ARCHIVE)
	$(MAKE) -C examples test

test-rust: $(ARCHIVE)
	cd host && cargo test --offline
	cd host && RUSTDOCFLAGS='-D warnings' cargo doc --offline --no-deps
	cd host && cargo run --quiet --offline --example planner | diff examples/planner.out -
	cd host && cargo run --quiet --offline --example drawing | diff examples/drawing.out -
	@echo "planner, drawing: output as stored"

test-python: $(SHARED)
	cd host/python && python3 -B -m unittest

# README's first call, built against an installation as README says; README has its output.
test-install: $(ARCHIVE)
	$(MAKE) install PREFIX=$(TRY) DESTDIR=
	sed -n '/^```c$$/,/^```$$/p' README.md | sed '/^```/d' > $(TRY)/first.c
	cd $(TRY) && $(CC) -o first first.c $$(PKG_CONFIG_PATH=$(TRY)/lib/pkgconfig pkg-config --cflags --libs nigvalds)
	$(TRY)/first > $(TRY)/first.out && test -s $(TRY)/first.out && ! grep -vxF -f README.md $(TRY)/first.out
	@echo "first call: output as README has it"

test-picture:
	tools/draw $(EXAMPLE) | cmp - docs/pattern.svg
	tools/draw --change < $(STATES) | cmp - docs/clock.svg
	! sed 's/^7 0 7:3$$/7 0 7:2/' $(STATES) | tools/draw > /dev/null 2>&1
	@echo "pictures: as stored"

test-paths:
	tools/shift-paths --check
	tools/shift-paths --tries

test-crates:
	tools/check-crates

test-streams:
	tools/check-streams

test-unused:
	tools/check-unused

# Says so where the toolchain is another one than the page has; proofs and archive are then this one's.
test-toolchain:
	@grep -qxF "    $$(rt version)" docs/ASSURANCE.md && echo "toolchain: as docs/ASSURANCE.md has it" || echo "toolchain: $$(rt version), another one than docs/ASSURANCE.md has"

archive: $(ARCHIVE)

# Proves the library first.
$(ARCHIVE): crates.txt $(wildcard crates/*/src/*.rt)
	tools/archive nigvalds

shared: $(SHARED)

$(SHARED): $(ARCHIVE)
	mkdir -p $(dir $@)
	$(CC) -shared -o $@ -Wl,--whole-archive $(ARCHIVE) -Wl,--no-whole-archive

install: $(ARCHIVE)
	install -d $(DESTDIR)$(PREFIX)/include $(DESTDIR)$(PREFIX)/lib/pkgconfig
	install -m 644 include/nigvalds.h $(DESTDIR)$(PREFIX)/include
	install -m 644 $(ARCHIVE) $(DESTDIR)$(PREFIX)/lib
	sed 's|@PREFIX@|$(PREFIX)|; s|@VERSION@|$(VERSION)|' include/nigvalds.pc.in > $(DESTDIR)$(PREFIX)/lib/pkgconfig/nigvalds.pc

bench:
	$(MAKE) -C bench bench

picture:
	tools/draw $(EXAMPLE) > docs/pattern.svg
	tools/draw --change < $(STATES) > docs/clock.svg

.PHONY: check test $(TESTS) archive shared install bench picture
