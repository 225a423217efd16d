SHELL = bash
PREFIX ?= /usr/local
ARCHIVE = target/staticlib/libmcs48_c.a
# make: prove what has changed and build it · make demo: the night of twenty past two · make test: the gate
# make bench · make count: the instructions of a step · make list ROM=file: list a ROM · make install PREFIX=/usr/local · make fmt
.PHONY: all archive demo test bench count list install fmt
all: archive
	rt all check
archive: $(ARCHIVE)
$(ARCHIVE): crates.txt $(shell find crates -name out -prune -o '(' -name '*.rt' -o -name '*.antt' ')' -print)
	@mkdir -p target
	@echo 'proving the library; the first time that takes some minutes' >&2
	@. tests/kit.sh && make_archive
demo: archive
	@demo/run
test:
	bash .ci/run
bench: archive
	@bench/run
count: archive
	@bench/count
list:
	@[ -n "$(ROM)" ] || { echo 'make list ROM=file' >&2; exit 2; }
	@. tests/kit.sh && make_program list && program list <"$(firstword $(wildcard $(ROM) $(ROM).bin) $(ROM))"
install: archive
	install -Dm644 include/mcs48.h $(DESTDIR)$(PREFIX)/include/mcs48.h
	install -Dm644 $(ARCHIVE) $(DESTDIR)$(PREFIX)/lib/libmcs48_c.a
	install -d $(DESTDIR)$(PREFIX)/lib/pkgconfig
	sed 's|@PREFIX@|$(PREFIX)|' include/mcs48.pc.in >$(DESTDIR)$(PREFIX)/lib/pkgconfig/mcs48.pc
fmt:
	for crate in crates/*; do (cd "$$crate" && rt fmt); done
