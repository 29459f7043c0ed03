SHEET ?= sheets/worked.sheet
PREFIX ?= /usr/local
DESTDIR ?=
VERSION := $(shell sed -n 's/^.define BREAKWARP_VERSION "\(.*\)".*/\1/p' c/breakwarp.h)
I = $(DESTDIR)$(PREFIX)
LIB = target/staticlib/libbreakwarp.a
PROGRAM = target/bin/search
SOURCES = crates.txt $(shell find crates -path '*/out' -prune -o \( -name '*.rt' -o -name '*.antt' \) -print)
CALLS = brute kmp bm sunday shiftand hybrid first bound bound_choice reasons to_products from_products products_meet read_sheet write_sheet report
.PHONY: help search sheet program lib test bench beside fmt install uninstall clean
.DELETE_ON_ERROR:

help:
	@echo 'make search SHEET=sheets/worked.sheet   prove what the program needs, build it, and search a sheet'
	@echo 'make test                               the gate and the tests from outside, the same as .ci/run'
	@echo 'make lib                                prove the library and build $(LIB)'
	@echo 'make install DESTDIR=.. PREFIX=..       header, archive, program, manual pages, pkg-config file, example; make uninstall removes them'
	@echo 'make bench                              time the six searches and the first hit beside the same in plain C, and the reader'
	@echo 'make beside BEFORE=..                   time the library beside another archive of it, both in one program'
	@echo 'make fmt                                lay out every .rt and .antt file'
	@echo 'make clean                              remove all that is built: target/, and out/ of each crate'

search: sheet $(PROGRAM)
	@$(PROGRAM) < "$(SHEET)"

# The sheet is looked for before minutes of proving, not after them.
sheet:
	@test -r "$(SHEET)" || { echo "no sheet \"$(SHEET)\": make search SHEET=sheets/worked.sheet" >&2; exit 1; }

program: $(PROGRAM)
lib: $(LIB)

$(PROGRAM): $(SOURCES)
	@bash .ci/need rt
	@bash .ci/proving target/search.out search rt run < /dev/null
	@install -D -m 755 crates/search/out/search $@

# The functions are set to lines of 64 bytes, and the searches moved within their line as c/place.ld says, code unchanged: a short loop that crosses a
# line can take twice as long (docs/SPEED.md).
PLACE = target/place
$(LIB): $(SOURCES) c/place.ld
	@bash .ci/need rt binutils
	@bash .ci/proving target/lib.out breakwarp rt lib
	@rm -rf $(PLACE) && mkdir -p $(PLACE) $(@D)
	@cp crates/breakwarp/out/libbreakwarp.a $(PLACE)/kit.a && cd $(PLACE) && ar x kit.a && objcopy --set-section-alignment '.text.*=8' breakwarp.o kit.o
	@ld -r -T c/place.ld $(PLACE)/kit.o -o $(PLACE)/breakwarp.o && objcopy --set-section-alignment '.text.*=64' $(PLACE)/breakwarp.o
	@rm -f $@ && ar rcs $@ $(PLACE)/breakwarp.o

test:
	bash .ci/run

# The C engines are built by the kit's own clang, the same LLVM that builds the library. It has no headers of its own, so gcc reads them in.
# The means are taken in four links. The archive's functions stand at lines of 64, so that the bytes put before it move nothing within a line
# (docs/SPEED.md): the four show how far runs differ. The run goes to $(BENCH)/run.txt, and
# the tables that are made of it and of the run before to $(BENCH)/tables.md.
CC_K ?= $(firstword $(wildcard $(dir $(shell readlink -f `which rt`))../toolchain/bin/clang) $(shell which clang) cc)
BENCH = target/bench
bench: $(LIB)
	@bash .ci/need gcc
	@mkdir -p $(BENCH)
	@gcc -E -P bench/engines.c -o $(BENCH)/engines.i.c
	@$(CC_K) -O3 -falign-functions=64 -falign-loops=32 -c $(BENCH)/engines.i.c -o $(BENCH)/engines.o
	@gcc -std=c11 -O2 -Wall -Wextra -c bench/bench.c -o $(BENCH)/bench.o
	@gcc -std=c11 -O2 -Wall -Wextra -o $(BENCH)/reader bench/reader.c $(LIB)
	@for pad in 0 16 32 48; do gcc -DPAD=$$pad -c bench/pad.c -o $(BENCH)/pad.o && \
	  gcc -o $(BENCH)/bench-$$pad $(BENCH)/bench.o $(BENCH)/engines.o $(BENCH)/pad.o $(LIB) || exit 1; done
	@if [ -f $(BENCH)/run.txt ]; then mv $(BENCH)/run.txt $(BENCH)/before.txt; fi
	@{ $(BENCH)/bench-0 && \
	  for pad in 16 32 48; do echo; echo "moved by $$pad bytes, before alignment"; $(BENCH)/bench-$$pad means || exit 1; done && \
	  $(BENCH)/bench-0 grow && echo && \
	  $(BENCH)/bench-0 walk && echo && \
	  $(BENCH)/bench-0 first && echo && \
	  $(BENCH)/bench-0 bound && echo && \
	  $(BENCH)/reader; } > $(BENCH)/running.txt
	@mv $(BENCH)/running.txt $(BENCH)/run.txt
	@cat $(BENCH)/run.txt
	@python3 bench/tables.py $(BENCH)/run.txt `ls $(BENCH)/before.txt 2>/dev/null || echo $(BENCH)/run.txt` > $(BENCH)/tables.md

# Two archives in one program, in turn within each pass, so that the machine's drift hits both alike: the library, and in the place of the C engines the
# archive that BEFORE names. A ratio is now by before.
ENGINES = brute kmp bm sunday shiftand hybrid first
BESIDE = $(BENCH)/beside
beside: $(LIB)
	@test -r "$(BEFORE)" || { echo 'make beside BEFORE=path/of/another/libbreakwarp.a' >&2; exit 1; }
	@mkdir -p $(BESIDE)
	@gcc -E -P bench/engines.c -o $(BENCH)/engines.i.c && $(CC_K) -O3 -c $(BENCH)/engines.i.c -o $(BESIDE)/engines.o
	@objcopy $(foreach e,$(ENGINES),--redefine-sym c_$(e)=plain_c_$(e)) $(BESIDE)/engines.o
	@ar p "$(BEFORE)" breakwarp.o > $(BESIDE)/before.o
	@objcopy --redefine-sym breakwarp_read_sheet=before_read_sheet --redefine-sym breakwarp_report=before_report $(foreach e,$(ENGINES),--redefine-sym breakwarp_$(e)=c_$(e)) $(BESIDE)/before.o
	@objcopy --keep-global-symbol=before_read_sheet --keep-global-symbol=before_report $(foreach e,$(ENGINES),--keep-global-symbol=c_$(e)) $(BESIDE)/before.o
	@gcc -DPAD=0 -c bench/pad.c -o $(BESIDE)/pad.o && gcc -std=c11 -O2 -Wall -Wextra -c bench/bench.c -o $(BESIDE)/bench.o
	@gcc -o $(BESIDE)/bench $(BESIDE)/bench.o $(BESIDE)/engines.o $(BESIDE)/before.o $(BESIDE)/pad.o $(LIB)
	@gcc -std=c11 -O2 -Wall -Wextra -DBESIDE -o $(BESIDE)/reader bench/reader.c $(BESIDE)/before.o $(LIB)
	@$(BESIDE)/bench && echo && $(BESIDE)/bench grow && echo && $(BESIDE)/bench walk && echo && $(BESIDE)/bench first && echo && $(BESIDE)/reader

fmt:
	@for crate in crates/*/; do (cd $$crate && rt fmt) || exit 1; done

install: $(LIB) $(PROGRAM)
	install -d $(I)/include $(I)/lib/pkgconfig $(I)/bin $(I)/share/man/man1 $(I)/share/man/man3 $(I)/share/doc/breakwarp
	install -m 644 c/breakwarp.h $(I)/include/
	install -m 644 $(LIB) $(I)/lib/
	sed -e '/^#/d' -e 's|@PREFIX@|$(PREFIX)|' -e 's|@VERSION@|$(VERSION)|' c/breakwarp.pc.in > $(I)/lib/pkgconfig/breakwarp.pc
	install -m 755 $(PROGRAM) $(I)/bin/
	install -m 644 c/search.1 $(I)/share/man/man1/
	install -m 644 c/breakwarp.3 $(I)/share/man/man3/
	for call in $(CALLS); do ln -sf breakwarp.3 $(I)/share/man/man3/breakwarp_$$call.3; done
	install -m 644 c/example.c $(I)/share/doc/breakwarp/

uninstall:
	rm -f $(I)/include/breakwarp.h $(I)/lib/libbreakwarp.a $(I)/lib/pkgconfig/breakwarp.pc $(I)/bin/search \
	  $(I)/share/man/man1/search.1 $(I)/share/man/man3/breakwarp.3 $(foreach call,$(CALLS),$(I)/share/man/man3/breakwarp_$(call).3) \
	  $(I)/share/doc/breakwarp/example.c
	rmdir $(I)/share/doc/breakwarp 2>/dev/null || true

clean:
	rm -rf target crates/*/out
