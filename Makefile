# Ylvanteri frame. `make help` lists what can be made.

PREFIX ?= /usr/local
N ?= 1000000
# what rt keeps in a crate's out/ is no source
sources := crates.txt $(shell find crates -name out -prune -o \( -name '*.rt' -o -name '*.antt' \) -print)
archive := target/staticlib/libframe_c.a
lister := target/bin/lister
shared := target/shared/libylvanteri_frame.so

.PHONY: all run test check compare bench install uninstall dist clean help archive lister shared needs-gcc needs-cargo
.NOTPARALLEL:

all: needs-gcc archive shared lister ## proves and builds the archive, the shared library and the lister
	@echo 'Built: $(archive), $(shared), $(lister)' >&2

run: lister ## proves and builds the bench lister and runs it on the worked job record
	@echo 'The lister on the worked job record, crates/lister/stdin:' >&2
	@$(lister) < crates/lister/stdin

test: ## the gate: proves every crate, tries every must-fail edit, runs all other tests
	@tools/needs rt gcc g++ cargo
	@tests/all

check: ## for the day's work: proves what changed, C tests, examples, one row for each code; no edits
	@tools/needs rt gcc g++
	@tools/shown . all check
	@tests/c/run
	@tests/examples/run
	@tests/consistent/run

compare: needs-gcc needs-cargo archive lister ## compares N=1000000 more random inputs with the second program (SEED=.. repeats a run)
	@cd second && FRAME_LISTER=../$(lister) cargo run -q --release --offline -p compare --bin compare -- $(N) $(SEED)

bench: needs-gcc needs-cargo archive ## measures the router beside the second program's; part of no test
	@cd second && cargo run -q --release --offline -p compare --bin bench

install: all ## header, libraries, lister, man page, code page and pkg-config file under PREFIX=/usr/local (and DESTDIR)
	@tools/install '$(PREFIX)' '$(DESTDIR)'

uninstall: ## takes away what install put under PREFIX (and DESTDIR)
	@tools/install --remove '$(PREFIX)' '$(DESTDIR)'

dist: all ## packs the same for a machine without the kit, into dist/, with checksums
	@tools/dist

clean: ## removes all that was built, and what rt keeps of its checks
	rm -rf target dist second/target crates/*/out

help: ## lists what can be made
	@sed -n 's/^\([a-z]*\):.* ## \(.*\)/\1|\2/p' Makefile | awk -F'|' '{ printf "make %-10s %s\n", $$1, $$2 }'

# told before anything is proved
needs-gcc needs-cargo:
	@tools/needs $(@:needs-%=%)

archive: $(archive)
lister: $(lister)
shared: needs-gcc $(shared)

$(archive): $(sources)
	@tools/needs rt
	@echo 'Proving the library, crate by crate: some minutes the first time.' >&2
	@tools/shown crates/frame_c lib
	@mkdir -p $(@D)
	@cp crates/frame_c/out/libframe_c.a $@

# rt builds a program in order to run it
$(lister): $(sources)
	@tools/needs rt
	@echo 'Proving the bench lister, crate by crate: some minutes the first time.' >&2
	@tools/shown crates/lister run < crates/lister/stdin
	@mkdir -p $(@D)
	@cp crates/lister/out/lister $@

# bound at once, so that no entry's stack holds the loader's work; without symbols that only a linker reads
$(shared): $(archive) shared/frame_code_text.c include/frame.h
	@mkdir -p target/shared
	@gcc -std=c99 -O2 -fPIC -shared -s -Iinclude -Wl,-soname,libylvanteri_frame.so.$$(tools/version --minor) -Wl,-z,now -Wl,--no-undefined \
	    -o $@ shared/frame_code_text.c -Wl,--whole-archive $(archive) -Wl,--no-whole-archive
