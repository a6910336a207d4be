# The project's commands. `make help` lists them. GNUmakefile, which make reads first, sees to it that one make at a time works here.
SHELL := bash
.SHELLFLAGS := -e -o pipefail -c
.DEFAULT_GOAL := all
.DELETE_ON_ERROR:
.NOTPARALLEL:
.PHONY: all help demo check test part examples samples chart picture install uninstall bench fuzz search fmt changed fresh clean

PREFIX ?= /usr/local
FUZZ_SECONDS ?= 600
FIRST ?= 5000000
CRATES ?= method program_vectors
proved_from := crates.txt $(shell find crates -name out -prune -o \( -name '*.rt' -o -name '*.antt' \) -print)
version := $(shell sed -n 's/^\#define HP_VERSION "\(.*\)"/\1/p' include/honeyplank.h)
# a change that breaks callers is told by the first number of the version, before 1.0.0 by the first two: programs ask the loader for these
breaks := $(if $(filter 0.%,$(version)),$(basename $(version)),$(firstword $(subst ., ,$(version))))
# what is installed with the programs, at these places below build/ and below the prefix
shared := lib/libhoneyplank.so.$(version)
links := lib/libhoneyplank.so.$(breaks) lib/libhoneyplank.so
plain := lib/libhoneyplank.a include/honeyplank.h lib/pkgconfig/honeyplank.pc lib/pkgconfig/honeyplank-shared.pc
pages := $(foreach page,$(wildcard man/*.1 man/*.3),share/man/man$(subst .,,$(suffix $(page)))/$(notdir $(page)))
library := $(addprefix build/,$(plain) $(shared) $(links))
program := build/bin/honeyplank-list
command := build/bin/honeyplank

# $(call need,COMMAND..): stops where one of them is missing, and says what to get
rt_is := the Rattle toolchain: put the folder of its command rt on PATH
gcc_is := Debian's packages gcc and libc6-dev
cargo_is := Rust 1.78 or newer: Debian's package cargo (on bookworm cargo-web), or rustup
python3_is := Debian's package python3
need = $(foreach c,$(1),$(if $(shell command -v $(c)),,$(error There is no $(c) here. Get $($(c)_is))))

# $(call prove,CRATE,HOW): has rt prove and build it, with a line for each crate
prove = $(call need,rt)@tools/prove $(1) $(2)

all: $(program) $(command) $(library) $(addprefix build/,$(pages)) ## prove and build programs, archive, shared library, header and pkg-config files, under build/

help: ## list the targets
	@sed -n 's/^\([a-z]*\):.*## /\1\t/p' $(MAKEFILE_LIST) | expand -t 10

demo: $(program) ## build what is needed and list samples/worked.rec; it has to be samples/worked.listing
	@echo 'honeyplank-list < samples/worked.rec'
	@tests/x86 run $(program) < samples/worked.rec | tee build/demo.listing
	@cmp build/demo.listing samples/worked.listing

check: ## prove every crate that changed
	$(call prove)

test: ## the gate: all proofs, edits and tests; the last line is 'N passed, 0 failed'
	$(call need,rt gcc cargo python3)
	@tests/gate

part: ## prove some crates and what they are built on, and try their must-fail edits (CRATES='method program_vectors')
	$(call need,rt)
	rt ci $(CRATES)

examples: $(library) $(patsubst %.c,build/%,$(wildcard examples/*.c)) ## build the example programs, under build/examples/

samples: $(command) ## make the sample files again from their texts
	$(call need,python3)
	samples/make

chart: $(command) ## draw an event of samples/day-ahead.rec: docs/chart.svg
	tests/x86 run $(command) chart samples/day-ahead.rec 4 >docs/chart.svg

picture: ## draw the crates as layers, and the way of one event: docs/crates.svg, docs/event.svg
	$(call need,python3)
	docs/picture --write

install: all ## install under PREFIX (/usr/local), below DESTDIR if given
	for file in $(plain) $(shared) $(pages); do install -D -m 644 build/$$file "$(DESTDIR)$(PREFIX)/$$file"; done
	for link in $(links); do ln -sfn $(notdir $(shared)) "$(DESTDIR)$(PREFIX)/$$link"; done
	for file in $(program) $(command); do install -D -m 755 $$file "$(DESTDIR)$(PREFIX)/bin/$${file##*/}"; done
	@case "$(DESTDIR)$(PREFIX)" in /usr|/usr/local) echo 'run ldconfig, so that the loader finds the shared library' ;; esac

uninstall: ## remove what install put under PREFIX
	for file in $(plain) $(shared) $(links) $(pages) bin/honeyplank-list bin/honeyplank; do rm -f "$(DESTDIR)$(PREFIX)/$$file"; done

bench: all ## the entries' and the program's speed against plain C, in one run (BEFORE=DIR: against an earlier build/ too)
	$(call need,gcc)
	tests/bench/run $(if $(BEFORE),--before "$(BEFORE)")

fuzz: all ## fuzz the file entries and the writer against plain C for FUZZ_SECONDS (600)
	tests/fuzz/run $(FUZZ_SECONDS)

search: $(library) ## compare a million more generated calls and files to be written with the reference (FIRST=seed to start elsewhere)
	$(call need,gcc cargo)
	cd tests/compare && cargo run --release --offline --quiet --bin search -- $(FIRST)

fmt: ## lay out every source and proof file
	$(call need,rt)
	for crate in crates/*/; do (cd $$crate && rt fmt); done

changed: ## change each answer in the table of checks by one, and see that each change is refused (minutes)
	$(call need,rt python3)
	tests/changed

fresh: ## demo and the gate without its proofs on a plain Debian, made for it (minutes; needs root and the network)
	$(call need,rt)
	tests/fresh

clean: ## remove what was built
	rm -rf build crates/*/out

# copied at once: any other rt in such a crate's folder, rt ci too, removes what is built there or builds it for newer processors
build/lib/libhoneyplank.a: $(proved_from)
	$(call prove,host_entries_c,lib)
	@mkdir -p $(@D) && cp crates/host_entries_c/out/libhost_entries_c.a $@

build/bin/honeyplank-list: $(proved_from)
	$(call prove,program_list,run)
	@mkdir -p $(@D) && cp crates/program_list/out/program_list $@

build/include/honeyplank.h: include/honeyplank.h
	@mkdir -p $(@D) && cp $< $@

# it only lays out what the archive answers, and nothing of it is proved
$(command): $(wildcard src/*.[ch]) build/include/honeyplank.h build/lib/libhoneyplank.a
	@mkdir -p $(@D)
	tests/x86 cc -std=c99 -O2 -Wall -Wextra -Wpedantic -Wconversion -Wshadow -Ibuild/include $(filter src/%.c,$^) build/lib/libhoneyplank.a -o $@

build/examples/%: examples/%.c build/include/honeyplank.h build/lib/libhoneyplank.a
	@mkdir -p $(@D)
	tests/x86 cc -std=c99 -O2 -Wall -Wextra -Wpedantic -Wconversion -Ibuild/include $< build/lib/libhoneyplank.a -o $@

build/share/man/man1/%: man/%
	@mkdir -p $(@D) && cp $< $@

build/share/man/man3/%: man/%
	@mkdir -p $(@D) && cp $< $@

# the archive's code and nothing of the compiler's own, so that nothing in it is ever written to
build/$(shared): build/lib/libhoneyplank.a include/honeyplank.h Makefile
	@rm -f build/lib/libhoneyplank.so*
	@tests/x86 cc -shared -nostartfiles -Wl,--whole-archive $< -Wl,--no-whole-archive -Wl,-z,defs,-z,text,-z,relro,-z,now \
	  -Wl,-soname,libhoneyplank.so.$(breaks) -o $@

# the same file by other names, and no symbolic links, which rt ci refuses anywhere in the tree
$(addprefix build/,$(links)): build/$(shared)
	@ln -f $< $@

# with no quotes: pkg-config itself puts a backslash before a space in pcfiledir
build/lib/pkgconfig/honeyplank.pc: linked := -l:libhoneyplank.a
build/lib/pkgconfig/honeyplank-shared.pc: linked := -lhoneyplank
build/lib/pkgconfig/honeyplank.pc build/lib/pkgconfig/honeyplank-shared.pc: include/honeyplank.h Makefile
	@mkdir -p $(@D)
	@printf '%s\n' 'prefix=$${pcfiledir}/../..' 'Name: $(basename $(@F))' \
	  'Description: The demand response baseline of the Greek transmission operator' 'Version: $(version)' \
	  'Cflags: -I$${prefix}/include' 'Libs: -L$${prefix}/lib $(linked)' >$@
