# `make` proves and builds the programs and shows the first run, `make test` passes the gate, and `make help` lists the rest.
# All need the toolchain's command `rt` on the PATH, and nothing else.
.PHONY: all jtape jcheck log_report jpick library wheel dist test test-c test-bindings test-dist edits test-long try bench vendor install install-library uninstall clean has-rt help build/log_report build/jpick

# The level that programs are built for: x86-64-v3 where this processor has what that asks for, else the toolchain's default.
# A package for other machines is built with CPU=x86-64-v2.
v3 = avx2 bmi1 bmi2 f16c fma abm movbe
CPU := $(if $(shell for flag in $(v3); do grep -qw "$$flag" /proc/cpuinfo || echo "$$flag"; done),,x86-64-v3)
cpu = $(if $(CPU),--cpu $(CPU))

# How many checks run side by side: as many as there are processors, as far as there are 3 GB of memory for each, more than
# the largest takes.
jobs := $(shell awk -v n="$$(nproc)" '/^MemAvailable/ { m = int($$2 / 3000000); print (m > n ? n : m > 1 ? m : 1) }' /proc/meminfo)
ifeq ($(filter -j% --jobs%,$(MAKEFLAGS)),)
MAKEFLAGS += --jobs=$(jobs)
endif

# Where programs and library are put, and how a program gets there: crate, name. A release links the object.
into = build
define put
	mkdir -p $(into)
	cp crates/$(1)/out/$(1) $(into)/$(2)
	$(if $(filter-out build,$(into)),cp crates/$(1)/out/$(1).o $(into)/$(2).o)
endef

all: jtape jcheck
	build/jtape tape < examples/nested-list.json

jtape: proved-jtape
	@sh scripts/prove.sh jtape_main run $(cpu) -- tape < examples/nested-list.json
	$(call put,jtape_main,jtape)

jcheck: proved-jcheck
	@nice sh scripts/prove.sh jcheck_main run $(cpu) -- $(CURDIR)/examples/nested-list.json
	$(call put,jcheck_main,jcheck)

# It counts a document that is no object.
log_report: proved-log_report
	@sh scripts/prove.sh log_report_main run $(cpu) -- level < examples/nested-list.json
	$(call put,log_report_main,log_report)
build/log_report: log_report

# It prints the second value of the array.
jpick: proved-jpick
	@sh scripts/prove.sh jpick_main run $(cpu) -- /1 < examples/nested-list.json
	$(call put,jpick_main,jpick)
build/jpick: jpick

# proved-CRATE: a library is proved after those that it depends on, which crates.txt names, and beside all others.
crates := $(shell sed -n 's/^\([a-z][a-z0-9_]*\).*:.*/\1/p' crates.txt)
define proved
.PHONY: proved-$(1)
proved-$(1): has-rt $(patsubst %,proved-%,$(filter $(crates),$(shell sed -n 's/^$(1)\( [^:]*\)*: *//p' crates.txt)))
	@$$(nice) sh scripts/prove.sh $(1) lib $(if $(filter simd_json_c simd_json_bench simd_json_typed_bench,$(1)),$(cpu))
endef
$(foreach crate,$(crates),$(eval $(call proved,$(crate))))

# All else waits longest for simd_json_stages, and then for simd_json, so these leave the processors to them.
proved-simd_json_theorems proved-simd_json_print proved-jcheck: private nice = nice

# The version, which the header has, and the part of it in the soname: before 1.0 each minor version may break programs.
version := $(shell awk '/define SIMD_JSON_VERSION_(MAJOR|MINOR|PATCH)/ { v = v s $$3; s = "." } END { print v }' include/simd_json.h)
abi := $(if $(filter 0.%,$(version)),$(basename $(version)),$(firstword $(subst ., ,$(version))))

# The library for programs in C, static and shared. Each needs nothing beside it but malloc, realloc, free, memcpy and memset:
# the toolchain's heap is in it, and the exports alone are visible.
kit = $(dir $(shell readlink -f "$$(command -v rt)"))..
parts = $(into)/parts
library: proved-simd_json_c
	mkdir -p $(parts)
	cd $(parts) && ar x $(kit)/c/liblibc_c.a heap.pic.o
	ld -r -o $(parts)/all.o --whole-archive crates/simd_json_c/out/libsimd_json_c.a --no-whole-archive $(parts)/heap.pic.o
	nm --defined-only -g $(parts)/all.o | sed -n 's/.* T \(simd_json_.*\)/\1/p' > $(parts)/exports
	objcopy --keep-global-symbols=$(parts)/exports --strip-unneeded $(parts)/all.o $(parts)/simd_json.o
	rm -f $(into)/libsimd_json.a $(into)/libsimd_json.so*
	ar rcs $(into)/libsimd_json.a $(parts)/simd_json.o
	cc -shared -o $(into)/libsimd_json.so.$(version) $(parts)/simd_json.o -Wl,-soname,libsimd_json.so.$(abi) \
		-Wl,--version-script,simd_json.map -Wl,-z,relro,-z,now,-s
	$(call links,$(into))

# The names in a folder by which a loader and a linker look for the shared library.
links = ln -sf libsimd_json.so.$(version) $(1)/libsimd_json.so.$(abi) && ln -sf libsimd_json.so.$(abi) $(1)/libsimd_json.so

# The gate: proofs, programs, tests, and the must-fail edits of crates that have changed (scripts/gate.sh). Its last line is
# 'N passed, M failed'. After it the programs that it built are run on the rows of tests/vectors and on inputs of which the lines
# and the status are known, and the counts of lines in DESIGN.md and what documents show are compared with the files; all are silent
# where all is well.
# One check more runs at a time than `jobs`, since each also waits for files. Left to itself `rt ci` reserves 7.5 GB for a
# check of `simd_json`, and lets it wait behind small ones.
test: has-rt
	JOBS=$(jobs) RT_JOBS=$$(($(jobs) + 1)) ANEW=$(ANEW) sh scripts/gate.sh
	sh tests/rows.sh
	sh tests/statuses.sh
	sh tests/places.sh
	sh tests/counts.sh
	sh tests/contracts.sh
	sh tests/commands.sh

# The must-fail edits of crates that have changed (ANEW=1: all), and edits.txt, which says what was tried. With CRATES=".." those of these
# crates alone, while one writes.
edits: has-rt
	JOBS=$(jobs) RT_JOBS=$$(($(jobs) + 1)) ANEW=$(ANEW) sh scripts/gate.sh edits $(if $(filter command,$(origin CRATES)),$(CRATES))

# What takes too long for each push: the tests that read many inputs, over all of them, and commands for many machines.
test-long: jtape
	JOBS=$(jobs) sh tests/unit.sh long
	sh tests/engines.sh build/jtape

# The first run without a proof, within a minute.
try: has-rt
	cd crates/jtape_main && rt try -- tape < ../../examples/nested-list.json
	@echo "Nothing was proved. \`make\` proves and builds it."

# The library, called from C and Python. It needs a C compiler besides.
test-c: has-rt
	MAKEFLAGS= sh tests/c.sh

# The wrapper for C++, the package for Python and the crate for Rust. Each part is left out where its compiler is not installed.
test-bindings: has-rt
	MAKEFLAGS= sh tests/bindings.sh

# The release, unpacked, without the toolchain.
test-dist: has-rt
	MAKEFLAGS= sh tests/dist.sh

# The package for Python, with the library in it, for each Python from 3.10 on.
wheel: library
	SIMD_JSON_LIB_DIR=$(into) python3 -B python/backend.py $(into)

# The release, for processors of two levels. What a level is made of is built again where a source is newer; the second takes
# the proofs of the first.
released = jtape jcheck jpick log_report
sources = $(shell find crates/*/src crates/*/specs crates/*/proofs include simd_json.map -type f 2> /dev/null)
dist: has-rt build/x86-64-v2/built build/x86-64-v3/built
	MAKEFLAGS= sh scripts/dist.sh $(released)
build/x86-64-v3/built: | build/x86-64-v2/built
build/%/built: $(sources)
	$(MAKE) CPU=$* into=build/$* library $(released)
	touch $@

# Beside the parsers that are installed, over generated texts and FILES. SAVE=1 puts the results into the documents.
bench: has-rt
	MAKEFLAGS= SAVE=$(SAVE) sh bench/run.sh $(FILES)

# CRATES, and those that they depend on, into the repository in the folder DIR.
CRATES = simd_json
vendor:
	@REPLACE="$(REPLACE)" sh scripts/vendor.sh "$(DIR)" $(CRATES)

# The programs, the library for programs in C, their manual pages, and completion in bash, under PREFIX.
PREFIX = /usr/local
under = $(DESTDIR)$(abspath $(PREFIX))
completions = $(under)/share/bash-completion/completions
install: install-library
	test -x build/jtape -a -x build/jcheck || $(MAKE) all
	test -x build/jpick -a -x build/log_report || $(MAKE) build/jpick build/log_report
	install -d $(under)/bin $(under)/share/man/man1
	install -m 755 build/jtape build/jcheck build/jpick build/log_report $(under)/bin/
	install -m 644 man/jtape.1 man/jcheck.1 man/jpick.1 man/log_report.1 $(under)/share/man/man1/
	install -d $(completions)
	for program in $(released); do install -m 644 completions/simd_json.bash $(completions)/$$program || exit; done

install-library:
	test -e $(into)/libsimd_json.so.$(version) || $(MAKE) library
	install -d $(under)/include $(under)/lib/pkgconfig $(under)/lib/cmake/simd_json $(under)/share/man/man3
	install -m 644 include/simd_json.h include/simd_json.hpp $(under)/include/
	install -m 644 $(into)/libsimd_json.a $(under)/lib/libsimd_json.a
	install -m 755 $(into)/libsimd_json.so.$(version) $(under)/lib/
	$(call links,$(under)/lib)
	sed 's|@PREFIX@|$(abspath $(PREFIX))|; s|@VERSION@|$(version)|' simd_json.pc.in > $(under)/lib/pkgconfig/simd_json.pc
	sed 's|@VERSION@|$(version)|; s|@ABI@|$(abi)|' simd_json.cmake.in > $(under)/lib/cmake/simd_json/simd_jsonConfig.cmake
	sed 's|@VERSION@|$(version)|; s|@ABI@|$(abi)|' simd_json_version.cmake.in > $(under)/lib/cmake/simd_json/simd_jsonConfigVersion.cmake
	install -m 644 man/simd_json.3 $(under)/share/man/man3/simd_json.3

uninstall:
	rm -f $(under)/bin/jtape $(under)/bin/jcheck $(under)/share/man/man1/jtape.1 $(under)/share/man/man1/jcheck.1
	rm -f $(under)/bin/jpick $(under)/bin/log_report $(under)/share/man/man1/jpick.1 $(under)/share/man/man1/log_report.1
	rm -f $(addprefix $(completions)/,$(released))
	rm -f $(under)/include/simd_json.h $(under)/include/simd_json.hpp $(under)/lib/libsimd_json.a \
		$(under)/lib/libsimd_json.so $(under)/lib/libsimd_json.so.$(abi) $(under)/lib/libsimd_json.so.$(version) $(under)/lib/pkgconfig/simd_json.pc $(under)/share/man/man3/simd_json.3
	rm -rf $(under)/lib/cmake/simd_json

has-rt:
	@command -v rt >/dev/null || { echo "rt is not on the PATH: put the folder bin of a Rattle kit there, as in PATH=KIT/bin:\$$PATH, and run make again" >&2; exit 1; }

clean:
	rm -rf build crates/*/out

help:
	@echo "make                        proves and builds build/jtape and build/jcheck, and shows the first run"
	@echo "make library                the same of the library for C: build/libsimd_json.a and .so"
	@echo "make wheel                  the package for Python: build/simd_json-$(version)-*.whl"
	@echo "make dist                   the release for machines without the toolchain: build/simd_json-$(version)-x86_64-linux.tar.gz"
	@echo "make build/jpick            the same of the program that prints fields of JSON Lines"
	@echo "make build/log_report       the same of the program that counts the lines of a log"
	@echo "make install PREFIX=DIR     installs programs, library and manual pages; make uninstall PREFIX=DIR removes them"
	@echo "make vendor DIR=DIR         copies the library's crates into another repository; with CRATES=simd_json_serde that crate too"
	@echo "make try                    the first run within a minute, without a proof"
	@echo "make test                   the gate: proofs, programs, tests, and the must-fail edits of crates that have changed"
	@echo "make edits                  the must-fail edits of crates that have changed, ANEW=1 all; writes edits.txt"
	@echo "make test-long              before a release: long tests over all their inputs, commands for many machines"
	@echo "make test-c                 the library, called from C and Python"
	@echo "make test-bindings          the wrapper for C++, the package for Python, the crate for Rust"
	@echo "make test-dist              the release, in an empty folder without the toolchain"
	@echo "make bench FILES=\"..\"       measures beside the other parsers that are installed"
	@echo "make clean                  removes what was made"
	@echo "CPU=x86-64-v2               builds for that level, and not for this machine ($(or $(CPU),x86-64-v2))"
