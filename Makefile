# Vulcedar with plain make. `make help` lists the targets; README.md begins with two of them.

SHELL = /bin/bash
.SHELLFLAGS = -o pipefail -c
CC = gcc
CFLAGS = -O2
prefix = /usr/local
libdir = $(prefix)/lib
includedir = $(prefix)/include
bindir = $(prefix)/bin
DESTDIR =

number = $(shell sed -n 's/^.define VULCEDAR_VERSION_$(1) //p' include/vulcedar.h)
major := $(call number,MAJOR)
version := $(major).$(call number,MINOR).$(call number,PATCH)

archive = target/staticlib/libvulcedar.a
shared = target/shared/libvulcedar.so.$(version)
soname = libvulcedar.so.$(major)
command = target/rehearse/rehearse
packages = target/packages/vulcedar.pc target/packages/vulcedarConfig.cmake target/packages/vulcedarConfigVersion.cmake
pkgconfig = $(libdir)/pkgconfig
cmakedir = $(libdir)/cmake/vulcedar
need = @sh packaging/need.sh
also =
proved = $(shell find crates -name out -prune -o -name '*.rt' -print -o -name '*.antt' -print) crates.txt

.PHONY: all ready demo check bench install uninstall clean help
.DELETE_ON_ERROR:

all: ready $(archive) $(shared) $(command) ## the archive, the shared library and the command rehearse, below target/

# what is missing is said first
ready:
	$(need) rt ar $(firstword $(CC)) $(also)

# rt proves what it has not proved yet, then compiles; all that it says is in target/archive.log
$(archive): $(proved) packaging/archive.sh
	@mkdir -p target
	@echo 'the library is proved and compiled; in a fresh clone this takes some minutes'
	@sh packaging/archive.sh 2>&1 | tee target/archive.log | grep --line-buffered -E '^(rt|archive): ' || { tail -n 20 target/archive.log; exit 1; }

$(shared): $(archive) packaging/vulcedar.map
	@mkdir -p $(@D)
	$(CC) -shared -Wl,-soname,$(soname) -Wl,--version-script,packaging/vulcedar.map -Wl,-z,defs -Wl,-z,now \
	  -Wl,--whole-archive $(archive) -Wl,--no-whole-archive -o $@
	@ln -sf $(notdir $@) $(@D)/$(soname)
	@ln -sf $(soname) $(@D)/libvulcedar.so

$(command): tools/rehearse.c include/vulcedar.h $(archive)
	@mkdir -p $(@D)
	$(CC) -std=c99 $(CFLAGS) -Iinclude $< $(archive) -o $@

target/demo/host: examples/host.c include/vulcedar.h $(archive)
	@mkdir -p $(@D)
	$(CC) -std=c99 $(CFLAGS) -Iinclude $< $(archive) -o $@

demo: ready target/demo/host ## runs a whole job in the example host, and shows its end record beside the single pass's
	target/demo/host 1

check: ## the gate: proves everything from nothing, tries every edit that must be refused, runs every test
	bash .ci/run

bench: also = cargo
bench: ready $(archive) ## measures every call beside an independent implementation in Rust
	cd tests && CARGO_TARGET_DIR=$(CURDIR)/target/cargo cargo run --release --offline --quiet -p bench --features archive

# written anew at every install, since they hold its directories
below = $(patsubst $(prefix)/%,$${prefix}/%,$(1))
from_libdir = $(shell realpath -m -s --relative-to='$(libdir)' '$(includedir)')
target/packages/%: packaging/%.in FORCE
	@mkdir -p $(@D)
	@sed -e 's|@prefix@|$(prefix)|; s|@libdir@|$(call below,$(libdir))|; s|@includedir@|$(call below,$(includedir))|; s|@version@|$(version)|; s|@major@|$(major)|' \
	  -e 's|@includedir_from_libdir@|$(from_libdir)|' $< > $@

FORCE:

install: $(archive) $(shared) $(command) $(packages) ## header, both libraries, the command, pkg-config and CMake files; DESTDIR, prefix, libdir, includedir, bindir
	install -d '$(DESTDIR)$(includedir)' '$(DESTDIR)$(libdir)' '$(DESTDIR)$(bindir)' '$(DESTDIR)$(pkgconfig)' '$(DESTDIR)$(cmakedir)'
	install -m 644 include/vulcedar.h '$(DESTDIR)$(includedir)/vulcedar.h'
	install -m 644 $(archive) '$(DESTDIR)$(libdir)/libvulcedar.a'
	install -m 755 $(shared) '$(DESTDIR)$(libdir)/libvulcedar.so.$(version)'
	ln -sf libvulcedar.so.$(version) '$(DESTDIR)$(libdir)/$(soname)'
	ln -sf $(soname) '$(DESTDIR)$(libdir)/libvulcedar.so'
	install -m 755 $(command) '$(DESTDIR)$(bindir)/rehearse'
	install -m 644 target/packages/vulcedar.pc '$(DESTDIR)$(pkgconfig)/vulcedar.pc'
	install -m 644 target/packages/vulcedarConfig.cmake target/packages/vulcedarConfigVersion.cmake '$(DESTDIR)$(cmakedir)'

uninstall: ## removes what install put there; give the same directories
	rm -f '$(DESTDIR)$(includedir)/vulcedar.h' '$(DESTDIR)$(libdir)/libvulcedar.a' '$(DESTDIR)$(libdir)/libvulcedar.so.$(version)'
	rm -f '$(DESTDIR)$(libdir)/$(soname)' '$(DESTDIR)$(libdir)/libvulcedar.so' '$(DESTDIR)$(bindir)/rehearse'
	rm -f '$(DESTDIR)$(pkgconfig)/vulcedar.pc' '$(DESTDIR)$(cmakedir)/vulcedarConfig.cmake' '$(DESTDIR)$(cmakedir)/vulcedarConfigVersion.cmake'
	rmdir '$(DESTDIR)$(cmakedir)' 2> /dev/null || true

clean: ## removes target/, and the proofs' results beside the crates
	rm -rf target crates/*/out

help: ## this list
	@sed -n 's/^\([a-z]*\):.*## \(.*\)/make \1\t\2/p' Makefile | expand -t 16
