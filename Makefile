# The library and the command json-patch: built, checked, installed.
#
#   make                  the proved static library, the shared library, the command
#   make check            everything that is tested outside the gate
#   make install          PREFIX=/usr/local DESTDIR=
#   make uninstall        the same
#   make clean            what make has made; proofs, proved archives and programs stay
#   make cross            the library for AArch64, RISC-V and WebAssembly (docs/DEVICE.md)
#   make check-cross      that library under qemu and in node, and the bootloader
#   make page             one HTML file with the library in it (docs/PAGE.md)
#   make check-page       that page in chromium
#
# Needs rt (the Rattle toolchain), a C compiler, cargo (Rust 1.82 or later) and
# GNU make; for 'make check' also a C++ compiler, pkg-config and python3, and gdb
# if there is one. What the last four need is on those pages; each names what is missing.

PREFIX ?= /usr/local
DESTDIR ?=
BINDIR ?= $(PREFIX)/bin
LIBDIR ?= $(PREFIX)/lib
INCLUDEDIR ?= $(PREFIX)/include
MANDIR ?= $(PREFIX)/share/man
DOCDIR ?= $(PREFIX)/share/doc/json-patch
BASHDIR ?= $(PREFIX)/share/bash-completion/completions
ZSHDIR ?= $(PREFIX)/share/zsh/site-functions
FISHDIR ?= $(PREFIX)/share/fish/vendor_completions.d
# Where Python looks below PREFIX, if it looks there at all.
PYTHONDIR ?= $(or $(shell $(PYTHON) python/where.py $(PREFIX) 2>/dev/null),$(LIBDIR)/python3/dist-packages)

CC ?= cc
CARGO ?= cargo
PYTHON ?= python3
INSTALL ?= install
CARGO_FLAGS ?= --offline --locked

VERSION := $(shell sed -n 's/.*JSON_PATCH_VERSION "\(.*\)"/\1/p' include/json_patch.h)
# What the shared library's users are bound to: raise it whenever an exported
# function or a struct of the header changes after a release.
ABI := 0

# The folder of the proved archives, if it is not the one that tools/staticlib.sh fills here.
ifdef JSON_PATCH_LIB
prebuilt := yes
endif
override JSON_PATCH_LIB := $(abspath $(or $(JSON_PATCH_LIB),target/staticlib))
export JSON_PATCH_LIB

out := target/make
# As tools/staticlib.sh makes them: the call, the call with a region, the functions on one record,
# the links, Intel HEX, the inspection, the call with an undo, that for merge patches,
# the comparison, and the four calls that list origins.
proved_call := $(JSON_PATCH_LIB)/libjson_patch.a
proved_region := $(JSON_PATCH_LIB)/libregion_call.a
proved_record := $(JSON_PATCH_LIB)/librecord.a
links := $(JSON_PATCH_LIB)/libfragment.a
hex := $(JSON_PATCH_LIB)/libhex.a
inspect := $(JSON_PATCH_LIB)/libinspect.a
proved_undo := $(JSON_PATCH_LIB)/libundo.a
proved_merge := $(JSON_PATCH_LIB)/libmerge.a
compare := $(JSON_PATCH_LIB)/libcompare.a
proved_listing := $(JSON_PATCH_LIB)/liblisting.a
proved_region_listing := $(JSON_PATCH_LIB)/libregion_listing.a
proved_merge_listing := $(JSON_PATCH_LIB)/libmerge_listing.a
proved_undo_listing := $(JSON_PATCH_LIB)/libundo_listing.a
listings := $(proved_listing) $(proved_region_listing) $(proved_merge_listing) $(proved_undo_listing)
# The library as it is installed: the four calls, those that list origins, and the records.
static := $(out)/libjson_patch.a
shared := libjson_patch.so.$(VERSION)
soname := libjson_patch.so.$(ABI)
command := $(out)/json-patch
completions := $(out)/json-patch.bash $(out)/_json-patch $(out)/json-patch.fish

proved := crates.txt $(shell find crates '(' -path '*/must-fail' -o -path '*/out' ')' -prune -o -name '*.rt' -print -o -name '*.antt' -print)
rust := $(shell find rust/src rust/cli/src -name '*.rs') rust/build.rs rust/Cargo.toml rust/Cargo.lock rust/cli/Cargo.toml

all: $(static) $(links) $(hex) $(inspect) $(compare) $(out)/$(soname) $(command) $(completions)

ifndef prebuilt
$(proved_call): $(proved)
	@command -v rt >/dev/null || { echo "no rt: the Rattle toolchain proves and makes $@" >&2; exit 1; }
	tools/staticlib.sh json_patch

# One after another: they prove the crates that they share.
$(proved_region): $(proved_call)
	tools/staticlib.sh region_call

$(proved_record): $(proved_region)
	tools/staticlib.sh record

$(links): $(proved_record)
	tools/staticlib.sh fragment

$(hex): $(links)
	tools/staticlib.sh hex

$(inspect): $(hex)
	tools/staticlib.sh inspect

$(proved_undo): $(inspect)
	tools/staticlib.sh undo

$(compare): $(proved_undo)
	tools/staticlib.sh compare

$(proved_merge): $(compare)
	tools/staticlib.sh merge

$(proved_listing): $(proved_merge)
	tools/staticlib.sh listing

$(proved_region_listing): $(proved_listing)
	tools/staticlib.sh region_listing

$(proved_merge_listing): $(proved_region_listing)
	tools/staticlib.sh merge_listing

$(proved_undo_listing): $(proved_merge_listing)
	tools/staticlib.sh undo_listing
endif

# The proved objects, unchanged, in one archive.
$(static): $(proved_call) $(proved_region) $(proved_record) $(proved_undo) $(proved_merge) $(listings)
	@rm -rf $(out)/objects $@
	@mkdir -p $(out)/objects
	cd $(out)/objects && for archive in $^; do $(AR) x $$archive || exit 1; done
	$(AR) rcs $@ $(out)/objects/*.o

# The shared library is the archives, linked whole.
$(out)/$(shared): $(static) $(links) $(hex) $(inspect) $(compare)
	@mkdir -p $(out)
	$(CC) -shared $(LDFLAGS) -Wl,-soname,$(soname) -Wl,-z,defs -Wl,-z,relro -Wl,-z,now \
		-Wl,--whole-archive $(static) $(links) $(hex) $(inspect) $(compare) -Wl,--no-whole-archive -o $@

$(out)/$(soname): $(out)/$(shared)
	ln -sf $(shared) $@

$(command): $(rust) $(static) $(links) $(hex) $(inspect) $(compare)
	@mkdir -p $(out)
	$(CARGO) build --release $(CARGO_FLAGS) --manifest-path rust/Cargo.toml --package json-patch-cli --target-dir rust/target
	cp rust/target/release/json-patch $@

$(out)/json-patch.bash: $(command)
	$(command) completion bash >$@
$(out)/_json-patch: $(command)
	$(command) completion zsh >$@
$(out)/json-patch.fish: $(command)
	$(command) completion fish >$@

check: all
	@echo "== the C example, under both sanitizers"
	examples/run.sh
	@echo "== the header: C and C++, both sanitizers"
	tests/header.sh
	@echo "== the work area in a debugger, and docs/WORK-AREA.md"
	tests/dump.sh --check
	@echo "== Rust: the library, its documented examples, the command line"
	$(CARGO) test $(CARGO_FLAGS) --workspace --manifest-path rust/Cargo.toml --target-dir rust/target
	@echo "== Python"
	cd python && JSON_PATCH_LIBRARY=$(CURDIR)/$(out)/$(soname) PYTHONDONTWRITEBYTECODE=1 \
		$(PYTHON) -W error -m unittest discover -s tests
	@echo "== the count over patch files"
	@if command -v rt >/dev/null; then tools/program.sh patch_count && tests/count.sh; else echo "left out: no rt to make the program"; fi
	@echo "== installed, used and removed"
	MAKE="$(MAKE)" CC="$(CC)" PYTHON="$(PYTHON)" tests/installed.sh
	@echo "check: all passed"

cross:
	tools/cross.sh

check-cross: cross
	tests/cross.sh sizes aarch64 riscv64 bare wasm64
	examples/device/run.sh

page:
	tools/page.sh

check-page: page
	tests/page.sh

install: all
	$(INSTALL) -d $(DESTDIR)$(BINDIR) $(DESTDIR)$(INCLUDEDIR) $(DESTDIR)$(LIBDIR)/pkgconfig \
		$(DESTDIR)$(MANDIR)/man1 $(DESTDIR)$(MANDIR)/man3 $(DESTDIR)$(DOCDIR) $(DESTDIR)$(BASHDIR) \
		$(DESTDIR)$(ZSHDIR) $(DESTDIR)$(FISHDIR) $(DESTDIR)$(PYTHONDIR)/json_patch
	$(INSTALL) -m 755 $(command) $(DESTDIR)$(BINDIR)/json-patch
	$(INSTALL) -m 644 include/json_patch.h include/json_patch_link.h include/json_patch_hex.h \
		include/json_patch_inspect.h include/json_patch_compare.h $(DESTDIR)$(INCLUDEDIR)
	$(INSTALL) -m 644 $(static) $(links) $(hex) $(inspect) $(compare) $(DESTDIR)$(LIBDIR)
	$(INSTALL) -m 644 $(out)/$(shared) $(DESTDIR)$(LIBDIR)/$(shared)
	ln -sf $(shared) $(DESTDIR)$(LIBDIR)/$(soname)
	ln -sf $(soname) $(DESTDIR)$(LIBDIR)/libjson_patch.so
	sed -e 's|@PREFIX@|$(PREFIX)|' -e 's|@LIBDIR@|$(LIBDIR)|' -e 's|@INCLUDEDIR@|$(INCLUDEDIR)|' \
		-e 's|@VERSION@|$(VERSION)|' json_patch.pc.in >$(DESTDIR)$(LIBDIR)/pkgconfig/json_patch.pc
	chmod 644 $(DESTDIR)$(LIBDIR)/pkgconfig/json_patch.pc
	$(INSTALL) -m 644 man/json-patch.1 $(DESTDIR)$(MANDIR)/man1/json-patch.1
	$(INSTALL) -m 644 man/json_patch.3 $(DESTDIR)$(MANDIR)/man3/json_patch.3
	$(INSTALL) -m 644 LICENSE $(DESTDIR)$(DOCDIR)/LICENSE
	$(INSTALL) -m 644 $(out)/json-patch.bash $(DESTDIR)$(BASHDIR)/json-patch
	$(INSTALL) -m 644 $(out)/_json-patch $(DESTDIR)$(ZSHDIR)/_json-patch
	$(INSTALL) -m 644 $(out)/json-patch.fish $(DESTDIR)$(FISHDIR)/json-patch.fish
	$(INSTALL) -m 644 python/json_patch/__init__.py $(DESTDIR)$(PYTHONDIR)/json_patch/__init__.py
	$(INSTALL) -m 644 python/json_patch/py.typed $(DESTDIR)$(PYTHONDIR)/json_patch/py.typed
	@if [ -z "$(DESTDIR)" ] && [ "$$(id -u)" = 0 ] && command -v ldconfig >/dev/null; then ldconfig; fi

uninstall:
	rm -f $(DESTDIR)$(BINDIR)/json-patch $(DESTDIR)$(INCLUDEDIR)/json_patch.h \
		$(DESTDIR)$(INCLUDEDIR)/json_patch_link.h $(DESTDIR)$(INCLUDEDIR)/json_patch_hex.h \
		$(DESTDIR)$(INCLUDEDIR)/json_patch_inspect.h $(DESTDIR)$(LIBDIR)/libinspect.a \
		$(DESTDIR)$(INCLUDEDIR)/json_patch_compare.h $(DESTDIR)$(LIBDIR)/libcompare.a \
		$(DESTDIR)$(LIBDIR)/libfragment.a $(DESTDIR)$(LIBDIR)/libhex.a \
		$(DESTDIR)$(LIBDIR)/libjson_patch.a $(DESTDIR)$(LIBDIR)/libjson_patch.so \
		$(DESTDIR)$(LIBDIR)/$(soname) $(DESTDIR)$(LIBDIR)/$(shared) \
		$(DESTDIR)$(LIBDIR)/pkgconfig/json_patch.pc \
		$(DESTDIR)$(MANDIR)/man1/json-patch.1 $(DESTDIR)$(MANDIR)/man3/json_patch.3 \
		$(DESTDIR)$(DOCDIR)/LICENSE $(DESTDIR)$(BASHDIR)/json-patch $(DESTDIR)$(ZSHDIR)/_json-patch \
		$(DESTDIR)$(FISHDIR)/json-patch.fish
	rm -rf $(DESTDIR)$(PYTHONDIR)/json_patch
	-rmdir $(DESTDIR)$(DOCDIR) 2>/dev/null

clean:
	rm -rf $(out) target/examples target/cross target/page rust/target

.PHONY: all check cross check-cross page check-page install uninstall clean
.DELETE_ON_ERROR:
