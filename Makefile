# make                        the libraries, the program and the manual pages, in target/
# make run                    the program, on the lines of examples/times.txt
# make test                   the gate, which proves and compares everything
# make install PREFIX=DIR     header, libraries, honigzange.pc, zange, manual pages
# make uninstall PREFIX=DIR
# make clean
#
# DESTDIR stands before each path that is written to, and in no file. `make` always asks rt, which knows what
# is proved; `make install` builds only what is missing, so that root needs no rt.
#
# Rattle compiles for x86-64 alone. On Arm the libraries are for x86-64 too, a compiler for it links them, and the
# program runs under the emulator of Rattle's kit.

# The version stands in the package for Rust.
VERSION := $(shell sed -n 's/^version = "\(.*\)"$$/\1/p' bindings/rust/Cargo.toml)
SONAME = libhonigzange.so.0

PREFIX = /usr/local
BINDIR = $(PREFIX)/bin
INCLUDEDIR = $(PREFIX)/include
LIBDIR = $(PREFIX)/lib
MANDIR = $(PREFIX)/share/man

INSTALL = install
RT = rt
ifeq ($(shell uname -m),aarch64)
CC = x86_64-linux-gnu-gcc
TOOLS = $(dir $(patsubst %/,%,$(dir $(shell $(RT) doc))))on/aarch64/toolchain
EMULATOR = $(TOOLS)/bin/qemu-x86_64 $(TOOLS)/lib/ld-linux-x86-64.so.2 --library-path $(TOOLS)/lib
else
CC = gcc
EMULATOR =
endif

STATIC = target/staticlib/libhonigzange.a
SHARED = target/shared/libhonigzange.so.$(VERSION)
PROGRAM = target/bin/zange
PAGES = target/man/zange.1 target/man/honigzange.3
CALLS = sed -n 's/^uint8_t \(hz_[a-z_]*\)(.*/\1/p' include/honigzange.h

all: prove $(SHARED) $(PAGES)

prove: library program

# rt leaves what it builds in the crate's own out/.
library:
	@mkdir -p target/staticlib
	cd crates/honigzange && $(RT) lib
	@cmp -s crates/honigzange/out/libhonigzange.a $(STATIC) || cp crates/honigzange/out/libhonigzange.a $(STATIC)

program:
	@mkdir -p target/bin
	cd crates/zange && $(RT) run </dev/null
	@cmp -s crates/zange/out/zange $(PROGRAM) || cp crates/zange/out/zange $(PROGRAM)

$(STATIC):
	$(MAKE) library

$(PROGRAM):
	$(MAKE) program

run:
	@[ -f $(PROGRAM) ] || echo 'proving the program: some minutes' >&2
	@mkdir -p target
	@$(MAKE) -s program >target/run.log 2>&1 || { cat target/run.log; exit 1; }
	@$(EMULATOR) $(PROGRAM) <examples/times.txt

# The linker refuses what is not position independent (text) or needs another library (defs).
$(SHARED): $(STATIC) pkg/honigzange.map
	@command -v $(CC) >/dev/null || .ci/machine link
	mkdir -p target/shared
	$(CC) -shared -nostdlib -o $@ -Wl,-soname,$(SONAME) -Wl,--version-script=pkg/honigzange.map \
	    -Wl,-z,text -Wl,-z,defs -Wl,--whole-archive $(STATIC) -Wl,--no-whole-archive

target/man/zange.1: pkg/zange.1.in Makefile
	mkdir -p target/man
	sed 's/@VERSION@/$(VERSION)/' pkg/zange.1.in >$@

target/man/honigzange.3: include/honigzange.h pkg/manual.awk Makefile
	mkdir -p target/man
	awk -v version=$(VERSION) -f pkg/manual.awk include/honigzange.h >$@

test:
	.ci/run

install: $(STATIC) $(SHARED) $(PROGRAM) $(PAGES)
	@case '$(PREFIX)' in /*) ;; *) echo 'make install: PREFIX is to begin with /' >&2 && exit 1 ;; esac
	$(INSTALL) -d '$(DESTDIR)$(BINDIR)' '$(DESTDIR)$(INCLUDEDIR)' '$(DESTDIR)$(LIBDIR)/pkgconfig' \
	    '$(DESTDIR)$(MANDIR)/man1' '$(DESTDIR)$(MANDIR)/man3'
	$(INSTALL) -m 755 $(PROGRAM) '$(DESTDIR)$(BINDIR)'
	$(INSTALL) -m 644 include/honigzange.h '$(DESTDIR)$(INCLUDEDIR)'
	$(INSTALL) -m 644 $(STATIC) '$(DESTDIR)$(LIBDIR)'
	$(INSTALL) -m 755 $(SHARED) '$(DESTDIR)$(LIBDIR)'
	ln -sf libhonigzange.so.$(VERSION) '$(DESTDIR)$(LIBDIR)/$(SONAME)'
	ln -sf $(SONAME) '$(DESTDIR)$(LIBDIR)/libhonigzange.so'
	sed -e 's|@PREFIX@|$(PREFIX)|' -e 's|@LIBDIR@|$(LIBDIR)|' -e 's|@INCLUDEDIR@|$(INCLUDEDIR)|' \
	    -e 's|@VERSION@|$(VERSION)|' pkg/honigzange.pc.in >'$(DESTDIR)$(LIBDIR)/pkgconfig/honigzange.pc'
	chmod 644 '$(DESTDIR)$(LIBDIR)/pkgconfig/honigzange.pc'
	$(INSTALL) -m 644 target/man/zange.1 '$(DESTDIR)$(MANDIR)/man1'
	$(INSTALL) -m 644 target/man/honigzange.3 '$(DESTDIR)$(MANDIR)/man3'
	for call in $$($(CALLS)); do ln -sf honigzange.3 '$(DESTDIR)$(MANDIR)/man3/'"$$call.3" || exit 1; done

uninstall:
	rm -f '$(DESTDIR)$(BINDIR)/zange' '$(DESTDIR)$(INCLUDEDIR)/honigzange.h'
	rm -f '$(DESTDIR)$(LIBDIR)/libhonigzange.a' '$(DESTDIR)$(LIBDIR)/libhonigzange.so' \
	    '$(DESTDIR)$(LIBDIR)/$(SONAME)' '$(DESTDIR)$(LIBDIR)/libhonigzange.so.$(VERSION)' \
	    '$(DESTDIR)$(LIBDIR)/pkgconfig/honigzange.pc'
	rm -f '$(DESTDIR)$(MANDIR)/man1/zange.1' '$(DESTDIR)$(MANDIR)/man3/honigzange.3'
	for call in $$($(CALLS)); do rm -f '$(DESTDIR)$(MANDIR)/man3/'"$$call.3" || exit 1; done

clean:
	rm -rf target crates/*/out

# rt works in one crate at a time.
.NOTPARALLEL:
.DELETE_ON_ERROR:
.PHONY: all prove library program run test install uninstall clean
