# Included by the Makefile at the top; all paths are from there.
#
#   make install PREFIX=/usr/local DESTDIR=   the program, the library for hosts, the units, the manual
#   make uninstall                            removes what install put there, by the same variables

PREFIX ?= /usr/local
BINDIR ?= $(PREFIX)/bin
LIBDIR ?= $(PREFIX)/lib
INCLUDEDIR ?= $(PREFIX)/include
UNITDIR ?= $(PREFIX)/lib/systemd/system
MANDIR ?= $(PREFIX)/share/man
DIST := rust/epmd/dist

INSTALLED := $(BINDIR)/birken-epmd $(LIBDIR)/libbirkenschuh.a $(INCLUDEDIR)/birkenschuh.h $(LIBDIR)/pkgconfig/birkenschuh.pc \
    $(UNITDIR)/birken-epmd.service $(UNITDIR)/birken-epmd.socket $(MANDIR)/man8/birken-epmd.8

version = $(shell sed -n 's/^version = "\(.*\)"/\1/p' $(1)/Cargo.toml)
# Puts a template of $(DIST) in place, with the folders and the version (of the Rust package in $(3)) filled in.
fill = sed -e 's|@PREFIX@|$(PREFIX)|g; s|@BINDIR@|$(BINDIR)|g; s|@LIBDIR@|$(LIBDIR)|g; s|@INCLUDEDIR@|$(INCLUDEDIR)|g' \
    -e 's|@VERSION@|$(call version,$(3))|g' $(DIST)/$(1).in | install -D -m 644 /dev/stdin '$(DESTDIR)$(2)/$(1)'

.PHONY: install uninstall

install: program
	@install -D -m 755 $(PROGRAM) '$(DESTDIR)$(BINDIR)/birken-epmd'
	@install -D -m 644 $(LIB) '$(DESTDIR)$(LIBDIR)/libbirkenschuh.a'
	@install -D -m 644 $(HEADER) '$(DESTDIR)$(INCLUDEDIR)/birkenschuh.h'
	@$(call fill,birkenschuh.pc,$(LIBDIR)/pkgconfig,rust)
	@$(call fill,birken-epmd.service,$(UNITDIR),rust/epmd)
	@$(call fill,birken-epmd.socket,$(UNITDIR),rust/epmd)
	@$(call fill,birken-epmd.8,$(MANDIR)/man8,rust/epmd)
	@printf 'installed: %s\n' $(foreach file,$(INSTALLED),'$(DESTDIR)$(file)')

uninstall:
	@rm -f $(foreach file,$(INSTALLED),'$(DESTDIR)$(file)')
	@printf 'removed: %s\n' $(foreach file,$(INSTALLED),'$(DESTDIR)$(file)')
