# Builds and installs. `make install PREFIX=/usr/local` puts the tool, the C header, the archive, a pkg-config file and the manual page
# in place; DESTDIR goes before every path, for those who make packages.
PREFIX ?= /usr/local
DESTDIR ?=
BINDIR = $(PREFIX)/bin
INCLUDEDIR = $(PREFIX)/include
LIBDIR = $(PREFIX)/lib
MANDIR = $(PREFIX)/share/man/man1
VERSION = $(shell sed -n 's/^version = "\(.*\)"/\1/p' cli/Cargo.toml)
TOOL = cli/target/release/janorembe
ARCHIVE = target/staticlib/libcapi.a

.PHONY: all install uninstall

all:
	tools/build

$(ARCHIVE):
	tools/build

$(TOOL): $(ARCHIVE)
	cd cli && cargo build --release --offline

install: $(TOOL) $(ARCHIVE)
	install -d $(DESTDIR)$(BINDIR) $(DESTDIR)$(INCLUDEDIR) $(DESTDIR)$(LIBDIR)/pkgconfig $(DESTDIR)$(MANDIR)
	install -m 755 $(TOOL) $(DESTDIR)$(BINDIR)/janorembe
	install -m 644 include/janorembe.h $(DESTDIR)$(INCLUDEDIR)/janorembe.h
	install -m 644 $(ARCHIVE) $(DESTDIR)$(LIBDIR)/libjanorembe.a
	install -m 644 cli/janorembe.1 $(DESTDIR)$(MANDIR)/janorembe.1
	sed -e 's|@PREFIX@|$(PREFIX)|' -e 's|@VERSION@|$(VERSION)|' cli/janorembe.pc.in > $(DESTDIR)$(LIBDIR)/pkgconfig/janorembe.pc

uninstall:
	rm -f $(DESTDIR)$(BINDIR)/janorembe $(DESTDIR)$(INCLUDEDIR)/janorembe.h $(DESTDIR)$(LIBDIR)/libjanorembe.a
	rm -f $(DESTDIR)$(MANDIR)/janorembe.1 $(DESTDIR)$(LIBDIR)/pkgconfig/janorembe.pc
