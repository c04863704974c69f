# `make install PREFIX=/opt/bench`: the headers, the archive and a pkg-config file.
# DESTDIR, before PREFIX, is for packages. `make uninstall` takes the same files away again.

PREFIX  ?= /usr/local
DESTDIR ?=

INSTALL_HEADERS = $(DESTDIR)$(PREFIX)/include
INSTALL_ARCHIVE = $(DESTDIR)$(PREFIX)/lib
INSTALL_PC      = $(DESTDIR)$(PREFIX)/lib/pkgconfig

HEADERS = hislip_server.h hislip_names.h
# The header has the version.
VERSION_OF = awk '$$2 == "HISLIP_VERSION" { gsub(/"/, "", $$3); print $$3 }'

.PHONY: install install-files uninstall

install: library
	$(MAKE) --no-print-directory install-files

# What `make library` built, without building it again.
install-files:
	@test -f $(ARCHIVE) || { echo "make: $(ARCHIVE) is missing: run make library" >&2; exit 1; }
	mkdir -p $(INSTALL_HEADERS) $(INSTALL_ARCHIVE) $(INSTALL_PC)
	install -m 644 $(HEADERS:%=include/%) $(INSTALL_HEADERS)
	install -m 644 $(ARCHIVE) $(INSTALL_ARCHIVE)
	version=$$($(VERSION_OF) include/hislip_server.h) && \
	sed -e 's|@PREFIX@|$(PREFIX)|' -e "s|@VERSION@|$$version|" include/hislip.pc.in >$(INSTALL_PC)/hislip.pc

uninstall:
	rm -f $(HEADERS:%=$(INSTALL_HEADERS)/%) $(INSTALL_ARCHIVE)/libhislip.a $(INSTALL_PC)/hislip.pc
