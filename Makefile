# make                        the archive, target/staticlib/libjogipahn.a (proves what has changed first)
# make install PREFIX=DIR     the archive, the header and the pkg-config file, below DIR (/usr/local if none is named)
# make uninstall PREFIX=DIR   removes them again
# DESTDIR is put in front of every path that is written, for packagers. READY=--ready builds over what `rt ci` has
# just proved.

PREFIX = /usr/local
VERSION = $(shell sed -n 's/^\#define JOGIPAHN_VERSION "\(.*\)"$$/\1/p' include/jogipahn.h)

ARCHIVE = target/staticlib/libjogipahn.a
LIBRARIES = $(DESTDIR)$(PREFIX)/lib
HEADERS = $(DESTDIR)$(PREFIX)/include

all:
	sh scripts/build $(READY) archive

$(ARCHIVE): all

install: $(ARCHIVE)
	install -d '$(LIBRARIES)/pkgconfig' '$(HEADERS)'
	install -m 644 $(ARCHIVE) '$(LIBRARIES)/libjogipahn.a'
	install -m 644 include/jogipahn.h '$(HEADERS)/jogipahn.h'
	sed -e 's|@PREFIX@|$(PREFIX)|' -e 's|@VERSION@|$(VERSION)|' jogipahn.pc.in >'$(LIBRARIES)/pkgconfig/jogipahn.pc'

uninstall:
	rm -f '$(LIBRARIES)/libjogipahn.a' '$(HEADERS)/jogipahn.h' '$(LIBRARIES)/pkgconfig/jogipahn.pc'

.PHONY: all install uninstall
