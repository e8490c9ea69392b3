# Builds davserve, and installs it with davd: `make help` says how.

PREFIX     ?= /usr/local
SYSCONFDIR ?= /etc
UNITDIR    ?= $(PREFIX)/lib/systemd/system
DESTDIR    ?=
DAVD       ?= crates/davd/out/davd
GO         ?= go

DAVSERVE := server/out/davserve
SOURCES  := $(shell find server -name '*.go' ! -name '*_test.go') $(wildcard server/page/*) server/go.mod

BINDIR  := $(PREFIX)/bin
MANDIR  := $(PREFIX)/share/man/man1
UNIT    := $(UNITDIR)/davserve.service
USERS   := $(PREFIX)/lib/sysusers.d/davserve.conf
OPTIONS := $(SYSCONFDIR)/default/davserve

define HELP
make           builds davserve
make install   installs davserve, davd, their manual pages and a unit for systemd
make uninstall removes them, and leaves the options and what was served

PREFIX=$(PREFIX)       where programs, pages and the unit are
SYSCONFDIR=$(SYSCONFDIR)         where the options are
DESTDIR=$(DESTDIR)                a folder in the place of /, for packages
DAVD=$(DAVD)
                        the program davd: `rt ci` proves and builds it
endef
export HELP

.PHONY: build help install uninstall

build: $(DAVSERVE)

help:
	@echo "$$HELP"

$(DAVSERVE): $(SOURCES)
	cd server && $(GO) build -o out/davserve ./cmd/davserve

$(DAVD):
	@echo "make: no program $(DAVD): build davd first, or name another one by DAVD=" >&2
	@exit 1

install: $(DAVSERVE) $(DAVD)
	install -D -m 755 $(DAVSERVE) $(DESTDIR)$(BINDIR)/davserve
	install -D -m 755 $(DAVD) $(DESTDIR)$(BINDIR)/davd
	install -D -m 644 server/install/davserve.1 $(DESTDIR)$(MANDIR)/davserve.1
	install -D -m 644 server/install/davd.1 $(DESTDIR)$(MANDIR)/davd.1
	install -D -m 644 server/install/davserve.service $(DESTDIR)$(UNIT)
	sed -i 's|@BINDIR@|$(BINDIR)|; s|/etc/default|$(SYSCONFDIR)/default|' $(DESTDIR)$(UNIT)
	install -D -m 644 server/install/davserve.sysusers $(DESTDIR)$(USERS)
	[ -e $(DESTDIR)$(OPTIONS) ] || install -D -m 644 server/install/davserve.default $(DESTDIR)$(OPTIONS)

uninstall:
	rm -f $(addprefix $(DESTDIR),$(BINDIR)/davserve $(BINDIR)/davd $(MANDIR)/davserve.1 $(MANDIR)/davd.1 $(UNIT) $(USERS))
