# The library for C: `make` has it proved and archived where that was not done, `make test` tries it, `make install` puts header, archive and pkg-config
# file below PREFIX (DESTDIR before it, for packagers).
PREFIX ?= /usr/local
INCLUDEDIR ?= $(PREFIX)/include
LIBDIR ?= $(PREFIX)/lib
# The kit compiles for x86-64; elsewhere the archive is made of portable/ducatbriar.c.
ifeq ($(shell uname -m),x86_64)
DUCATBRIAR_LIB ?= target/staticlib/libducatbriar.a
else
DUCATBRIAR_LIB ?= target/portable/libducatbriar.a
endif

VERSION := $(shell sed -n 's/^.define DUCATBRIAR_VERSION "\(.*\)".*/\1/p' include/ducatbriar.h)

.PHONY: all test install

all: $(DUCATBRIAR_LIB)

target/staticlib/libducatbriar.a:
	portable/proved

target/portable/libducatbriar.a: portable/ducatbriar.c
	CC="$(CC)" portable/archive $@

test: all
	DUCATBRIAR_LIB=$(abspath $(DUCATBRIAR_LIB)) examples/c/test

install: all
	install -d $(DESTDIR)$(INCLUDEDIR) $(DESTDIR)$(LIBDIR)/pkgconfig
	install -m 644 include/ducatbriar.h $(DESTDIR)$(INCLUDEDIR)
	install -m 644 $(DUCATBRIAR_LIB) $(DESTDIR)$(LIBDIR)/libducatbriar.a
	sed -e 's|@INCLUDEDIR@|$(INCLUDEDIR)|' -e 's|@LIBDIR@|$(LIBDIR)|' -e 's|@VERSION@|$(VERSION)|' include/ducatbriar.pc.in \
	    > $(DESTDIR)$(LIBDIR)/pkgconfig/ducatbriar.pc
