# The library for C and C++: installs the headers, the archive, a shared library and the file that
# pkg-config reads.
#
#   make install     into PREFIX, which is /usr/local; DESTDIR is put before it, for packages
#   make uninstall   removes these files again
#   make shared      builds out/librignolda.so alone
#   make install-daemon, uninstall-daemon, deb
#                    the same for the daemon, and a package of it for Debian
#   make help        these lines
#
# CC says which machine it is for, x86-64 or arm64, as CC=aarch64-linux-gnu-gcc. LIBRARY names
# another archive, as LIBRARY=/path/librignolda.a. A program is then built by
#
#   cc program.c $(pkg-config --cflags --libs rignolda)
PREFIX ?= /usr/local
CC ?= cc
INSTALL ?= install
PROCESSOR := $(firstword $(subst -, ,$(shell $(CC) -dumpmachine 2>/dev/null)))
RELEASE := release/$(if $(filter aarch64 arm64,$(PROCESSOR)),arm64/)
LIBRARY ?= $(firstword $(wildcard $(RELEASE)librignolda.a lib/librignolda.a))
SETTINGS ?= $(firstword $(wildcard $(RELEASE)librignolda_settings.a lib/librignolda_settings.a \
                                   rust/rignolda_machine/lib/$(PROCESSOR)-linux-settings.a))
VERSION := $(shell sed -nE '/^\#\# /{s/^\#\# ([0-9]+(\.[0-9]+){2}), .*$$/\1/p;q}' CHANGELOG.md)
# What a program that is linked asks for. The layout of the structs is part of it: while the first
# number is 0, it is the second one.
BINARY := $(shell printf '%s\n' '$(VERSION)' | sed -E 's/^0\.([0-9]+)\..*/0.\1/;t;s/\..*//')
TO = $(DESTDIR)$(PREFIX)

ifeq ($(LIBRARY)$(filter help uninstall %-daemon deb,$(MAKECMDGOALS)),)
$(error there is no archive of the library: set LIBRARY)
endif
ifeq ($(VERSION),)
$(error the first heading of CHANGELOG.md has no version)
endif

help:
	@sed -n '/^#/!q;s/^# \{0,1\}//p' Makefile

shared: out/librignolda.so

# (nothing but the calls is seen from outside: the archive needs no other library)
# It is built each time, since LIBRARY may be another one.
out/librignolda.so: $(LIBRARY)
	@mkdir -p out
	$(CC) -shared -nostdlib -Wl,-soname,librignolda.so.$(BINARY) -Wl,-z,defs \
	    -Wl,--whole-archive $(LIBRARY) -Wl,--no-whole-archive -o $@

install: out/librignolda.so
	$(INSTALL) -d '$(TO)/include' '$(TO)/lib/pkgconfig'
	$(INSTALL) -m 644 include/rignolda.h include/rignolda_inline.h include/rignolda_settings.h \
	    '$(TO)/include'
	$(INSTALL) -m 644 $(LIBRARY) '$(TO)/lib/librignolda.a'
	$(INSTALL) -m 644 $(SETTINGS) '$(TO)/lib/librignolda_settings.a'
	$(INSTALL) -m 755 out/librignolda.so '$(TO)/lib/librignolda.so.$(VERSION)'
	ln -sf librignolda.so.$(VERSION) '$(TO)/lib/librignolda.so.$(BINARY)'
	ln -sf librignolda.so.$(BINARY) '$(TO)/lib/librignolda.so'
	printf '%s\n' 'prefix=$(PREFIX)' 'Name: rignolda' \
	    'Description: The ends of a proved self-stabilizing link, and a node of a tree of them' \
	    'Version: $(VERSION)' 'Cflags: -I$${prefix}/include' \
	    'Libs: -L$${prefix}/lib -lrignolda' >'$(TO)/lib/pkgconfig/rignolda.pc'

uninstall:
	rm -f '$(TO)/include/rignolda.h' '$(TO)/include/rignolda_inline.h' \
	    '$(TO)/include/rignolda_settings.h' '$(TO)/lib/librignolda_settings.a' \
	    '$(TO)/lib/librignolda.a' '$(TO)/lib/librignolda.so' \
	    '$(TO)/lib/librignolda.so.$(BINARY)' '$(TO)/lib/librignolda.so.$(VERSION)' \
	    '$(TO)/lib/pkgconfig/rignolda.pc'

install-daemon uninstall-daemon:
	$(MAKE) -C rust/rignoldad/packaging $(@:-daemon=) PREFIX='$(PREFIX)' DESTDIR='$(DESTDIR)'

deb:
	$(MAKE) -C rust/rignoldad/packaging deb

.PHONY: help shared install uninstall out/librignolda.so install-daemon uninstall-daemon deb
