# For those who type make: each target calls a script of the root, which does the work and says what it needs.
PREFIX = /usr/local
LIBDIR = $(PREFIX)/lib
DESTDIR =

all:
	./barfigol --version

test check:
	./test

install:
	./install PREFIX="$(PREFIX)" LIBDIR="$(LIBDIR)" DESTDIR="$(DESTDIR)"

uninstall:
	./install --uninstall PREFIX="$(PREFIX)" LIBDIR="$(LIBDIR)" DESTDIR="$(DESTDIR)"

.PHONY: all test check install uninstall
