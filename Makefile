# Builds and installs what stands around the proved code; everything is proved before it is compiled.
#
#     make                                       the library and the programs
#     make install PREFIX=/usr DESTDIR=/tmp/x    header, libraries, programs and their pages
#     make uninstall PREFIX=/usr DESTDIR=/tmp/x  takes just these away again
#     make check                                 the scripts and the library, tried
PREFIX ?= /usr/local
DESTDIR ?=

all:
	tools/install --build

install:
	PREFIX='$(PREFIX)' DESTDIR='$(DESTDIR)' tools/install

uninstall:
	PREFIX='$(PREFIX)' DESTDIR='$(DESTDIR)' tools/install --remove

check:
	tests/scripts
	door/test

.PHONY: all install uninstall check
