# The package: what is proved and built is said by package/build, what is checked by tests/run.
#   make                        proves and builds the library and the command `dock`
#   make check                  every check
#   make bench                  times the library and the model
#   make install PREFIX=..      include/dock.h, lib/libdock.a, lib/libdock.so, lib/pkgconfig/dock.pc, bin/dock, the man page
PREFIX = /usr/local
DESTDIR =

all:
	sh package/build

check:
	sh tests/run

bench:
	sh bench/run

install: all
	sh package/install "$(PREFIX)" "$(DESTDIR)"

.PHONY: all check bench install
