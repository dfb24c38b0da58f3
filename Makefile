# `make` proves and builds the program and leaves it as bin/qbf. `make lib` does the same with the library for C, as
# lib/libqbf.a and lib/libqbf.so, and with lib/libqbf_qdpll.a, DepQBF's names over it. `make web` builds the page of
# web/, and `make serve` serves it to this machine. `make test` runs every check.
#
# `make install` puts the program, its page of the manual and its completion in bash below PREFIX, and the libraries,
# their headers and what pkg-config reads; `make install-program` and `make install-lib` install the one or the other.
# `make uninstall` takes all of it away.
SOURCES := crates.txt $(shell find crates -name out -prune -o -type f -print)

PREFIX ?= /usr/local
INSTALLED := $(DESTDIR)$(PREFIX)
PAGE := $(INSTALLED)/share/man/man1/qbf.1
COMPLETION := $(INSTALLED)/share/bash-completion/completions/qbf

# The version of all that is installed, and the name by which programs ask for the library, with its interface's number.
VERSION := 0.8.0
SONAME := libqbf.so.1
HEADERS := $(INSTALLED)/include
LIBRARIES := $(INSTALLED)/lib
PACKAGES := $(LIBRARIES)/pkgconfig

CC ?= cc
AR ?= ar
CFLAGS ?= -O2

.PHONY: all lib web serve test install install-program install-lib uninstall clean

all: bin/qbf

# The program is built only once it is proved, its libraries side by side. Then it is run on the example, a true
# formula.
bin/qbf: $(SOURCES)
	tools/prove qbf_cli
	cd crates/qbf_cli && { rt run -- solve < stdin > /dev/null; test $$? -eq 10; }
	mkdir -p bin
	cp crates/qbf_cli/out/qbf_cli bin/qbf

lib: lib/libqbf.a lib/libqbf.so lib/libqbf_qdpll.a

# The archive of the proved crate, and the kit's three allocation functions, by which it calls malloc, realloc and free.
lib/libqbf.a: $(SOURCES)
	tools/prove qbf_c
	cd crates/qbf_c && rt lib
	tools/archive crates/qbf_c/out/libqbf_c.a $@

lib/$(SONAME): lib/libqbf.a include/libqbf.map
	$(CC) -shared -o $@ -Wl,-soname,$(SONAME) -Wl,--version-script=include/libqbf.map -Wl,-z,defs \
		-Wl,--whole-archive lib/libqbf.a -Wl,--no-whole-archive

lib/libqbf.so: lib/$(SONAME)
	ln -sf $(SONAME) $@

lib/libqbf_qdpll.a: compat/qdpll.c compat/qdpll.h include/qbf.h
	mkdir -p lib
	$(CC) $(CFLAGS) -std=c99 -Wall -Wextra -fPIC -Iinclude -c compat/qdpll.c -o lib/qdpll.o
	$(AR) rcs $@ lib/qdpll.o
	rm lib/qdpll.o

test:
	.ci/run

# The page: its module, which is proved on the way, and the examples beside it. It is served to this machine alone.
web: web/qbf.wasm
	python3 web/gather.py

web/qbf.wasm: $(SOURCES) $(wildcard web/module/*)
	web/module/build.sh web/qbf.wasm

serve: web
	@echo "http://127.0.0.1:8765/"
	python3 -m http.server --bind 127.0.0.1 --directory web 8765

install: install-program install-lib

install-program: bin/qbf
	install -D -m 755 bin/qbf "$(INSTALLED)/bin/qbf"
	install -D -m 644 man/qbf.1 "$(PAGE)"
	install -D -m 644 completion/qbf.bash "$(COMPLETION)"

install-lib: lib
	install -D -m 644 include/qbf.h "$(HEADERS)/qbf.h"
	install -D -m 644 compat/qdpll.h "$(HEADERS)/qbf/qdpll.h"
	install -D -m 644 lib/libqbf.a "$(LIBRARIES)/libqbf.a"
	install -D -m 644 lib/libqbf_qdpll.a "$(LIBRARIES)/libqbf_qdpll.a"
	install -D -m 755 lib/$(SONAME) "$(LIBRARIES)/$(SONAME)"
	ln -sf $(SONAME) "$(LIBRARIES)/libqbf.so"
	mkdir -p "$(PACKAGES)"
	sed 's|@PREFIX@|$(PREFIX)|; s|@VERSION@|$(VERSION)|' include/qbf.pc.in > "$(PACKAGES)/qbf.pc"
	sed 's|@PREFIX@|$(PREFIX)|; s|@VERSION@|$(VERSION)|' compat/qbf_qdpll.pc.in > "$(PACKAGES)/qbf_qdpll.pc"

uninstall:
	rm -f "$(INSTALLED)/bin/qbf" "$(PAGE)" "$(COMPLETION)" "$(HEADERS)/qbf.h" "$(HEADERS)/qbf/qdpll.h"
	rm -f "$(LIBRARIES)/libqbf.a" "$(LIBRARIES)/libqbf_qdpll.a" "$(LIBRARIES)/$(SONAME)" "$(LIBRARIES)/libqbf.so"
	rm -f "$(PACKAGES)/qbf.pc" "$(PACKAGES)/qbf_qdpll.pc"
	-rmdir "$(HEADERS)/qbf"

clean:
	rm -rf bin lib out crates/*/out web/qbf.wasm web/examples
