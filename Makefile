# The C library: built, tried and installed. Needs GNU make and, by goal:
#
#   make            rt, the Rattle kit: proves the library and writes target/staticlib/libziwhakemo.a
#   make probe      rt: likewise target/staticlib/libprobe.a, for the comparison in compare/ alone
#   make examples   a C compiler (CC) as well: the programs of examples/c, in target/c
#   make test       a C++ compiler (CXX) as well: the examples as C99, C17 and C++17 without a warning;
#                   runs them and compares what they print with what is stored
#   make memcheck   valgrind as well: the examples, and every function on INPUTS random inputs, each
#                   region lent at exactly its size
#   make install    nothing more: archive, headers and ziwhakemo.pc under PREFIX
#   make uninstall  removes them
#
# What is installed is linked by `cc .. $(pkg-config --cflags --libs ziwhakemo)`, with pkg-config, or by
# -I$(PREFIX)/include -L$(PREFIX)/lib -lziwhakemo. A library proved elsewhere is taken by ARCHIVE=FILE.

RT = rt
CC = gcc
CXX = g++
CFLAGS = -O1 -g
WARNINGS = -Wall -Wextra -pedantic -Werror
PREFIX = /usr/local
DESTDIR =
INPUTS = 200000

ARCHIVE = target/staticlib/libziwhakemo.a
HEADERS = include/ziwhakemo.h include/ziwhakemo_names.h
# what stands after the name in the header (a dot for the number sign, which begins a comment here)
VERSION := $(shell sed -n 's/^.define ZIWHAKEMO_VERSION //p' include/ziwhakemo.h)
# what rt reads; what it writes stands in each crate's out/
SOURCES := crates.txt $(shell find crates -name out -prune -o \( -name '*.rt' -o -name '*.antt' \) -print)
PROGRAMS = score calls three book names boundary
STANDARDS = c99 c17 c++17

LIB = $(DESTDIR)$(PREFIX)/lib
INCLUDE = $(DESTDIR)$(PREFIX)/include

.PHONY: all probe examples test memcheck install uninstall
.DELETE_ON_ERROR:

all: $(ARCHIVE)

probe: target/staticlib/libprobe.a

# rt proves what changed and no more. The exports for C stand in a crate of their own.
target/staticlib/libziwhakemo.a: $(SOURCES) | target/staticlib
	cd crates/ziwhakemo_c && $(RT) lib
	cp crates/ziwhakemo_c/out/libziwhakemo_c.a $@

target/staticlib/libprobe.a: $(SOURCES) | target/staticlib
	cd crates/probe && $(RT) lib
	cp crates/probe/out/libprobe.a $@

target/staticlib:
	mkdir -p $@

target/c:
	mkdir -p $@

target/c/%.c99: examples/c/%.c $(HEADERS) $(ARCHIVE) | target/c
	$(CC) -std=c99 $(WARNINGS) $(CFLAGS) -Iinclude $< $(ARCHIVE) -o $@

target/c/%.c17: examples/c/%.c $(HEADERS) $(ARCHIVE) | target/c
	$(CC) -std=c17 $(WARNINGS) $(CFLAGS) -Iinclude $< $(ARCHIVE) -o $@

target/c/%.c++17: examples/c/%.c $(HEADERS) $(ARCHIVE) | target/c
	$(CXX) -x c++ -std=c++17 $(WARNINGS) $(CFLAGS) -Iinclude $< -x none $(ARCHIVE) -o $@

examples: $(PROGRAMS:%=target/c/%.c99)

test: $(foreach standard,$(STANDARDS),$(PROGRAMS:%=target/c/%.$(standard)))
	set -e; for standard in $(STANDARDS); do \
	    echo "as $$standard"; \
	    for program in score calls three book; do \
	        target/c/$$program.$$standard > target/c/$$program.out; \
	        diff examples/c/$$program.out target/c/$$program.out; \
	    done; \
	    target/c/names.$$standard; \
	    target/c/boundary.$$standard $(INPUTS) > target/c/boundary.out || { cat target/c/boundary.out; exit 1; }; \
	    tail -n 1 target/c/boundary.out; \
	done

memcheck: $(PROGRAMS:%=target/c/%.c99)
	set -e; for program in score calls three book names; do \
	    valgrind --error-exitcode=9 target/c/$$program.c99 > /dev/null; \
	done
	valgrind --error-exitcode=9 target/c/boundary.c99 $(INPUTS)

install: $(ARCHIVE)
	mkdir -p $(LIB)/pkgconfig $(INCLUDE)
	install -m 644 $(ARCHIVE) $(LIB)/libziwhakemo.a
	install -m 644 $(HEADERS) $(INCLUDE)
	sed -e 's|@PREFIX@|$(PREFIX)|' -e 's|@VERSION@|$(VERSION)|' include/ziwhakemo.pc.in > $(LIB)/pkgconfig/ziwhakemo.pc

uninstall:
	rm -f $(LIB)/libziwhakemo.a $(HEADERS:include/%=$(INCLUDE)/%) $(LIB)/pkgconfig/ziwhakemo.pc
