# A front for the scripts; nothing here needs make.
PREFIX ?= /usr/local
library = target/lib/libhimzolven.a

all:
	scripts/library

$(library): crates.txt $(shell find crates -name '*.rt' -o -name '*.antt')
	scripts/library

install: $(library)
	DESTDIR='$(DESTDIR)' PREFIX='$(PREFIX)' scripts/install

uninstall:
	DESTDIR='$(DESTDIR)' PREFIX='$(PREFIX)' scripts/install --uninstall

check:
	./test

help:
	@echo 'make             proves the functions for C and makes $(library) (scripts/library)'
	@echo 'make install     under PREFIX=$(PREFIX), with DESTDIR before it (scripts/install)'
	@echo 'make uninstall   takes the files away again'
	@echo 'make check       all tests (./test)'

.PHONY: all install uninstall check help
