# Builds the program, runs the tests of the package around it, and installs both.
#
#   make                       the program, proved, compiled and linked: crates/gridlet/out/gridlet
#   make check                 the tests of python/ over the program
#   make shared                the library for C, as libgridlet.so too: the static library, proved and
#                              compiled, linked with the heap of the toolchain's C library
#   make install PREFIX=DIR    the program, the libraries where they are built, the header, the
#                              package, gridlet-sheet, man pages and files for editors
#
# PROGRAM=FILE takes a built program from elsewhere. RT and HEAP say where the toolchain's command
# and its C library stand where they are not found.

PREFIX ?= /usr/local
DESTDIR ?=
RT ?= rt
PYTHON ?= python3
CC ?= cc
INSTALL ?= install
HEAP ?= $(dir $(realpath $(shell command -v $(RT))))../c/liblibc_c.a

TOP := $(dir $(abspath $(lastword $(MAKEFILE_LIST))))
BUILT := $(TOP)crates/gridlet/out/gridlet
PROGRAM ?= $(BUILT)
STATIC := $(TOP)crates/gridlet_c/out/libgridlet_c.a
SHARED := $(TOP)crates/gridlet_c/out/libgridlet.so

to := $(DESTDIR)$(PREFIX)
package := $(to)/lib/gridlet/gridlet
pages := $(to)/share/man
editors := $(to)/share/gridlet/editors

MAKEFLAGS += --no-builtin-rules
.SUFFIXES:
.PHONY: all check static shared heap install install-libraries uninstall

all: $(PROGRAM)

$(BUILT):
	cd $(TOP)crates/gridlet && $(RT) run </dev/null

# A program from elsewhere is taken as it is: make has no rule of its own for it.
ifneq ($(PROGRAM),$(BUILT))
$(PROGRAM): ;
endif

check: $(PROGRAM)
	cd $(TOP)python && GRIDLET=$(abspath $(PROGRAM)) PYTHONDONTWRITEBYTECODE=1 $(PYTHON) -m tests

static: $(STATIC)

$(STATIC):
	cd $(TOP)crates/gridlet_c && $(RT) lib

shared: $(SHARED)

$(SHARED): $(STATIC)
	@test -f "$(HEAP)" || { echo "make: the toolchain's heap is not at $(HEAP): say HEAP=FILE" >&2; exit 1; }
	@echo "linking $(STATIC) with the heap of the toolchain, $(HEAP)"
	$(CC) -shared -o $@ -Wl,--whole-archive $(STATIC) -Wl,--no-whole-archive $(HEAP)

# Where the heap is, for who links the static library.
heap:
	@echo "$(HEAP)"

install: $(PROGRAM) install-libraries
	$(INSTALL) -d $(to)/bin $(to)/include $(package)/commands $(package)/assets
	$(INSTALL) -d $(pages)/man1 $(pages)/man5 $(to)/share/doc/gridlet
	$(INSTALL) -m 755 $(PROGRAM) $(to)/bin/gridlet
	$(INSTALL) -m 755 $(TOP)python/gridlet-sheet $(to)/bin/gridlet-sheet
	$(INSTALL) -m 644 $(TOP)include/gridlet.h $(to)/include/gridlet.h
	$(INSTALL) -m 644 $(TOP)python/gridlet/*.py $(TOP)python/gridlet/py.typed $(package)
	$(INSTALL) -m 644 $(TOP)docs/LANGUAGE.md $(package)
	$(INSTALL) -m 644 $(TOP)python/gridlet/commands/*.py $(package)/commands
	$(INSTALL) -m 644 $(TOP)python/gridlet/assets/* $(package)/assets
	$(INSTALL) -m 644 $(TOP)man/gridlet.1 $(TOP)man/gridlet-sheet.1 $(pages)/man1
	$(PYTHON) $(TOP)man/language_page.py $(TOP)docs/LANGUAGE.md >$(pages)/man5/gridlet.5
	$(INSTALL) -m 644 $(TOP)README.md $(TOP)docs/LANGUAGE.md $(TOP)docs/COOKBOOK.md $(to)/share/doc/gridlet
	cd $(TOP)editors && find . -type d -exec $(INSTALL) -d $(editors)/{} \;
	cd $(TOP)editors && find . -type f -exec $(INSTALL) -m 644 {} $(editors)/{} \;

# The libraries for C take a toolchain to build, so those that are built are installed.
install-libraries:
	$(INSTALL) -d $(to)/lib
	@for library in $(STATIC) $(SHARED); do \
	  if [ -f "$$library" ]; then \
	    echo "$(INSTALL) -m 644 $$library $(to)/lib"; $(INSTALL) -m 644 "$$library" $(to)/lib; \
	  else echo "not built, so not installed (make shared): $$(basename $$library)"; fi; done

uninstall:
	rm -rf $(to)/lib/gridlet $(to)/share/gridlet $(to)/share/doc/gridlet
	rm -f $(to)/bin/gridlet $(to)/bin/gridlet-sheet $(to)/include/gridlet.h
	rm -f $(to)/lib/libgridlet_c.a $(to)/lib/libgridlet.so
	rm -f $(pages)/man1/gridlet.1 $(pages)/man1/gridlet-sheet.1 $(pages)/man5/gridlet.5
