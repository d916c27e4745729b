# SPDX-License-Identifier: Apache-2.0
# Builds, installs and packs the programs, the library and the press commands.
#
#   make                     builds the programs and the library, or takes them from the release if it is of the same sources
#   make check               the quick tests of everything (./test)
#   make install             programs, library, press commands, manual pages, and completion for bash
#   make uninstall           removes them
#   make deb                 Debian packages, in out/deb/ (needs debhelper and dh-python)
#   make wheel               the Python package with the library inside, and its source archive, in out/wheel/
#   make dist                the sources and the release, in out/
#   make lint                manual pages, generated text, spelling and scripts, by the tools that are installed
#   make clean               removes what was made, except proofs and programs in crates/
#
# The folders are those of GNU: prefix (or PREFIX), bindir, libdir, libexecdir, includedir, datarootdir, mandir, docdir, and DESTDIR
# in front of all. With BIN=DIR the programs are taken from that folder.

PREFIX ?= /usr/local
prefix ?= $(PREFIX)
exec_prefix ?= $(prefix)
bindir ?= $(exec_prefix)/bin
libdir ?= $(exec_prefix)/lib
libexecdir ?= $(exec_prefix)/libexec
includedir ?= $(prefix)/include
datarootdir ?= $(prefix)/share
mandir ?= $(datarootdir)/man
docdir ?= $(datarootdir)/doc/trap
completiondir ?= $(datarootdir)/bash-completion/completions
pkgconfigdir ?= $(libdir)/pkgconfig
cmakedir ?= $(libdir)/cmake/trap
DESTDIR ?=
BIN ?=

INSTALL ?= install
INSTALL_PROGRAM ?= $(INSTALL) -m 755
INSTALL_DATA ?= $(INSTALL) -m 644

VERSION := $(shell cat VERSION)
PROGRAMS := $(shell awk '!/^\#/ && NF { print $$1 }' programs.txt)
# Each program as it is built or released.
BUILT = $(if $(BIN),$(wildcard $(PROGRAMS:%=$(BIN)/%)),$(foreach one,$(PROGRAMS),$(shell tools/program --there $(one))))
COMMANDS := preflight check plates zones trap tiff pdf screen look proof all compare desk farm farm.sbatch watch slurm-here press trapper
# The folders of the press room's Python package, and of the library's, by which the trap editor calls libtrap.
PACKAGE := $(shell find python/press python/trapping -type d ! -name __pycache__)
LIBRARY := library/out/libtrap.so.1 library/out/libtrap.a
PAGES1 := $(wildcard man/*.1)
PAGES3 := $(wildcard man/*.3)
PAGES5 := $(wildcard man/*.5)
PAGES7 := $(wildcard man/*.7)
COMPLETIONS := $(wildcard press/completion/*)
DOCUMENTS := README.md CHANGELOG.md LICENSE NOTICE THIRD-PARTY $(wildcard docs/*.md)

OWN := $(libexecdir)/trap
PRESS := $(OWN)/press

.PHONY: all programs library check install install-programs install-press install-library install-headers install-manuals \
  uninstall deb wheel dist lint clean distclean

all: programs library

programs:
	$(if $(BIN),,@for one in $(PROGRAMS); do tools/program $$one >/dev/null || exit 1; done)

library:
	library/build

check:
	./test

install: install-programs install-press install-library install-headers install-manuals

# The programs, with their table and the launcher to which bindir has a link for each.
install-programs: programs
	$(INSTALL) -d $(DESTDIR)$(bindir) $(DESTDIR)$(OWN)/programs
	$(INSTALL_PROGRAM) $(BUILT) $(DESTDIR)$(OWN)/programs
	$(INSTALL_PROGRAM) bin/launch $(DESTDIR)$(OWN)
	$(INSTALL_DATA) VERSION programs.txt $(DESTDIR)$(OWN)
	for one in $(PROGRAMS); do ln -sfr $(DESTDIR)$(OWN)/launch $(DESTDIR)$(bindir)/$$one || exit 1; done

install-press:
	$(INSTALL) -d $(DESTDIR)$(bindir) $(DESTDIR)$(PRESS)/lib $(DESTDIR)$(PRESS)/inks $(DESTDIR)$(PRESS)/presets \
	  $(DESTDIR)$(OWN)/docs $(DESTDIR)$(completiondir) $(PACKAGE:python/%=$(DESTDIR)$(OWN)/python/%)
	$(INSTALL_PROGRAM) $(COMMANDS:%=press/%) $(DESTDIR)$(PRESS)
	$(INSTALL_DATA) press/press.sh $(DESTDIR)$(PRESS)
	$(INSTALL_DATA) press/lib/proof.css press/lib/proof.js $(DESTDIR)$(PRESS)/lib
	$(INSTALL_DATA) docs/JOBS.md $(DESTDIR)$(OWN)/docs
	for one in $(PACKAGE); do find $$one -maxdepth 1 -type f -exec $(INSTALL_DATA) {} $(DESTDIR)$(OWN)/$$one \; || exit 1; done
	$(INSTALL_DATA) press/inks/*.inks $(DESTDIR)$(PRESS)/inks
	$(INSTALL_DATA) press/presets/*.preset $(DESTDIR)$(PRESS)/presets
	ln -sfr $(DESTDIR)$(PRESS)/press $(DESTDIR)$(bindir)/press
	ln -sfr $(DESTDIR)$(PRESS)/trapper $(DESTDIR)$(bindir)/trapper
	$(INSTALL_DATA) $(COMPLETIONS) $(DESTDIR)$(completiondir)

install-library: library
	$(INSTALL) -d $(DESTDIR)$(libdir)
	$(INSTALL_DATA) library/out/libtrap.so.1 $(DESTDIR)$(libdir)
	$(INSTALL) -d $(DESTDIR)$(OWN)/python/trapping
	ln -sfr $(DESTDIR)$(libdir)/libtrap.so.1 $(DESTDIR)$(OWN)/python/trapping/libtrap.so.1

# What a program is compiled and linked with.
install-headers: library
	$(INSTALL) -d $(DESTDIR)$(includedir) $(DESTDIR)$(libdir) $(DESTDIR)$(pkgconfigdir) $(DESTDIR)$(cmakedir)
	$(INSTALL_DATA) library/out/libtrap.a $(DESTDIR)$(libdir)
	ln -sf libtrap.so.1 $(DESTDIR)$(libdir)/libtrap.so
	$(INSTALL_DATA) library/trap.h $(DESTDIR)$(includedir)
	for one in trap.pc trap-config.cmake trap-config-version.cmake; do \
	  sed 's|@PREFIX@|$(prefix)|; s|@LIBDIR@|$(libdir)|; s|@INCLUDEDIR@|$(includedir)|; s|@VERSION@|$(VERSION)|' library/$$one.in \
	  >library/out/$$one || exit 1; done
	$(INSTALL_DATA) library/out/trap.pc $(DESTDIR)$(pkgconfigdir)
	$(INSTALL_DATA) library/out/trap-config.cmake library/out/trap-config-version.cmake $(DESTDIR)$(cmakedir)

install-manuals:
	$(INSTALL) -d $(DESTDIR)$(mandir)/man1 $(DESTDIR)$(mandir)/man3 $(DESTDIR)$(mandir)/man5 $(DESTDIR)$(mandir)/man7 \
	  $(DESTDIR)$(docdir)
	$(INSTALL_DATA) $(PAGES1) $(DESTDIR)$(mandir)/man1
	$(INSTALL_DATA) $(PAGES3) $(DESTDIR)$(mandir)/man3
	$(INSTALL_DATA) $(PAGES5) $(DESTDIR)$(mandir)/man5
	$(if $(PAGES7),$(INSTALL_DATA) $(PAGES7) $(DESTDIR)$(mandir)/man7)
	$(INSTALL_DATA) $(DOCUMENTS) $(DESTDIR)$(docdir)

uninstall:
	rm -f $(PROGRAMS:%=$(DESTDIR)$(bindir)/%) $(DESTDIR)$(bindir)/press $(DESTDIR)$(bindir)/trapper
	rm -rf $(DESTDIR)$(OWN) $(DESTDIR)$(docdir) $(DESTDIR)$(cmakedir)
	rm -f $(DESTDIR)$(libdir)/libtrap.so.1 $(DESTDIR)$(libdir)/libtrap.so $(DESTDIR)$(libdir)/libtrap.a
	rm -f $(DESTDIR)$(pkgconfigdir)/trap.pc $(DESTDIR)$(includedir)/trap.h
	rm -f $(PAGES3:man/%=$(DESTDIR)$(mandir)/man3/%)
	rm -f $(PAGES1:man/%=$(DESTDIR)$(mandir)/man1/%) $(PAGES5:man/%=$(DESTDIR)$(mandir)/man5/%) $(PAGES7:man/%=$(DESTDIR)$(mandir)/man7/%)
	rm -f $(COMPLETIONS:press/completion/%=$(DESTDIR)$(completiondir)/%)

dist:
	install -d out
	git archive --format=tar --prefix=trap-$(VERSION)/ HEAD | gzip -9n >out/trap-$(VERSION).tar.gz
	@echo "make: out/trap-$(VERSION).tar.gz"

clean:
	rm -rf out library/out examples/*/out check/out python/build python/*.egg-info
	find . -name __pycache__ -not -path './.git/*' -prune -exec rm -rf {} +

# Programs and proofs too: making them again takes twenty minutes.
distclean: clean
	rm -rf crates/*/out

# In a copy of the sources: the working folder is not changed.
deb: all
	tools/packages deb

wheel: library
	tools/packages wheel

lint:
	tools/lint
