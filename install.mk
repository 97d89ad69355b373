# `make install` installs the files of dist.list. `make uninstall` removes them, what Python has compiled of them, and the directories that
# only cdpatch has. In a release's tarball this file is the Makefile.
.PHONY: install uninstall

VERSION = $(shell sed -n 's/^\#\# \([0-9.]*\) .*/\1/p' CHANGELOG.md | head -n 1)

PREFIX = /usr/local
prefix = $(PREFIX)
exec_prefix = $(prefix)
bindir = $(exec_prefix)/bin
datarootdir = $(prefix)/share
mandir = $(datarootdir)/man
man1dir = $(mandir)/man1
man3dir = $(mandir)/man3
libdir = $(exec_prefix)/lib
includedir = $(prefix)/include
pkgconfigdir = $(libdir)/pkgconfig
cmakedir = $(libdir)/cmake/cdpatch
fastdir = $(libdir)/glibc-hwcaps/x86-64-v3
bashcompdir = $(datarootdir)/bash-completion/completions
zshcompdir = $(datarootdir)/zsh/site-functions
fishcompdir = $(datarootdir)/fish/vendor_completions.d
docdir = $(datarootdir)/doc/cdpatch
pagedir = $(datarootdir)/cdpatch
pythondir = $(datarootdir)/cdpatch/python
# The parts of pages that are left out: by a package what only concerns the tarball, too.
LEAVE_OUT = sources
INSTALL = install

PLACES = prefix bindir man1dir man3dir libdir includedir pkgconfigdir cmakedir fastdir bashcompdir zshcompdir fishcompdir docdir pagedir \
    pythondir

install uninstall:
	$(if $(patsubst /%,,$(firstword $(prefix))),$(error PREFIX must begin with /, since cdpatch.pc has it: $(prefix)))
	@$(foreach each,$(PLACES) DESTDIR VERSION LEAVE_OUT INSTALL PACKAGE,$(each)='$(subst ','\'',$($(each)))') sh tools/files.sh $@
