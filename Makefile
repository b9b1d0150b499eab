# make            proves the programs and the library, and puts them into build/, as ./laguipy does when first run
# make install    puts programs, libraries, header, pkg-config file, Python package and documents below PREFIX
# make uninstall  takes them away again
#
# PREFIX is /usr/local unless it is said; DESTDIR stands before every path that is written, for packagers; PYTHON is the
# Python whose folder of packages is taken, python3 unless it is said.
PREFIX ?= /usr/local
DESTDIR ?=
PYTHON ?= python3

all:
	@$(PYTHON) tools/prove.py

install: all
	@$(PYTHON) tools/install.py --prefix '$(PREFIX)' --destdir '$(DESTDIR)'

uninstall:
	@$(PYTHON) tools/install.py --prefix '$(PREFIX)' --destdir '$(DESTDIR)' --remove

.PHONY: all install uninstall
