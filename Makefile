# Installs the released program: make install [PREFIX=/usr/local] [DESTDIR=]. tools/install says what goes where.
PREFIX ?= /usr/local
DESTDIR ?=
export PREFIX DESTDIR

help:
	@echo 'make install [PREFIX=/usr/local] [DESTDIR=], make uninstall, make deb, make image; .ci/run proves and tests all'

install:
	tools/install

uninstall:
	tools/install --uninstall

# A Debian package, in release/out.
deb:
	tools/package

# A container that has the released program alone.
image:
	./ccalc --version
	docker build -t ccalc -f Containerfile release/out

.PHONY: help install uninstall deb image
