# Puts the header, the archive and a pkg-config file where C and C++ programs find them.
#
#   make archive                          builds the archive, which proves the library first
#   make install PREFIX=/usr/local        installs; DESTDIR is put before PREFIX, as packages want it
#   make uninstall PREFIX=/usr/local      removes the three files

PREFIX ?= /usr/local
DESTDIR ?=
ARCHIVE = target/staticlib/libtiglostrema.a

# The shell takes these from its environment, so that a blank or a quote in a folder's name stays what it is.
export PREFIX ARCHIVE
export root = $(DESTDIR)$(PREFIX)

# the header's three numbers, as 0.7.0
version = awk '/^\#define TIGLOSTREMA_VERSION_(MAJOR|MINOR|PATCH) / { v = v dot $$3; dot = "." } END { print v }' \
	include/tiglostrema.h

help:
	@sed -n '/^\#   make/s/^\#   //p' Makefile

archive:
	tools/archive tiglostrema

# What is missing is said before anything is written. A folder that does not begin with / would be one in this
# repository, or be glued to DESTDIR's last.
named:
	@test -n "$$PREFIX" || { echo "PREFIX is empty: say where to install, as PREFIX=/usr/local." >&2; exit 1; }
	@case "$$PREFIX" in /*) ;; *) \
		echo "PREFIX is $$PREFIX, which does not begin with /: say where to install, as PREFIX=/usr/local." >&2; \
		exit 1;; esac

built:
	@test -f "$$ARCHIVE" || { \
		echo "There is no $$ARCHIVE: make it by \`tools/archive tiglostrema\`, or \`make archive\`." >&2; exit 1; }

# `install -d` gives folders that others may read, whatever the umask.
install: named built
	@install -d "$$root/include" "$$root/lib" "$$root/lib/pkgconfig"
	@install -m 644 include/tiglostrema.h "$$root/include/tiglostrema.h"
	@install -m 644 "$$ARCHIVE" "$$root/lib/libtiglostrema.a"
	@sed "s/@VERSION@/$$($(version))/" include/tiglostrema.pc.in >"$$root/lib/pkgconfig/tiglostrema.pc"
	@chmod 644 "$$root/lib/pkgconfig/tiglostrema.pc"
	@echo "Installed into $$root: include/tiglostrema.h, lib/libtiglostrema.a, lib/pkgconfig/tiglostrema.pc."
	@echo "Compile with \`pkg-config --cflags --libs tiglostrema\`. Where it finds no such package, set"
	@echo "PKG_CONFIG_PATH=$$root/lib/pkgconfig"

uninstall: named
	@rm -fv "$$root/include/tiglostrema.h" "$$root/lib/libtiglostrema.a" "$$root/lib/pkgconfig/tiglostrema.pc"

.PHONY: help archive named built install uninstall
