# Installs the program, its man page, and the C library with its header and pkg-config file.
#
#   make                          proves and builds what `make install` installs
#   make install PREFIX=FOLDER    FOLDER is /usr/local by default. You can move or copy it afterwards, also to a machine
#                                 without the toolchain. Package maintainers can put a DESTDIR in front.
#   make uninstall PREFIX=FOLDER
#   make dist                     makes such a folder under build/ (or DIST), with the samples and the Python package's
#                                 wheel in it, and packs it
#
# HALIVOMUE_PROGRAM names another program, and HALIVOMUE_ARCHIVE_DIR another folder with libhalivomue_c.a. They are
# installed as they are.
PREFIX ?= /usr/local
to := $(DESTDIR)$(PREFIX)
program := $(or $(HALIVOMUE_PROGRAM),crates/halivomue/out/halivomue)
archive := $(or $(HALIVOMUE_ARCHIVE_DIR),crates/halivomue_c/out)/libhalivomue_c.a
version := $(shell sed -n 's/^.define HALIVOMUE_VERSION "\(.*\)"/\1/p' include/halivomue.h)
DIST ?= build
name := halivomue-$(version)-linux-x86_64
PYTHON ?= python3

.PHONY: all install uninstall dist

define make_archive
(cd crates/halivomue_c && flock ../../build/halivomue.lock rt lib) >build/archive.log 2>&1 || { tail -n 40 build/archive.log; exit 1; }
endef

all:
	mkdir -p build
	$(if $(HALIVOMUE_PROGRAM),,./halivomue --version)
	$(if $(HALIVOMUE_ARCHIVE_DIR),,$(if $(shell command -v rt),$(make_archive)))

# bin/halivomue is the script, which turns the program's answer into an exit status. The program is in libexec.
install: all
	install -d "$(to)"/bin "$(to)"/libexec/halivomue "$(to)"/include "$(to)"/lib/pkgconfig "$(to)"/share/man/man1
	install -m 755 halivomue "$(to)"/bin/halivomue
	install -m 755 $(program) "$(to)"/libexec/halivomue/halivomue
	install -m 644 include/halivomue.h "$(to)"/include/halivomue.h
	install -m 644 $(archive) "$(to)"/lib/libhalivomue_c.a
	sed 's/@VERSION@/$(version)/' include/halivomue.pc.in >build/halivomue.pc
	install -m 644 build/halivomue.pc "$(to)"/lib/pkgconfig/halivomue.pc
	install -m 644 docs/halivomue.1 "$(to)"/share/man/man1/halivomue.1

uninstall:
	rm -f "$(to)"/bin/halivomue "$(to)"/libexec/halivomue/halivomue "$(to)"/include/halivomue.h "$(to)"/lib/libhalivomue_c.a \
	    "$(to)"/lib/pkgconfig/halivomue.pc "$(to)"/share/man/man1/halivomue.1
	-rmdir "$(to)"/libexec/halivomue

dist:
	rm -rf "$(DIST)/$(name)"
	$(MAKE) install DESTDIR= PREFIX="$(abspath $(DIST))/$(name)"
	cp -r samples LICENSE NOTICE "$(DIST)/$(name)"
	cd python && $(PYTHON) -c 'import backend, sys; backend.build_wheel(sys.argv[1])' "$(abspath $(DIST))/$(name)"
	tar -C "$(DIST)" -czf "$(DIST)/$(name).tar.gz" $(name)
	@echo "$(DIST)/$(name).tar.gz"
