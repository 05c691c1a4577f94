# make            proves the calls, compiles the archive and builds the command line
# make test       the tests of the host code (the gate of every change is .ci/run)
# make install    the command line, the header and the libraries for C, the manual page, completions
# make uninstall  takes away what install put there
#
# PREFIX is where it goes (/usr/local), DESTDIR stands before every path, for packagers.
# The version is that of rust/Cargo.toml; manual page and completions are printed by the program itself.

PREFIX = /usr/local
DESTDIR =
BINDIR = $(PREFIX)/bin
LIBDIR = $(PREFIX)/lib
INCLUDEDIR = $(PREFIX)/include
DATADIR = $(PREFIX)/share
CC = cc
CARGO = cargo
INSTALL = install

version := $(shell sed -n 's/^version = "\(.*\)"/\1/p' rust/Cargo.toml)
major := $(firstword $(subst ., ,$(version)))
archive = target/native/libcube_c.a
program = rust/target/release/remulingka
built = target/native/install
soname = libremulingka.so.$(major)
shared = libremulingka.so.$(version)

texts = $(built)/remulingka.1 $(built)/remulingka.bash $(built)/_remulingka $(built)/remulingka.fish

all: $(program) $(built)/$(shared) $(built)/remulingka.pc $(texts)

# The proofs look for themselves which crates changed; to run them again: make prove.
$(archive):
	tools/native-lib cube_c target/native

prove:
	tools/native-lib cube_c target/native

$(program): $(archive) rust/Cargo.toml $(shell find rust/remulingka/src -name '*.rs')
	cd rust && $(CARGO) build --offline --release -p remulingka
	touch $@

# All of the archive, and no symbol that is not resolved.
$(built)/$(shared): $(archive)
	mkdir -p $(built)
	$(CC) -shared -o $@ -Wl,-soname,$(soname) -Wl,--whole-archive $(archive) -Wl,--no-whole-archive -Wl,--no-undefined

$(built)/remulingka.pc: rust/Cargo.toml Makefile
	mkdir -p $(built)
	printf '%s\n' 'prefix=$(PREFIX)' 'libdir=$(LIBDIR)' 'includedir=$(INCLUDEDIR)' '' 'Name: remulingka' \
		'Description: Packs and opens CCSDS 123.0-B-1 cube files' 'Version: $(version)' \
		'Libs: -L$${libdir} -lremulingka' 'Cflags: -I$${includedir}' >$@

$(built)/remulingka.1: $(program)
	mkdir -p $(built)
	$(program) manual >$@

$(built)/remulingka.bash: $(program)
	mkdir -p $(built)
	$(program) completion bash >$@

$(built)/_remulingka: $(program)
	mkdir -p $(built)
	$(program) completion zsh >$@

$(built)/remulingka.fish: $(program)
	mkdir -p $(built)
	$(program) completion fish >$@

test: $(archive)
	cd rust && $(CARGO) test --offline --release

install: all
	$(INSTALL) -d $(DESTDIR)$(BINDIR) $(DESTDIR)$(LIBDIR)/pkgconfig $(DESTDIR)$(INCLUDEDIR) $(DESTDIR)$(DATADIR)/man/man1
	$(INSTALL) -d $(DESTDIR)$(DATADIR)/bash-completion/completions $(DESTDIR)$(DATADIR)/zsh/site-functions
	$(INSTALL) -d $(DESTDIR)$(DATADIR)/fish/vendor_completions.d
	$(INSTALL) -m 755 $(program) $(DESTDIR)$(BINDIR)/remulingka
	$(INSTALL) -m 644 include/remulingka.h $(DESTDIR)$(INCLUDEDIR)/remulingka.h
	$(INSTALL) -m 644 $(archive) $(DESTDIR)$(LIBDIR)/libremulingka.a
	$(INSTALL) -m 755 $(built)/$(shared) $(DESTDIR)$(LIBDIR)/$(shared)
	ln -sf $(shared) $(DESTDIR)$(LIBDIR)/$(soname)
	ln -sf $(shared) $(DESTDIR)$(LIBDIR)/libremulingka.so
	$(INSTALL) -m 644 $(built)/remulingka.pc $(DESTDIR)$(LIBDIR)/pkgconfig/remulingka.pc
	$(INSTALL) -m 644 $(built)/remulingka.1 $(DESTDIR)$(DATADIR)/man/man1/remulingka.1
	$(INSTALL) -m 644 $(built)/remulingka.bash $(DESTDIR)$(DATADIR)/bash-completion/completions/remulingka
	$(INSTALL) -m 644 $(built)/_remulingka $(DESTDIR)$(DATADIR)/zsh/site-functions/_remulingka
	$(INSTALL) -m 644 $(built)/remulingka.fish $(DESTDIR)$(DATADIR)/fish/vendor_completions.d/remulingka.fish

uninstall:
	rm -f $(DESTDIR)$(BINDIR)/remulingka $(DESTDIR)$(INCLUDEDIR)/remulingka.h
	rm -f $(DESTDIR)$(LIBDIR)/libremulingka.a $(DESTDIR)$(LIBDIR)/$(shared) $(DESTDIR)$(LIBDIR)/$(soname)
	rm -f $(DESTDIR)$(LIBDIR)/libremulingka.so $(DESTDIR)$(LIBDIR)/pkgconfig/remulingka.pc
	rm -f $(DESTDIR)$(DATADIR)/man/man1/remulingka.1 $(DESTDIR)$(DATADIR)/bash-completion/completions/remulingka
	rm -f $(DESTDIR)$(DATADIR)/zsh/site-functions/_remulingka $(DESTDIR)$(DATADIR)/fish/vendor_completions.d/remulingka.fish

.PHONY: all prove test install uninstall
