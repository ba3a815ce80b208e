# Builds the libraries and the programs, and installs them with the tools (docs/COMMANDS.md). Outside the proofs.
#     make                                   target/lib and target/bin; rt proves what it builds
#     make install PREFIX=DIR DESTDIR=DIR    into DIR, /usr/local if left out
#     make test-tools                        tests the tools
#     make bindings                          copies the modules that the Python module uses from tools/

PREFIX ?= /usr/local
CC ?= cc
RT ?= rt

# The shared library is named by the interface of the header: another one is another library.
INTERFACE := $(shell sed -n 's/^.define FAHKELO_INTERFACE //p' include/fahkelo.h)
SOURCES := crates.txt $(shell find crates -type f -not -path '*/must-fail/*' -not -path '*/out/*')
ARCHIVE = target/staticlib/libcapi.a
SHARED = target/lib/libfahkelo.so.$(INTERFACE)
PROGRAMS = target/bin/desk_sheet target/bin/desk_combine

SCRIPTS = tools/fahkelo tools/make-model tools/show-model tools/draw-sheet
MODULES = bindings/python/fahkelo.py $(addprefix tools/,fahkelo_card.py fahkelo_places.py modelfile.py modeltext.py \
	commands.py command_line.py)
PAGES = $(wildcard docs/man/*.1) $(wildcard docs/man/*.3)
TREE = $(DESTDIR)$(PREFIX)

# What each program is run on: rt builds a program by running it.
EXAMPLE_desk_sheet = < stdin
EXAMPLE_desk_combine = -- data/rule data/letters data/property

# The redirection makes every version of make ask a shell.
need = $(if $(shell command -v $(firstword $($1)) 2>/dev/null),,$(error $($1) is not on the path: $2))
need_cc = $(call need,CC,a C compiler is needed to link the shared library)

all: $(SHARED) $(PROGRAMS)

$(ARCHIVE): $(SOURCES)
	$(call need,RT,the Rattle kit is needed to prove and build the library)
	$(need_cc)
	cd crates/capi && $(RT) lib
	mkdir -p $(@D)
	cp crates/capi/out/libcapi.a $@

$(SHARED): $(ARCHIVE)
	$(need_cc)
	mkdir -p $(@D)
	$(CC) -shared -Wl,-soname,$(@F) -o $@ -Wl,--whole-archive $(ARCHIVE) -Wl,--no-whole-archive

$(PROGRAMS): target/bin/%: $(SOURCES)
	$(call need,RT,the Rattle kit is needed to prove and build the programs)
	cd crates/$* && $(RT) run $(EXAMPLE_$*) > /dev/null
	mkdir -p $(@D)
	cp crates/$*/out/$* $@

install: all
	mkdir -p $(addprefix "$(TREE)"/,bin include lib/pkgconfig share/fahkelo/classroom share/man/man1 share/man/man3)
	install -m 644 include/fahkelo.h "$(TREE)"/include
	install -m 644 $(ARCHIVE) "$(TREE)"/lib/libfahkelo.a
	install -m 755 $(SHARED) "$(TREE)"/lib
	ln -sf $(notdir $(SHARED)) "$(TREE)"/lib/libfahkelo.so
	{ printf 'prefix=%s\n' "$(PREFIX)"; sed 's/@INTERFACE@/$(INTERFACE)/' include/fahkelo.pc.in; } \
		> "$(TREE)"/lib/pkgconfig/fahkelo.pc
	install -m 755 $(PROGRAMS) "$(TREE)"/bin
	install -m 755 $(SCRIPTS) "$(TREE)"/share/fahkelo
	install -m 644 $(MODULES) docs/REFUSALS.md "$(TREE)"/share/fahkelo
	install -m 644 tools/classroom/*.py "$(TREE)"/share/fahkelo/classroom
	for name in $(notdir $(SCRIPTS)); do ln -sf ../share/fahkelo/$$name "$(TREE)"/bin/$$name || exit; done
	for page in $(PAGES); do install -m 644 $$page "$(TREE)"/share/man/man$${page##*.} || exit; done

# The gate refuses links, so these are copies.
COPIES = fahkelo_card.py fahkelo_places.py modelfile.py modeltext.py

bindings:
	cp $(addprefix tools/,$(COPIES)) bindings/python

test-tools: all
	tools/test-tools

.PHONY: all install bindings test-tools
.NOTPARALLEL:
