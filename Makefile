# The program, its check, and an installed copy with its manual page, pages, tools and examples. All proving is done by `rt`.
#
#   make             proves the program and builds it: some 20 minutes and up to 4 GB the first time, seconds after that
#   make try         runs it on an example within some twenty seconds, before any proof; COMMAND and TEXT name another
#   make test        all that can be seen without a proof, in some three minutes: tests, examples, tools and pages
#   make check       the gate; then the library, where a C compiler is there, and the checks of pages and tools
#   make page        makes the program's page, out/armcaps.html, which shows in a browser what it says; wants wasm-opt
#   make lib         proves and builds the library for C, libarmcaps.a and libarmcaps.so; needs a C compiler
#   make install     copies to DESTDIR and PREFIX; make uninstall removes what it copied
#   make dist        makes the archive of the sources, of what is committed; it builds without git
PREFIX ?= /usr/local
BINDIR ?= $(PREFIX)/bin
DATADIR ?= $(PREFIX)/share
MANDIR ?= $(DATADIR)/man
DOCDIR ?= $(DATADIR)/doc/armcaps
LIBDIR ?= $(PREFIX)/lib
INCLUDEDIR ?= $(PREFIX)/include
BASHDIR ?= $(DATADIR)/bash-completion/completions
ZSHDIR ?= $(DATADIR)/zsh/site-functions

VERSION := $(shell cat VERSION)
PROGRAM := crates/armcaps/out/armcaps
TOOLS := dump2text explain cmdline-lint kernel2text patch-diff page fleet
# the pages for users: not those on how armcaps itself is built and proved
PAGES := $(filter-out docs/README.md docs/ARCHITECTURE.md docs/DEFINITIONS.md docs/DECISIONS.md,$(wildcard docs/*.md)) \
	docs/parked-or-panic.svg docs/rules.svg docs/site.svg docs/page.png
MANUALS := armcaps $(TOOLS:%=armcaps-%)
EXAMPLES := $(wildcard examples/*.*)
DUMPS := $(wildcard examples/dumps/*)
PATCHING := examples/patching/make-kernel examples/patching/cpucap-defs.h
# antt, contracts and theorem read the definitions of the crates, which an installed copy has not; pictures is for a page
MODULES := $(filter-out %/antt.py %/contracts.py %/theorem.py %/pictures.py,$(wildcard tools/armcaps_tools/*.py))
SHAPES := $(wildcard tools/armcaps_tools/dumps/*.py)
# the package for Python, by which the tools read reports
PACKAGE := $(wildcard python/armcaps/*.py)
TABLES := $(wildcard tools/data/*.tsv)
IDREGS := $(patsubst %,tools/idregs/%,Makefile idregs.c registers.h virt.c virt-start.S virt.ld go.S)
LIBRARY := $(DESTDIR)$(DATADIR)/armcaps
# the library for C; its soname has the version's first number, which rises where callers have to be built anew
ARCHIVE := crates/armcaps_c/out/libarmcaps_c.a
BUILT := build/lib
OBJCOPY ?= objcopy
CFLAGS ?= -O2 -g -Wall -Wextra
SONAME := libarmcaps.so.$(firstword $(subst ., ,$(VERSION)))
SHARED := libarmcaps.so.$(VERSION)
# what is installed can be read by all, whatever the umask; DESTDIR may have a space
INSTALL := umask 022 && install

all:
	cd crates/armcaps && rt run -- report < ../../examples/one-core.txt > /dev/null
	@echo "built $(PROGRAM)"

COMMAND := report
TEXT := examples/late-core.txt

try:
	cd crates/armcaps && rt try -- $(COMMAND) < "$(abspath $(TEXT))"

UNPROVED := build/unproved/armcaps

test:
	@mkdir -p $(dir $(UNPROVED))
	tools/unproved tests --build $(UNPROVED)
	ARMCAPS="$(abspath $(UNPROVED))" tools/check
	@echo "make test: all passed; nothing was proved: make check proves"

check:
	.ci/run

MODULE := build/webpage/armcaps.wasm
PAGE := out/armcaps.html

page:
	tools/webpage/make-module $(MODULE)
	tools/webpage/make-page $(MODULE) $(PAGE)

lib:
	cd crates/armcaps_c && rt lib
	@$(MAKE) --no-print-directory link-lib

# one object with the proved code and its memory, of which one call alone can be seen; the static library has it, and the
# shared one is made of it
link-lib:
	@test -f $(ARCHIVE) || { echo "make link-lib: no $(ARCHIVE): run make lib first" >&2; exit 1; }
	mkdir -p "$(BUILT)"
	$(CC) $(CFLAGS) -fPIC -c -o "$(BUILT)/heap.o" library/heap.c
	$(LD) -r -o "$(BUILT)/armcaps.o" "$(BUILT)/heap.o" --whole-archive $(ARCHIVE)
	$(OBJCOPY) --keep-global-symbol=armcaps_run "$(BUILT)/armcaps.o"
	rm -f "$(BUILT)/libarmcaps.a"
	$(AR) rcs "$(BUILT)/libarmcaps.a" "$(BUILT)/armcaps.o"
	$(CC) $(LDFLAGS) -shared -Wl,-soname,$(SONAME) -Wl,-z,defs -o "$(BUILT)/$(SHARED)" "$(BUILT)/armcaps.o"
	# copies: the gate refuses links in a checkout, and so would fail after this
	rm -f "$(BUILT)/$(SONAME)" "$(BUILT)/libarmcaps.so"
	cp "$(BUILT)/$(SHARED)" "$(BUILT)/$(SONAME)"
	cp "$(BUILT)/$(SHARED)" "$(BUILT)/libarmcaps.so"

install-lib:
	@test -f "$(BUILT)/$(SHARED)" || { echo "make install-lib: no $(BUILT)/$(SHARED): run make lib first" >&2; exit 1; }
	$(INSTALL) -D -m 644 -t "$(DESTDIR)$(INCLUDEDIR)" library/armcaps.h
	$(INSTALL) -D -m 644 -t "$(DESTDIR)$(LIBDIR)" "$(BUILT)/libarmcaps.a" "$(BUILT)/$(SHARED)"
	ln -sf $(SHARED) "$(DESTDIR)$(LIBDIR)/$(SONAME)"
	ln -sf $(SONAME) "$(DESTDIR)$(LIBDIR)/libarmcaps.so"
	$(INSTALL) -d "$(DESTDIR)$(LIBDIR)/pkgconfig"
	umask 022 && sed -e "s,@VERSION@,$(VERSION),; s,@LIBDIR@,$(LIBDIR),; s,@INCLUDEDIR@,$(INCLUDEDIR)," library/armcaps.pc.in \
		> "$(DESTDIR)$(LIBDIR)/pkgconfig/armcaps.pc"

uninstall-lib:
	rm -f "$(DESTDIR)$(INCLUDEDIR)/armcaps.h" "$(DESTDIR)$(LIBDIR)/pkgconfig/armcaps.pc"
	cd "$(DESTDIR)$(LIBDIR)" && rm -f libarmcaps.a libarmcaps.so $(SONAME) $(SHARED)

install:
	@test -x $(PROGRAM) || { echo "make install: no $(PROGRAM): run make first" >&2; exit 1; }
	$(INSTALL) -D $(PROGRAM) "$(DESTDIR)$(BINDIR)/armcaps"
	$(INSTALL) -d "$(DESTDIR)$(MANDIR)/man1" "$(DESTDIR)$(BASHDIR)"
	umask 022 && for page in $(MANUALS); do \
		sed -e "s,@VERSION@,$(VERSION),; s,@DOCDIR@,$(DOCDIR),g" docs/$$page.1 > "$(DESTDIR)$(MANDIR)/man1/$$page.1" || exit 1; \
	done
	$(INSTALL) -D -m 644 -t "$(DESTDIR)$(DOCDIR)" $(PAGES)
	$(INSTALL) -D -m 644 -t "$(DESTDIR)$(DOCDIR)/examples" $(EXAMPLES)
	$(INSTALL) -D -m 644 -t "$(DESTDIR)$(DOCDIR)/examples/dumps" $(DUMPS)
	$(INSTALL) -D -t "$(DESTDIR)$(DOCDIR)/examples/patching" examples/patching/make-kernel
	$(INSTALL) -D -m 644 -t "$(DESTDIR)$(DOCDIR)/examples/patching" $(filter-out %/make-kernel,$(PATCHING))
	$(INSTALL) -D -t "$(LIBRARY)" $(TOOLS:%=tools/%)
	$(INSTALL) -D -m 644 -t "$(LIBRARY)/armcaps_tools" $(MODULES)
	$(INSTALL) -D -m 644 -t "$(LIBRARY)/armcaps_tools/dumps" $(SHAPES)
	$(INSTALL) -D -m 644 -t "$(LIBRARY)/armcaps" $(PACKAGE)
	$(INSTALL) -D -m 644 -t "$(LIBRARY)/data" $(TABLES)
	$(INSTALL) -m 644 VERSION "$(LIBRARY)/VERSION"
	test ! -f $(PAGE) || { $(INSTALL) -m 644 $(PAGE) "$(LIBRARY)/armcaps.html"; }
	$(INSTALL) -D -m 644 -t "$(LIBRARY)/idregs" $(IDREGS)
	$(INSTALL) -D -t "$(LIBRARY)/idregs" tools/idregs/build tools/idregs/run
	$(INSTALL) -m 644 tools/completion/armcaps.bash "$(DESTDIR)$(BASHDIR)/armcaps"
	$(INSTALL) -D -m 644 -t "$(DESTDIR)$(ZSHDIR)" tools/completion/_armcaps
	for tool in $(TOOLS); do \
		ln -sfr "$(LIBRARY)/$$tool" "$(DESTDIR)$(BINDIR)/armcaps-$$tool" && ln -sf armcaps "$(DESTDIR)$(BASHDIR)/armcaps-$$tool" || exit 1; \
	done

# what install copied, and the folders of its own that are empty then
uninstall:
	for name in $(MANUALS); do \
		rm -f "$(DESTDIR)$(BINDIR)/$$name" "$(DESTDIR)$(MANDIR)/man1/$$name.1" "$(DESTDIR)$(BASHDIR)/$$name" || exit 1; \
	done
	rm -f "$(DESTDIR)$(ZSHDIR)/_armcaps"
	cd "$(DESTDIR)$(DOCDIR)" && rm -f $(notdir $(PAGES)) $(EXAMPLES) $(DUMPS) $(PATCHING)
	cd "$(LIBRARY)" && rm -f VERSION armcaps.html $(TOOLS) $(patsubst tools/%,%,$(MODULES) $(SHAPES) $(TABLES) $(IDREGS)) $(PACKAGE:python/%=%) idregs/build idregs/run
	cd "$(LIBRARY)" && rm -rf armcaps/__pycache__ armcaps_tools/__pycache__ armcaps_tools/dumps/__pycache__
	-cd "$(LIBRARY)" && rmdir armcaps armcaps_tools/dumps armcaps_tools data idregs
	-rmdir "$(LIBRARY)"
	-cd "$(DESTDIR)$(DOCDIR)" && rmdir examples/dumps examples/patching examples
	-rmdir "$(DESTDIR)$(DOCDIR)"

# the sources as they are committed; git is wanted here, and not where the archive is built
DIST := armcaps-$(VERSION)

dist:
	@git diff --quiet HEAD || { echo "make dist: what is changed here is not committed, and not in the archive" >&2; exit 1; }
	mkdir -p build
	git archive --format=tar --prefix=$(DIST)/ HEAD | gzip -9n > build/$(DIST).tar.gz
	@echo "made build/$(DIST).tar.gz"

clean:
	rm -rf build out crates/*/out

.PHONY: all try test check page lib link-lib install install-lib uninstall uninstall-lib dist clean
