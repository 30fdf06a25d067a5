VERSION := $(shell cat VERSION)
PROGRAMS = dlx1 dlx2 dlx3 dlxcheck
# The crates of these are dlx_span, dlx_join, dlx_count and dlx_none.
DASHED = span join count none
DASHED_CRATES = $(DASHED:%=dlx_%)

# Where things are installed.
PREFIX = /usr/local
bindir = $(PREFIX)/bin
mandir = $(PREFIX)/share/man
docdir = $(PREFIX)/share/doc/helgrothy
pythondir = $(PREFIX)/share/helgrothy
completiondir = $(PREFIX)/share/bash-completion/completions
zshdir = $(PREFIX)/share/zsh/site-functions
fishdir = $(PREFIX)/share/fish/vendor_completions.d
includedir = $(PREFIX)/include
libdir = $(PREFIX)/lib
# The library for C, which is installed where it was built; none with `LIBRARY=`.
LIBRARY = $(wildcard bindings/out/libhelgrothy.so)
# The number rises where a program that was linked with an earlier library couldn't run with this one.
SONAME = libhelgrothy.so.0

.PHONY: help run bin all quick checked $(PROGRAMS) $(DASHED_CRATES) test test-mutants test-hostile
.PHONY: test-hostile-python test-python test-count test-search test-page test-docs
.PHONY: pictures kinds completion believed names bench bench-forms test-bench test-build
.PHONY: lib install install-lib uninstall uninstall-lib dist deb wheel version release
.PHONY: test-library test-bindings test-install test-dist test-deb test-wheel
# Without a target: the list of targets.
help:
	@sed -n 's/^\([a-z-]*\):.* ## /\1: /p' Makefile | LC_ALL=C sort

run: dlx1 ## build dlx1 and solve examples/seven.dlx
	bin/dlx1 m1 < examples/seven.dlx
test: bin ## the merge gate: proofs, mutants, tests, programs
	@python3 tests/wrong_bodies.py --check
	@scripts/imports
	@scripts/lemmas
	@scripts/believed --check
	@sh tests/gate.sh
	@sh tests/statuses.sh
	@python3 tests/runs.py
	@python3 tests/streams.py
	@python3 tests/hostile/collisions.py
	@$(MAKE) -s --no-print-directory test-library
	@$(MAKE) -s --no-print-directory bin
	@sh tests/examples.sh
	@python3 tests/count/trial.py 200 1
	@python3 tests/count/numbered.py 30 1
	@python3 tests/count/planned.py
	@python3 tests/count/bounds.py
	@sh tests/guide.sh docs/GUIDE.md
	@scripts/usage
	@sh tests/python.sh
test-mutants: ## plant the mutants of the crates
	@python3 tests/wrong_bodies.py
test-hostile: ## the programs on hostile inputs
	@python3 tests/hostile/programs.py
test-python: ## the Python package, and 2,000 random problems
	@sh tests/python.sh && python3 python/tests/trial.py 2000 1
test-hostile-python: ## the Python commands on hostile inputs
	@python3 tests/hostile/python_commands.py 5000 1
# TRIALS are how many random problems, and a seed.
TRIALS = 2000 1
test-count: ## dlx-count against known numbers, listings and 2,000 random problems
	@python3 tests/count/known.py && python3 tests/count/trial.py $(TRIALS) && python3 tests/count/numbered.py 300 1
	@python3 tests/count/planned.py
	@python3 tests/count/bounds.py
test-search: bin ## 500 searches by helgrothy search, with mishaps
	@PATH=$$PWD/bin:$$PATH python3 tests/search/search.py 500 1
test-page: bin ## the pages in a headless Chromium
	@PATH=$$PWD/bin:$$PATH python3 tests/browser/page.py
test-docs: bin ## the commands, pictures, tables and names of the pages
	@sh tests/pages.sh . man/*.[15]
	@scripts/pictures/pictures compare
	@scripts/kinds/kinds.py --check
	@scripts/believed --page | diff docs/BELIEVED.md -
	@scripts/cited
	@scripts/faults --check
	@scripts/bench/forms.py --check

pictures: ## draw the pictures of the pages
	@scripts/pictures/pictures

kinds: bin ## write the pages of the kinds of problems
	@scripts/kinds/kinds.py

completion: ## write the completion for shells
	@scripts/completion/completion.py

believed: ## write docs/BELIEVED.md
	@scripts/believed --page >docs/BELIEVED.md

names: ## print the names that mean two things
	@scripts/names

# The tables of docs/BENCH.md, and what each form that was decided by speed gains. They need gcc, valgrind and Python.
# WORDS are for the scripts: `make bench WORDS='--page docs/BENCH.md --core 3'` writes that page, and
# `make bench-forms WORDS=--page` scripts/bench/FORMS.md with its rows in BENCH.
bench: ## print the tables of docs/BENCH.md
	@scripts/bench/tables.py $(WORDS)
bench-forms: ## count what each form that was chosen for speed gains
	@scripts/bench/forms.py $(WORDS)
test-build: ## test the script that builds
	@python3 tests/build.py
test-bench: ## test the scripts that measure
	@python3 scripts/bench/test_bench.py

# What was built of these sources, here or by the gate, is taken as it is.
all: ## build all programs, which proves the libraries first
	@scripts/build $(PROGRAMS) $(DASHED_CRATES)
	@$(MAKE) -s --no-print-directory bin
# They are for trying out: what isn't proved is neither installed nor packed.
quick: ## build all programs without proofs
	@scripts/build --unproved $(PROGRAMS) $(DASHED_CRATES)
	@$(MAKE) -s --no-print-directory bin
$(PROGRAMS) $(DASHED_CRATES):
	@scripts/build $@
	@$(MAKE) -s --no-print-directory bin

# `bin` has the scripts, and the programs that are built, by the names that they have when installed. They are copies:
# `rt ci` refuses a tree with links in its folders. A program that is running is replaced, not written into.
bin: ## copy the programs and scripts to bin
	@mkdir -p bin
	@find bin -type l -exec rm {} +
	@copy() { \
	    [ ! -e "$$1" ] || cmp -s "$$1" "bin/$$2" || { cp "$$1" "bin/.$$2.new" && mv -f "bin/.$$2.new" "bin/$$2"; }; \
	}; \
	for program in $(PROGRAMS); do copy crates/$$program/out/$$program $$program || exit 1; done; \
	for name in $(DASHED); do copy crates/dlx_$$name/out/dlx_$$name dlx-$$name || exit 1; done; \
	copy scripts/helgrothy helgrothy

# The library for C is the crate with the toolchain's three calls of malloc, in one object that tells no other names, as
# an archive and as a shared library.
lib: ## build the library for C, which proves it first
	cd crates/xc_c && rt lib
	@rm -rf bindings/out && mkdir bindings/out
	@cd bindings/out && ar x ../../crates/xc_c/out/libxc_c.a && ar x "$$(dirname "$$(rt doc)")/c/liblibc_c.a" && \
	    ld -r *.o -o helgrothy.o && objcopy --wildcard --keep-global-symbol='helgrothy_*' helgrothy.o && \
	    ar rcsD libhelgrothy.a helgrothy.o && \
	    gcc -shared -Wl,-soname,$(SONAME),-z,defs,-z,text,-z,relro,-z,now helgrothy.o -o libhelgrothy.so && rm *.o

# What follows takes the programs as `make all` built them, and needs no toolchain.
COMMANDS = $(PROGRAMS) $(DASHED:%=dlx-%) helgrothy
# The files of a folder or two into another, whatever the umask.
copy = find -L $(1) -type f ! -name '*.pyc' -exec sh -c \
    'for file; do install -D -m 644 "$$file" "$(2)/$$file" || exit 1; done' copy {} +

# A program that isn't the one of its note, or is of other sources than these, is neither installed nor packed.
checked: bin
	@scripts/build --check $(PROGRAMS) $(DASHED_CRATES)
install: checked install-lib ## install under PREFIX, in DESTDIR
	install -d "$(DESTDIR)$(bindir)" "$(DESTDIR)$(mandir)/man1" "$(DESTDIR)$(mandir)/man5" "$(DESTDIR)$(completiondir)"
	for command in $(COMMANDS); do install -m 755 bin/$$command "$(DESTDIR)$(bindir)/" || exit 1; done
	for page in man/*.[15]; do \
	    to="$(DESTDIR)$(mandir)/man$${page##*.}/$${page##*/}"; \
	    sed '1s/ Helgrothy / "Helgrothy $(VERSION)" /' $$page > "$$to" && chmod 644 "$$to" || exit 1; \
	done
	install -m 644 release/completion.bash "$(DESTDIR)$(completiondir)/dlx1"
	for command in $(COMMANDS:dlx1=); do ln -sfn dlx1 "$(DESTDIR)$(completiondir)/$$command" || exit 1; done
	install -D -m 644 release/completion.zsh "$(DESTDIR)$(zshdir)/_helgrothy"
	install -D -m 644 release/completion.fish "$(DESTDIR)$(fishdir)/dlx1.fish"
	for command in $(COMMANDS:dlx1=); do ln -sfn dlx1.fish "$(DESTDIR)$(fishdir)/$$command.fish" || exit 1; done
	$(call copy,docs examples CHANGELOG.md python/README.md,$(DESTDIR)$(docdir))
	sh release/readme.sh $(VERSION) >"$(DESTDIR)$(docdir)/README.md" && chmod 644 "$(DESTDIR)$(docdir)/README.md"
	cd python && $(call copy,helgrothy,$(DESTDIR)$(pythondir))

install-lib: checked
	$(if $(LIBRARY),install -D -m 644 $(LIBRARY:.so=.a) "$(DESTDIR)$(libdir)/libhelgrothy.a")
	$(if $(LIBRARY),install -m 644 $(LIBRARY) "$(DESTDIR)$(libdir)/libhelgrothy.so.$(VERSION)")
	$(if $(LIBRARY),ln -sfn libhelgrothy.so.$(VERSION) "$(DESTDIR)$(libdir)/$(SONAME)")
	$(if $(LIBRARY),ln -sfn $(SONAME) "$(DESTDIR)$(libdir)/libhelgrothy.so")
	$(if $(LIBRARY),install -D -m 644 bindings/c/helgrothy.h "$(DESTDIR)$(includedir)/helgrothy.h")
	$(if $(LIBRARY),sed 's|@includedir@|$(includedir)|; s|@libdir@|$(libdir)|; s|@version@|$(VERSION)|' \
	    bindings/c/helgrothy.pc.in | install -D -m 644 /dev/stdin "$(DESTDIR)$(libdir)/pkgconfig/helgrothy.pc")

uninstall-lib:
	for file in libhelgrothy.a libhelgrothy.so $(SONAME) libhelgrothy.so.$(VERSION) pkgconfig/helgrothy.pc; do \
	    rm -f "$(DESTDIR)$(libdir)/$$file" || exit 1; \
	done
	rm -f "$(DESTDIR)$(includedir)/helgrothy.h"

uninstall: uninstall-lib ## take away what was installed
	for command in $(COMMANDS); do \
	    rm -f "$(DESTDIR)$(bindir)/$$command" "$(DESTDIR)$(completiondir)/$$command" \
	        "$(DESTDIR)$(fishdir)/$$command.fish" || exit 1; \
	done
	rm -f "$(DESTDIR)$(zshdir)/_helgrothy"
	for page in $(COMMANDS:%=%.1) dlx.5; do rm -f "$(DESTDIR)$(mandir)/man$${page##*.}/$$page" || exit 1; done
	for part in docs examples python/README.md CHANGELOG.md README.md; do \
	    rm -rf "$(DESTDIR)$(docdir)/$$part" || exit 1; \
	done
	rm -rf "$(DESTDIR)$(pythondir)/helgrothy"
	rmdir --ignore-fail-on-non-empty "$(DESTDIR)$(docdir)/python" "$(DESTDIR)$(docdir)" "$(DESTDIR)$(pythondir)"

# Each of these makes a file in `dist`, of the programs and of what git tracks. The same files give the same bytes:
# whatever is packed is of this time.
SOURCE_DATE_EPOCH := $(or $(SOURCE_DATE_EPOCH),$(shell git log -1 --format=%ct 2>/dev/null))
export SOURCE_DATE_EPOCH
dist: checked version ## pack the archive
	@sh release/tracked.sh sh release/dist.sh $(VERSION)
deb: checked version ## pack the Debian package
	@sh release/tracked.sh sh release/deb.sh $(VERSION)
wheel: checked version ## pack the wheel
	@sh release/tracked.sh python3 release/wheel.py $(VERSION)
# The version as a number, which C has: 10000 times the first part, 100 times the second, and the third.
NUMBER = $(shell echo $(VERSION) | awk -F. '{ print 10000 * $$1 + 100 * $$2 + $$3 }')
version: ## check that all files name the version
	@grep -q '^## $(VERSION)$$' CHANGELOG.md || { echo "CHANGELOG.md says nothing of $(VERSION)" >&2; exit 1; }
	@grep -q '^__version__ = "$(VERSION)"$$' python/helgrothy/__init__.py && \
	    grep -q '^version = "$(VERSION)"$$' python/pyproject.toml || \
	    { echo "the Python package isn't of $(VERSION)" >&2; exit 1; }
	@grep -q '^version = "$(VERSION)"$$' bindings/rust/Cargo.toml || { echo "the crate for Rust isn't of $(VERSION)" >&2; exit 1; }
	@grep -q '^#define HELGROTHY_VERSION $(NUMBER)$$' bindings/c/helgrothy.h || \
	    { echo "the header for C isn't of $(VERSION)" >&2; exit 1; }
	@sed -n '/fn helgrothy_version/,/^}/p' crates/xc_c/src/lib.rt | tr -d '\n' | \
	    grep -q 'version_number $(subst ., ,$(VERSION)) }{    $(NUMBER)}' || \
	    { echo "the library for C isn't of $(VERSION)" >&2; exit 1; }
release: dist deb wheel ## pack the archive, the Debian package and the wheel
	cd dist && sha256sum helgrothy[-_]$(VERSION)* > SHA256SUMS

test-library: ## the calls of the library for C, built without proofs
	@python3 tests/bindings/calls.py
test-bindings: lib ## the examples in C and Rust, and hostile calls
	@sh tests/bindings/bindings.sh
test-install: bin ## an installation
	@sh tests/release/install.sh
test-dist: dist ## the archive
	@sh tests/release/dist.sh $(VERSION)
test-deb: deb ## the Debian package
	@sh tests/release/deb.sh $(VERSION)
test-wheel: wheel ## the wheel
	@sh tests/release/wheel.sh $(VERSION)
