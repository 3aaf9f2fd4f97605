# golly_canon: one canonical text for a cellular-automaton pattern.
#
#   make           builds the proved program as ./golly_canon and runs it on an example
#   make library   builds the proved library for C in out/library: static, shared, and a pkg-config file
#   make page      builds the page and the module for browsers in out/page from the library that make library has proved
#   make packages  builds the packages of a release in out/packages, from what make, make library and make page have proved and built
#   make test      the gate: every proof from scratch, every must-fail edit, and every other check, also the next three
#   make test_page the page and the module in headless browsers and in Node, compared with ./golly_canon
#   make test_packages  the packages of a release, each installed and used in a place of its own
#   make test_collection   a collection on a cluster of this machine, by the library of make library
#   make quick     builds the same program without proving it, runs it on FILE=.. and keeps nothing
#   make check     checks what changed since the last time, over kept work: crates, the edits of changed files, and documents. It is no gate
#   make plants    tries the must-fail edits that the gate leaves out, before a release
#   make lint      lists lemmas that say the same, and words that the speller doesn't know
#   make fuzz      compares the program with the independent reader on CASES=.. random files by SEED=..
#   make fuzz_library  the same of the library for C, its streams too, which takes half the time
#   make times     runs the gate's proofs, edits and tests, and says how much processor time it took for each crate, its tests and its edits
#   make bench     times the program beside plain C by gcc and by clang, and a program OTHER=.. (with SMALL=1 on smaller inputs, within five minutes)
#   make instructions   counts the instructions of both on the smaller inputs, which other work on the machine does not change
#   make install   puts in place what make and make library have built, and proves nothing: the two below
#   make install_program  puts ./golly_canon into $(DESTDIR)$(PREFIX)/bin, its man page into $(DESTDIR)$(MANDIR), and its completions into
#                  $(DESTDIR)$(PREFIX)/share
#   make install_library  puts the header into $(DESTDIR)$(PREFIX)/include, the library into $(DESTDIR)$(LIBDIR), the Python module into
#                  $(DESTDIR)$(PYTHONDIR), and collection.py into $(DESTDIR)$(PREFIX)/share/golly_canon, which is also the command
#                  golly_canon_collection in $(DESTDIR)$(PREFIX)/bin
#   make uninstall removes what make install put there, with the same PREFIX, LIBDIR, MANDIR, PYTHONDIR and DESTDIR
#   make help      prints these lines
#   make clean     removes what was built; the proofs' work in crates/*/out stays
#   make distclean removes that too

PREFIX = /usr/local
LIBDIR = $(PREFIX)/lib
MANDIR = $(PREFIX)/share/man
PYTHONDIR = $(PREFIX)/share/golly_canon
DESTDIR =
SHARE = $(DESTDIR)$(PREFIX)/share
# What the C compiler is given where it links the shared object.
CFLAGS ?=
LDFLAGS ?=
RT ?= rt
EXAMPLE = examples/gosper_glider_gun.mc
CASES = 100000
SEED = 1

all: golly_canon
	@echo "golly_canon canon $(EXAMPLE):"
	@./golly_canon canon $(EXAMPLE)

golly_canon: FORCE
	@RT="$(RT)" python3 -B scripts/needs build
	@RT="$(RT)" python3 -B scripts/build

library: FORCE
	@RT="$(RT)" CC="$(CC)" python3 -B scripts/needs library
	@RT="$(RT)" CC="$(CC)" CFLAGS="$(CFLAGS)" LDFLAGS="$(LDFLAGS)" sh scripts/library "$(PREFIX)"

page: FORCE
	@RT="$(RT)" python3 -B scripts/page --ready
	@RT="$(RT)" python3 -B scripts/needs page
	@RT="$(RT)" python3 -B scripts/page

packages:
	@RT="$(RT)" CC="$(CC)" python3 -B scripts/needs packages
	@RT="$(RT)" CC="$(CC)" python3 -B scripts/packages

quick:
	@RT="$(RT)" FILE="$(FILE)" sh scripts/quick

test:
	@RT="$(RT)" python3 tests/all

test_page: golly_canon
	@RT="$(RT)" python3 -B scripts/needs test
	@RT="$(RT)" python3 -B tests/page/page.py ./golly_canon

test_packages: program_is_built library_is_built
	@RT="$(RT)" python3 -B tests/packages/packages.py ./golly_canon out/library/libgolly_canon.a out/page

test_collection: library_is_built
	@PYTHONPATH="$(CURDIR)/python" python3 -B tests/library/collection.py

plants:
	@RT="$(RT)" python3 -B scripts/gate more

check:
	@RT="$(RT)" python3 -B scripts/gate changed
	@RT="$(RT)" python3 -B tests/all documents

lint:
	@python3 -B scripts/lemmas --check
	@python3 -B scripts/spelling --check

fuzz: golly_canon
	@python3 -B tests/program/compare.py ./golly_canon --cases "$(CASES)" --seed "$(SEED)"

fuzz_library: library
	@python3 -B tests/program/compare.py out/library/libgolly_canon.so --cases "$(CASES)" --seed "$(SEED)"

times:
	@RT="$(RT)" python3 scripts/times

bench: golly_canon
	@RT="$(RT)" SMALL="$(SMALL)" OTHER="$(OTHER)" python3 bench/run.py ./golly_canon out/bench
	@SMALL="$(SMALL)" python3 -B bench/generations.py ./golly_canon out/bench

instructions: golly_canon
	@python3 -B bench/instructions.py ./golly_canon out/bench_small

# Nothing is put in place where a part is not built, or where a folder would depend on where make was called.
install: program_is_built library_is_built folders_are_absolute
	@$(MAKE) --no-print-directory install_program install_library

program_is_built:
	@[ -x golly_canon ] || { echo "there is no ./golly_canon: make builds it" >&2; exit 1; }

library_is_built:
	@[ -f out/library/libgolly_canon.so ] || { \
	    echo "there is no library in out/library: make library builds it, and make install_program installs the program without it" >&2; exit 1; }

folders_are_absolute:
	@for it in "PREFIX=$(PREFIX)" "LIBDIR=$(LIBDIR)" "MANDIR=$(MANDIR)" "PYTHONDIR=$(PYTHONDIR)"; do \
	    case $$it in *=/*) ;; *) echo "$$it is no absolute path: write $${it%%=*}=\$$PWD/$${it#*=} for a folder in this one" >&2; exit 1 ;; esac; done

install_program: program_is_built folders_are_absolute
	install -d "$(DESTDIR)$(PREFIX)/bin" "$(DESTDIR)$(MANDIR)/man1"
	install -m 755 golly_canon "$(DESTDIR)$(PREFIX)/bin/golly_canon"
	install -m 644 docs/golly_canon.1 "$(DESTDIR)$(MANDIR)/man1/golly_canon.1"
	install -d "$(SHARE)/bash-completion/completions" "$(SHARE)/zsh/site-functions" "$(SHARE)/fish/vendor_completions.d"
	install -m 644 completions/golly_canon.bash "$(SHARE)/bash-completion/completions/golly_canon"
	install -m 644 completions/_golly_canon "$(SHARE)/zsh/site-functions/_golly_canon"
	install -m 644 completions/golly_canon.fish "$(SHARE)/fish/vendor_completions.d/golly_canon.fish"

install_library: library_is_built folders_are_absolute
	@sh scripts/install_library out/library "$(PREFIX)" "$(DESTDIR)" "$(LIBDIR)" "$(PYTHONDIR)"

uninstall: folders_are_absolute
	rm -f "$(DESTDIR)$(PREFIX)/bin/golly_canon" "$(DESTDIR)$(MANDIR)/man1/golly_canon.1" "$(SHARE)/bash-completion/completions/golly_canon"
	rm -f "$(SHARE)/zsh/site-functions/_golly_canon" "$(SHARE)/fish/vendor_completions.d/golly_canon.fish"
	rm -f "$(DESTDIR)$(PREFIX)/include/golly_canon.h" "$(DESTDIR)$(LIBDIR)/pkgconfig/golly_canon.pc" "$(DESTDIR)$(LIBDIR)"/libgolly_canon.*
	rm -f "$(DESTDIR)$(PYTHONDIR)/golly_canon.py" "$(SHARE)/golly_canon/collection.py" "$(DESTDIR)$(PREFIX)/bin/golly_canon_collection"

help:
	@sed -n 's/^#  //p' Makefile

clean:
	rm -rf golly_canon out build python/*.egg-info

distclean: clean
	rm -rf crates/*/out

FORCE:

.PHONY: all library page packages quick check lint test test_page test_packages test_collection plants fuzz fuzz_library times bench instructions install program_is_built library_is_built folders_are_absolute \
    install_program install_library uninstall help clean distclean FORCE
