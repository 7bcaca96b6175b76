# make help              this list
# make test              every check: formatting, proofs, edits that must be refused, Rust tests over the static library
# make check FILE=F      is F a program file? prints accepted, or the refusal's number, place, line and reason
# make list FILE=F       the list of F, or its refusal, as the listing program prints it
# make explorer          the listing program itself: crates/explorer/out/explorer
# make tool              builds the command: target/cargo/release/tarczolin; LIBRARY_FROM=L takes the library L, proved elsewhere
# make library           builds and proves the static library, target/staticlib/libtarczolin.a, and links libtarczolin.so of it
# make install PREFIX=P  the command, the libraries, the header, pkg-config, the manual page, completions, Python's package, below P
# make uninstall         takes them away again: the same PREFIX and DESTDIR
# make deb               a Debian package of them, with the documents and examples: target/tarczolin_VERSION_ARCHITECTURE.deb
# make bench             times of the library beside plain Rust; writes the table of docs/PERFORMANCE.md, draws docs/listing-time.svg
# make walk              the list beside a walk over all schedules in plain Rust: equal byte for byte? both times; PROGRAMS='F ..': of these
# make fuzz SECONDS=N    random bytes to every call, for so long
# make soak MINUTES=N    every call on two cores with random and damaged input, held to the oracle; SEED=S: of these seeds, S and S + 1
# make backends          every call on the interpreter and compiled with checks: the same answers, and the oracle's?
# make edits             every edit that can be run without a proof: does it give the wrong answer that its remark speaks of?
# make valgrind          the Rust tests, few cases each, under valgrind
FILE ?= examples/whole.hex
SECONDS ?= 600
MINUTES ?= 10
CARGO = cargo
QUIET = --quiet --release --offline --locked
LIBRARY = target/staticlib/libtarczolin.a
SHARED = $(LIBRARY:.a=.so)
# the crate whose functions C and Rust call
STATIC = tarczolin_c
EXPLORER = crates/explorer/out/explorer
SOURCES = crates.txt $(shell find crates -name out -prune -o \( -name '*.rt' -o -name '*.antt' \) -print)
VALGRIND = valgrind --quiet --error-exitcode=9 --leak-check=full --show-leak-kinds=definite --errors-for-leak-kinds=definite \
  --trace-children=yes --log-file=$(CURDIR)/target/valgrind/%p.log

.PHONY: help test check list explorer tool library bench walk fuzz soak backends edits valgrind

help:
	@sed -n 's/^# make/make/p' Makefile

test:
	@python3 tests/gate/gate.py

check: $(LIBRARY)
	@$(CARGO) run $(QUIET) --bin tarczolin -- check $(FILE)

list: $(EXPLORER)
	@$(EXPLORER) < $(FILE)

explorer: $(EXPLORER)

library: $(LIBRARY) $(SHARED)

tool: $(LIBRARY)
	@$(CARGO) build $(QUIET) --bin tarczolin

include package.mk

bench: $(LIBRARY)
	@python3 tests/performance.py

walk: $(LIBRARY)
	@$(CARGO) run $(QUIET) --bin walk -- $(PROGRAMS)

fuzz: $(LIBRARY)
	@FUZZ_SECONDS=$(SECONDS) FUZZ_SEED=$$(date +%s) $(CARGO) test $(QUIET) --package tarczolin-tests --test fuzz -- --nocapture

soak: $(LIBRARY)
	@$(CARGO) run $(QUIET) --bin soak -- $(MINUTES) $(SEED)

# a tree of its own, with one program more than the crates, and outside of this one, where rt ci wants no crate but those of crates.txt. rt try
# takes all of it as source and proves nothing; a line without runners=2 tells that one of the two runs gave no answer
backends: $(LIBRARY)
	@set -e; tree=$$(mktemp -d); trap 'rm -rf $$tree' EXIT; python3 -B tests/edits.py --tree $$tree; \
	  $(CARGO) run $(QUIET) --bin backends -- $$tree/parts; cd $$tree/crates/backends; \
	  rt try --cases $$tree/parts > $$tree/said 2>&1 || { cat $$tree/said; exit 1; }; \
	  tail -1 $$tree/said; if grep -v 'runners=2' $$tree/said | grep '^case='; then exit 1; fi
	@echo 'equal on the interpreter and compiled with checks, and as the oracle says'

# some 20 s an edit; those that cannot be run so, and why: python3 tests/edits.py --list
edits: library
	@python3 -B tests/edits.py

# cargo hands each test program to valgrind; a hundredth of the cases, since valgrind is slow; a report is an error
valgrind: $(LIBRARY)
	@rm -rf target/valgrind && mkdir -p target/valgrind
	@TEST_SHARE=100 FUZZ_SECONDS=20 CARGO_TARGET_X86_64_UNKNOWN_LINUX_GNU_RUNNER='$(VALGRIND)' $(CARGO) test $(QUIET) --workspace
	@cat target/valgrind/*.log; test -z "$$(cat target/valgrind/*.log)" && echo 'valgrind reports nothing'

# a library that was built, and so proved, elsewhere, or before; make test proves anew in any case
ifdef LIBRARY_FROM
.PHONY: $(LIBRARY)
$(LIBRARY):
	@install -D -m 644 $(LIBRARY_FROM) $(LIBRARY)
else
$(LIBRARY): $(SOURCES)
	@cd crates/$(STATIC) && rt lib
	@install -D -m 644 crates/$(STATIC)/out/lib$(STATIC).a $(LIBRARY)
endif

# the same code for programs that load it, as Python does: only the calls that the header declares are seen from outside
$(SHARED): $(LIBRARY) include/tarczolin.h
	@{ echo '{ global:'; sed -n 's/^uint64_t \(tarczolin_[a-z_]*\)(.*/\1;/p' include/tarczolin.h; echo 'local: *; };'; } > $@.names
	@$(CC) -shared -o $@ -Wl,--whole-archive $(LIBRARY) -Wl,--no-whole-archive -Wl,--version-script=$@.names \
	  -Wl,-soname,libtarczolin.so.0 -Wl,-z,defs

# what it prints of no file is not wanted here
$(EXPLORER): $(SOURCES)
	@mkdir -p target
	@cd crates/explorer && rt run < /dev/null > $(CURDIR)/target/explorer.log 2>&1 || { cat $(CURDIR)/target/explorer.log; exit 1; }
