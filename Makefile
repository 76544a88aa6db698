# Needs the Rattle toolchain (rt on the PATH) and gcc; LIB=FILE takes an archive that is there in rt's stead.
PREFIX ?= /usr/local
SEED ?= 1
install uninstall: export PREFIX := $(PREFIX)
compare fuzz: export SEED := $(SEED)
.PHONY: help demo test compare fuzz fuzz-install bench bench-install install uninstall pictures clean

help: ## these lines
	@awk -F ':.*## ' '/^[a-z-]+:.*## / { printf "make %-14s %s\n", $$1, $$2 }' Makefile

demo: ## one record, taken through all forms
	@host/demo

test: ## the gate: all proofs, then all tests; KEZ_WHOLE=1 has the slow edits too, and skips nothing
	@.ci/run

compare: ## the library beside another implementation [ORACLE=program] [COUNT=100000] [SEED=1]
	@bash -c '. host/build.sh; number COUNT "$${COUNT:-1}" 1 && number SEED "$$SEED"'
	@echo "seed $$SEED"
	@host/compare "$$COUNT"

fuzz: ## every entry under guard pages, sanitizers and libFuzzer [SECONDS=600] [SEED=1]
	@host/fuzz/guided "$(SECONDS)"

fuzz-install: ## clang with libFuzzer, from Debian's packages
	@host/fuzz/install

bench: ## nanoseconds for a call, beside plain Rust, memcpy, and JSON parsers and OpenSSL if installed [ORACLE=program]
	@host/bench

bench-install: ## these JSON parsers and OpenSSL, from Debian's packages
	@host/bench-install

install: ## libraries, header, the tool, man pages, files for pkg-config and CMake [PREFIX=/usr/local] [DESTDIR=folder]
	@host/install "$$PREFIX"

uninstall: ## removes what install put below PREFIX, and nothing else [PREFIX=/usr/local] [DESTDIR=folder]
	@host/install --remove "$$PREFIX"

pictures: ## the pictures in docs/, drawn anew
	@host/pictures

clean: ## removes what is built: target/, and crates/*/out, where rt keeps its work
	rm -rf target crates/*/out
