# The commands of this repository: `make` lists them. Each calls a program of tools/, tests/ or .ci/, which can be run by itself,
# and says more by --help.
CRATE ?=

.DEFAULT_GOAL := help
.PHONY: help build lib test gate check bench install uninstall deb dist docs clean

help: ## this list
	@echo 'usage: make COMMAND'
	@echo
	@awk -F ':.*## ' '/^[a-z]+:.*## / { printf "  %-10s %s\n", $$1, $$2 }' $(MAKEFILE_LIST)
	@echo
	@echo 'The program without make, unproved where it is not built:  ./rcuo replay < examples/first-run.toml'

build: ## prove and build the program rcuo with all that it stands on
	tools/build

lib: ## prove and build the library for C: out/librcuo.a and out/librcuo.so.0
	tools/build librcuo

test: ## run all tests without a proof, after an edit; with CRATE=NAME those of one crate
	tests/unproved $(CRATE)

gate: ## run all checks: every proof from nothing, every test, every program
	.ci/run

check: ## prove the crate CRATE=NAME and what it stands on, run its tests, try its edits
	@test -n '$(CRATE)' || { echo 'make check CRATE=NAME, where NAME is a crate of crates.txt, as rcu_lists' >&2; exit 2; }
	tools/check $(CRATE)

bench: ## measure calls, callbacks, memory and waiting beside liburcu
	tools/bench

install: ## install the libraries for C, their headers and what pkg-config reads; heeds PREFIX, DESTDIR and LIBDIR
	tools/install-librcuo

uninstall: ## remove what install put there, with the same PREFIX, DESTDIR and LIBDIR
	tools/install-librcuo --uninstall

deb: ## make Debian packages of what is built, in out/deb
	tools/deb

dist: ## make an archive of what is built, in out/dist, that is used without the prover
	tools/dist

docs: ## write the pages and tables that are made from the code
	tools/documents --write

clean: ## remove all that was built, and what checks kept: the next build proves from nothing
	rm -rf out crates/*/out bindings/target tools/__pycache__ tests/program/__pycache__
