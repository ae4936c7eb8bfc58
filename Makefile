# The commands of every day, a line each; `make` alone lists them. CRATE is a folder of crates/.

CRATE ?= p3_ring

.PHONY: help try run test check prove fmt docs gate bench bindings rust

help: ## lists these commands
	@sed -n 's/^\([a-z]*\):.*## /\1: /p' Makefile

try: ## the calculator on an example, without a proof, in a minute
	cd crates/fieldcalc && rt try < ../../examples/inverse.calc

run: ## the calculator on an example; the first time it is proved before, in some fifteen minutes
	./fieldcalc < examples/inverse.calc

test: ## the tests of one crate, without a proof: make test CRATE=test_fields
	cd crates/$(CRATE) && rt try --test

check: ## proves one crate, and first what it stands on: make check CRATE=p3_extension
	cd crates/$(CRATE) && rt check

prove: ## proves every library, side by side, and keeps the proofs for `make check`
	scripts/prove

fmt: ## lays out the sources and proofs of every crate
	for crate in crates/*/; do (cd "$$crate" && rt fmt) || exit 1; done

docs: ## writes the pages that are made from the sources
	scripts/contracts
	scripts/definitions
	scripts/items
	scripts/c-header

gate: ## all that has to pass: every proof, test and rejected edit, in about an hour on four processors
	.ci/run

bench: ## times the library beside plain Rust
	bench/run

bindings: ## the proved library for C and Rust
	scripts/bindings

rust: ## the Rust crate made of the sources, and its tests; it needs Python and stable Rust alone
	scripts/to-rust
	cd rust && cargo test --offline
