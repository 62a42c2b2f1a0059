# `make audit` builds the program and audits an example; `make test` is the gate; `make help` has the rest.

.PHONY: audit test try check help install dist clean

audit:
	@scripts/build

test:
	@scripts/gate

try:
	@scripts/try

check:
	@test -d 'crates/$(CRATE)' || { echo 'usage: make check CRATE=name' >&2; exit 2; }
	cd 'crates/$(CRATE)' && rt check

help:
	@echo 'make audit             a first verdict, then the proofs of the program, then its verdict'
	@echo 'make test              the gate: all proofs, cases and tests'
	@echo 'make try               the cases and tests without proofs'
	@echo 'make check CRATE=name  the proofs of one crate'
	@echo 'make atalk             the proved program, as ./atalk'
	@echo 'make install           the program, its manual pages and its completions, below PREFIX (/usr/local, if not given)'
	@echo 'make dist              an archive with the proved program, its pages and licences'
	@echo 'make clean             what was built goes'
	@echo 'scripts/affected NAME  what is proved again after an edit of a crate'

atalk:
	@scripts/build -q

install: atalk
	scripts/completions ./atalk completions
	@$(MAKE) --no-print-directory -f scripts/install.mk install

dist:
	@scripts/build -q
	@scripts/dist

clean:
	rm -rf atalk completions out crates/*/out nuxorvelt-*.tar.gz
