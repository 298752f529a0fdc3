# kcount: a proved counter of k-mers, the words of length k, in sequence reads.
PREFIX ?= /usr/local
DESTDIR ?=
CRATE ?=
ARCHIVE ?=
# The crates of tests that tests/memory.sh runs with each growth refused.
TESTS_OF_MEMORY = kc_count_tests kc_stripe_tests kc_run_tests

.PHONY: demo build completions dist deb verify check edits memory files gzip mistakes options program examples
.PHONY: package documents workflow workflow-slurm test bench figures install clean help

demo: ## shows the program at work within two minutes: its source with checks, not yet proved
	@tools/demo.sh

build: ## proves the program and everything below it, and builds it as bin/kcount
	@tools/build.py

completions: build ## writes the completions in share/ from the help of the program
	@tools/completions.py

dist: build ## packs program, man page, completions and licences into dist/, with the SHA-256
	@tools/dist.sh dist

deb: build ## packs what install installs as a Debian package into dist/, with the SHA-256
	@tools/deb.sh dist

verify: build ## compares an archive with what is proved and built here: make verify ARCHIVE=FILE
	@tools/verify.sh "$(ARCHIVE)"

check: ## proves one crate over what earlier runs kept: make check CRATE=kc_word (none: all)
	$(if $(CRATE),cd crates/$(CRATE) && rt check,rt all check)

edits: ## tries the edits that the prover must refuse, many at once: make edits CRATE=kc_word (none: all)
	@tests/judging.py
	@tools/check_edits.py $(CRATE)
	@tools/edits.py $(CRATE)

memory: build ## refuses each growth of memory in turn
	for crate in $(TESTS_OF_MEMORY); do (cd crates/$$crate && rt test) || exit 1; done
	tests/memory.sh

files: build ## runs the program over files that are missing, are directories or are emptied, and on a terminal
	tests/files.sh

gzip: build ## counts gzip files of many writers, cut and changed, beside gzip
	tests/gzip_files.py

mistakes: build ## runs command lines that users get wrong, and compares what explains each fault
	tests/mistakes.sh

options: build ## compares the completions, and the options of the man page, with the help
	tests/options.sh

program: build ## compares the program's texts, streams and statuses as a whole, and the help's ranges and defaults with what it does
	tests/program.sh

examples: build ## runs the examples of README.md, docs/USING.md and docs/TUTORIAL.md as they are written
	tests/examples.sh

package: build ## packs the Debian package, installs it into an empty root, runs the program there and removes it
	tests/package.sh

workflow: build ## runs the Snakemake workflow over the examples, also killed and with a part that is refused
	tests/workflow.sh

workflow-slurm: build ## the same on a SLURM of one node, as root; no part of the full test
	tests/workflow_slurm.sh

documents: ## compares what the documents name with what is there
	tests/documents.py

test: ## everything: proofs from nothing, tests, the stored run, edits that must fail, and each test but workflow-slurm
	tests/full.sh

bench: build ## runs the benchmarks and prints the tables of docs/BENCHMARKS.md
	bench/all.sh

figures: ## prints how large each crate is, as docs/PROVED.md has it
	@tools/figures.sh

install: build ## installs bin/kcount, its man page and its completions under PREFIX
	install -D bin/kcount $(DESTDIR)$(PREFIX)/bin/kcount
	install -D -m 644 share/kcount.1 $(DESTDIR)$(PREFIX)/share/man/man1/kcount.1
	install -D -m 644 share/kcount.bash $(DESTDIR)$(PREFIX)/share/bash-completion/completions/kcount
	install -D -m 644 share/_kcount $(DESTDIR)$(PREFIX)/share/zsh/site-functions/_kcount
	install -D -m 644 share/kcount.fish $(DESTDIR)$(PREFIX)/share/fish/vendor_completions.d/kcount.fish

clean: ## removes what was built
	rm -rf bin dist crates/*/out

help: ## lists the targets
	@sed -n 's/^\([a-z-]*\):.*## \(.*\)/\1	\2/p' Makefile | expand -t 16
