# Romtyalig. `make demo` runs the program on a sample capture; `make build` proves and builds; `make test` proves and tests all.

PREFIX ?= /usr/local
# The program of crates/romtyalig_pipe is romtyalig-pipe, and so on.
PROGRAMS := romtyalig romtyalig-pipe romtyalig-pcapng romtyalig-pair romtyalig-join romtyalig-watch
# A program for the scripts of checks/ and bench/, which isn't installed.
CHECKS := bench_checks
# All that a proof or a build reads: code, definitions, and proofs in folders of any depth.
SOURCES := $(shell find crates -name out -prune -o \( -name '*.rt' -o -name '*.antt' \) -print)

crate = $(subst -,_,$(1))

.PHONY: help demo build test take check edits install deb clean

help:
	@echo "make demo                 meter a sample capture and show its records: with the proved program where it is built,"
	@echo "                          else with one built without proof, in a minute or two"
	@echo "make build                prove and build the programs, bin/romtyalig and the others; resumes where it was stopped"
	@echo "make test                 the gate: prove every crate, run all tests, then the checks of checks/; what an earlier run proved is kept"
	@echo "make check                compare the program with other readers and meters (checks/)"
	@echo "make edits                try all edits that the checker must refuse, also those that the gate leaves out (hours)"
	@echo "make install PREFIX=DIR   install programs, manual pages and completions below DIR, by default $(PREFIX)"
	@echo "make deb                  write a Debian package of the programs into bin/"

demo:
	@tools/demo.sh

build: $(PROGRAMS:%=bin/%)

# The libraries below the programs, with a line for each.
bin/.libraries: crates.txt $(SOURCES)
	@echo "Proving what the programs stand on: by estimate three quarters of an hour on four processors with nothing else to do," \
	    "where nothing is proved yet; else the time of what changed."
	@tools/prove.sh $(call crate,$(PROGRAMS))
	@mkdir -p bin
	@touch $@

# `rt run` proves a program's crate, builds it and runs it, here on the words and the input of its stored run.
bin/%: bin/.libraries
	@cd crates/$(call crate,$*) && rt run -- $$(cat args) < stdin > build.log 2>&1 || { tail -n 20 build.log; exit 1; }
	@rm -f crates/$(call crate,$*)/build.log
	@cp crates/$(call crate,$*)/out/$(call crate,$*) $@
	@echo "proved and built: $@"

test:
	@echo "The gate: an hour or two on two processors or four, where nothing was proved yet."
	rt ci
	@$(MAKE) --no-print-directory take
	@$(MAKE) --no-print-directory check

# The gate leaves each program in its crate's folder out/; so nothing is proved a second time for the checks.
take:
	@mkdir -p bin
	@touch bin/.libraries
	@$(foreach name,$(PROGRAMS) $(CHECKS),made=crates/$(call crate,$(name))/out/$(call crate,$(name)); \
	    if [ -x $$made ]; then cp $$made bin/$(name); fi;)

check: build $(CHECKS:%=bin/%)
	tools/demo.sh
	checks/shell.sh
	checks/page.sh
	checks/help.sh
	checks/completions.sh
	checks/readme.sh
	checks/operators.sh
	checks/scale.sh
	checks/slurm.sh
	python3 checks/plain_english.py
	python3 checks/edit_lines.py
	python3 checks/element_names.py
	python3 checks/named.py
	python3 checks/report.py
	python3 checks/collector.py
	python3 checks/compare.py
	checks/scripts.sh
	checks/rotate.sh
	checks/deb.sh
	checks/foreign_readers.sh
	checks/pcapng.sh
	checks/biflows.sh
	checks/bench_words.sh
	checks/two_threads.sh
	checks/refused_memory.sh
	checks/no_memory.sh
	python3 checks/workers.py
	checks/one_set.sh
	checks/watch.sh
	checks/pipe.sh
	python3 checks/splits.py
	python3 checks/second_meter.py 20000
	python3 checks/second_reader.py 20000
	python3 checks/second_pairer.py 2000
	python3 checks/second_pcapng.py 2000
	python3 checks/second_maker.py
	python3 checks/second_joiner.py 2000

# No part of the gate, nor of `make check`.
edits:
	checks/edits.sh

install: build
	install -d $(DESTDIR)$(PREFIX)/bin
	install -m 755 $(PROGRAMS:%=bin/%) $(DESTDIR)$(PREFIX)/bin
	install -m 755 examples/named.py $(DESTDIR)$(PREFIX)/bin/romtyalig-named
	install -d $(DESTDIR)$(PREFIX)/share/man/man1
	install -m 644 man/*.1 $(DESTDIR)$(PREFIX)/share/man/man1
	install -d $(DESTDIR)$(PREFIX)/share/bash-completion/completions
	for file in completions/*.bash; do \
	    name=$$(basename $$file .bash); \
	    install -m 644 $$file $(DESTDIR)$(PREFIX)/share/bash-completion/completions/$$name || exit 1; \
	done
	install -d $(DESTDIR)$(PREFIX)/share/zsh/site-functions
	install -m 644 completions/_* $(DESTDIR)$(PREFIX)/share/zsh/site-functions

deb: build
	@packaging/deb.sh

clean:
	rm -rf bin crates/*/out
