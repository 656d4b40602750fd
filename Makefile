# What a newcomer types. `rt` is the toolchain's command; README.md says what it is.
SHELL := bash

# The programs: of each there is a crate of that name, docs/NAME.1, and its words for shells in completions/.
PROGRAMS := lockrun lockchart lockplan

SCRIPT ?= examples/blocking.script
FORM ?= svg
FROM ?=
TO ?=
TURNS ?=
TITLE ?=
BY ?= priority
PREFIX ?= /usr/local
DESTDIR ?=
LOCKRUN ?=
LOCKPLAN ?=
LOCKCHART ?=
export SCRIPT FORM FROM TO TURNS TITLE BY PREFIX DESTDIR LOCKRUN LOCKPLAN LOCKCHART PROGRAMS

.DEFAULT_GOAL := help
.PHONY: help step run plan chart proved quick $(PROGRAMS) examples install uninstall dist words docs bench costs c \
  c-test

# Says what there is to type.
help:
	@echo 'make step SCRIPT=PATH     makes the scheduled run of a script, as TURNS=N says; without SCRIPT, $(SCRIPT)'
	@echo 'make run SCRIPT=PATH      runs it with a thread of its own for each thread of the script'
	@echo 'make plan SCRIPT=PATH     writes it with turns by priority behind its schedule; BY="chance SEED": by chance;'
	@echo '                          BY="priority --without-loans": by base priorities'
	@echo 'make chart SCRIPT=PATH    draws its scheduled run into a file of out/; FORM=html, trace, text, json for another;'
	@echo '                          FROM=A, TO=B, TURNS=N and TITLE=TEXT as docs/lockchart.1 says'
	@echo '                          These four take a proved program that is new enough, or a quick one, or build one'
	@echo '                          without any proof'
	@echo 'make PROGRAM              proves a program, and leaves it in out/: $(PROGRAMS)'
	@echo 'make quick                builds all of these without any proof, and leaves them in out/quick/'
	@echo 'make proved SCRIPT=PATH   make lockrun, and then make step'
	@echo 'make examples             runs each example of the gate; stops at the first that is not as written'
	@echo 'make install              installs the proved programs, their pages, their words for shells, and the examples,'
	@echo '                          and the library for C where make c has left it, below PREFIX, $(PREFIX), in'
	@echo '                          DESTDIR; make uninstall removes them'
	@echo 'make dist                 makes an archive of the sources in out/'
	@echo 'make words                compares the lists of words for shells and editors with what the programs know'
	@echo 'make docs                 lists the public calls of all libraries, from their doc comments, in out/CALLS.md'
	@echo 'make bench                times long scripts by the proved lockrun, and puts the figures into bench/results.md'
	@echo 'make c                    proves the library for C, and leaves liblockrun.a and lockrun.h in out/c/'
	@echo 'make c-test               runs its tests and its examples, under sanitizers and helgrind where these are there'
	@echo 'make costs                counts what one more case of each sort makes somebody write, and what is proved again'
	@echo 'rt ci                     the gate: proves every crate, tries the edits that must fail, runs tests and programs'
	@echo 'A script may end with a status other than 0; make then says Error and that number.'

# One turn after another, the same way each time; the threads beside each other; a schedule by a policy; a picture.
step run plan chart:
	@tools/programs $@

# Proves a program and all below it.
$(PROGRAMS):
	@tools/programs prove $@

quick:
	@for name in $$PROGRAMS; do tools/programs quick "$$name" || exit; done

# Proves lockrun, and makes the scheduled run of a script by it.
proved: lockrun
	@tools/programs step

# Runs each example, and stops at the first whose status, text or sentence isn't as written.
examples:
	@tools/run_examples

# Puts the proved programs, their manual pages, their words for shells, and the examples below DESTDIR and PREFIX.
install:
	@tools/install put

uninstall:
	@tools/install remove

# An archive of the sources.
dist:
	@tools/dist

# Compares what is written by hand for shells and editors with what the programs know.
words:
	@tools/compare_words

# The list of the public calls of all libraries, made from their doc comments into out/CALLS.md.
docs:
	@tools/index_calls

# Times long scripts by the proved program.
bench:
	@bench/run

# Counts what a change costs: the files that one more case of each sort makes somebody write, and what is proved again.
costs:
	@tools/costs

# The library for C: the proved crate lockrun_c as an archive, with the calls that wait.
c:
	@c/library make

# Its tests and its examples, which the gate can't run.
c-test:
	@c/library test
