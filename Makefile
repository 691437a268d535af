# What each target does is said by `make`.
.DEFAULT_GOAL := help
.PHONY: help test edits gwo run compare explain wear rewrite example bench benchmark lib install uninstall fuzz

# Every word that may be typed. One that is not here is a slip, and nothing is run.
words := SCRIPT LOG STRICT MODEL IMAGE SAVE CRATE PREFIX DESTDIR FOR
typed := $(foreach name,$(.VARIABLES),$(if $(filter command,$(origin $(name))),$(name)))
unknown := $(filter-out $(words),$(typed))
ifneq ($(unknown),)
$(error $(unknown): no such word here; the words are $(words))
endif

# They reach the commands to the letter: make would take a $ in them for a name of its own.
$(foreach word,$(words),$(if $(filter undefined,$(origin $(word))),,$(eval override export $(word) := $$(value $(word)))))

# With -C make says on standard output where it is, in the middle of a log: not here. (Before version 4.4 it keeps quiet only about jobs that
# run side by side and are held to be makes of their own.)
MAKEFLAGS += --no-print-directory
quiet := @
switches := $(firstword -$(MAKEFLAGS))
ifneq ($(findstring w,$(switches)),)
ifeq ($(findstring n,$(switches)),)
MAKEFLAGS += -j2 -Otarget
quiet := +@
endif
endif

help:
	$(quiet)echo 'make test                          prove everything, try the must-fail edits, run the programs and the host tests'
	$(quiet)echo 'make edits CRATE=NAME              try the must-fail edits of a crate over what its check has found: quick, and not the verdict'
	$(quiet)echo 'make gwo                           build/gwo, the program of the bench: run, check, explain, compare, serve, rewrite, sfdp, pins; build/gwo --help'
	$(quiet)echo 'make run SCRIPT=FILE               play a script; the log goes to standard output'
	$(quiet)echo 'make compare SCRIPT=FILE LOG=FILE  play a script and compare its log with a stored one'
	$(quiet)echo 'make explain SCRIPT=FILE           play a script and show each line beside its answer in words'
	$(quiet)echo 'make wear SCRIPT=FILE              play a script and write the wear sheet: how often it erased each sector'
	$(quiet)echo '     .. SCRIPT=-                   the script comes from standard input'
	$(quiet)echo '     .. STRICT=1                   with the four above: a page program over old data is refused (19)'
	$(quiet)echo '     .. MODEL=1, 2 or 3            another chip; IMAGE=FILE: its cells at the start; SAVE=FILE: make run writes them at the end'
	$(quiet)echo 'make rewrite SCRIPT=FILE           write a stored script anew for the small chips, 52 to D8; the changed lines are named on standard error'
	$(quiet)echo 'make example                       run the two programs of host/example: firmware with its mistake and mended, and a board pulled in mid-erase'
	$(quiet)echo 'make bench, make benchmark         count instructions against the independent C model'
	$(quiet)echo 'make lib                           target/staticlib/libpod.a, for firmware in C'
	$(quiet)echo 'make install PREFIX=DIR            the archive, its headers, gwo, its manual page and a file for pkg-config; make uninstall takes them away'
	$(quiet)echo 'make fuzz FOR=SECONDS              random clients and files against gwo, with sanitizers (600)'

test:
	$(quiet)tools/test.sh

edits:
	$(quiet)tools/host.sh python -B tools/edits.py $$CRATE

gwo:
	$(quiet)tools/gwo.sh build 'make gwo'

run compare explain wear rewrite:
	$(quiet)tools/bench.sh $@

example:
	$(quiet)tools/rattle.sh 'make example' archive && host/example/run.sh

bench benchmark:
	$(quiet)tools/rattle.sh 'make bench' archive && host/benchmark/run.sh

lib:
	$(quiet)tools/rattle.sh 'make lib' archive

install uninstall:
	$(quiet)host/gwo/install.sh $@

fuzz:
	$(quiet)host/gwo/fuzz.sh "$${FOR:-600}"
