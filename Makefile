# The project's commands; `make help` prints them. Everything is proved, built and run by `rt`, the command of the Rattle kit.
PREFIX ?= /usr/local

# Of make demo: the first of two gray samples, 10 and 200, at 26 dots per inch; and a color scan of a page of examples.
PIXEL_CONFIG := flatbed 0 26 hex:50350a3220310a3235350a0ac8
PIXEL_WORDS := --config - --resolution 26 --br-x 1 --br-y 1
PICTURE_CONFIG := flatbed 0 30 hills.ppm
PICTURE_WORDS := --config - --mode Color --resolution 30 -x 200 -y 135
# What must come of them: the first sample; and the upper 159 rows of the page, each dot once, which has 236 columns.
PIXEL_FILE = printf 'P5\n\043 SANE data follows\n1 1\n255\n\012'
PICTURE_FILE = { printf 'P6\n\043 SANE data follows\n236 159\n255\n'; tail -c +16 examples/hills.ppm | head -c 112572; }

.PHONY: demo docs help build install uninstall check above layout test gate quick mutants dist deb failing-allocations hostile peer-check sane-check \
	bench need-rt need-crate

# Two scans from source, before any proof, side by side: one pixel, and a picture that it leaves as demo.ppm. What comes is compared
# with what must come, byte for byte. A minute or two.
demo: need-rt
	@echo 'These runs are not proved yet: rt try interprets the source as it is, in a minute or two. make build proves it first.'
	@rm -f demo.pgm demo.ppm
	@cd crates/scanimage && { failed=; \
	    echo '$(PIXEL_CONFIG)' | rt try -- $(PIXEL_WORDS) > ../../demo.pgm 2> ../../demo.log & pixel=$$!; \
	    echo '$(PICTURE_CONFIG)' | rt try --data hills.ppm=../../examples/hills.ppm -- $(PICTURE_WORDS) \
	        > ../../demo.ppm 2> ../../demo.picture.log & picture=$$!; \
	    wait $$pixel || failed=1; wait $$picture || failed=1; } ; \
	if [ -n "$$failed" ]; then cat ../../demo.log ../../demo.picture.log >&2; cd ../..; rm -f demo.log demo.picture.log demo.pgm demo.ppm; exit 1; fi
	@rm -f demo.log demo.picture.log
	@$(PIXEL_FILE) | cmp -s - demo.pgm || { echo 'demo: FAILED: demo.pgm is not the pixel that must come' >&2; exit 1; }
	@$(PICTURE_FILE) | cmp -s - demo.ppm || { echo 'demo: FAILED: demo.ppm is not the picture that must come' >&2; exit 1; }
	@echo 'one pixel, as it must come'
	@echo 'config:  $(PIXEL_CONFIG)'
	@echo 'command: scanimage $(PIXEL_WORDS)'
	@echo 'output, byte by byte:'
	@od -A d -t x1z demo.pgm
	@echo 'a picture, the upper 159 rows of examples/hills.ppm, each dot once'
	@echo 'config:  $(PICTURE_CONFIG)'
	@echo 'command: scanimage $(PICTURE_WORDS)'
	@echo "output:  demo.ppm, $$(head -n 3 demo.ppm | tail -n 1 | sed 's/ / x /') dots, $$(wc -c < demo.ppm) bytes"
	@rm -f demo.pgm

# Prints what stands here before each command.
help:
	@awk '/^# / { told = told "    " substr($$0, 3) "\n"; next } \
	/^[a-z-]+:/ && told != "" { split($$0, part, ":"); printf "make %s\n%s", part[1], told } { told = "" }' Makefile

# Proves every crate that the programs stand on, side by side, and builds them: crates/scanimage/out/scanimage,
# crates/saned/out/saned. Every minute it says how far it is. From nothing it takes half an hour; what has not changed is not
# done again.
build: need-rt
	tests/build

# Puts the proved programs into PREFIX/bin with jufteard-run and jufteard-why, their manual pages where man looks, words for the
# keyboard where bash and zsh look, and examples to copy into PREFIX/share/jufteard; DESTDIR stands before all of it, for who makes
# packages. PREFIX is /usr/local by default, and there scanimage and saned come before SANE's own in most shells: `make install
# PREFIX=/opt/jufteard` puts them where no shell finds them by their bare names, and `make install PREFIX=$HOME/.local` is for one
# user alone. Programs that are newer than all that they are made of are taken as they are, and nothing is proved again, so that
# `make build` and then `sudo make install` needs no rt of root's.
install:
	@command -v python3 > /dev/null || { echo 'jufteard: python3 is not on the PATH (Python 3.9 or later)' >&2; exit 1; }
	@packaging/install '$(PREFIX)' '$(DESTDIR)'
	@echo 'In a shell whose PATH has $(PREFIX)/bin before the folder of SANE'"'"'s own programs, scanimage and saned are now these.'

# Takes away what install put there, with the same PREFIX and DESTDIR.
uninstall:
	@packaging/install --away '$(PREFIX)' '$(DESTDIR)'

# Packs the proved programs into dist/, with their pages, documents, examples and what they were built from, for machines that have
# no kit: a tarball, or a Debian package that stands beside sane-utils. make build comes first; else they make nothing.
dist:
	@packaging/pack dist
deb:
	@packaging/pack deb

# Proves one crate: make check CRATE=dispatch. What stands above it is not looked at.
check: need-rt need-crate
	cd crates/$(CRATE) && rt check

# Proves every crate that stands on one, the lowest first, and says which they are; in crates of tests it runs the tests too.
above: need-rt need-crate
	tests/above $(CRATE)

# Makes docs/PROMISES.md of the sentences that stand beside clauses, and of crates.txt crates/README.md, the table of
# docs/ARCHITECTURE.md and the picture of the house.
docs:
	docs/make

# Tests that every file is as rt fmt has it, which is where the gate begins.
layout: need-rt
	tests/gate --layout

# The test for who has just cloned, in some minutes: the crates of tests and make demo from source, the layout and the documents.
# Nothing is proved by it.
test: need-rt
	tests/try

# The gate, which a landing must pass: rt ci (every proof, the must-fail edits, the tests, the stored runs; what it passed before on
# this machine is not done again), a sample of the mutants, and the built programs case by case. From nothing it takes an hour or two.
gate: need-rt
	tests/gate

# Tests what differs from HEAD, or from make quick BASE=COMMIT: the layout, the documents, and that each crate of which a file
# differs is proved and tidy. It changes no file.
quick: need-rt
	tests/quick $(BASE)

# Tries all edits of crates/*/mutants and must-fail, which the prover must refuse, and writes what they came to into dist/MUTANTS.md:
# hours. After the change of one crate: tests/mutants CRATE, which prints it.
mutants: need-rt
	tests/mutants --page dist/MUTANTS.md

# Runs the proved program with each allocation refused in turn. It needs a C compiler, so the gate leaves it out.
failing-allocations: build
	tests/failing-allocations

# Runs the programs against hostile peers, files and limits, by the thousand (some half an hour), and prints a table. The
# gate runs a small part of it.
hostile: build
	tests/hostile

# Compares the files of the tests with what netpbm's programs read in them, where netpbm is installed. The gate leaves
# it out.
peer-check:
	tests/peer-check

# Runs SANE's own scanimage against our saned, and ours against SANE's saned, where SANE is installed, and prints a table. The
# gate leaves it out.
sane-check:
	tests/sane-check

# Prints speed and memory beside a peer in the same run. The gate leaves it out.
bench: need-rt
	cd crates/bench && rt run -- client Gray 1 1
	tests/bench
	[ -x crates/scanimage/out/scanimage ] && [ -x crates/saned/out/saned ] || $(MAKE) build
	tests/bench-scanimage
	tests/bench-saned
	tests/bench-peer
	tests/bench-rest

need-rt:
	@command -v rt > /dev/null || { echo 'jufteard: the command rt of the Rattle kit is not on the PATH' >&2; exit 1; }

need-crate:
	@[ -n '$(CRATE)' ] && [ -d 'crates/$(CRATE)' ] || { echo 'jufteard: say which crate, as CRATE=dispatch' >&2; exit 1; }
