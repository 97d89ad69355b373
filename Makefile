# `make help` prints the targets: the lines with ## here, below the headings ##@.
.PHONY: all help try check test test-outside mutants fuzz bench web pages english design version map contracts audit weight clean
.PHONY: program packages toolchain

# Targets are built one after another, in the given order. Crates are proved in parallel, at most N with `make -j N`.
.NOTPARALLEL:
AT_ONCE = $(patsubst -j%,%,$(filter -j%,$(MAKEFLAGS)))
CPU =
LIBRARY_CRATES = $(shell sed -n 's/ staticlib:.*//p' crates.txt)

# The output directory of `make dist`.
distdir = dist
PROGRAM = cdpatch

##@ To use cdpatch:
all: cdpatch web            ## prove and build everything: the program, the library, its WebAssembly module, cdscript, and the page
	@printf '%s\n' 'try:  ./cdpatch audit crates/cd_low_tests/data/cdrkit-8.bin, or open cdpatch.html in a browser' \
	    'then: make check, sudo make install'

include install.mk

# The README's first command, after which everybody has seen the program work. It can be run again.
try: program                ## prove and build only the program, then patch and audit a sample image in try/
	@rm -rf try && mkdir try
	cp crates/cd_low_tests/data/cdrkit-8.bin try/disc.bin
	printf '%s\n' 'cdpatch 1' 'set 1 0 48656C6C6F was EBF29B27E7' > try/changes.txt
	./cdpatch apply try/disc.bin try/changes.txt try/new.bin
	./cdpatch audit try/new.bin

# What was built stays as it is, so that it is what is tested.
BUILT = $(PROGRAM) library/libcdpatch.so.2 library/cdpatch.wasm cdscript cdpatch.html
check: MAY_INSTALL = yes
check: packages $(if $(filter-out $(wildcard $(BUILT)),$(BUILT)),all)  ## build what is missing, and test; skips tests whose packages are missing
	@test -x '$(PROGRAM)' || { echo 'There is no $(PROGRAM) to test.' >&2; exit 1; }
	PROGRAM='$(PROGRAM)' tests/run

test:                       ## the merge gate: all proofs, wrong bodies, and tests
	bash .ci/run

install:                    ## install the build below PREFIX=/usr/local; make uninstall removes it

# `make dist` builds nothing, so it packs the files that were tested.
.PHONY: dist
dist:                       ## pack the build: a tarball that installs without a toolchain, packages for Debian, pip, and npm
	@bash tools/dist.sh '$(distdir)'

clean:                      ## remove everything that was built
	rm -rf out try dist cdpatch cdscript cdpatch.html library windows arm64 completions bench/cd_bench crates/*/out
	rm -f web/core/module/numbers.ts python/cdpatch/_numbers.py

##@ To change cdpatch:
help:                       ## print this list
	@sed -nE 's/^([a-z0-9-]+):[^#]*## /  make \1\t/p; s/^##@ /\n/p' $(firstword $(MAKEFILE_LIST)) | expand -t 22
	@printf '%s\n' '' 'Variables: CPU=x86-64-v3 (make), WHOLE=1 (make check), PREFIX=DIRECTORY (make install and make uninstall).'

toolchain:
	@command -v rt > /dev/null || { echo 'There is no rt on the path: see "What a build needs" in README.md.' >&2; exit 1; }
	@bash tools/fit.sh toolchain || true

# tools/prove.py calls the module of rt, and is faster than rt.
program: toolchain
	@python3 tools/prove.py cdpatch '$(AT_ONCE)' '$(CPU)'
	@cp crates/cdpatch/out/cdpatch cdpatch

# `make try` does not need all of these. As root, `make check` installs them.
packages:
	@[ -z '$(MAY_INSTALL)' ] || [ "$$(id -u)" != 0 ] || bash tools/packages.sh --install build
	@missing=$$(bash tools/packages.sh build | paste -sd ' '); [ -z "$$missing" ] || \
	    { echo "make needs more packages of Debian: sudo apt-get install $$missing" >&2; exit 1; }

cdpatch: packages toolchain
	@python3 tools/prove.py 'cdpatch $(LIBRARY_CRATES)' '$(AT_ONCE)' '$(CPU)'
	cp crates/cdpatch/out/cdpatch cdpatch
	bash tools/library.sh library
	@python3 -B tools/targets.py wasm

web:                        ## pack cdscript and cdpatch.html again with library/cdpatch.wasm; proves nothing, and needs no rt
	@python3 -B tools/header.py numbers
	python3 -B tools/pack.py command library/cdpatch.wasm cdscript
	python3 -B tools/pack.py page library/cdpatch.wasm cdpatch.html
	@python3 -B tools/options.py completions completions ./cdpatch ./cdscript

# The program and the library for other systems, in windows/ and arm64/.
.PHONY: windows arm64
windows:                    ## build the program and the library for Windows, in windows/, from the output of make
	@python3 -B tools/targets.py windows

arm64:                      ## build the program and the library for Linux on aarch64, in arm64/, from the output of make
	@python3 -B tools/targets.py arm64

test-outside:               ## test pages, completions, and installing, and skip nothing
	WHOLE=1 PROGRAM='$(PROGRAM)' tests/run pages

# By hand before a release: COUNT random changes of the sources of JavaScript and Python, and random input, SECONDS for each kind. SEED repeats
# an earlier run.
SEED =
COUNT = 300
SECONDS = 600
mutants:                    ## try small changes of JavaScript and Python, and print those that no test refuses
	python3 -B tests/wrong/mutants.py --count '$(COUNT)' $(SEED:%=--seed %)

fuzz:                       ## fuzz: ten minutes for each kind of input
	bash tests/hostile/fuzz.sh '$(SECONDS)' $(SEED)

# Not a part of the gate: see bench/README.md.
bench:                      ## build the benchmarks, which count instructions
	bash bench/build '$(CPU)'

# Help is printed by the built programs.
pages:                      ## update the parts of pages that come from cdpatch.h, from help, and from docs/TRUST.md
	@python3 -B tools/header.py pages
	@python3 -B tools/trust.py pages
	@python3 -B tools/options.py pages ./cdpatch ./cdscript

version:                    ## put the version of CHANGELOG.md into every file that repeats it
	@python3 -B tools/version.py

# By hand before a release. Not every phrase that it lists is wrong.
english:                    ## list phrases in pages, drawings, help, and the page's texts that are rarely good English
	@python3 -B tools/english.py

# Chromium draws the page that was built.
design:                     ## draw the pictures of docs/gallery.md and the README
	@PAGE='$(CURDIR)/cdpatch.html' PROGRAM='$(CURDIR)/cdpatch' /usr/bin/python3 -B tests/page/design.py

# Descriptions from the sources, as Markdown.
map:                        ## print the first sentence of each file
	@python3 -B tools/pages.py map

contracts:                  ## print what each crate promises: its calls, their clauses, and the definitions that these cite
	@python3 -B tools/pages.py contracts

audit:                      ## list the definitions to read, in order, to know what is proved
	@python3 -B tools/pages.py audit

weight:                     ## print lines, files, words, and bytes, beside those of 2.0.0
	@python3 -B tools/weight.py

# A release is a commit of its version, built by the tools that tools/versions.txt lists, and with all lines of tools/owner.txt, which only the
# owner can fill in. `make release SIGN=KEY` signs its files with an ssh key.
.PHONY: release
SIGN =
release:                    ## make dist, if the sources are fit to be released
	@bash tools/fit.sh '$(VERSION)'
	@bash tools/dist.sh '$(distdir)' '$(SIGN)'
	@$(if $(SIGN),,echo 'Nothing was signed: SIGN=KEY signs it.' >&2)
