# make         proves the programs and the crates that they use, builds them as ./vcdkit,
#     ./vcdkit-compare and ./vcdkit-strobe, and runs them on a sample
# make CPU=x86-64-v3    the same for newer processors, whose instructions the programs may use. On a
#     processor without them, they say so and end
# make trial   builds the programs as ./vcdkit-unproved, .., for trying code. Nothing of them is
#     proved
# make test    the gate: docs-check, completions-check, extras-check and hostile-check with the
#     programs that `make` built, all proofs that `make` did not do, the tests of the crates, the
#     programs as two compilers build them, and the must-fail edits
# make hostile runs the programs while memory, reads and writes fail, with closed streams, and on
#     dumps that are truncated, crafted or random, and asks the package and the scripts about an
#     eighth of all small dumps, and what a second reader knows
# make hostile-check    is a part of it, always with the same seeds
# make docs-check runs the commands on the pages with ./vcdkit, and compares what they print with
#     the pages. It also looks for links that lead nowhere
# make static  links ./vcdkit-static, .., which need no shared library. If `make` proved nothing,
#     because an earlier run did, it compiles the programs again
# make dist    packs them in dist/ as a tarball, Debian packages and a wheel, with documents, man
#     page, completions, scripts and the Python package, and with ./libvcdkit.so if it is there
# make library builds ./libvcdkit.a, ./libvcdkit.so and ./vcdkit.pc, for callers in C and Python
# make dist-check          tries what is in dist/ without the kit, and packs it again, which must
#     give the same bytes
# make clean   removes what was built, and what the proofs kept
# make install [PREFIX=/usr/local] [DESTDIR=]    installs the programs that are there, completions,
#     scripts, man pages, the Python package (PYTHON_FOLDER=) and documents, and the library if it
#     is there
# make uninstall [PREFIX=..] [DESTDIR=..]        removes them
# make completions-check    compares the completions and the man pages with the help of the programs
# make extras-check         tests extras/ and python/ with ./vcdkit, also on thousands of random
#     dumps that other readers read as well
#
# CONTRIBUTING.md, "What the gate costs", says how long they take.

sample := samples/counter.vcd
programs := vcdkit vcdkit-compare vcdkit-strobe
unproved := $(addsuffix -unproved,$(programs))

.PHONY: all proved trial $(unproved) test hostile hostile-check docs-check clean toolchain \
    sources static library dist dist-check install uninstall completions-check extras-check

# The processor to build for. If it is empty, any x86-64 with SSE4.2 runs the program.
CPU ?=
PREFIX ?= /usr/local
DESTDIR ?=
bin := $(DESTDIR)$(PREFIX)/bin
man := $(DESTDIR)$(PREFIX)/share/man/man1
bash_words := $(DESTDIR)$(PREFIX)/share/bash-completion/completions
# On Debian, zsh has one directory for what packages bring and another one for everything else.
ZSH_FOLDER ?= $(PREFIX)/share/zsh/$(if $(filter /usr,$(PREFIX)),vendor-completions,site-functions)
zsh_words := $(DESTDIR)$(ZSH_FOLDER)
# Under the name of each script the same file is installed.
scripts := $(notdir $(wildcard extras/vcdkit-*))
# The directory of the Python package. The scripts look there, and then where Python looks.
PYTHON_FOLDER ?= $(PREFIX)/share/vcdkit/python
python := $(DESTDIR)$(PYTHON_FOLDER)/vcdkit
layers := model reading questions forms commands
documents := $(DESTDIR)$(PREFIX)/share/doc/vcdkit
library := $(DESTDIR)$(PREFIX)/lib
headers := $(DESTDIR)$(PREFIX)/include

all: proved
	./vcdkit check < $(sample)
	./vcdkit-compare count0=lowest < $(sample) > /dev/null
	./vcdkit-strobe --rise clk count0 < $(sample) > /dev/null
	@echo "Built: $(addprefix ./,$(programs)), which need the C library of this machine." \
	    "Next: make install, or make static, make dist; ./vcdkit --help"

# If nothing changed, this does nothing.
proved: toolchain
	tools/prove.py programs $(CPU)

# They share nothing, so they are built side by side.
trial: toolchain
	$(MAKE) --no-print-directory -j 3 $(unproved)

$(unproved): %-unproved:
	tools/unproved.py . $(subst -,_,$*)_main

test: toolchain
	tools/gate.py

hostile: proved
	hostile/run.sh all

# These use the programs that are there, and build nothing.
hostile-check:
	hostile/run.sh check

docs-check:
	tools/check.py
	test ! -d crates || tools/check.py docs/PROOFS.md
	tools/links.py .

# These two link and pack what `make` built. If rt kept only the programs, the first compiles them.
static: sources
	tools/prove.py objects
	packaging/static.sh vcdkit-static vcdkit_main
	packaging/static.sh vcdkit-compare-static vcdkit_compare_main
	packaging/static.sh vcdkit-strobe-static vcdkit_strobe_main

dist: static
	packaging/dist.sh $(addsuffix -static,$(programs)) dist $(wildcard libvcdkit.so)

# A static library for C, which is proved like the program, and a shared one of the same code.
library: toolchain
	tools/prove.py library
	PREFIX="$(PREFIX)" packaging/library.sh crates/vcdkit_c/out/libvcdkit_c.a .

dist-check:
	packaging/try_dist.sh dist

clean:
	rm -rf $(programs) $(addsuffix -static,$(programs)) $(unproved) libvcdkit.* vcdkit.pc dist \
	    make.log crates/*/out

# A tarball contains the built programs, and no crates.
sources:
	@test -d crates || { echo "make: this directory has the built programs, and not their" \
	    "sources: run make install, or ./vcdkit" >&2; exit 1; }

toolchain: sources
	@command -v rt > /dev/null || \
	    { echo "make: there is no command rt. It comes with the Rattle kit:" \
	    "see README.md, \"Set up\"." >&2; exit 1; }

# This builds and proves nothing, so that no proof runs as root: run `make` first.
install:
	@for name in $(programs); do test -x $$name || \
	    { echo "make: there is no ./$$name to install. Run make first." >&2; exit 1; }; \
	    case $$(./$$name --version) in *unproved*) \
	        echo "make: warning: ./$$name is not proved (make trial built it)" >&2 ;; esac; done
	install -d "$(bin)" "$(man)" "$(bash_words)" "$(zsh_words)" $(patsubst %,"$(python)/%",$(layers))
	install -m 755 $(programs) "$(bin)"
	for name in $(scripts); do install -m 755 extras/launch "$(bin)/$$name"; done
	install -m 644 $(addprefix man/,$(addsuffix .1,$(programs))) "$(man)"
	install -m 644 completions/vcdkit.bash "$(bash_words)/vcdkit"
	for name in vcdkit-compare vcdkit-strobe $(scripts); do ln -sf vcdkit "$(bash_words)/$$name"; done
	install -m 644 completions/_vcdkit "$(zsh_words)/_vcdkit"
	install -m 644 python/vcdkit/*.py python/vcdkit/py.typed python/vcdkit/page.html "$(python)"
	for name in $(layers); do \
	    install -m 644 python/vcdkit/$$name/*.py "$(python)/$$name" || exit 1; done
	if test -e libvcdkit.so; then install -m 644 libvcdkit.so "$(python)"; fi
	if command -v python3 > /dev/null; then \
	    packaging/manuals.py "$(man)" $(addprefix extras/,$(scripts)) || exit 1; \
	    python3 -m compileall -qq "$(python)" || true; fi  # so that no start compiles it
	if [ -e libvcdkit.a ]; then \
	    install -d "$(library)/pkgconfig" "$(headers)" && \
	    install -m 644 libvcdkit.a libvcdkit.so.0 "$(library)" && \
	    ln -sfn libvcdkit.so.0 "$(library)/libvcdkit.so" && \
	    install -m 644 extras/c/vcdkit.h "$(headers)" && \
	    sed 's|^prefix=.*|prefix=$(PREFIX)|' vcdkit.pc > "$(library)/pkgconfig/vcdkit.pc"; \
	fi
	packaging/pages.sh "$(documents)"

uninstall:
	rm -f $(foreach name,$(programs) $(scripts),"$(bin)/$(name)" "$(man)/$(name).1" \
	    "$(bash_words)/$(name)") "$(zsh_words)/_vcdkit"
	rm -f "$(library)"/libvcdkit.a "$(library)"/libvcdkit.so* "$(library)/pkgconfig/vcdkit.pc"
	rm -f "$(headers)/vcdkit.h"
	rm -rf "$(DESTDIR)$(PREFIX)/share/vcdkit" "$(python)" "$(documents)"

completions-check:
	tools/check.py completions/tests.console

extras-check:
	extras/test.sh
