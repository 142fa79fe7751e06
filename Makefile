# make             proves and builds the programs into bin/
# make try         tangles examples/hello.w, unproved: about a minute. WEB=path/to/web.w tangles any
#                  web, with a change file by CHANGE=path/to/changes.ch; its C comes into bin/try
# make install     copies the programs, their manual pages and webs.mk to DESTDIR and PREFIX (/usr/local)
# make uninstall   removes what make install copied
# make example     tangles the web in examples/, compiles it and runs it, and edits it by a script
# make check       runs the gate (rt ci) and the tests over the built programs; 'N passed, M failed' ends it
# make further     tries the wrong bodies that the gate leaves out for their time
# make layers      proves and builds bin/tangle_layers, which prints what each layer makes of a web
# make bench       measures the instructions, time and memory that the built programs take
# make documents   makes docs/generated/definitions.md from the sources
#
# PROGRAM_PREFIX=proved- installs proved-ctangle and proved-retangle, with pages of these names and
# webs.mk in share/proved-ctangle. Give the same to make uninstall. GNU make's own rule for webs then
# takes CTANGLE=proved-ctangle, and examples/editor.py RETANGLE=proved-retangle in the environment.
#
# The kit's command rt, cc and python3 have to be on the path. To try, build and install, rt is enough.

PREFIX = /usr/local
DESTDIR =
PROGRAM_PREFIX =
WEB = examples/hello.w
CHANGE =

programs = $(DESTDIR)$(PREFIX)/bin
pages = $(DESTDIR)$(PREFIX)/share/man/man1
shared = $(DESTDIR)$(PREFIX)/share/$(PROGRAM_PREFIX)ctangle
server = $(DESTDIR)$(PREFIX)/share/$(PROGRAM_PREFIX)retangle-lsp

# what make install copies into these
program_files = bin/ctangle bin/retangle lsp/retangle-lsp
page_files = docs/ctangle.1 docs/retangle.1 docs/retangle-lsp.1
shared_files = examples/webs.mk
server_files = lsp/retangle_lsp/*.py

sources := $(shell find crates crates.txt -name out -prune -o -type f -print)

# Before a command of the kit.
kit = @command -v rt >/dev/null || { echo "This needs rt, the command of Rattle's kit, which proves and \
builds these programs. It is not on the path. README.md, 'Build and install', says what it is." >&2; exit 1; }

all: $(program_files)

# rt builds a program in order to run it, so the program tangles the web of its stored run.
bin/ctangle: $(sources)
	$(kit)
	cd crates/ctangle && rt run -- data/a.w - out/a
	mkdir -p bin
	cp crates/ctangle/out/ctangle $@

# It answers the script of its stored run.
bin/retangle: $(sources)
	$(kit)
	cd crates/retangle && rt run -- data/a.w <stdin
	mkdir -p bin
	cp crates/retangle/out/retangle $@

layers: bin/tangle_layers

# It lists the layers of the web of its stored run (docs/layers.md).
bin/tangle_layers: $(sources)
	$(kit)
	cd crates/tangle_layers && rt run -- data/a.w
	mkdir -p bin
	cp crates/tangle_layers/out/tangle_layers $@

try:
	$(kit)
	@python3 -B examples/try.py "$(WEB)" $(if $(CHANGE),"$(CHANGE)")
	@$(if $(filter examples/hello.w,$(WEB)),cat bin/try/hello.c)

# Where strip is, the installed programs have no table of symbols. A script stays as it is.
install: $(program_files)
	install -d "$(programs)" "$(pages)" "$(shared)" "$(server)/retangle_lsp"
	for file in $(program_files); do \
	    to="$(programs)/$(PROGRAM_PREFIX)$${file##*/}" && install -m 755 $$file "$$to" || exit 1; \
	    strip "$$to" 2>/dev/null || :; \
	done
	for file in $(page_files); do \
	    install -m 644 $$file "$(pages)/$(PROGRAM_PREFIX)$${file##*/}" || exit 1; \
	done
	install -m 644 $(shared_files) "$(shared)"
	install -m 644 $(server_files) "$(server)/retangle_lsp"
	-python3 -m compileall -q "$(server)/retangle_lsp"

uninstall:
	for file in $(notdir $(program_files)); do rm -f "$(programs)/$(PROGRAM_PREFIX)$$file" || exit 1; done
	for file in $(notdir $(page_files)); do rm -f "$(pages)/$(PROGRAM_PREFIX)$$file" || exit 1; done
	for file in $(notdir $(shared_files)); do rm -f "$(shared)/$$file" || exit 1; done
	[ ! -d "$(shared)" ] || rmdir "$(shared)"
	rm -rf "$(server)"

example: bin/ctangle bin/retangle
	$(MAKE) -C examples run CTANGLE=../bin/ctangle RETANGLE=../bin/retangle

bench: bin/ctangle bin/retangle
	python3 -B bench/run.py bin/ctangle bin/retangle

documents:
	python3 -B tests/definitions.py

check:
	$(kit)
	tests/check.sh

further:
	$(kit)
	python3 -B tests/wrong_bodies.py

clean:
	rm -rf bin examples/out

.PHONY: all layers try install uninstall example bench documents check further clean
