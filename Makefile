# `make try` searches small archives before anything is proved; `make run` proves and builds the program, and searches them
# with it; `make check CRATE=name` proves one crate and what depends on it; `make lint` looks at texts, in seconds; `make test`
# is the whole gate; `make install` puts the program, its scripts, pages and completions below PREFIX, and `make uninstall`
# takes them away; `make package` packs them for people without the kit; `make dist` makes a release of the last commit.
RT ?= rt
PREFIX ?= /usr/local
JOBS ?= $(shell python3 tools/machine.py)
PROGRAM = crates/mairix/out/mairix
DISTDIR ?= .
# The version of the last commit, which `make dist` packs.
VERSION = $(or $(shell tools/version.py --commit),$(error no version))
# Manual pages, completions and documents, each with its place in share/.
PAGES = man/mairix.1:man/man1/mairix.1 man/mairixrc.5:man/man5/mairixrc.5 man/mairix-query.7:man/man7/mairix-query.7 \
	man/mairix-scripts.7:man/man7/mairix-scripts.7 \
	completions/mairix.bash:bash-completion/completions/mairix completions/_mairix:zsh/site-functions/_mairix \
	completions/mairix.fish:fish/vendor_completions.d/mairix.fish \
	README.md:doc/mairix-proved/README.md docs/RECIPES.md:doc/mairix-proved/RECIPES.md
# What of it names the version: the program and the manual pages.
NAMING = bin/mairix $(foreach file,$(filter man/%,$(PAGES)),share/$(lastword $(subst :, ,$(file))))
# Each has its part in mairix-scripts(7), to which a page of its name leads.
SCRIPTS = $(notdir $(wildcard scripts/*))

# The files of demo/, as `rt try` takes them.
DEMO = $(foreach file,mairixrc m.mbox lists.mbox work.mbox,--data $(file)=../../demo/$(file))

.PHONY: try build run check lint test install uninstall package dist

# The kit's interpreter runs the program's text as it stands: nothing is proved by it.
try:
	@cd crates/mairix && $(RT) try $(DEMO) -- -f mairixrc --once -r s:lunch
	@echo "not proved yet: make run proves it"

# Leaves the executable at $(PROGRAM). The first time each crate below it is proved, those that don't stand on one another side by side,
# as far as processors and memory go; later only what has changed.
build:
	RT=$(RT) tools/build.py --jobs $(JOBS) mairix

run: build
	cd demo && ../$(PROGRAM) -f mairixrc --once -r s:hello

# While one works on a crate: with ONLY=FUNCTION that function alone, in seconds; else the crate's proofs, its edits and, without ALONE=1,
# the crates that depend on it. The first crate that isn't proved ends it. What was proved is kept.
check:
	RT=$(RT) tools/check_crate.py --jobs $(JOBS) $(if $(ALONE),--alone) $(CRATE) $(if $(ONLY),--only $(ONLY))

# What the gate looks at in seconds: texts, tables, names, lines. Run it before a commit.
lint:
	tools/gate --quick

# Every proof and test from nothing, every edit that the prover must refuse, each refused allocation in turn, and the built
# program on real files. It works on a copy, and leaves nothing here.
test:
	tools/gate

install: build
	install -D -m 755 $(PROGRAM) "$(DESTDIR)$(PREFIX)/bin/mairix"
	for file in $(SCRIPTS); do install -m 755 "scripts/$$file" "$(DESTDIR)$(PREFIX)/bin/$$file" || exit; done
	for file in $(PAGES); do install -D -m 644 "$${file%%:*}" "$(DESTDIR)$(PREFIX)/share/$${file#*:}" || exit; done
	cd "$(DESTDIR)$(PREFIX)/share/man/man1" && for page in $(SCRIPTS:=.1); do \
		echo .so man7/mairix-scripts.7 >$$page && chmod 644 $$page || exit; \
	done
	tools/version.py $(foreach file,$(NAMING),"$(DESTDIR)$(PREFIX)/$(file)")

uninstall:
	rm -f "$(DESTDIR)$(PREFIX)/bin/mairix"
	for file in $(SCRIPTS); do rm -f "$(DESTDIR)$(PREFIX)/bin/$$file" "$(DESTDIR)$(PREFIX)/share/man/man1/$$file.1" || exit; done
	for file in $(PAGES); do rm -f "$(DESTDIR)$(PREFIX)/share/$${file#*:}" || exit; done

# What people without the kit can install: an archive, where dpkg-deb is there a package for Debian, and their SHA-256 sums.
package: build
	tools/package.py $(PROGRAM) "$(DISTDIR)"

# A release: all that git tracks.
dist:
	git archive --format=tar.gz --prefix=mairix-$(VERSION)/ -o "$(DISTDIR)/mairix-$(VERSION).tar.gz" HEAD
