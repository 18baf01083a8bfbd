# Barleychime, for GNU make. `make help` says what there is to make.
SHELL := /bin/bash
.SHELLFLAGS := -eu -o pipefail -c
.DEFAULT_GOAL := all
.DELETE_ON_ERROR:
.PHONY: all needs proofs page command staged python test bench install uninstall dist clean help

PREFIX ?= /usr/local
DESTDIR ?=
CARGO_FLAGS ?= --offline

VERSION := $(shell sed -n 's/^version = "\(.*\)"$$/\1/p' host/library/Cargo.toml)
SONAME := libbarleychime.so.$(firstword $(subst ., ,$(VERSION)))
ARCHIVE := target/staticlib/libbarleychime.a
SHARED := target/shared/libbarleychime.so
COMMAND := host/command/target/release/barleychime
STAGED := target/stage.tar
# What is staged has links, and rt takes none in the folder that it proves: it stands outside until it is packed.
STAGE := $(shell mktemp -u -d -t barleychime-XXXXXX)
FILES := share/barleychime/FILES
MAN := share/man/man1/barleychime.1
BASH := share/bash-completion/completions/barleychime
ZSH := share/zsh/site-functions/_barleychime
FISH := share/fish/vendor_completions.d/barleychime.fish
LATEX := $(wildcard latex/*.sty latex/*.lua)
TARBALL := barleychime-$(VERSION)-x86_64-linux
INTO = $(DESTDIR)$(PREFIX)

# The command links this archive, whoever calls make.
export BARLEYCHIME_LIB := $(CURDIR)/$(ARCHIVE)

help:
	@echo 'make            proves and builds all: engine, shared library, page, command, man page, completions'
	@echo 'make install    installs what was built below PREFIX (now $(PREFIX)), or below DESTDIR for a package'
	@echo 'make uninstall  removes that again'
	@echo 'make python     the wheel of the Python package, in target/python'
	@echo 'make dist       a tarball for machines without the Rattle toolchain, in target/dist'
	@echo 'make test       every test'
	@echo 'make bench      measures the engine'
	@echo 'make clean      removes all that was built, the proofs included'

all: staged

# What apt-get cannot install may be here all the same, from elsewhere.
needs:
	@packages/install library command page || echo 'make: goes on with what is here'

proofs: | needs
	@tools/proofs

# The tool leaves the archive as it is where nothing changed that it is made of.
$(ARCHIVE): proofs
	@tools/archive barleychime

$(SHARED): $(ARCHIVE)
	@mkdir -p $(@D)
	$(CC) -shared -Wl,--whole-archive $< -Wl,--no-whole-archive -Wl,-soname,$(SONAME) -Wl,-z,defs -o $@

page: | proofs
	@if command -v node > /dev/null; then web/build; else echo 'make: there is no node on PATH, so the command is built without the page'; fi

command: $(ARCHIVE) page
	@echo 'the command: $(COMMAND)'
	@cd host/command && cargo build --release --quiet $(CARGO_FLAGS)

python: $(SHARED)
	@mkdir -p target/python
	@cd python && python3 -c 'import backend; print("the wheel: target/python/" + backend.build_wheel("../target/python"))'

# Everything that is installed, as it stands below PREFIX.
staged: command $(SHARED)
	@rm -f $(STAGED)
	@install -D -m 755 $(COMMAND) $(STAGE)/bin/barleychime
	@install -D -m 644 include/barleychime.h $(STAGE)/include/barleychime.h
	@install -D -m 644 $(ARCHIVE) $(STAGE)/lib/libbarleychime.a
	@install -D -m 755 $(SHARED) $(STAGE)/lib/libbarleychime.so.$(VERSION)
	@ln -s libbarleychime.so.$(VERSION) $(STAGE)/lib/$(SONAME)
	@ln -s $(SONAME) $(STAGE)/lib/libbarleychime.so
	@mkdir -p $(STAGE)/lib/pkgconfig
	@sed 's/@VERSION@/$(VERSION)/' tools/barleychime.pc.in > $(STAGE)/lib/pkgconfig/barleychime.pc
	@cd $(STAGE) && mkdir -p $(dir $(MAN) $(BASH) $(ZSH) $(FISH)) && \
	    for told in 'man:$(MAN)' 'completions bash:$(BASH)' 'completions zsh:$(ZSH)' 'completions fish:$(FISH)'; do \
	    bin/barleychime $${told%%:*} > "$${told#*:}"; done
	@mkdir -p $(STAGE)/share/barleychime $(STAGE)/share/doc/barleychime
	@cp -R samples $(STAGE)/share/barleychime/samples
	@if [ -f target/web/barleychime.html ]; then install -m 644 target/web/barleychime.html $(STAGE)/share/barleychime/; fi
	@install -D -m 644 -t $(STAGE)/share/texmf/tex/lualatex/barleychime $(LATEX)
	@cp -R README.md CHANGELOG.md docs $(STAGE)/share/doc/barleychime/
	@install -D -m 644 -t $(STAGE)/share/doc/barleychime/latex latex/manual.tex
	@cp -R latex/examples $(STAGE)/share/doc/barleychime/latex/
	@ln -s ../../barleychime/samples $(STAGE)/share/doc/barleychime/samples
	@sed -n '/^```c$$/,/^```$$/p' docs/EMBEDDING.md | sed '/^```/d' > $(STAGE)/share/doc/barleychime/pages.c
	@cd $(STAGE) && touch $(FILES) && find . \( -type f -o -type l \) -printf '%P\n' | LC_ALL=C sort > $(FILES)
	@tar -C $(STAGE) -T $(STAGE)/$(FILES) -cf $(STAGED) && rm -rf $(STAGE)
	@echo 'all is built; `make install` installs it below $(PREFIX)'

# Only copies, so that root builds nothing.
install:
	@[ -f $(STAGED) ] || { echo 'make install: nothing is built yet: run make first' >&2; exit 1; }
	@mkdir -p "$(INTO)"
	@tar -C "$(INTO)" --no-same-owner -xf $(STAGED)
	@if [ -z "$(DESTDIR)" ] && [ "$$(id -u)" -eq 0 ]; then tools/noticed "$(PREFIX)"; fi
	@echo 'installed below $(INTO)'

uninstall:
	@[ -f "$(INTO)/$(FILES)" ] || { echo 'make uninstall: nothing is installed below $(INTO)' >&2; exit 1; }
	@cd "$(INTO)" && xargs -d '\n' rm -f -- < <(cat $(FILES))
	@cd "$(INTO)" && for folder in share/barleychime share/doc/barleychime share/texmf/tex/lualatex/barleychime; do \
	    if [ -d $$folder ]; then find $$folder -depth -type d -empty -delete; fi; done
	@if [ -z "$(DESTDIR)" ] && [ "$$(id -u)" -eq 0 ]; then tools/noticed "$(PREFIX)"; fi
	@echo 'removed from $(INTO)'

dist: all python
	@rm -rf target/dist && mkdir -p target/dist $(STAGE)/$(TARBALL)
	@tar -C $(STAGE)/$(TARBALL) -xf $(STAGED)
	@cp target/python/barleychime-$(VERSION)-*.whl $(STAGE)/$(TARBALL)/share/barleychime/
	@install -m 644 docs/TARBALL.md $(STAGE)/$(TARBALL)/README.md
	@tools/proved > $(STAGE)/$(TARBALL)/PROVED
	@cd $(STAGE)/$(TARBALL) && find . -type f ! -name SHA256SUMS -printf '%P\0' | LC_ALL=C sort -z | xargs -0 sha256sum > SHA256SUMS
	@tar -C $(STAGE) --sort=name --owner=0 --group=0 --numeric-owner -czf target/dist/$(TARBALL).tar.gz $(TARBALL)
	@rm -rf $(STAGE)
	@cd target/dist && sha256sum $(TARBALL).tar.gz | tee $(TARBALL).tar.gz.sha256

test:
	@tests/run

bench: $(ARCHIVE)
	@bench/run

clean:
	rm -rf target crates/*/out host/library/target host/command/target bench/target
