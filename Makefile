# `make install-release` installs the proved program of the last version, which lies in release/; it needs no toolchain.
# `make quick` makes bin/cti-unproved, the program before any proof. `make` proves the crates, builds bin/cti and shows
# it at work; `make JOBS=2` proves on two processors; `make check` passes every proof, wrong edit, test and comparison;
# `make install` copies the program, its pages, the completions of three shells and the converter of real files,
# and `make uninstall` removes what was installed. `make dist` makes the release of this version, and
# `make check-release` builds it anew and compares.
PREFIX ?= /usr/local
JOBS ?= $(shell nproc)
PROGRAM ?= bin/cti
SHARE = $(DESTDIR)$(PREFIX)/share
MANUAL = $(SHARE)/man/man1/cti.1
BASH_COMPLETIONS = $(SHARE)/bash-completion/completions
ZSH_COMPLETIONS = $(SHARE)/zsh/site-functions
FISH_COMPLETIONS = $(SHARE)/fish/vendor_completions.d
COMMANDS = cti cti-file
FILE_MANUAL = $(SHARE)/man/man1/cti-file.1
CONVERTER = $(SHARE)/cti/swi
# The modules of swi/, without their tests and what describes the pack.
CONVERTER_FILES = $(filter-out swi/pack.pl swi/test_%, $(wildcard swi/*.pl))
LICENCES = LICENSE-MIT LICENSE-APACHE
SOURCES := $(shell find crates -name '*.rt' -o -name '*.antt' | grep -v /out/) crates.txt
RELEASE = $(wildcard release/cti-*-x86_64-linux.tar.xz)

bin/cti: $(SOURCES)
	@tools/build.py --jobs $(JOBS)
	mkdir -p bin
	cp crates/cti/out/cti bin/cti

.PHONY: quick check install install-files install-release uninstall dist check-release clean
quick: bin/cti-unproved

bin/cti-unproved: $(SOURCES) tools/quick.py
	@tools/quick.py
	@tools/run_cases.py bin/cti-unproved

check:
	@.ci/run

install: $(PROGRAM) install-files

install-files:
	@! $(PROGRAM) --version 2>&1 | grep -q 'not proved' || { echo '$(PROGRAM) is not proved: make bin/cti' >&2; exit 1; }
	install -D -m 755 $(PROGRAM) $(DESTDIR)$(PREFIX)/bin/cti
	install -D -m 644 man/cti.1 $(MANUAL)
	for it in $(COMMANDS); do install -D -m 644 completions/$$it.bash $(BASH_COMPLETIONS)/$$it || exit 1; done
	for it in $(COMMANDS); do install -D -m 644 completions/_$$it $(ZSH_COMPLETIONS)/_$$it || exit 1; done
	for it in $(COMMANDS); do install -D -m 644 completions/$$it.fish $(FISH_COMPLETIONS)/$$it.fish || exit 1; done
	for it in $(CONVERTER_FILES); do install -D -m 644 $$it $(CONVERTER)/$${it#swi/} || exit 1; done
	install -D -m 755 swi/cti-file $(CONVERTER)/cti-file
	install -D -m 755 tools/installed-cti-file $(DESTDIR)$(PREFIX)/bin/cti-file
	install -D -m 755 swi/cti-hold $(CONVERTER)/cti-hold
	sed s/cti-file/cti-hold/g tools/installed-cti-file > $(DESTDIR)$(PREFIX)/bin/cti-hold
	chmod 755 $(DESTDIR)$(PREFIX)/bin/cti-hold
	install -D -m 644 man/cti-file.1 $(FILE_MANUAL)
	for it in $(LICENCES) $(wildcard docs/*.md); do install -D -m 644 -t $(SHARE)/doc/cti $$it || exit 1; done

# It needs sha256sum, tar and xz alone.
install-release:
	@test "$(words $(RELEASE))" = 1 || { echo 'release/ has no release, or more than one' >&2; exit 1; }
	cd release && sha256sum -c $(notdir $(RELEASE)).sha256
	mkdir -p $(DESTDIR)$(PREFIX)
	xz -dc $(RELEASE) | tar -xf - -C $(DESTDIR)$(PREFIX) --strip-components=1 --no-same-owner

uninstall:
	rm -f $(DESTDIR)$(PREFIX)/bin/cti $(MANUAL) $(COMMANDS:%=$(BASH_COMPLETIONS)/%)
	rm -f $(COMMANDS:%=$(ZSH_COMPLETIONS)/_%) $(COMMANDS:%=$(FISH_COMPLETIONS)/%.fish)
	rm -f $(DESTDIR)$(PREFIX)/bin/cti-file $(DESTDIR)$(PREFIX)/bin/cti-hold $(FILE_MANUAL)
	rm -rf $(SHARE)/cti $(SHARE)/doc/cti

dist: bin/cti
	@tools/dist.py

check-release:
	@tools/dist.py --check --jobs $(JOBS)

clean:
	rm -rf bin crates/*/out
