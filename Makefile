# `make` proves and builds all programs. `make help` lists what else there is.

prefix ?= $(if $(PREFIX),$(PREFIX),/usr/local)
bindir ?= $(if $(BINDIR),$(BINDIR),$(prefix)/bin)
datarootdir ?= $(prefix)/share
datadir ?= $(datarootdir)
mandir ?= $(if $(MANDIR),$(MANDIR),$(datarootdir)/man)
docdir ?= $(datarootdir)/doc/lozgirpa
# for the names of installed programs and pages, as in cweb-ctangle
PROGRAM_PREFIX ?=
PROGRAM_SUFFIX ?=
INSTALL ?= install
INSTALL_PROGRAM ?= $(INSTALL) -m 755
INSTALL_SCRIPT ?= $(INSTALL) -m 755
INSTALL_DATA ?= $(INSTALL) -m 644

top := $(dir $(realpath $(lastword $(MAKEFILE_LIST))))

ifneq ($(realpath .)/,$(top))
# another folder's `make -f`: do it there
$(or $(MAKECMDGOALS),all): elsewhere ;
.PHONY: elsewhere $(or $(MAKECMDGOALS),all)
elsewhere:
	@$(MAKE) --no-print-directory -C $(top) $(MAKECMDGOALS)
else

PROVED := build/proved
UNPROVED := build/unproved
PROGRAMS := ctangle wmerge wdep
# the files that builds include, copied to $(datadir)/lozgirpa
SHARED := $(wildcard share/*)
# the documents, copied to $(docdir)
DOCUMENTS := README.md CHANGELOG.md docs/COMING-FROM-CTANGLE.md \
    $(wildcard $(addprefix examples/,README.md Makefile CMakeLists.txt build.ninja demo *.w *.ch chapters/*.w))
# the programs that installcheck tests. GNU make has a CTANGLE of its own, so `?=` would not set it.
CTANGLE = $(DESTDIR)$(bindir)/$(PROGRAM_PREFIX)ctangle$(PROGRAM_SUFFIX)
WMERGE = $(DESTDIR)$(bindir)/$(PROGRAM_PREFIX)wmerge$(PROGRAM_SUFFIX)
WDEP = $(DESTDIR)$(bindir)/$(PROGRAM_PREFIX)wdep$(PROGRAM_SUFFIX)
# the scripts of tests/ that installcheck runs: all, if none is named
TESTS ?=
# with any letter after it: the programs were proved with 13b and with 13f
KIT := rattle-kit-13
SOURCES := HANDLES crates.txt $(shell find crates -name out -prune -o -type f \( -name '*.rt' -o -name '*.antt' \) -print)
NOT_PROVED := echo 'NOTHING IN THIS BUILD IS PROVED. "make build" proves all programs (13 minutes or more the first time, on four processors),'; \
    echo 'and "make check" tests the proofs, the contracts and the programs as well (an hour).'

.PHONY: all help demo build check format faults fuzz dist install uninstall installcheck bench clean distclean

all: build

help:
	@echo 'make demo          builds all programs in two minutes, without proof, and runs them on the webs of examples/'
	@echo 'make build         proves and builds ctangle, wmerge and wdep: 13 minutes or more the first time, on four processors'
	@echo 'make install       copies the proved programs, their man pages, the documents and the files that builds include below'
	@echo '                   "$(prefix)" (docs/PACKAGING.md lists the variables); it builds nothing'
	@echo 'make uninstall     removes what make install copied'
	@echo 'make installcheck  tests the installed programs, or those that CTANGLE, WMERGE and WDEP name; it needs no kit.'
	@echo '                   TESTS=tutorial runs this one script of tests/, in a second'
	@echo 'make dist          makes a tarball of proved static programs, which run on any x86-64 Linux'
	@echo 'make check         the gate: proves all crates, refuses each mutant, runs all tests and programs'
	@echo 'make faults        runs the proved programs while their system calls and allocations fail, and on hostile webs and folders'
	@echo 'make fuzz          compares the proved programs with a model in Python, on random webs, until one differs'
	@echo 'make format        formats every crate: the gate refuses one that rt fmt would change'
	@echo 'make bench         measures time, memory and instructions'
	@echo 'make clean         removes what demo, build, dist and bench made; the proofs that rt keeps stay'
	@echo 'make distclean     also removes the work that rt keeps in crates/*/out (up to 5.4 GB), which speeds up later checks'

# kit TARGET: ends at once if the kit is not there, or is another one
define kit
@command -v rt > /dev/null || { echo 'make: $(1) needs $(KIT), whose command rt is not on the path' >&2; exit 1; }
@case $$(rt version) in '$(KIT)'[a-z]' '*) ;; *) echo "make: $(1) needs $(KIT), and rt is of another kit: $$(rt version)" >&2; exit 1;; esac
endef

build: $(PROVED)/stamp

$(PROVED)/stamp: $(SOURCES)
	$(call kit,build)
	@tools/build $(PROVED)
	@touch $@

demo:
	$(call kit,demo)
	@$(NOT_PROVED)
	@tools/unproved $(UNPROVED)
	@examples/demo $(UNPROVED)/wmerge $(UNPROVED)/ctangle $(UNPROVED)/wdep
	@$(NOT_PROVED)

check:
	@.ci/run

format:
	@for crate in crates/*/; do (cd $$crate && rt fmt) || exit 1; done

faults: build
	@tests/all $(PROVED)/ctangle $(PROVED)/wmerge $(PROVED)/wdep

fuzz: build
	@tests/differ --forever --seed "$$(date +%s)" $(PROVED)/ctangle $(PROVED)/wmerge $(PROVED)/wdep

installcheck:
	@tests/all "$(CTANGLE)" "$(WMERGE)" "$(WDEP)" $(TESTS)

dist: build
	$(call kit,dist)
	@tools/dist

# installed FILE: a page or a document, with the folders of this installation
installed = sed -e 's|/usr/local/share/lozgirpa|$(datadir)/lozgirpa|g' -e 's|/usr/local/share/doc/lozgirpa|$(docdir)|g' $(1)

install:
	@for program in $(PROGRAMS); do \
	    test -x $(PROVED)/$$program || { echo "make: $(PROVED)/$$program is not there: make build first" >&2; exit 1; }; \
	done
	$(INSTALL) -d "$(DESTDIR)$(bindir)" "$(DESTDIR)$(mandir)/man1" "$(DESTDIR)$(datadir)/lozgirpa" "$(DESTDIR)$(docdir)"
	@set -e; for program in $(PROGRAMS); do \
	    name="$(PROGRAM_PREFIX)$$program$(PROGRAM_SUFFIX)"; \
	    echo "$(DESTDIR)$(bindir)/$$name and its page"; \
	    $(INSTALL_PROGRAM) $(PROVED)/$$program "$(DESTDIR)$(bindir)/$$name"; \
	    $(call installed,man/$$program.1) | $(INSTALL_DATA) /dev/stdin "$(DESTDIR)$(mandir)/man1/$$name.1"; \
	done
	@set -e; for file in $(SHARED); do \
	    echo "$(DESTDIR)$(datadir)/lozgirpa/$${file##*/}"; \
	    $(INSTALL_DATA) $$file "$(DESTDIR)$(datadir)/lozgirpa"; \
	done
	@set -e; for file in $(DOCUMENTS); do \
	    echo "$(DESTDIR)$(docdir)/$$file"; \
	    how='$(INSTALL_DATA)'; test ! -x $$file || how='$(INSTALL_SCRIPT)'; \
	    $(INSTALL) -d "$(DESTDIR)$(docdir)/$$(dirname $$file)"; \
	    $(call installed,$$file) | $$how /dev/stdin "$(DESTDIR)$(docdir)/$$file"; \
	done

# A folder that has other files is left.
uninstall:
	@set -e; for program in $(PROGRAMS); do \
	    name="$(PROGRAM_PREFIX)$$program$(PROGRAM_SUFFIX)"; set -x; \
	    rm -f "$(DESTDIR)$(bindir)/$$name" "$(DESTDIR)$(mandir)/man1/$$name.1"; \
	    { set +x; } 2> /dev/null; \
	done
	@set -ex; for file in $(notdir $(SHARED)); do rm -f "$(DESTDIR)$(datadir)/lozgirpa/$$file"; done
	@set -ex; for file in $(DOCUMENTS); do rm -f "$(DESTDIR)$(docdir)/$$file"; done
	@for folder in $$(printf '%s\n' $(sort $(filter-out ./,$(dir $(DOCUMENTS)))) | sort -r); do \
	    rmdir "$(DESTDIR)$(docdir)/$$folder" 2> /dev/null || :; \
	done
	@rmdir "$(DESTDIR)$(docdir)" "$(DESTDIR)$(datadir)/lozgirpa" 2> /dev/null || :

bench: build
	@bench/run $(PROVED)/wmerge
	@bench/run_tangle $(PROVED)/ctangle
	@bench/run_kinds $(PROVED)/ctangle
	@bench/run_shapes $(PROVED)/ctangle

clean:
	rm -rf build bench/work examples/work

distclean: clean
	rm -rf crates/*/out

endif
