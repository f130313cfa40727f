# Builds, tests, installs and packs Gilunavoi. `make help` says what there is. GNU make, and nothing to configure.

# Where `make install` puts things. DESTDIR comes before all of them, for who packs an installed tree.
PREFIX = /usr/local
LIBDIR = $(PREFIX)/lib
DESTDIR =

VERSION := $(shell cat VERSION)
CARGO = cargo
RT = rt

program = rust/target/release/sharing
proved = target/staticlib/libexports_c.a target/staticlib/libarchive_exports.a
library = target/libsharing.a
package = target/gilunavoi_$(VERSION)_amd64.deb
# What the proofs depend on. The other folders of a crate are for the gate alone, and out/ has what rt made.
crates := crates.txt $(shell find crates/*/src crates/*/specs crates/*/proofs -type f)
# One folder, and this machine, whatever the environment or a configuration of cargo says: the program is taken from there.
host = $(shell $(CARGO) -vV | sed -n 's/^host: //p')
cargo_words = --offline --locked --manifest-path rust/Cargo.toml --target-dir rust/target --target $(host)

# The recipes take these from the environment, so that spaces and quotes in them need no care.
export DESTDIR PREFIX LIBDIR RT

# Two proofs at once would wait for one another, and would need the memory of two.
.NOTPARALLEL:
.DELETE_ON_ERROR:
.PHONY: all program demo check bench built places install uninstall deb version clean distclean help

all: $(library) program

# The proofs take minutes, so they are made only where a library is missing or older than what it is made of.
target/staticlib/lib%.a: $(crates)
	tools/staticlib $*
	@touch $@

$(library): tools/library $(proved)
	tools/library
	@touch $@

# cargo knows itself what is to be built. The program goes to where cargo puts it when no machine is named.
program: $(library)
	$(CARGO) build --release $(cargo_words)
	@install -D -m 755 rust/target/$(host)/release/sharing $(program)

demo: $(library)
	@$(CARGO) run --quiet --release $(cargo_words) --example demo

check:
	.ci/run

bench: $(library)
	$(CARGO) bench $(cargo_words) --bench speed

# Installing builds nothing: it is often done by another user, who has neither the kit nor cargo, and whose files
# would stand between those of the user who builds.
built:
	@for file in $(program) $(library); do \
	    [ -f "$$file" ] || { echo "$$file is not there: run 'make' first" >&2; exit 1; }; \
	done

# These two are written into files by sed, and a compiler gets them as words of pkg-config's answer, wherever it runs.
# DESTDIR stands in no file, and may be anything.
places:
	@for place in "$$PREFIX" "$$LIBDIR"; do \
	    case $$place in \
	    '' | [!/]* | *[[:space:]\&\|\\\"\'\$$\#\`]*) \
	        printf "PREFIX and LIBDIR start with / and have no white space and none of %s: '%s' will not do\n" \
	            '& | \ " '\'' $$ # `' "$$place" >&2; \
	        exit 1 ;; \
	    esac; \
	done

# Files that name the version or a place are filled in where they are installed. `install` makes them, for their mode.
fill = sed -e 's|@VERSION@|$(VERSION)|' -e "s|@PREFIX@|$$PREFIX|"
# pkg-config has a variable `prefix`. A folder below PREFIX is named by it, so that another value moves the library too.
libdir = libdir=$$LIBDIR; case $$LIBDIR in "$$PREFIX"/*) libdir="\$${prefix}/$${LIBDIR\#"$$PREFIX"/}" ;; esac

# The pages stand as they do here, so that their links lead somewhere.
pages = README.md CHANGELOG.md CONTRIBUTING.md LICENSE NOTICE
more_pages = $(wildcard docs/*.md docs/changes/*.md docs/pictures/*.svg)

# mkdir and not install -d, which would change the mode of folders that are there already.
install: places built
	umask 022 && mkdir -p "$$DESTDIR$$PREFIX/bin" "$$DESTDIR$$PREFIX/include" "$$DESTDIR$$LIBDIR/pkgconfig" \
	    "$$DESTDIR$$PREFIX/share/man/man1" "$$DESTDIR$$PREFIX/share/bash-completion/completions" \
	    "$$DESTDIR$$PREFIX/share/doc/gilunavoi/docs/changes" "$$DESTDIR$$PREFIX/share/doc/gilunavoi/docs/pictures"
	install -m 755 $(program) "$$DESTDIR$$PREFIX/bin/sharing"
	install -m 644 include/sharing.h "$$DESTDIR$$PREFIX/include/sharing.h"
	install -m 644 $(library) "$$DESTDIR$$LIBDIR/libsharing.a"
	install -m 644 /dev/null "$$DESTDIR$$LIBDIR/pkgconfig/sharing.pc"
	$(libdir); $(fill) -e "s|@LIBDIR@|$$libdir|" tools/sharing.pc.in >"$$DESTDIR$$LIBDIR/pkgconfig/sharing.pc"
	install -m 644 /dev/null "$$DESTDIR$$PREFIX/share/man/man1/sharing.1"
	$(fill) docs/sharing.1 >"$$DESTDIR$$PREFIX/share/man/man1/sharing.1"
	install -m 644 tools/completion.bash "$$DESTDIR$$PREFIX/share/bash-completion/completions/sharing"
	install -m 644 $(pages) "$$DESTDIR$$PREFIX/share/doc/gilunavoi"
	for page in $(more_pages); do \
	    install -m 644 "$$page" "$$DESTDIR$$PREFIX/share/doc/gilunavoi/$$page" || exit; \
	done

# Folders that other programs use too stay.
uninstall: places
	rm -f "$$DESTDIR$$PREFIX/bin/sharing" "$$DESTDIR$$PREFIX/include/sharing.h" "$$DESTDIR$$LIBDIR/libsharing.a" \
	    "$$DESTDIR$$LIBDIR/pkgconfig/sharing.pc" "$$DESTDIR$$PREFIX/share/man/man1/sharing.1" \
	    "$$DESTDIR$$PREFIX/share/bash-completion/completions/sharing"
	rm -rf "$$DESTDIR$$PREFIX/share/doc/gilunavoi"

deb: built
	tools/deb $(package)

version:
	tools/version

# The proofs stay, since they take minutes.
clean:
	rm -rf rust/target
	rm -f $(library) target/gilunavoi_*.deb

distclean: clean
	rm -rf target crates/*/out

help:
	@echo 'make             prove the libraries where that is not done, then build library and program'
	@echo 'make demo        split a letter and open it from several sets of parties'
	@echo 'make check       the gate: every proof, every edit that must fail, and all tests'
	@echo 'make bench       how fast it is'
	@echo 'make install     install what is built: PREFIX=$(PREFIX) LIBDIR=$(LIBDIR) DESTDIR=$(DESTDIR)'
	@echo 'make uninstall   remove it again, with the same three'
	@echo 'make deb         pack what is built: $(package)'
	@echo 'make version     write the version of the file VERSION to the other places that name it'
	@echo 'make clean       remove what is built; make distclean also the proofs, which take minutes'
