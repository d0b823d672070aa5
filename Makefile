# make            the library for this processor, and the program, below target/
# make check      the gate: everything proved, tried and compared
# make install    puts them, the header, the manual page, the pkg-config file, the guide and the samples below $(DESTDIR)$(PREFIX); builds nothing
# make uninstall  takes away what install put there
# make clean      takes away what make built; what is proved stays proved

PREFIX = /usr/local
BINDIR = $(PREFIX)/bin
LIBDIR = $(PREFIX)/lib
INCLUDEDIR = $(PREFIX)/include
MANDIR = $(PREFIX)/share/man
DOCDIR = $(PREFIX)/share/doc/dirgeflint
CFLAGS = -O2
INSTALL = install

LIBRARY = target/native/libdirgeflint.a
PROGRAM = target/cli/dirgeflint
HEADER = include/dirgeflint.h

# The version stands in the header only. A must-fail edit is no part of the library, nor is what rt makes in a crate's out/.
VERSION != sed -n 's/^.define DIRGEFLINT_VERSION "\(.*\)"/\1/p' $(HEADER)
CRATES != find crates.txt crates \( -path '*/must-fail' -o -path '*/edits' -o -path '*/out' \) -prune -o -type f -print
CLI != echo cli/*.c cli/*.h

PAGES = README.md CHANGELOG.md docs/GUIDE.md docs/SOURCES.md
SAMPLES != echo samples/*.*

# The folders as the shell sees them, whatever characters they have.
export TO=$(DESTDIR)
export TO_PREFIX=$(PREFIX)
export TO_BIN=$(BINDIR)
export TO_LIB=$(LIBDIR)
export TO_INCLUDE=$(INCLUDEDIR)
export TO_MAN=$(MANDIR)
export TO_DOC=$(DOCDIR)

all: $(LIBRARY) $(PROGRAM)

# tools/native leaves the library as it is if the sources were but touched; then it counts as new, so as not to be asked again.
$(LIBRARY): tools/native $(CRATES)
	@command -v rt >/dev/null || { echo 'make: the program rt is not found: the Rattle kit, of which it is part, is needed to prove and build the library (README.md)' >&2; exit 1; }
	@echo 'proving and compiling the library: minutes the first time'
	tools/native dirgeflint
	@touch $@

$(PROGRAM): $(LIBRARY) $(HEADER) $(CLI)
	@mkdir -p target/cli
	$(CC) -std=c99 $(CPPFLAGS) $(CFLAGS) -Iinclude cli/*.c $(LDFLAGS) $(LIBRARY) -o $@

check:
	.ci/run

install:
	@test -f $(LIBRARY) && test -x $(PROGRAM) || { echo 'make install: nothing is built yet; run make first' >&2; exit 1; }
	@for folder in "$$TO_PREFIX" "$$TO_BIN" "$$TO_LIB" "$$TO_INCLUDE" "$$TO_MAN" "$$TO_DOC"; do \
	    case $$folder in /*) ;; *) printf 'make install: the folder %s is relative: name it from / on\n' "$$folder" >&2; exit 1 ;; esac; \
	    case $$folder in *[\'\"\|\&\\\`\$$\#]*) bad=yes ;; *) bad=`printf '%s' "$$folder" | wc -l | tr -d ' 0'` ;; esac; \
	    test -z "$$bad" || { printf 'make install: a folder may have no newline and none of '"'"' " | & \\ ` $$ #: %s\n' "$$folder" >&2; exit 1; }; \
	done
	$(INSTALL) -d "$$TO$$TO_BIN" "$$TO$$TO_LIB/pkgconfig" "$$TO$$TO_INCLUDE" "$$TO$$TO_MAN/man1" "$$TO$$TO_DOC/docs" "$$TO$$TO_DOC/samples"
	$(INSTALL) -m 755 $(PROGRAM) "$$TO$$TO_BIN/dirgeflint"
	$(INSTALL) -m 644 $(LIBRARY) "$$TO$$TO_LIB/libdirgeflint.a"
	$(INSTALL) -m 644 $(HEADER) "$$TO$$TO_INCLUDE/dirgeflint.h"
	$(INSTALL) -m 644 cli/dirgeflint.1 "$$TO$$TO_MAN/man1/dirgeflint.1"
	for file in $(PAGES); do $(INSTALL) -m 644 "$$file" "$$TO$$TO_DOC/$$file" || exit; done
	$(INSTALL) -m 644 $(SAMPLES) "$$TO$$TO_DOC/samples"
	sed -e "s|@PREFIX@|$$TO_PREFIX|; s|@LIBDIR@|$$TO_LIB|; s|@INCLUDEDIR@|$$TO_INCLUDE|; s|@VERSION@|$(VERSION)|" dirgeflint.pc.in \
	    >"$$TO$$TO_LIB/pkgconfig/dirgeflint.pc"
	chmod 644 "$$TO$$TO_LIB/pkgconfig/dirgeflint.pc"

uninstall:
	rm -f "$$TO$$TO_BIN/dirgeflint" "$$TO$$TO_LIB/libdirgeflint.a" "$$TO$$TO_INCLUDE/dirgeflint.h" \
	    "$$TO$$TO_MAN/man1/dirgeflint.1" "$$TO$$TO_LIB/pkgconfig/dirgeflint.pc"
	for file in $(PAGES) $(SAMPLES); do rm -f "$$TO$$TO_DOC/$$file"; done
	rmdir "$$TO$$TO_DOC/docs" "$$TO$$TO_DOC/samples" "$$TO$$TO_DOC" 2>/dev/null || :

clean:
	rm -rf target/cli
	rm -f $(LIBRARY) $(LIBRARY).sum $(LIBRARY).log

.PHONY: all check install uninstall clean
