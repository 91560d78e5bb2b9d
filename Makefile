# For C callers. It proves nothing: rt and .ci/run do.
#
#     make                             the archive, by rt, where it is missing
#     make programs                    the proved programs, by rt, in target/bin/, where they are missing
#     make examples                    the programs of examples/c/, in target/c/
#     make install PREFIX=/usr/local   the header, the archive and a file for pkg-config; DESTDIR stands before every path, for packagers
#     make uninstall PREFIX=/usr/local

PREFIX = /usr/local
LIBDIR = $(PREFIX)/lib
INCLUDEDIR = $(PREFIX)/include
DESTDIR =
CFLAGS = -O2

ARCHIVE = target/staticlib/libzomuwedli.a
HEADER = include/zomuwedli.h
EXAMPLES = run plan hand put_back colour move
PROGRAMS = reduce_sheet plan_sheet colour_sheet move_sheet

# the header's version, so that it stands in one place
VERSION = $(shell sed -n 's/.*define ZOMUWEDLI_VERSION "\(.*\)"/\1/p' $(HEADER))

INSTALLED = "$(DESTDIR)$(INCLUDEDIR)/zomuwedli.h" "$(DESTDIR)$(LIBDIR)/libzomuwedli.a" "$(DESTDIR)$(LIBDIR)/pkgconfig/zomuwedli.pc"

.PHONY: all programs examples install uninstall
.DELETE_ON_ERROR:

all: $(ARCHIVE)

# rt looks at the sources itself, and takes minutes; after a change to crates/: make -B target/staticlib/libzomuwedli.a
# For any x86-64 processor: rt's own choice asks for instructions that those before 2009 lack.
$(ARCHIVE):
	cd crates/zomuwedli && rt lib --cpu=x86-64
	@mkdir -p $(@D)
	cp crates/zomuwedli/out/libzomuwedli.a $@

programs: $(PROGRAMS:%=target/bin/%)

# rt builds a program and runs it; what it prints is no matter here
target/bin/%: crates/%/src/main.rt
	cd crates/$* && rt run <stdin >/dev/null
	@mkdir -p $(@D)
	cp crates/$*/out/$* $@

examples: $(EXAMPLES:%=target/c/%)

target/c/%: examples/c/%.c examples/c/example.h $(HEADER) $(ARCHIVE)
	@mkdir -p $(@D)
	$(CC) $(CPPFLAGS) $(CFLAGS) -I include $< $(ARCHIVE) $(LDFLAGS) -o $@

install: $(ARCHIVE)
	@case "$(PREFIX)" in /*) ;; *) echo "PREFIX is not an absolute path: $(PREFIX)" >&2; exit 1 ;; esac
	@test -n "$(VERSION)" || { echo "$(HEADER) has no version" >&2; exit 1; }
	install -d "$(DESTDIR)$(INCLUDEDIR)" "$(DESTDIR)$(LIBDIR)/pkgconfig"
	install -m 644 $(HEADER) "$(DESTDIR)$(INCLUDEDIR)/zomuwedli.h"
	install -m 644 $(ARCHIVE) "$(DESTDIR)$(LIBDIR)/libzomuwedli.a"
	install -m 644 include/zomuwedli.pc.in "$(DESTDIR)$(LIBDIR)/pkgconfig/zomuwedli.pc"
	sed -i -e 's|@PREFIX@|$(PREFIX)|' -e 's|@LIBDIR@|$(LIBDIR)|' -e 's|@INCLUDEDIR@|$(INCLUDEDIR)|' -e 's|@VERSION@|$(VERSION)|' \
		"$(DESTDIR)$(LIBDIR)/pkgconfig/zomuwedli.pc"

uninstall:
	rm -f $(INSTALLED)
