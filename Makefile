# The archive, the desktop program over it, and their installation.
#
#   make              the proved archive (rt lib in crates/hsc_c) and target/desktop/hsc
#   make check        the desktop program's tests
#   make install      program, header, archive, hsc.pc and man pages below DESTDIR and PREFIX
#   make uninstall    removes what make install put there
#   make clean        removes target/desktop; the archive, and what rt keeps in crates/*/out, stay
#
# ARCHIVE=FILE links another archive, which is then neither proved nor built here; LDLIBS are the libraries it needs.

CC = cc
CFLAGS = -O2 -g
LDFLAGS =
LDLIBS =
INSTALL = install

PREFIX = /usr/local
DESTDIR =
bindir = $(PREFIX)/bin
includedir = $(PREFIX)/include
libdir = $(PREFIX)/lib
mandir = $(PREFIX)/share/man

PROVED = target/staticlib/libhsc.a
ARCHIVE = $(PROVED)
BUILD = target/desktop
PROGRAM = $(BUILD)/hsc
PAGES = hsc.1 hsc.3 hsc-events.5

WARNINGS = -std=c11 -Wall -Wextra -Werror -pedantic
COMPILE = $(CC) $(WARNINGS) -D_XOPEN_SOURCE=700 -Iinclude -MMD -MP $(CPPFLAGS) $(CFLAGS)
VERSION = $(shell sed -n 's/^.define HSC_VERSION "\(.*\)"/\1/p' include/hsc.h)
OBJECTS = $(patsubst desktop/%.c,$(BUILD)/%.o,$(wildcard desktop/*.c))

.PHONY: all check install uninstall clean FORCE

all: $(PROGRAM)

$(PROVED): crates.txt $(shell find crates -name out -prune -o \( -name '*.rt' -o -name '*.antt' \) -print)
	cd crates/hsc_c && rt lib
	mkdir -p $(@D)
	cp crates/hsc_c/out/libhsc_c.a $@

$(PROGRAM): $(OBJECTS) $(ARCHIVE) $(BUILD)/variables
	$(CC) $(CFLAGS) $(LDFLAGS) -o $@ $(OBJECTS) $(ARCHIVE) $(LDLIBS)

$(BUILD)/%.o: desktop/%.c $(BUILD)/variables
	$(COMPILE) -c -o $@ $<

# Other variables than in the last run: everything is built anew.
$(BUILD)/variables: FORCE | $(BUILD)
	@echo '$(COMPILE) $(LDFLAGS) $(ARCHIVE) $(LDLIBS)' > $@.now
	@if cmp -s $@.now $@; then rm $@.now; else mv $@.now $@; fi

$(BUILD):
	mkdir -p $@

check: $(ARCHIVE)
	CC='$(CC)' LDLIBS='$(LDLIBS)' tests/desktop/run '$(ARCHIVE)'

# Places of the installation reach the shell by its environment, so that any character may stand in them.
install uninstall: export prefix = $(PREFIX)
install uninstall: export bin = $(DESTDIR)$(bindir)
install uninstall: export include = $(includedir)
install uninstall: export lib = $(libdir)
install uninstall: export root = $(DESTDIR)
install uninstall: export man = $(DESTDIR)$(mandir)

install: all
	$(INSTALL) -d "$$bin" "$$root$$include" "$$root$$lib/pkgconfig"
	$(INSTALL) -m 755 $(PROGRAM) "$$bin/hsc"
	$(INSTALL) -m 644 include/hsc.h "$$root$$include/hsc.h"
	$(INSTALL) -m 644 '$(ARCHIVE)' "$$root$$lib/libhsc.a"
	{ printf 'prefix=%s\nincludedir=%s\nlibdir=%s\n\n' "$$prefix" "$$include" "$$lib"; \
	    sed 's/@VERSION@/$(VERSION)/' hsc.pc.in; } > "$$root$$lib/pkgconfig/hsc.pc"
	chmod 644 "$$root$$lib/pkgconfig/hsc.pc"
	for page in $(PAGES); do \
	    $(INSTALL) -d "$$man/man$${page##*.}" && \
	    $(INSTALL) -m 644 "man/$$page" "$$man/man$${page##*.}/$$page" || exit; \
	done

uninstall:
	rm -f "$$bin/hsc" "$$root$$include/hsc.h" "$$root$$lib/libhsc.a" "$$root$$lib/pkgconfig/hsc.pc"
	for page in $(PAGES); do rm -f "$$man/man$${page##*.}/$$page" || exit; done

clean:
	rm -rf $(BUILD)

-include $(OBJECTS:.o=.d)
