# make install PREFIX=/usr/local    installs the program, its manual page and its completion for bash
# make uninstall PREFIX=/usr/local  removes them
#
# The program is the proved one of crates/dahlia, which ./dahlia builds where it is not up to date; with
# PROGRAM=FILE it is that file. DESTDIR is put before each path, for whoever makes a package.

PREFIX = /usr/local
DESTDIR =
BINDIR = $(PREFIX)/bin
MANDIR = $(PREFIX)/share/man
COMPLETIONDIR = $(PREFIX)/share/bash-completion/completions
INSTALL = install
BUILT = crates/dahlia/out/dahlia
PROGRAM = $(BUILT)

.PHONY: all install uninstall

# Without words ./dahlia builds what is not up to date, and the program then ends with its usage line and status 2.
all:
	@if [ "$(PROGRAM)" = "$(BUILT)" ]; then ./dahlia >/dev/null; [ $$? -eq 2 ]; fi

install: all
	$(INSTALL) -d "$(DESTDIR)$(BINDIR)" "$(DESTDIR)$(MANDIR)/man1" "$(DESTDIR)$(COMPLETIONDIR)"
	$(INSTALL) -m 755 "$(PROGRAM)" "$(DESTDIR)$(BINDIR)/dahlia"
	$(INSTALL) -m 644 docs/dahlia.1 "$(DESTDIR)$(MANDIR)/man1/dahlia.1"
	$(INSTALL) -m 644 tools/completion/dahlia.bash "$(DESTDIR)$(COMPLETIONDIR)/dahlia"

uninstall:
	rm -f "$(DESTDIR)$(BINDIR)/dahlia" "$(DESTDIR)$(MANDIR)/man1/dahlia.1" "$(DESTDIR)$(COMPLETIONDIR)/dahlia"
