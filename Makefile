# The program and its manual page. c/Makefile has the C library, docs/CLI.md what the program does.
#
#   make                    the program, proved first; CONTRIBUTING.md, "What three commands take", has how long that takes the first time
#   make install PREFIX=..  the program as kangaroo, its manual page, and what shells complete
#   make uninstall PREFIX=..   removes these files again
#
# PROGRAM=FILE takes another built program than the proved one, and says so.
PREFIX ?= /usr/local
PROGRAM ?=

FILES := bin/kangaroo share/man/man1/kangaroo.1 share/bash-completion/completions/kangaroo share/zsh/site-functions/_kangaroo

.PHONY: all install uninstall
all:
	@./kangaroo --path

install:
	@program="$(PROGRAM)"; \
	if [ -n "$$program" ]; then echo "kangaroo: $$program is installed; nothing here knows whether it is proved" >&2; \
	else program=$$(./kangaroo --path) || exit 3; fi; \
	install -D -m 755 "$$program" $(DESTDIR)$(PREFIX)/bin/kangaroo
	install -D -m 644 man/kangaroo.1 $(DESTDIR)$(PREFIX)/share/man/man1/kangaroo.1
	install -D -m 644 completions/kangaroo.bash $(DESTDIR)$(PREFIX)/share/bash-completion/completions/kangaroo
	install -D -m 644 completions/_kangaroo $(DESTDIR)$(PREFIX)/share/zsh/site-functions/_kangaroo

# The files that install puts, and no folder: others may have theirs there.
uninstall:
	rm -f $(FILES:%=$(DESTDIR)$(PREFIX)/%)
