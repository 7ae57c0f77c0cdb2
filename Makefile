# Installs the program, its manual and its completion under PREFIX, below DESTDIR where that is given. The program is built by
# `(cd crates/fa_audit_program && rt run -- --version)`, which proves it and all below it first.

PREFIX ?= /usr/local
program = crates/fa_audit_program/out/fa_audit_program

install: $(program)
	install -D -m 755 $(program) "$(DESTDIR)$(PREFIX)/bin/fa_audit"
	install -D -m 644 man/fa_audit.1 "$(DESTDIR)$(PREFIX)/share/man/man1/fa_audit.1"
	install -D -m 644 completions/fa_audit.bash "$(DESTDIR)$(PREFIX)/share/bash-completion/completions/fa_audit"

uninstall:
	rm -f "$(DESTDIR)$(PREFIX)/bin/fa_audit" "$(DESTDIR)$(PREFIX)/share/man/man1/fa_audit.1" \
		"$(DESTDIR)$(PREFIX)/share/bash-completion/completions/fa_audit"

$(program):
	@echo "$@ is not built: (cd crates/fa_audit_program && rt run -- --version) proves and builds it" >&2; exit 1

.PHONY: install uninstall
