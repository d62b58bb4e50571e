# Puts the proved program, its manual page and the examples below PREFIX, and takes them away again:
# make install PREFIX=/usr/local, make uninstall PREFIX=/usr/local. DESTDIR stands before PREFIX.
PREFIX = /usr/local
BIN = $(DESTDIR)$(PREFIX)/bin
MAN = $(DESTDIR)$(PREFIX)/share/man/man1
DOC = $(DESTDIR)$(PREFIX)/share/doc/omci
EXAMPLES = $(wildcard examples/*.omci examples/*.trace examples/*.hex examples/*.show)

.PHONY: install uninstall
install:
	./omci prove
	install -d "$(BIN)" "$(MAN)" "$(DOC)/examples"
	install -m 755 crates/omci/out/omci "$(BIN)/omci"
	install -m 644 docs/omci.1 "$(MAN)/omci.1"
	install -m 644 $(EXAMPLES) "$(DOC)/examples"

uninstall:
	rm -f "$(BIN)/omci" "$(MAN)/omci.1"
	for example in $(notdir $(EXAMPLES)); do rm -f "$(DOC)/examples/$$example"; done
	for folder in "$(DOC)/examples" "$(DOC)"; do \
		if [ -d "$$folder" ]; then rmdir --ignore-fail-on-non-empty "$$folder"; fi; done
