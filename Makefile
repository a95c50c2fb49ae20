# make: builds the program. make install PREFIX=..: puts it, its manual page and the completion for bash where a shell and
# man find them; they need nothing of the clone.
PREFIX ?= /usr/local
PROGRAM = crates/am_cli/out/am_cli
SOURCES = $(wildcard crates.txt crates/*/src/*.rt crates/*/src/*/*.rt crates/*/specs/*.antt)
BIN = $(DESTDIR)$(PREFIX)/bin
MAN = $(DESTDIR)$(PREFIX)/share/man/man1
COMPLETIONS = $(DESTDIR)$(PREFIX)/share/bash-completion/completions

.PHONY: all install uninstall check

all: $(PROGRAM)

$(PROGRAM): $(SOURCES)
	./build.sh
	touch $@

install: $(PROGRAM)
	install -d $(BIN) $(MAN) $(COMPLETIONS)
	install -m 755 $(PROGRAM) $(BIN)/amstore
	install -m 644 docs/amstore.1 $(MAN)/amstore.1
	install -m 644 completions/amstore.bash $(COMPLETIONS)/amstore

uninstall:
	rm -f $(BIN)/amstore $(MAN)/amstore.1 $(COMPLETIONS)/amstore

check:
	.ci/run
