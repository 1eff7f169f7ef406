# make install [PREFIX=/usr/local] [DESTDIR=..]: the program that ./qpzone runs (proved where ./prove has made it, else built without a proof),
# its front, the manual, the completion of words for bash, and the examples. make uninstall takes them away again.
PREFIX ?= /usr/local
root = $(DESTDIR)$(PREFIX)

install:
	@program=$$(./qpzone --where) && { test -n "$$program" || { echo 'no program can be built'; exit 1; }; } && \
	install -d "$(root)/libexec/qpzone" && rm -f "$(root)/libexec/qpzone"/* && \
	install -m 755 "$$program" "$(root)/libexec/qpzone/$$(./qpzone --version | sed 's/.*, //')"
	install -D -m 755 qpzone "$(root)/bin/qpzone"
	install -D -m 644 man/qpzone.1 "$(root)/share/man/man1/qpzone.1"
	install -D -m 644 tools/completion.bash "$(root)/share/bash-completion/completions/qpzone"
	install -d "$(root)/share/doc/qpzone/examples"
	install -m 644 examples/*.job examples/*.session examples/*.zone examples/*.zones "$(root)/share/doc/qpzone/examples"

uninstall:
	rm -rf "$(root)/libexec/qpzone" "$(root)/share/doc/qpzone"
	rm -f "$(root)/bin/qpzone" "$(root)/share/man/man1/qpzone.1" "$(root)/share/bash-completion/completions/qpzone"

.PHONY: install uninstall
