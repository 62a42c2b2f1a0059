# Installs the program that lies here, the carrier, manual pages and completions, below PREFIX, with DESTDIR before it.
# In an archive it is the Makefile; at the top of the repository the Makefile calls it, once all of these are made.
PREFIX = /usr/local
SHARE = $(DESTDIR)$(PREFIX)/share

.PHONY: all install

all:
	@echo 'Nothing has to be built: make install PREFIX=$$HOME/.local installs atalk and carry, manual pages and completions there.'

install:
	install -d $(DESTDIR)$(PREFIX)/bin $(SHARE)/man/man1 $(SHARE)/man/man5 $(SHARE)/bash-completion/completions \
		$(SHARE)/zsh/site-functions $(SHARE)/fish/vendor_completions.d
	install -m 755 atalk $(DESTDIR)$(PREFIX)/bin/atalk
	install -m 755 carrier/carry $(DESTDIR)$(PREFIX)/bin/carry
	install -m 644 docs/man/*.1 $(SHARE)/man/man1
	install -m 644 docs/man/*.5 $(SHARE)/man/man5
	install -m 644 completions/atalk.bash $(SHARE)/bash-completion/completions/atalk
	install -m 644 completions/_atalk $(SHARE)/zsh/site-functions/_atalk
	install -m 644 completions/atalk.fish $(SHARE)/fish/vendor_completions.d/atalk.fish
