# Installation.
#
#   make install [PREFIX=dir] [DESTDIR=dir]    header, archive, pkg-config file, programs, manual pages
#   make uninstall [PREFIX=dir] [DESTDIR=dir]  remove those files

# What is installed, below the prefix.
INSTALLED := include/mapcache.h lib/libmapcache.a lib/pkgconfig/mapcache.pc bin/mapcache bin/mapcache-replay \
	share/man/man1/mapcache.1 share/man/man1/mapcache-replay.1
MANUAL := $(HOST)/man/mapcache.1 $(HOST)/man/mapcache-replay.1

.PHONY: install uninstall manual host-install

manual: $(MANUAL)

$(HOST)/man:
	@mkdir -p $@

$(HOST)/man/%.1: man/%.1.in $(VERSION_SOURCES) | $(HOST)/man
	@$(FILL_IN) $< > $@

# Installs for the prefix $(1), in the folder $(2) in front of it.
define install_below
set -e; to='$(2)$(1)'; for file in $(INSTALLED); do install -d "$$to/$$(dirname "$$file")"; done; \
install -m 644 $(HEADER) "$$to/include/mapcache.h"; \
install -m 644 $(ARCHIVE) "$$to/lib/libmapcache.a"; \
$(FILL_IN) -e 's|@PREFIX@|$(1)|' host/mapcache.pc.in > "$$to/lib/pkgconfig/mapcache.pc"; \
$(FILL_IN) tools/mapcache > "$$to/bin/mapcache"; chmod 755 "$$to/bin/mapcache"; \
install -m 755 $(REPLAY) "$$to/bin/mapcache-replay"; \
install -m 644 $(MANUAL) "$$to/share/man/man1"
endef

# Removes what install_below installs, and no folder: others may use it.
uninstall_below = rm -f $(foreach file,$(INSTALLED),'$(2)$(1)/$(file)')

install: $(ARCHIVE) $(REPLAY) $(HEADER) $(MANUAL)
	@$(call install_below,$(PREFIX),$(DESTDIR))
	@echo 'installed below $(DESTDIR)$(PREFIX)'

uninstall:
	@$(call uninstall_below,$(PREFIX),$(DESTDIR))
	@echo 'removed from below $(DESTDIR)$(PREFIX)'

# An installation into a folder serves a host that knows only that folder, says its version everywhere, and leaves what is
# not its own when it goes.
host-install: $(ARCHIVE) $(REPLAY) $(HEADER) $(MANUAL) $(HOST)/example.c
	@rm -rf $(HOST)/prefix && mkdir -p $(HOST)/prefix/bin && echo kept > $(HOST)/prefix/bin/other
	@$(call install_below,$(abspath $(HOST)/prefix),)
	@STRICT='$(STRICT)' WITHOUT='$(WITHOUT)' \
		tests/install/check '$(abspath $(HOST)/prefix)' '$(VERSION)' $(HOST)/example.c '$(EXAMPLE_SAYS)' $(INSTALLED)
	@$(call uninstall_below,$(abspath $(HOST)/prefix),)
	@test "$$(cd $(HOST)/prefix && find . -type f)" = ./bin/other || { echo 'make uninstall: not exactly what was installed is gone' >&2; exit 1; }
	@echo 'make install, make uninstall: a host builds and runs against it; what was there before stays'
