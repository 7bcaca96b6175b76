# What is installed and where, what takes it away again, and the Debian package.
PREFIX ?= /usr/local
TOOL = target/cargo/release/tarczolin
TO = $(DESTDIR)$(PREFIX)
VERSION = $(shell sed -n 's/^\#define TARCZOLIN_VERSION "\(.*\)"/\1/p' include/tarczolin.h)
# the folder below PREFIX where python3 looks for packages; where it looks in none, the one that Debian's does
PACKAGES = import sys; p = sys.argv[1]; \
  print(next((f for f in sys.path if f.startswith(p + "/lib/") and f.endswith("-packages")), p + "/lib/python3/dist-packages"))
PYTHONDIR ?= $(shell python3 -c '$(PACKAGES)' '$(PREFIX)')
PYTHON = $(wildcard python/tarczolin/*.py) python/tarczolin/py.typed
PACKAGE = $(DESTDIR)$(PYTHONDIR)/tarczolin
# the files below PREFIX, beside the Python package
FILES = bin/tarczolin lib/libtarczolin.a lib/libtarczolin.so.0 lib/libtarczolin.so lib/pkgconfig/tarczolin.pc include/tarczolin.h \
  share/man/man1/tarczolin.1 share/bash-completion/completions/tarczolin share/zsh/site-functions/_tarczolin \
  share/fish/vendor_completions.d/tarczolin.fish

.PHONY: install uninstall deb

define INSTALL
@install -d $(sort $(dir $(addprefix $(TO)/,$(FILES)))) $(PACKAGE)
@install -m 755 $(TOOL) $(TO)/bin/tarczolin
@install -m 644 $(LIBRARY) $(TO)/lib/libtarczolin.a
@install -m 644 $(SHARED) $(TO)/lib/libtarczolin.so.0
@ln -sf libtarczolin.so.0 $(TO)/lib/libtarczolin.so
@install -m 644 include/tarczolin.h $(TO)/include/tarczolin.h
@install -m 644 $(PYTHON) $(PACKAGE)
@$(TOOL) man > $(TO)/share/man/man1/tarczolin.1
@$(TOOL) completions bash > $(TO)/share/bash-completion/completions/tarczolin
@$(TOOL) completions zsh > $(TO)/share/zsh/site-functions/_tarczolin
@$(TOOL) completions fish > $(TO)/share/fish/vendor_completions.d/tarczolin.fish
@printf '%s\n' 'prefix=$(PREFIX)' 'Name: tarczolin' 'Description: explores the executions of small concurrent programs' \
  'Version: $(VERSION)' 'Cflags: -I$${prefix}/include' 'Libs: -L$${prefix}/lib -ltarczolin' > $(TO)/lib/pkgconfig/tarczolin.pc
endef

install: tool $(SHARED)
	$(INSTALL)

# takes away what install put there, and no folder that others use
uninstall:
	@rm -f $(addprefix $(TO)/,$(FILES)) $(addprefix $(PACKAGE)/,$(notdir $(PYTHON)))
	@rm -rf $(PACKAGE)/__pycache__
	@test ! -d $(PACKAGE) || rmdir --ignore-fail-on-non-empty $(PACKAGE)

DEBROOT = target/deb
ARCHITECTURE = $(shell dpkg --print-architecture)
DEB = target/tarczolin_$(VERSION)_$(ARCHITECTURE).deb
MAINTAINER ?= the owner of the repository <root@localhost>
DOCS = $(DESTDIR)/usr/share/doc/tarczolin

deb: override DESTDIR = $(DEBROOT)
deb: override PREFIX = /usr
deb: override PYTHONDIR = /usr/lib/python3/dist-packages
deb: tool $(SHARED)
	@rm -rf $(DEBROOT)
	$(INSTALL)
	@strip --strip-unneeded $(TO)/bin/tarczolin $(TO)/lib/libtarczolin.so.0
	@gzip -9n $(TO)/share/man/man1/tarczolin.1
	@install -d $(DEBROOT)/DEBIAN $(DOCS)
	@cp -r --parents README.md CHANGELOG.md CONTRIBUTING.md docs examples tests/litmus $(DOCS)
	@chmod -R u=rwX,go=rX $(DEBROOT)
	@echo 'activate-noawait ldconfig' > $(DEBROOT)/DEBIAN/triggers
	@echo 'libtarczolin 0 tarczolin' > $(DEBROOT)/DEBIAN/shlibs
	@printf '%s\n' '#!/bin/sh' '# what Python adds beside its files' 'rm -rf "$$DPKG_ROOT$(PYTHONDIR)/tarczolin/__pycache__"' \
	  > $(DEBROOT)/DEBIAN/prerm
	@chmod 755 $(DEBROOT)/DEBIAN/prerm
	@cd $(DEBROOT) && find usr -type f -print0 | sort -z | xargs -0 md5sum > DEBIAN/md5sums
	@printf '%s\n' 'Package: tarczolin' 'Version: $(VERSION)' 'Architecture: $(ARCHITECTURE)' 'Maintainer: $(MAINTAINER)' \
	  'Section: devel' 'Priority: optional' 'Depends: libc6, libgcc-s1' 'Recommends: python3' \
	  "Installed-Size: $$(du -sk $(DEBROOT)/usr | cut -f 1)" \
	  'Description: explores the executions of small concurrent programs' \
	  ' Lists, counts, shows and judges the executions of a program under sequential' \
	  ' consistency or total store order, by a proved library for C, Rust and Python.' > $(DEBROOT)/DEBIAN/control
	@dpkg-deb --root-owner-group --build $(DEBROOT) $(DEB) > /dev/null
	@rm -rf $(DEBROOT) # it has a link, and rt ci wants none below the repository
	@echo $(DEB)
