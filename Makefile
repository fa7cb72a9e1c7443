# Installs and packages xm_run; docs/INSTALL.md is the page of it.
#   make             proves the program and builds it, by `./xm_run --prove`
#   make install     installs the program and all that belongs to it below $(DESTDIR)$(PREFIX)
#   make uninstall   removes what the last `make install` put there
#   make deb         makes a package of Debian, out/xm-run_VERSION_amd64.deb
# With PROGRAM and VERSION_TEXT a program is taken that was made elsewhere, and what `./xm_run --version` printed there.
PREFIX = /usr/local
DESTDIR =
PROGRAM =
VERSION_TEXT =

all:
	$(if $(PROGRAM),,./xm_run --prove)

install:
	packaging/install '$(DESTDIR)' '$(PREFIX)' '$(PROGRAM)' '$(VERSION_TEXT)'

uninstall:
	packaging/uninstall '$(DESTDIR)' '$(PREFIX)'

deb:
	packaging/deb '$(PROGRAM)' '$(VERSION_TEXT)'

.PHONY: all install uninstall deb
