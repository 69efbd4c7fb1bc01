# What people type: `make` proves and builds, `make try` builds unproved, `make check` is the merge gate, `make nightly` is all else that can
# be tried, and `make install` puts what `make` has built where Debian's and Fedora's tools look for it, below DESTDIR. `make uninstall` with
# the same words takes that away again, and `make dist` packs the sources. The program names its commit: `make COMMIT=..` says which that is
# if neither git nor the archive does.
PREFIX ?= /usr/local
PROGRAM ?= crates/boot_tools/out/boot_tools
ZSHDIR ?= $(PREFIX)/share/zsh/$(if $(and $(filter /usr,$(PREFIX)),$(wildcard /etc/debian_version)),vendor-completions,site-functions)
FISHDIR ?= $(if $(filter /usr,$(PREFIX)),/usr/share/fish/vendor_completions.d,/etc/fish/completions)
HOOKDIR ?= $(if $(filter /usr,$(PREFIX)),/usr/lib,/etc)/kernel/install.d
DOCDIR ?= $(PREFIX)/share/doc/boot-tools
HOOKS = 60-boot_tools.install 80-boot_tools.install 90-boot_tools.install
PAGES = README.md docs/DISK.md docs/REFUSALS.md docs/SYSTEMD.md docs/TASKS.md
WANTED = $(DESTDIR)/etc/systemd/system/basic.target.wants/boot_tools-bless.service
SHOWN = measure calculate --linux=data/k --bank=sha256 --phase=

all:
	tools/build $(SHOWN)
try:
	@echo "make try: builds the program unproved, in some two minutes, and runs: boot_tools $(SHOWN)"
	cd crates/boot_tools && rt try --data data/k=data/k -- $(SHOWN)
	@echo "make try: this was built unproved, and is gone again; make proves it and keeps it"
check:
	.ci/run
nightly:
	tools/nightly
install:
	@test -x $(PROGRAM) || { echo "make install: nothing is built at $(PROGRAM): run make first" >&2; exit 1; }
	install -D -m 755 $(PROGRAM) $(DESTDIR)$(PREFIX)/bin/boot_tools
	install -D -m 755 -t $(DESTDIR)$(PREFIX)/bin share/bin/espctl
	install -D -m 644 -t $(DESTDIR)$(PREFIX)/share/man/man1 share/man/boot_tools.1 share/man/espctl.1 share/man/sign-values.1
	install -D -m 644 share/completions/boot_tools.bash $(DESTDIR)$(PREFIX)/share/bash-completion/completions/boot_tools
	ln -sf boot_tools $(DESTDIR)$(PREFIX)/share/bash-completion/completions/espctl
	install -D -m 644 -t $(DESTDIR)$(ZSHDIR) share/completions/_boot_tools
	install -D -m 644 -t $(DESTDIR)$(FISHDIR) share/completions/boot_tools.fish
	ln -sf boot_tools.fish $(DESTDIR)$(FISHDIR)/espctl.fish
	install -D -m 755 -t $(DESTDIR)$(HOOKDIR) $(addprefix share/kernel-install/,$(HOOKS))
	install -D -m 755 -t $(DESTDIR)$(PREFIX)/lib/boot_tools share/systemd/bless-boot share/lib/sign-values
	install -D -m 644 -t $(DESTDIR)$(PREFIX)/lib/boot_tools share/lib/hook-functions
	install -D -m 644 -t $(DESTDIR)$(PREFIX)/lib/systemd/system share/systemd/boot_tools-bless.service
	sed -i 's|/usr/lib/boot_tools|$(PREFIX)/lib/boot_tools|' $(DESTDIR)$(PREFIX)/lib/systemd/system/boot_tools-bless.service \
	  $(DESTDIR)$(PREFIX)/lib/boot_tools/bless-boot $(addprefix $(DESTDIR)$(HOOKDIR)/,$(HOOKS))
	install -D -m 644 -t $(DESTDIR)$(DOCDIR) $(PAGES)
	sed -i 's|](docs/|](|g' $(DESTDIR)$(DOCDIR)/README.md
	sed -i 's|/usr/share/doc/boot-tools|$(DOCDIR)|; s|/usr/lib/boot_tools|$(PREFIX)/lib/boot_tools|' $(DESTDIR)$(PREFIX)/share/man/man1/*.1
uninstall:
	rm -f $(DESTDIR)$(PREFIX)/bin/boot_tools $(DESTDIR)$(PREFIX)/bin/espctl
	rm -f $(addprefix $(DESTDIR)$(PREFIX)/share/man/man1/,boot_tools.1 espctl.1 sign-values.1)
	rm -f $(DESTDIR)$(PREFIX)/share/bash-completion/completions/boot_tools $(DESTDIR)$(PREFIX)/share/bash-completion/completions/espctl
	rm -f $(DESTDIR)$(ZSHDIR)/_boot_tools $(DESTDIR)$(FISHDIR)/boot_tools.fish $(DESTDIR)$(FISHDIR)/espctl.fish
	rm -f $(addprefix $(DESTDIR)$(HOOKDIR)/,$(HOOKS))
	rm -f $(addprefix $(DESTDIR)$(PREFIX)/lib/boot_tools/,bless-boot sign-values hook-functions)
	rm -f $(DESTDIR)$(PREFIX)/lib/systemd/system/boot_tools-bless.service $(WANTED)
	rm -f $(addprefix $(DESTDIR)$(DOCDIR)/,$(notdir $(PAGES)))
	for it in $(DESTDIR)$(PREFIX)/lib/boot_tools $(DESTDIR)$(DOCDIR); do [ ! -d $$it ] || rmdir --ignore-fail-on-non-empty $$it; done
	@! grep -qs '^uki_generator=.*boot_tools' $(DESTDIR)/etc/kernel/install.conf || echo "make uninstall: $(DESTDIR)/etc/kernel/install.conf \
	still has uki_generator=boot_tools. New kernels get no entry until that line and layout=uki are gone"
dist:
	tools/package --dist
.PHONY: all try check nightly install uninstall dist
