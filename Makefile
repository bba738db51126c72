# How the program is built and tried. `make demo` shows a cluster on this machine, by an unproved program that it builds first if there is none;
# `make test` runs all tests without proofs. `make` proves the program, which takes over an hour of CPU time at first. `make install`
# installs what either left as build/ringpop.
PREFIX = /usr/local
INSTALLED = $(DESTDIR)$(PREFIX)
NEEDS = @scripts/needs rt python3 cc

all:
	$(NEEDS)
	cd crates/ringpop_cli && rt run < stdin > /dev/null
	install -D crates/ringpop_cli/out/ringpop_cli build/ringpop

# Three agents on this machine. PORT=17946 takes other ports, STAY=1 leaves it running until Ctrl-C.
demo: build/ringpop
	@scripts/demo $(if $(PORT),--port $(PORT)) $(if $(STAY),--stay)

build/ringpop:
	$(NEEDS)
	@scripts/unproved

try:
	$(NEEDS)
	@scripts/unproved

# The C library, unproved: build/libringpop_c.a.
try-library:
	$(NEEDS)
	@scripts/unproved --library

# The C library, proved: crates/ringpop_c/out/libringpop_c.a.
library:
	$(NEEDS)
	cd crates/ringpop_c && rt lib

# The files to pass on, in dist/. GATE=LOG names the output of make check on this commit.
package: all library
	@scripts/needs git
	scripts/package $(if $(GATE),--gate $(GATE))

test:
	$(NEEDS)
	@scripts/test

check:
	$(NEEDS) git
	.ci/run

install:
	@test -x build/ringpop || { echo "make install: no build/ringpop: run make, or make try" >&2; exit 1; }
	install -D -m 755 build/ringpop $(INSTALLED)/bin/ringpop
	install -D -m 755 packaging/ringpop-run $(INSTALLED)/bin/ringpop-run
	install -D -m 644 docs/ringpop.1 $(INSTALLED)/share/man/man1/ringpop.1
	install -D -m 644 docs/ringpop.bash $(INSTALLED)/share/bash-completion/completions/ringpop
	install -D -m 644 docs/ringpop.zsh $(INSTALLED)/share/zsh/site-functions/_ringpop
	install -D -m 644 docs/ringpop.fish $(INSTALLED)/share/fish/vendor_completions.d/ringpop.fish

clean:
	rm -rf build dist

.PHONY: all demo try try-library library package test check install clean
