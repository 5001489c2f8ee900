# make              leaves the program at bin/ripngd, in some minutes. It is not proved, and says so
# make prove        proves it and builds it, and puts it in the place of the other; with CRATE=, proves that crate, all that stand on it, and what those need
# make test         the merge gate: every proof, the edits that must fail, all tests of the proved program, the mutants of what changed.
#                   Where nothing fails the program is left in the place of the other
# make check        all tests of the program that stands at bin/ripngd, proved or not
# make lab SCRIPT=  runs a network of routers from a script
# make show HEX=    decodes one datagram, given as hexadecimal digits
# make page         makes docs/lab.html, the laboratory in one file, with a module of proved libraries (needs Debian's binaryen)
# make film SCRIPT= the same with a script in it, at OUT; film.html if none is named
# make install      puts the proved program of these sources and its mark, its companion for real links, their manual pages, a unit of
#                   systemd for each, and the examples below PREFIX (and DESTDIR before it); with UNPROVED=1 any program, as not proved
# make uninstall    takes them away again
# make dist         what is installed, and checksums, in one file below dist
# make deb          the same as a Debian package below dist (needs dpkg-deb)
# make bench        times of a router and its forwarding table, as tables grow
# make beside       what a route costs here and in BIRD, one after the other (needs root and BIRD, a package of the system)
# make research     the laboratory beside ns-3, and how the time of rounds grows: tables in Markdown (needs libns3-dev, g++, python3-networkx)
# make pictures     pictures of the examples, below docs (needs Chromium, a package of the system)
# make mutants      wrong programs that no contract sees: which test catches each (an estimated half an hour)
# make clean        forgets what earlier runs built here

HEX ?= 02010000
SCRIPT ?= examples/line.lab
ROUTES ?= 1024 4096 16384 65536
OUT ?= film.html

# The program that is installed.
PROGRAM ?= bin/ripngd
DIST ?= dist

# Where `make install` puts things, under the names that packages use. PREFIX is heard too.
PREFIX ?= /usr/local
prefix ?= $(PREFIX)
bindir ?= $(prefix)/bin
mandir ?= $(prefix)/share/man
docdir ?= $(prefix)/share/doc/ripngd
unitdir ?= $(prefix)/lib/systemd/system
linksdir ?= $(prefix)/lib/ripngd-links
INSTALL ?= install

# The folders with what goes beside README.md.
folders = docs docs/pictures examples examples/exercises examples/lessons page

VERSION = $(shell sed -n 's/^pub const VERSION: &str = "\(.*\)";/\1/p' crates/ripngd_command_line/src/help.rt)
name = ripngd-$(VERSION)$(if $(UNPROVED),-unproved)-x86_64-linux

.PHONY: all prove test check lab show page film install uninstall dist deb proved bench beside research pictures mutants clean

all: bin/ripngd

# Where this kit compiles nothing without its proof (status 3), it is proved.
bin/ripngd: crates.txt $(shell find crates \( -path '*/src/*.rt' -o -path '*/specs/*.antt' \) ! -path 'crates/test_*')
	@if tools/unproved.sh crates/ripngd_program $@; then echo 'bin/ripngd is not proved: `make prove` proves it' >&2; \
	elif [ $$? = 3 ]; then echo 'so it is proved now, which takes half an hour' >&2; tools/prove.sh ripngd_program $@; else exit 2; fi

bin/test_rows: $(shell find crates/*/src -name '*.rt')
	tools/unproved.sh crates/test_rows $@

prove:
	tools/prove.sh $(if $(CRATE),--above $(CRATE),ripngd_program bin/ripngd)

test:
	.ci/run

check: bin/ripngd bin/test_rows
	tests/all.sh bin/ripngd bin/test_rows

lab: bin/ripngd
	bin/ripngd lab $(SCRIPT)

show: bin/ripngd
	bin/ripngd show $(HEX)

page:
	page/build.sh

film:
	page/film.py $(SCRIPT) > $(OUT)

# What is installed is proved, of the sources as they stand, but where UNPROVED says otherwise.
proved:
	@$(if $(UNPROVED),test -x,tools/proved.py check) $(PROGRAM) || { echo '`make prove` first, or `make` and UNPROVED=1' >&2; exit 1; }

# Units start the program with the mark that stands beside the companion, or any where UNPROVED says so.
for_units = -e 's|@bindir@|$(bindir)|' -e 's|@linksdir@|$(linksdir)|' -e 's|@unproved@|$(if $(UNPROVED), --unproved)|' \
	$(if $(UNPROVED),-e '/^ExecCondition=/d')

# Pages keep their places to one another, so that what one says of another is found. The companion's modules stand beside it, and
# `bindir` has a link to it.
install: proved
	$(INSTALL) -d $(DESTDIR)$(bindir) $(DESTDIR)$(mandir)/man8 $(DESTDIR)$(unitdir) $(DESTDIR)$(linksdir)
	$(INSTALL) -d $(addprefix $(DESTDIR)$(docdir)/,$(folders) companion)
	$(INSTALL) -m 755 $(PROGRAM) $(DESTDIR)$(bindir)/ripngd
	rm -f $(DESTDIR)$(linksdir)/ripngd.proved
	$(if $(UNPROVED),,$(INSTALL) -m 644 $(PROGRAM).proved $(DESTDIR)$(linksdir)/ripngd.proved)
	$(INSTALL) -m 644 companion/*.py $(DESTDIR)$(linksdir)
	$(INSTALL) -m 755 companion/ripngd-links $(DESTDIR)$(linksdir)
	ln -sfr $(DESTDIR)$(linksdir)/ripngd-links $(DESTDIR)$(bindir)/ripngd-links
	$(INSTALL) -m 644 docs/ripngd.8 docs/ripngd-links.8 $(DESTDIR)$(mandir)/man8
	$(INSTALL) -m 644 README.md $(DESTDIR)$(docdir)
	$(if $(UNPROVED),,ln -sfr $(DESTDIR)$(linksdir)/ripngd.proved $(DESTDIR)$(docdir))
	$(INSTALL) -m 755 companion/bird.* $(DESTDIR)$(docdir)/companion
	for folder in $(folders); do $(INSTALL) -m 644 $$folder/*.* $(DESTDIR)$(docdir)/$$folder || exit; done
	for unit in ripngd@ ripngd-links@; do sed $(for_units) docs/$$unit.service > $(DESTDIR)$(unitdir)/$$unit.service || exit; done

uninstall:
	for name in ripngd ripngd-links; do rm -f $(DESTDIR)$(bindir)/$$name $(DESTDIR)$(mandir)/man8/$$name.8 $(DESTDIR)$(unitdir)/$$name@.service; done
	rm -rf $(DESTDIR)$(docdir) $(DESTDIR)$(linksdir)

# The same program gives the same file: no time and no name of who made it is in it.
dist:
	rm -rf dist
	$(MAKE) install DESTDIR=$(CURDIR)/dist/$(name) prefix=/usr/local
	cd dist/$(name) && find . -type f -print0 | LC_ALL=C sort -z | xargs -0 sha256sum > ../SHA256SUMS && mv ../SHA256SUMS .
	cd dist && tar --sort=name --owner=0 --group=0 --numeric-owner --mtime=@0 -czf $(name).tar.gz $(name) && sha256sum $(name).tar.gz > $(name).tar.gz.sha256

deb:
	rm -rf $(DIST)/deb
	$(MAKE) install DESTDIR=$(abspath $(DIST))/deb prefix=/usr
	tools/deb.sh $(DIST)/deb $(VERSION)$(if $(UNPROVED),~unproved) $(DIST)/ripngd_$(VERSION)$(if $(UNPROVED),~unproved)_amd64.deb

bench:
	tools/prove.sh test_rows bin/test_rows
	tools/bench.py bin/test_rows $(ROUTES)

beside: proved
	tools/beside.py bin/ripngd

research: proved
	tools/beside_ns3.py --program $(PROGRAM)
	tests/lab/large.py $(PROGRAM) growth

pictures:
	page/pictures.py

mutants: bin/ripngd bin/test_rows
	tools/mutants bin/ripngd bin/test_rows

clean:
	rm -rf bin dist crates/*/out
