# Building is a step of its own, and installing never builds:
#
#     make build && make install          as root, or with DESTDIR and PREFIX
#     make build && make deb              a Debian package
#
# PREFIX is /usr/local as it stands. Debian's package rtpengine-daemon has a program of the same name in /usr: don't install over it.

PREFIX = /usr/local
DESTDIR =
SYSCONFDIR = /etc
INSTALL = install

PROGRAM = crates/rtpengine/out/rtpengine
BIN = $(DESTDIR)$(PREFIX)/bin
LIBEXEC = $(DESTDIR)$(PREFIX)/libexec/rtpengine
SHARE = $(DESTDIR)$(PREFIX)/share/rtpengine
MAN = $(DESTDIR)$(PREFIX)/share/man/man8
DOC = $(DESTDIR)$(PREFIX)/share/doc/rtpengine
UNITS = $(DESTDIR)$(PREFIX)/lib/systemd/system
DEFAULTS = $(DESTDIR)$(SYSCONFDIR)/default

all: build

# Proves the program's crates and builds it; needs the Rattle kit.
build:
	tools/build-program

# Checks what the documents have from the sources and from measured runs, proves everything, and runs all tests.
check:
	tools/crates-txt
	tools/layers
	tools/wide-calls
	tools/documents
	bench/table --check
	tools/refusing-calls
	tools/man-page
	attacks/try --look
	rt ci

# Tries forty of the attacks, which the day picks. WORDS has more words for attacks/try, as --write.
sample:
	attacks/try --sample $(WORDS)

# Lists what tries the built program. `make try-NAME` runs one, with WORDS as its words.
try:
	@awk 'FNR == 1 { text = "" } FNR > 1 && text != "told" { sub(/^("""|# ?)/, ""); text = text " " $$0; if (match(text, /[.:]( |$$)/)) \
	    { printf "make %-13s %s.\n", substr(FILENAME, 7), substr(text, 2, RSTART - 2); text = "told" } }' tools/try-*

try-%: tools/try-%
	$< $(WORDS)

# Writes the man page from docs/OPERATING.md.
man:
	tools/man-page --write

install:
	@tools/is-built || { echo "make: $(PROGRAM) is not there, or is older than its sources: run make build first" >&2; exit 1; }
	$(INSTALL) -d $(BIN) $(LIBEXEC) $(SHARE) $(MAN) $(DOC)/docs $(DOC)/bench $(DOC)/examples/kamailio $(UNITS) $(DEFAULTS)
	$(INSTALL) -m 755 rtpengine $(BIN)/rtpengine
	$(INSTALL) -m 755 $(PROGRAM) $(LIBEXEC)/rtpengine
	$(INSTALL) -m 644 VERSION $(SHARE)/VERSION
	$(INSTALL) -m 644 docs/rtpengine.8 $(MAN)/rtpengine.8
	$(INSTALL) -m 644 README.md CHANGELOG.md CONTRIBUTING.md SECURITY.md LICENSE NOTICE $(DOC)
	$(INSTALL) -m 644 docs/*.md docs/*.svg $(DOC)/docs
	$(INSTALL) -d $(DOC)/reference && $(INSTALL) -m 644 reference/*.md $(DOC)/reference
	$(INSTALL) -m 644 bench/offer.py $(DOC)/bench
	$(INSTALL) -m 644 examples/README.md $(DOC)/examples
	$(INSTALL) -m 644 examples/kamailio/kamailio.cfg examples/kamailio/two-nodes.cfg $(DOC)/examples/kamailio
	$(INSTALL) -m 755 examples/kamailio/call.py examples/kamailio/run.sh $(DOC)/examples/kamailio
	sed 's|/usr/local/|$(PREFIX)/|; s|/etc/default/|$(SYSCONFDIR)/default/|' packaging/rtpengine.service >$(UNITS)/rtpengine.service
	chmod 644 $(UNITS)/rtpengine.service
	@test -e $(DEFAULTS)/rtpengine || $(INSTALL) -m 644 packaging/rtpengine.default $(DEFAULTS)/rtpengine

# Leaves the options in /etc/default where they were changed.
uninstall:
	rm -f $(BIN)/rtpengine $(MAN)/rtpengine.8 $(UNITS)/rtpengine.service
	rm -rf $(LIBEXEC) $(SHARE) $(DOC)
	@! cmp -s packaging/rtpengine.default $(DEFAULTS)/rtpengine || rm -f $(DEFAULTS)/rtpengine

# A Debian package and a tarball of what stands built, in out/: GATE=FILE names what the gate printed.
deb dist:
	packaging/pack $@

.PHONY: all build check sample try man install uninstall deb dist
