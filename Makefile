# make demo | test | bench | install PREFIX=.. | plain-test. Each does its own set-up. ARCHIVE=path takes an archive that is there already.
PREFIX ?= /usr/local
VERSION = 0.1.0
export ARCHIVE

.PHONY: demo test plain-test bench install

demo:
	@scripts/demo.sh

test:
	@scripts/test.sh

# the same tests against the hand-written C
plain-test:
	@scripts/test.sh plain

bench:
	@scripts/bench.sh

install:
	@scripts/setup.sh build
	@archive=$$(scripts/archive.sh) && \
	install -d '$(DESTDIR)$(PREFIX)/include' '$(DESTDIR)$(PREFIX)/lib/pkgconfig' && \
	install -m 644 include/winchclover.h '$(DESTDIR)$(PREFIX)/include/' && \
	install -m 644 "$$archive" '$(DESTDIR)$(PREFIX)/lib/libwinchclover.a' && \
	sed -e 's|@PREFIX@|$(PREFIX)|' -e 's|@VERSION@|$(VERSION)|' winchclover.pc.in > '$(DESTDIR)$(PREFIX)/lib/pkgconfig/winchclover.pc'
