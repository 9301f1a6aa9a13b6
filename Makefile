# What to make: `make try`, `make run`, `make lib`, `make install`, `make uninstall`, `make dist`, `make test`,
# `make edits`, `make ci`, `make limits`, `make bench` and `make release`.

PREFIX ?= /usr/local
LV := crates/lv/out/lv
LIBRARY := out/lib
OUT ?= out/orders.canon.arrows

.PHONY: try run lib test edits ci limits bench dist release install install-files uninstall lv need-rt need-python

# Recasts the sample stream to a file of its own, and inspects that file; then runs the script of the report, which
# writes three views.
run: lv
	@mkdir -p out
	$(LV) recast examples/orders.arrows $(OUT)
	$(LV) inspect $(OUT)
	$(LV) check examples/report/report.toml
	$(LV) run examples/report/report.toml examples/report/script
	$(LV) inspect out/report-2.arrows

# A first look, within two minutes of cloning: lv is compiled with checks that stop it, nothing is proved, and the report's
# tables are printed before a correction, after it, and once it is undone.
REPORT := report.toml tables ports.arrows calls.arrows withdrawn.arrows corrected.arrows
try: need-rt
	@cd crates/lv && rt try $(foreach it,$(REPORT),--data $(it)=../../examples/report/$(it)) -- run report.toml tables
	@echo "(proved=no: this was a try; make run proves lv first)"

# Proves and builds the library for C, include/lv.h, as out/lib/liblv.a and out/lib/liblv.so.
lib: need-rt
	@cd crates/lv_c && rt lib
	@tools/makers/make-library.sh crates/lv_c/out/liblv_c.a $(LIBRARY)

# The merge gate: every proof from nothing, contracts, layout, tests, the program over its runs, and then must-fail edits:
# of crates whose edits were all refused as they stand (tools/gate/edits-tried.txt) a fifth, and none begun 40 minutes
# after its beginning or later. `make release` tries all that aren't recorded, however long it takes.
test: need-rt need-python
	@tools/gate/gate.py

# Tries, over kept proofs, the must-fail edits of the crates that changed since all of theirs were refused, and records in
# tools/gate/edits-tried.txt the crates of which all were, each as soon as it is done.
edits: need-rt need-python
	@rt all check
	@tools/gate/edits.py --rest --record

# The toolchain's own gate, which proves each crate three times and tries each edit by itself; before a release. Where it
# passes, tools/gate/edits-tried.txt has all crates.
ci: need-rt need-python
	@tools/gate/ci.py

# Streams at the limits of the format's profile, and just past them, and 64 undos of large batches.
limits: lv need-python
	@tools/runs/check-profile.py

# Time and memory of recasting 25 to 400 MB, beside `cat` of the same file; of edits; of writing plain views; of a view
# with a coded column; of views with filters; of round trips with `lv live`; of a session of a million edits; of edits of
# a side table; and of joining bitmaps, by lanes and bit by bit.
bench: lv need-python
	@tools/bench/bench.py
	@tools/bench/bench-edits.py
	@tools/bench/bench-writes.py
	@tools/bench/bench-coded.py
	@tools/bench/bench-filters.py
	@tools/bench/bench-live.py
	@tools/bench/bench-churn.py
	@tools/bench/bench-sides.py
	@cd crates/kernel_bench && rt run > /dev/null
	@tools/bench/bench-kernels.py

# The program, its manual page and its completions, below PREFIX of DESTDIR, and of the library for C what was made.
ROOT = $(DESTDIR)$(PREFIX)
SHARE = $(ROOT)/share
VERSION := $(shell cat VERSION)
SHARED := liblv.so.$(firstword $(subst ., ,$(VERSION)))
PARTS = $(ROOT)/bin/lv $(SHARE)/man/man1/lv.1 $(SHARE)/bash-completion/completions/lv \
    $(SHARE)/zsh/site-functions/_lv $(SHARE)/fish/vendor_completions.d/lv.fish \
    $(addprefix $(ROOT)/lib/,liblv.a liblv.so $(SHARED) pkgconfig/lv.pc) $(ROOT)/include/lv.h

install: lv install-files

install-files:
	install -D -m 755 $(LV) $(ROOT)/bin/lv
	install -D -m 644 docs/lv.1 $(SHARE)/man/man1/lv.1
	install -D -m 644 tools/makers/completion/lv.bash $(SHARE)/bash-completion/completions/lv
	install -D -m 644 tools/makers/completion/lv.zsh $(SHARE)/zsh/site-functions/_lv
	install -D -m 644 tools/makers/completion/lv.fish $(SHARE)/fish/vendor_completions.d/lv.fish
ifneq ($(wildcard $(LIBRARY)/$(SHARED)),)
	install -D -m 644 $(LIBRARY)/liblv.a $(ROOT)/lib/liblv.a
	install -D -m 755 $(LIBRARY)/$(SHARED) $(ROOT)/lib/$(SHARED)
	ln -sf $(SHARED) $(ROOT)/lib/liblv.so
	install -D -m 644 include/lv.h $(ROOT)/include/lv.h
	mkdir -p $(ROOT)/lib/pkgconfig
	sed 's|@PREFIX@|$(PREFIX)|; s|@VERSION@|$(VERSION)|' lv.pc.in > $(ROOT)/lib/pkgconfig/lv.pc
endif

# A tarball that is installed without the toolchain, a Debian package, and their checksums, of the program and the library
# as they were proved and built.
dist: lv lib need-python
	@tools/makers/dist.py

# What a release needs: the gate with all must-fail edits that weren't refused of this very text yet and with the proofs of
# the tests' own functions, streams at the limits, and the packages, installed and used in folders of their own.
release: need-rt need-python
	@tools/gate/gate.py --rest --record
	@$(MAKE) --no-print-directory limits dist
	@tools/runs/check-dist.py

# Takes away what `make install` puts there, with the same PREFIX and DESTDIR.
uninstall:
	rm -f $(PARTS)

# `rt run` proves, builds and runs. With no words `lv` ends with status 2, which is also the status
# of a refused proof, so what counts is whether the program is there afterwards.
lv: need-rt
	@rm -f $(LV)
	@cd crates/lv && { rt run || true; } | sed '/^wrong use$$/d'
	@test -x $(LV) || { echo "lv was not built: see the messages above" >&2; exit 1; }

need-rt:
	@command -v rt > /dev/null || { echo "rt, the Rattle toolchain's command, is not on the PATH" >&2; exit 1; }

need-python:
	@command -v python3 > /dev/null || { echo "python3 is not on the PATH" >&2; exit 1; }
