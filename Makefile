# Two commands do everything: `make run` runs the paper's example log, `make test` proves and tests all of it.
.PHONY: run runlog partlog test deep bench install docs-check

PREFIX ?= /usr/local

# The programs, proved and linked: target/bin/runlog, target/bin/partlog.
runlog partlog:
	@scripts/build $@

# Proves runlog, runs it on the paper's example, crates/runlog/stdin, and shows what it printed; that must be
# crates/runlog/stdout.
run: runlog
	@target/bin/runlog <crates/runlog/stdin >target/log/runlog.stdout
	@cat target/log/runlog.stdout
	@cmp crates/runlog/stdout target/log/runlog.stdout

test:
	@scripts/test

# What is too dear for `make test`: see scripts/deep.
deep:
	@scripts/deep

# The docs against the crates: names, the picture, the width of lines. A second; part of `make test`.
docs-check:
	@scripts/docs-check

# The library and runlog against the Rust implementation: events a second, instructions, stack.
bench:
	@scripts/bench

# Header, archive and programs, for x86-64.
install: runlog partlog
	@scripts/archive
	install -D -m 644 include/cheukdane.h $(DESTDIR)$(PREFIX)/include/cheukdane.h
	install -D -m 644 crates/cheukdane/out/libcheukdane.a $(DESTDIR)$(PREFIX)/lib/libcheukdane.a
	install -D -m 755 target/bin/runlog $(DESTDIR)$(PREFIX)/bin/runlog
	install -D -m 755 target/bin/partlog $(DESTDIR)$(PREFIX)/bin/partlog
