.PHONY: lint build install uninstall demo test check bench

PREFIX ?= /usr/local

MODC := $(CURDIR)/crates/modc/out/modc
LEX_COUNT := $(CURDIR)/crates/lex_count/out/lex_count

# Proves and builds the program. It is built by being run: without words it ends with status 2.
build:
	@mkdir -p out
	@rm -f $(MODC)
	@echo "proving and building modc, the better part of an hour at the first time; the log is out/build.log"
	@cd crates/modc && rt run > $(CURDIR)/out/build.log 2>&1; test -x $(MODC) || { cat $(CURDIR)/out/build.log; exit 1; }

# Runs the examples of README without a proof, within a minute or two.
demo:
	tools/demo

# The gate: every proof, every must-fail edit, every test and every program.
test:
	rt ci

# Puts the built program and its man page in place, below PREFIX.
install:
	@test -x $(MODC) || { echo "not built yet: make build"; exit 1; }
	install -D -m 755 $(MODC) $(DESTDIR)$(PREFIX)/bin/modc
	install -D -m 644 man/modc.1 $(DESTDIR)$(PREFIX)/share/man/man1/modc.1

uninstall:
	rm -f $(DESTDIR)$(PREFIX)/bin/modc $(DESTDIR)$(PREFIX)/share/man/man1/modc.1

# The pages held against the code, without a proof.
lint:
	tools/lint

# Lint and the tests of the tools; the gate is `make test`.
check: lint
	python3 -B -m unittest discover -s tools/tests

# Time and memory on large inputs.
bench: build
	bench/first_path $(MODC)
	bench/modules $(MODC)
	@cd crates/lex_count && rt run < stdin > $(CURDIR)/out/lex_count.log 2>&1; test -x $(LEX_COUNT) || { cat $(CURDIR)/out/lex_count.log; exit 1; }
	bench/lex $(LEX_COUNT)
