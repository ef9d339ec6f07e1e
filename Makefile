# `rt` is the command of the Rattle kit; it has to be on the PATH.

PREFIX ?= /usr/local
DESTDIR ?=
BIN = $(DESTDIR)$(PREFIX)/bin
SHARE = $(DESTDIR)$(PREFIX)/share

.PHONY: run try test examples scripts engines wrong-bodies install uninstall

# Proves and builds the program, and has it answer a first session.
run:
	cd crates/cilsem && rt run -- session < ../../examples/first.session

# Builds the program without its proofs, and has it answer a first session.
try:
	cd crates/cilsem && rt try -- session < ../../examples/first.session

# The gate: every proof from nothing, the must-fail edits, the tests and the programs; and what the built programs print of the
# examples, the scripts, the trials and the commands.
test:
	rt ci
	examples/check.sh
	scripts/check.py

# Has the program that `make run` or `make test` built answer the examples, and compares what it prints.
examples:
	examples/check.sh

# Has the programs that `make test` built answer the scripts and make the trials, with both engines, and do the commands, and compares
# what they print.
scripts:
	scripts/check.py

# Has the programs that `make test` built, one for each engine, answer 2000 random scripts, and compares what they print.
engines:
	bench/engines.sh

# Tries the wrong bodies of bench/wrong_bodies one by one, over what `rt check` kept; all of them take some hours, and those of one
# crate, as `make wrong-bodies CRATE=cil_text`, minutes.
wrong-bodies:
	bench/wrong_bodies.py $(CRATE)

# Installs the program that `make run` built, its manual page and its completions.
install:
	test -x crates/cilsem/out/cilsem || { echo 'make run builds the program first' >&2; exit 1; }
	install -d $(BIN) $(SHARE)/man/man1 $(SHARE)/bash-completion/completions $(SHARE)/zsh/site-functions $(SHARE)/fish/vendor_completions.d
	install -m 755 crates/cilsem/out/cilsem $(BIN)/cilsem
	install -m 644 man/cilsem.1 $(SHARE)/man/man1/cilsem.1
	install -m 644 completions/cilsem.bash $(SHARE)/bash-completion/completions/cilsem
	install -m 644 completions/_cilsem $(SHARE)/zsh/site-functions/_cilsem
	install -m 644 completions/cilsem.fish $(SHARE)/fish/vendor_completions.d/cilsem.fish

# Removes what `make install` put there.
uninstall:
	rm -f $(BIN)/cilsem $(SHARE)/man/man1/cilsem.1 $(SHARE)/bash-completion/completions/cilsem $(SHARE)/zsh/site-functions/_cilsem $(SHARE)/fish/vendor_completions.d/cilsem.fish
