# make run: the readings of some words by the Spanish sample grammar. make test: the gate. make bench: what a block and a word cost, and the same words by other tools.
# make install, make uninstall: the command, the library, its header and its pkg-config file, in PREFIX; DESTDIR stands before it for a package.
.PHONY: run test bench install uninstall

PREFIX = /usr/local

run:
	@tools/need rt cargo cc
	@tools/prove lines check_image
	@tools/command
	@target/cargo/release/headwords read grammars/spanish.txt luz luces luzes rey reyes

test:
	@tools/need rt cargo cc
	@.ci/run

bench:
	@tools/need rt cargo cc valgrind python3
	@bench/blocks
	@echo
	@bench/listings
	@echo
	@bench/growth
	@echo
	@bench/hostile
	@echo
	@bench/rules
	@echo
	@bench/command
	@echo
	@bench/others

install:
	@tools/need rt cargo cc
	@DESTDIR='$(DESTDIR)' tools/install '$(PREFIX)'

uninstall:
	@DESTDIR='$(DESTDIR)' tools/install --remove '$(PREFIX)'
