# make                       proves and builds the program, and libwitness; and builds the recorder
# make check                 the gate: every proof and every test
# make test-recorder NAME=.. the recorder's tests of these names, else all; `make` comes first
# make install PREFIX=..     puts all under a folder, from where it works without this one
# make format                lays out the crates and the C as they are to be
# make dist                  makes a tar of that, which needs neither Rattle nor a compiler
# docs/GATE.md says how long these take. The last two prove and build the program first, where that wasn't done, and take
# libwitness where it stands built; else a line says how that is.
PREFIX = /usr/local
VERSION := $(shell sed -n 1p VERSION)

all:
	@tools/build
	@[ ! -x libwitness/build ] || libwitness/build --prove || [ $$? -eq 3 ]
	@[ ! -x recorder/build ] || recorder/build >/dev/null

check:
	@echo "the gate: every proof and every test, from nothing, in some two hours (docs/GATE.md), with 10 GB of disk"
	@.ci/run

test-recorder:
	@recorder/test/run $(NAME)

format:
	@tools/format

install:
	@tools/install "$(DESTDIR)$(PREFIX)"

dist:
	@tools/pack "$(VERSION)"

.PHONY: all check format test-recorder install dist
