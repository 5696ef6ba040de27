# Each target calls a script. `make help` lists them.
PREFIX ?= /usr/local

build:
	@bash scripts/build
demo:
	@bash scripts/demo
session:
	@bash scripts/session
inspect:
	@bash scripts/inspect '$(FILE)'
check:
	@bash .ci/run
bench:
	@bash tests/run bench
install:
	@bash scripts/install '$(PREFIX)' '$(DESTDIR)'
help:
	@sed -n 's/^# make /make /p' scripts/* .ci/run tests/run

.PHONY: build demo session inspect check bench install help
