# Vizdroun: `make run` shows it at work, `make test` is the whole gate.
PROGRAMS := avscan avguard avtool
# where they were built: a program lies at $(BUILT)/NAME/out/NAME
BUILT := crates
PROGRAM = $(BUILT)/avscan/out/avscan
EXAMPLE := examples/late_reply.avs
FILES := examples/test.avsig examples/letter.txt examples/eicar.com.txt
PREFIX ?= /usr/local
SHARE = $(DESTDIR)$(PREFIX)/share

# `run` shows the example before it proves, also with -j
.NOTPARALLEL:
.PHONY: build avscan run unproved try test proofs soak gate-times bench install install-built install-client install-onaccess deb $(PROGRAMS:%=install-%) clean kit

build: kit
	@echo "building: proving each crate and compiling $(PROGRAMS) (README.md says how long the first time takes)"
	@python3 gate/prove.py $(PROGRAMS) || { echo "make: not all of $(PROGRAMS) were built: the lines above say why" >&2; exit 1; }
	@echo "built: $(foreach name,$(PROGRAMS),$(BUILT)/$(name)/out/$(name))"

avscan: kit
	@echo "building: proving each crate and compiling avscan (README.md says how long the first time takes)"
	@python3 gate/prove.py avscan || { echo "make: avscan was not built: the lines above say why" >&2; exit 1; }
	@echo "built: $(PROGRAM)"

run: unproved avscan
	@echo "running: $(PROGRAM) host $(FILES)"
	@$(PROGRAM) host $(FILES)
	@echo "running: $(PROGRAM) run $(EXAMPLE)"
	@$(PROGRAM) run $(EXAMPLE)

# where no program was built yet: what the proof is for, within minutes
unproved: kit
	@test -e "$(PROGRAM)" || { echo "not proved yet: the lines until \`building\`"; $(MAKE) --no-print-directory try || echo "make: no example without a proof; the proof begins" >&2; }

try: kit
	@echo "trying $(EXAMPLE) without any proof: what this shows is not checked"
	@cd crates/avscan && rt try -- run "$(CURDIR)/$(EXAMPLE)"

test: kit
	@if [ -n "$(CRATE)" ]; then gate/crate.sh "$(CRATE)"; else gate/gate.sh; fi

proofs: kit
	@room=$$(mktemp -d) && trap 'rm -rf "$$room"' EXIT && sh gate/whole.sh "$$room"

# a guard for so many hours beside all that happens to it, with flat memory and descriptors as the verdict
HOURS := 1
soak: build
	@python3 tests/soak.py "$(PROGRAM)" $$(awk 'BEGIN { print $(HOURS) * 3600 }')

gate-times:
	@python3 gate/times.py

bench: build
	@bench/run.sh

install: build
	@$(MAKE) --no-print-directory install-built

install-built: $(PROGRAMS:%=install-%) $(if $(filter avguard,$(PROGRAMS)),install-client install-onaccess)
	@install -d "$(SHARE)/man/man5"
	@sh man/page.sh avsig.5 $(PROGRAM) > "$(SHARE)/man/man5/avsig.5"
	@sh man/page.sh avscript.5 $(PROGRAM) > "$(SHARE)/man/man5/avscript.5"
	@echo "installed: $(PROGRAMS) in $(DESTDIR)$(PREFIX)/bin, with their manual pages and completions in $(SHARE)"

$(PROGRAMS:%=install-%): install-%:
	@install -D -m 755 $(BUILT)/$*/out/$* "$(DESTDIR)$(PREFIX)/bin/$*"
	@install -d "$(SHARE)/man/man1"
	@sh man/page.sh $*.1 $(BUILT)/$*/out/$* > "$(SHARE)/man/man1/$*.1"
	@install -D -m 644 completions/$*.bash "$(SHARE)/bash-completion/completions/$*"
	@install -D -m 644 completions/_$* "$(SHARE)/zsh/site-functions/_$*"
	@install -D -m 644 completions/$*.fish "$(SHARE)/fish/vendor_completions.d/$*.fish"

# what a program in C or C++ asks a guard with
install-client:
	@install -D -m 644 examples/client/avask.h "$(DESTDIR)$(PREFIX)/include/avask.h"

# the helper that has the kernel hold opens: not proved, for Linux alone, and left out where it can't be built
install-onaccess:
	@room=$$(mktemp -d) && trap 'rm -rf "$$room"' EXIT && \
	if $(CC) -std=c11 -O2 -pthread -o "$$room/avguard-onaccess" examples/fanotify/avguard-onaccess.c 2> "$$room/log"; then \
		install -D -m 755 "$$room/avguard-onaccess" "$(DESTDIR)$(PREFIX)/bin/avguard-onaccess"; \
	else \
		echo "left out: avguard-onaccess, which needs a C compiler and the headers of Linux (examples/fanotify/README.md)"; \
	fi

deb: build
	@mkdir -p out
	@sh package/deb.sh "$(BUILT)" out

clean:
	@rm -rf crates/*/out
	@echo "cleaned: what was built and proved is gone"

kit:
	@command -v rt > /dev/null || { echo "make: the Rattle kit's command rt is not on the path: install the kit and call make again" >&2; exit 1; }
