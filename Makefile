# Everything here is made from this repository's own files and the kit's `rt`.

PREFIX ?= /usr/local
SOURCES := $(shell find crates -path '*/out' -prune -o -type f -print) crates.txt HANDLES

.PHONY: all demo test bench install clean

all: build/t3

# `rt run` proves the program and each crate below it, builds it and runs it;
# the run itself, with no words, ends in the usage line and its status.
build/t3: $(SOURCES)
	mkdir -p build
	cd crates/t3 && rm -f out/t3 && { rt run || true; } && test -x out/t3
	cp crates/t3/out/t3 $@

# The program that `bench/page` times: its input on lines of 79 columns.
build/t3_page: $(SOURCES)
	mkdir -p build
	cd crates/t3_page && rm -f out/t3_page && { rt run < stdin || true; } && test -x out/t3_page
	cp crates/t3_page/out/t3_page $@

# The program that `bench/store` and `bench/undo` time.
build/t3_store_bench: $(SOURCES)
	mkdir -p build
	cd crates/t3_store_bench && rm -f out/t3_store_bench && { rt run -- objects 1 || true; } && test -x out/t3_store_bench
	cp crates/t3_store_bench/out/t3_store_bench $@

# A first look: built once, without its proofs, to assemble five sources and to run the images of them, three of
# which ask for lines. No program is kept.
ASKED := look\nlight\nlook\nquit\n
MOVED := e\ne\nundo\nundo\nundo\nw\n
SAVED := e\nsave\ne\nrestore\nundo\nrestart\n
demo: examples/answer.t3
	@echo 'This takes a minute or two. The build is not proved, and is not kept: make proves the program and builds it.'
	@rm -rf build/demo && mkdir -p build/demo
	@for story in answer asks cave counter saves; do \
		cp examples/$$story.t3s build/demo/$$story-asm && printf 'asm\n{}\n%s.t3\n' $$story > build/demo/$$story-asm.args; \
		cp examples/$$story.t3 build/demo/$$story-run && printf 'run\n{}\n' > build/demo/$$story-run.args; \
	done
	@printf '$(ASKED)' > build/demo/asks-run && printf 'run\nasks.t3\n' > build/demo/asks-run.args
	@printf '$(MOVED)' > build/demo/cave-run && printf 'run\ncave.t3\n' > build/demo/cave-run.args
	@printf '$(SAVED)' > build/demo/saves-run && printf 'run\nsaves.t3\n' > build/demo/saves-run.args
	@cd crates/t3 && rt try --cases ../../build/demo --data asks.t3=../../examples/asks.t3 --data cave.t3=../../examples/cave.t3 \
		--data saves.t3=../../examples/saves.t3 \
		> ../../build/demo.out 2> ../../build/demo.log || { cat ../../build/demo.log; exit 1; }
	@sed -e 's/^== \(.*\)-asm$$/$$ t3 asm \1.t3s \1.t3/' \
		-e "s/^== asks-run$$/$$ printf '$(subst \,\\\\,$(ASKED))' | t3 run asks.t3/" \
		-e "s/^== cave-run$$/$$ printf '$(subst \,\\\\,$(MOVED))' | t3 run cave.t3/" \
		-e "s/^== saves-run$$/$$ printf '$(subst \,\\\\,$(SAVED))' | t3 run saves.t3/" \
		-e 's/^== \(.*\)-run$$/$$ t3 run \1.t3/' build/demo.out

examples/answer.t3: examples/make.sh
	@sh examples/make.sh

test:
	.ci/run

bench: build/t3 build/t3_page build/t3_store_bench
	bench/asm
	bench/calls
	bench/check
	bench/load
	bench/page
	bench/pools
	bench/rewrite
	bench/run
	bench/say
	bench/state
	bench/store
	bench/undo

# The program, its manual page, and its completions for bash and zsh.
SHARE = $(DESTDIR)$(PREFIX)/share
install: build/t3
	install -d "$(DESTDIR)$(PREFIX)/bin" "$(SHARE)/man/man1"
	install -d "$(SHARE)/bash-completion/completions" "$(SHARE)/zsh/site-functions"
	install -m 755 build/t3 "$(DESTDIR)$(PREFIX)/bin/t3"
	install -m 644 docs/t3.1 "$(SHARE)/man/man1/t3.1"
	install -m 644 completions/t3.bash "$(SHARE)/bash-completion/completions/t3"
	install -m 644 completions/_t3 "$(SHARE)/zsh/site-functions/_t3"

clean:
	rm -rf build
