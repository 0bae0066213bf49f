# What to prove, build, run and install; `make` lists it. What is linked is proved first, and nothing is proved again while it is unchanged.
PREFIX ?= /usr/local
TREE = $(DESTDIR)$(abspath $(PREFIX))

# What is proved, folders too, so that a file that is gone counts as a change.
PROVED := crates.txt .ci/prove $(shell find crates/*/src crates/*/specs crates/*/proofs 2> /dev/null)
HEADERS := include/geckoneedle.h hosts/geckoneedle_text.h
VERSION := $(shell sed -n 's/^.define GECKONEEDLE_VERSION "\(.*\)".*/\1/p' include/geckoneedle.h)
BENCH = cargo run --quiet --offline --profile measure --manifest-path rust/Cargo.toml -p linked --bin bench

# asks WORD,EXAMPLE: the target needs WORD=path. finds WORD: and a file that is there. Both come before anything is proved.
asks = @test -n "$($(1))" || { echo "Which file is $(1)? For example: make $@ $(2)"; exit 2; }
finds = @test -f "$($(1))" || { echo "There is no file $($(1))."; exit 2; }

help: ## this list
	@awk -F ':.*## ' '/^[a-z]+:.*## / { printf "make %-13s %s\n", $$1, $$2 }' Makefile

run: build/list ## the listing of a sample record: proves the listing program, builds it and runs it
	@build/list < samples/example.rec

list: ## RECORD=x: the listing of record file x
	$(call asks,RECORD,RECORD=samples/priors.rec)
	$(call finds,RECORD)
	@$(MAKE) --silent build/list
	@build/list < "$(RECORD)"

record: ## NUMBERS=t RECORD=x: record file x from text t of its whole numbers
	$(call asks,NUMBERS,NUMBERS=samples/bench.numbers RECORD=build/bench.rec)
	$(call asks,RECORD,NUMBERS=$(NUMBERS) RECORD=build/bench.rec)
	$(call finds,NUMBERS)
	@$(MAKE) --silent build/record
	@build/record -o "$(RECORD)" "$(NUMBERS)"

numbers: ## RECORD=x: the whole numbers of record file x as such a text
	$(call asks,RECORD,RECORD=samples/priors.rec)
	$(call finds,RECORD)
	@$(MAKE) --silent build/record
	@build/record -n "$(RECORD)"

lib: build/libgeckoneedle.a build/geckoneedle.h ## build/libgeckoneedle.a and build/geckoneedle.h, to link against; proved first

host: build/record ## the C programs build/detect, build/threads and build/record; runs the first on a sample
	@build/detect samples/example.rec

install: build/libgeckoneedle.a build/libgeckoneedle_text.a ## libraries, headers and geckoneedle.pc to PREFIX=/usr/local, under DESTDIR if given
	@install -d "$(TREE)/include" "$(TREE)/lib/pkgconfig"
	@install -m 644 $(HEADERS) "$(TREE)/include"
	@install -m 644 build/libgeckoneedle.a build/libgeckoneedle_text.a "$(TREE)/lib"
	@sed 's|@PREFIX@|$(abspath $(PREFIX))|; s|@VERSION@|$(VERSION)|' include/geckoneedle.pc.in > build/geckoneedle.pc
	@install -m 644 build/geckoneedle.pc "$(TREE)/lib/pkgconfig"

test: ## the whole test, .ci/run: proves every crate, tries every must-fail edit, runs and links everything
	.ci/run

bench: build/libgeckoneedle.a ## times of the proved detector beside the fast Rust one; RECORDS=folder: on that folder's records
	@$(BENCH) -- times $(RECORDS)

instructions: build/libgeckoneedle.a ## instructions for each walked node of both, by valgrind; RECORDS=folder as above
	@rm -rf build/records && mkdir -p build/records
	@$(BENCH) -- records build/records
	@rust/linked/instructions.sh $(or $(RECORDS),build/records)

peer: ## soft values and times beside IT++'s exhaustive demodulator, on the same random vectors; needs g++ and IT++
	@command -v itpp-config > /dev/null || { echo "There is no IT++ to compare with. On Debian: apt-get install libitpp-dev"; exit 2; }
	@$(MAKE) --silent build/peer
	@build/peer

figures: build/libgeckoneedle.a ## measures all again and renews docs/figures/ and docs/PERFORMANCE.md; needs valgrind
	rust/linked/figures.sh

clean: ## removes what was built; what was proved stays, in crates/*/out
	rm -rf build rust/target

# The listing program. `rt run` runs it, too, on no bytes. What was proved and built here stays good as long as the crates are unchanged.
build/list: $(PROVED)
	@.ci/prove list run list
	@cp crates/list/out/list build/list.new && mv build/list.new build/list

build/libgeckoneedle.a: $(PROVED) .ci/lib
	@.ci/lib

build/geckoneedle.h: include/geckoneedle.h
	@mkdir -p build && cp include/geckoneedle.h build/geckoneedle.h

build/libgeckoneedle_text.a: hosts/geckoneedle_text.c $(HEADERS) hosts/build.sh
	@hosts/build.sh text

# The last of the host programs that hosts/build.sh makes, for all of them.
build/record: build/libgeckoneedle.a $(HEADERS) $(wildcard hosts/*.[ch]) hosts/build.sh
	@hosts/build.sh

# NDEBUG as in Debian's IT++, so that what its headers hold is compiled as in the library, and its times are its own.
build/peer: build/libgeckoneedle.a build/geckoneedle.h hosts/peer.cpp
	@g++ -std=c++11 -O2 -DNDEBUG -Wall -Wextra -Wpedantic -Werror -Ibuild $$(itpp-config --cflags) hosts/peer.cpp $< $$(itpp-config --libs) -o $@

.PHONY: help run list record numbers lib host install test bench instructions peer figures clean
.NOTPARALLEL:
