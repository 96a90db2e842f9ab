# test: the whole verdict, from nothing. show: the listing and the plate of a guide.
# library: the C archive and its header, in target/library. example-c: a C program that links it, on the guides of examples/.
# outside: what the archive needs from outside, which is memcpy and memset alone.
# fuzz: the archive beside the model on N cases of a seed. bench: time, growth, stack, bytes of code and, by count, instructions (callgrind).
# tools: the four tools, each as crates/NAME/out/NAME. tools-test: their stored runs. names: what the documents name, looked up.
.PHONY: test show library outside example-c fuzz bench count harness-test tools tools-test names

GUIDE = examples/incident.guide
N = 1000000
SEED = 1

LIBRARY = target/library
ARCHIVE = $(LIBRARY)/libdoorplate.a
TOOLS = guidewalk platerun platelist listplate
HARNESS = --release --offline --quiet --manifest-path harness/Cargo.toml
C_FLAGS = -std=c99 -O2 -Wall -Wextra -Wpedantic -Werror

test:
	cargo test --release --offline --quiet --manifest-path model/Cargo.toml
	harness/verdict.sh

# `rt run` proves a program, builds it as out/NAME in its crate's folder, and runs it.
show:
	cd crates/plateshow && rt run < $(abspath $(GUIDE))

# With no arguments a tool only tells how it is called.
tools:
	for tool in $(TOOLS); do (cd crates/$$tool && rt run < /dev/null) || exit 1; done

tools-test: tools
	sh tests/tools.sh

names:
	sh tests/names.sh

# Crate doorplate_c exports the calls of crate doorplate. Its archive keeps the name that C callers link.
library:
	cd crates/doorplate_c && rt lib
	mkdir -p $(LIBRARY)
	cp crates/doorplate_c/out/libdoorplate_c.a $(ARCHIVE)
	cp include/doorplate.h $(LIBRARY)

$(ARCHIVE): crates.txt include/doorplate.h $(wildcard crates/*/src/*.rt)
	$(MAKE) library

outside: $(ARCHIVE)
	test "$$(nm -u $(ARCHIVE) | awk 'NF == 2 { print $$2 }' | sort -u | xargs)" = "memcpy memset"

example-c: $(ARCHIVE)
	$(CC) $(C_FLAGS) -I $(LIBRARY) examples/c/runguide.c $(ARCHIVE) -o $(LIBRARY)/runguide
	examples/c/check.sh $(LIBRARY)/runguide

fuzz: $(ARCHIVE)
	cargo run $(HARNESS) --bin fuzz -- $(N) $(SEED)

bench: $(ARCHIVE)
	cargo run $(HARNESS) --bin bench
	size -t $(ARCHIVE)
	$(MAKE) --no-print-directory count

count: $(ARCHIVE)
	cargo run $(HARNESS) --bin bench -- --count

harness-test: $(ARCHIVE)
	cargo test $(HARNESS)
