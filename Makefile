# Proves, builds, runs and tests the optimiser. All that is needed is the Rattle kit (the command rt).

sources := $(shell find crates -name out -prune -o -type f -print) crates.txt

.PHONY: all run try test bench

all: bin/pea

bin/pea: $(sources)
	@echo "Proving from nothing takes about an hour of four processors; what is proved is kept for the next time."
	bash scripts/build.sh

run: bin/pea
	bash scripts/run-example.sh

bin/pea-unproved: $(sources)
	bash scripts/build-unproved.sh

try: bin/pea-unproved
	@echo "Nothing is proved of bin/pea-unproved. Try it on the examples:"
	@echo "  bin/pea-unproved verify examples/first/in --lib examples/first/lib"
	@echo "  bin/pea-unproved plan examples/points/in --lib examples/first/lib"
	@echo "  bin/pea-unproved run examples/points/in examples/points/script --lib examples/first/lib"

test:
	bash .ci/run

bench: bin/pea
	bash bench/copy.sh
	bash bench/codes.sh
	bash bench/listing.sh
	bash bench/classes.sh
	bash bench/trees.sh
	bash bench/links.sh
	bash bench/rewriting.sh
	bash bench/library.sh
	bash bench/verify.sh
	bash bench/expand.sh
	bash bench/optimise.sh
	bash bench/sizes.sh
	bash bench/run.sh
	bash bench/jar.sh
