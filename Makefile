# make run   proves and builds the drain program, and drains the example valley
# make test  proves every crate and runs every test; its last line counts them
# make bench times the drain beside C++; see bench/README.md
.PHONY: run test bench

run:
	@sh tests/need.sh rt
	@echo "proving and building drain; the first time takes some minutes"
	@sh tools/build.sh drain && sh tools/place.sh drain
	target/bin/drain examples/valley.bin

test:
	@sh tests/run.sh

bench:
	@sh bench/run.sh
