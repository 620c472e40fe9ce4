#!/bin/sh
# Proves and builds our drain, as a static library and as a program, builds the C++ beside it, and times them in one run.
cd "$(dirname "$0")/.." || exit 1
sh tests/need.sh rt g++ || exit 1
scratch=$(mktemp -d) || exit 1
trap 'rm -rf "$scratch"' EXIT

echo "proving and building; the first time takes some minutes"
sh tools/build.sh drain && sh tools/place.sh drain || exit 1
(cd crates/bench_api && rt lib) >"$scratch/log" 2>&1 || { tail -n 20 "$scratch/log"; exit 1; }
kit=$(dirname "$(rt doc)")
mkdir -p target/bench || exit 1
compile="g++ -O2 -std=c++17 -Wall -Wextra"
$compile bench/drain.cpp -o target/bench/drain || exit 1
$compile bench/bench.cpp crates/bench_api/out/libbench_api.a "$kit/c/libos_c.a" "$kit/c/liblibc_c.a" -o target/bench/bench || exit 1
target/bench/bench target/bin/drain target/bench/drain "$scratch"
