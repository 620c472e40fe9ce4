#!/bin/sh
# build.sh CRATE..: proves and builds crates of programs, which rt leaves in their folders out/. Says what went wrong, and else nothing.
cd "$(dirname "$0")/.." || exit 1
log=$(mktemp) || exit 1
trap 'rm -f "$log"' EXIT
for crate in "$@"; do
    (cd "crates/$crate" && rt run -- --help) >"$log" 2>&1 || { tail -n 20 "$log"; exit 1; }
done
