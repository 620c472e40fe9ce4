#!/bin/sh
# Every check of the repository: the proofs, then the programs from outside. The last line counts them all.
cd "$(dirname "$0")/.." || exit 1
sh tests/need.sh rt python3 cmp tee || exit 1
scratch=$(mktemp -d) || exit 1
trap 'rm -rf "$scratch"' EXIT

{ rt ci 2>&1; echo $? >"$scratch/status"; } | tee "$scratch/ci"
if [ "$(cat "$scratch/status")" -ne 0 ]; then
    echo "rt ci failed"
    exit 1
fi
if grep -q '^rt: ok.*, [0-9][0-9]* bad' "$scratch/ci"; then
    echo "rt ci found edits that are bad"
    exit 1
fi
proved=$(tail -n 1 "$scratch/ci" | sed -n 's/^\([0-9][0-9]*\) passed, 0 failed$/\1/p')
if [ -z "$proved" ]; then
    echo "rt ci did not end with its count"
    exit 1
fi

sh tools/place.sh drain check change || exit 1
sh tests/programs.sh "$scratch" || exit 1
tested=$(cat "$scratch/count") || exit 1
compared=$(python3 -B tests/random_models.py target/bin "$scratch/random") || exit 1
echo "$compared comparisons on random models agree"
echo "$((proved + tested + compared)) passed, 0 failed"
