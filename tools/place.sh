#!/bin/sh
# place.sh PROGRAM..: puts programs that rt has built into target/bin, under the names that they are called by.
cd "$(dirname "$0")/.." || exit 1
mkdir -p target/bin || exit 1
for program in "$@"; do
    # the kit has a library named check, so the crate of that program has another name
    case $program in
        check) crate=check_table ;;
        *) crate=$program ;;
    esac
    cp "crates/$crate/out/$crate" "target/bin/$program" || exit 1
done
