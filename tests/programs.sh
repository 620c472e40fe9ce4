#!/bin/sh
# programs.sh SCRATCH: runs the built programs on good and bad files, and compares standard output, exit status and files.
# Writes the number of checks that passed to SCRATCH/count; ends with status 1 if any failed.
scratch=$1
bin=target/bin
passed=0
failed=0

# check NAME: counts the command before it
check() {
    if [ $? -eq 0 ]; then
        passed=$((passed + 1))
    else
        failed=$((failed + 1))
        echo "FAILED: $1"
    fi
}

# run STATUS COMMAND..: the command ends with that status; its output is in SCRATCH/out and SCRATCH/err
run() {
    expected=$1
    shift
    "$@" >"$scratch/out" 2>"$scratch/err" </dev/null
    [ $? -eq "$expected" ]
}

# out TEXT: what was printed on standard output, and nothing on standard error
out() {
    printf "$1" | cmp -s - "$scratch/out" && [ ! -s "$scratch/err" ]
}

# A refused file: its line, status 1, and the file as it was.
python3 tests/files.py tests/refusals.txt "$scratch/refusals" || exit 1
for file in "$scratch"/refusals/*.bin; do
    cp "$file" "$scratch/before"
    run 1 $bin/drain "$file" && cmp -s "$scratch/out" "${file%.bin}.txt" && [ ! -s "$scratch/err" ] && cmp -s "$file" "$scratch/before"
    check "drain refuses: $(cat "${file%.bin}.txt") ($file)"
done

# The examples, made anew by their script, are the bundled ones.
mkdir "$scratch/examples" && cp examples/make.py "$scratch/examples" && python3 "$scratch/examples/make.py"
for file in examples/*.bin; do
    cmp -s "$file" "$scratch/$file"
    check "$file is what examples/make.py writes"
done

# The small examples, whole: their lines were worked out by hand.
run 0 $bin/drain examples/hollow.bin && out 'cells 9 rain 9 leaves 9\nlevel 4 5\nexit 1 amount 2\n'
check "drain examples/hollow.bin"
run 0 $bin/drain examples/spill.bin && out 'cells 9 rain 9 leaves 9\nlevel 4 3\nexit 5 amount 2\n'
check "drain examples/spill.bin"
run 0 $bin/drain examples/single.bin && out 'cells 1 rain 1 leaves 1\n'
check "drain examples/single.bin"
run 0 $bin/drain examples/sill.bin && out 'cells 15 rain 15 leaves 15\nlevel 6 7\nlevel 8 4\nexit 9 amount 4\n'
check "drain examples/sill.bin"

# Sums and levels of every example beside a slow search.
for file in examples/*.bin; do
    python3 tests/levels.py "$file" >"$scratch/levels"
    run 0 $bin/drain "$file" && grep -v '^exit ' "$scratch/out" | cmp -s - "$scratch/levels"
    check "drain $file has the levels of a slow search"
done

# A table: 20 bytes a cell; that of the single cell is level 4, off, place 0, amount 1.
run 0 $bin/drain examples/single.bin "$scratch/table" && printf '\004\000\000\000\377\377\377\377\000\000\000\000\001\000\000\000\000\000\000\000' | cmp -s - "$scratch/table"
check "drain writes the table of a single cell"
run 0 $bin/drain examples/valley.bin "$scratch/table" && [ "$(wc -c <"$scratch/table")" -eq 48000 ] && [ ! -e "$scratch/table.part" ]
check "drain writes a table of 20 bytes a cell over an old one"
cp "$scratch/table" "$scratch/before"
printf '\001' >"$scratch/short"
run 1 $bin/drain "$scratch/short" "$scratch/table" && out 'refused 1 at 1\n' && cmp -s "$scratch/table" "$scratch/before"
check "a refused model leaves an old table as it was"
run 1 $bin/drain examples/spill.bin "$scratch/none/table" && [ ! -s "$scratch/out" ] && grep -q "^drain: cannot write $scratch/none/table: " "$scratch/err"
check "drain names a table that it cannot write, and prints nothing"

# Basins: of the hollow's nine cells the middle one leaves at cell 1; a refused model is refused here too.
run 0 $bin/drain --basins examples/hollow.bin && out 'exit 0 cells 1 amount 1\nexit 1 cells 2 amount 2\nexit 2 cells 1 amount 1\nexit 3 cells 1 amount 1\nexit 5 cells 1 amount 1\nexit 6 cells 1 amount 1\nexit 7 cells 1 amount 1\nexit 8 cells 1 amount 1\n'
check "drain --basins examples/hollow.bin"
run 0 $bin/drain --basins examples/sill.bin && grep -qx 'exit 9 cells 4 amount 4' "$scratch/out" && [ "$(wc -l <"$scratch/out")" -eq 12 ]
check "drain --basins examples/sill.bin"
run 0 $bin/drain --basins examples/valley.bin && awk '{ c += $4; a += $6 } END { exit !(c == 2400 && a == 300000) }' "$scratch/out"
check "the basins of the valley have all its cells and all its rain"
run 1 $bin/drain --basins "$scratch/short" && out 'refused 1 at 1\n'
check "drain --basins refuses a short file"

# The largest models, with no rain and with all the rain that a model may have.
python3 tests/full.py 0 "$scratch/dry" && python3 tests/full.py 1000000 "$scratch/wet" || exit 1
run 0 $bin/drain "$scratch/dry" && [ "$(head -n 1 "$scratch/out")" = 'cells 160000 rain 0 leaves 0' ] && ! grep -q '^exit ' "$scratch/out"
check "drain 400 by 400 without rain"
run 0 $bin/drain "$scratch/wet" "$scratch/table" && [ "$(head -n 1 "$scratch/out")" = 'cells 160000 rain 160000000000 leaves 160000000000' ]
check "drain 400 by 400 with rain 1,000,000 everywhere"
run 0 $bin/drain --basins "$scratch/wet" && awk '{ c += $4; a += $6 } END { exit !(c == 160000 && a == 160000000000) }' "$scratch/out"
check "the basins of the largest model have all its cells and all its rain"

# Tables: those that drain writes are accepted; others by the conditions alone, the first fault first.
run 0 $bin/check "$scratch/wet" "$scratch/table" && out 'accepted\n'
check "check accepts the table of the largest model"
run 1 $bin/check "$scratch/dry" "$scratch/table" && out 'refused 9 at 0\n'
check "check refuses a table that was made for other rain"
for file in examples/*.bin; do
    run 0 $bin/drain "$file" "$scratch/table" && run 0 $bin/check "$file" "$scratch/table" && out 'accepted\n'
    check "check accepts the table of $file"
done
python3 tests/tables.py "$scratch/tables" || exit 1
for file in "$scratch"/tables/*.table; do
    answer="${file%.table}.txt"
    status=1
    grep -q '^accepted$' "$answer" && status=0
    cp "$file" "$scratch/before"
    run $status $bin/check examples/hollow.bin "$file" && cmp -s "$scratch/out" "$answer" && [ ! -s "$scratch/err" ] && cmp -s "$file" "$scratch/before"
    check "check says $(cat "$answer") ($file)"
done
run 1 $bin/check "$scratch/short" "$scratch/table" && out 'refused 1 at 1\n'
check "check refuses a short model before it looks at the table"
run 1 $bin/check examples/spill.bin "$scratch/none" && [ ! -s "$scratch/out" ] && grep -q "^check: cannot read $scratch/none: " "$scratch/err"
check "check names a table that is not there"
run 0 $bin/check --help && grep -q '^usage: check MODEL TABLE' "$scratch/out"
check "check --help prints its usage"

# Rows of changes: what comes of each was worked out by hand; the changed model and its table are as if drained from the start.
printf '# a row\nheight 5 5\nrain 4 3\r\ndrain 4 1\n\nheight 9 1\nmud\ndrain 4 0\nheight 5 3' >"$scratch/row"
cp examples/spill.bin "$scratch/before"
run 0 $bin/change examples/spill.bin "$scratch/row" "$scratch/model" "$scratch/table" && printf 'leaves 9 changed 2\nleaves 11 changed 0\nleaves 11 changed 1\nrefused 5 at 3\nrefused 5 at 4\nleaves 11 changed 1\nleaves 11 changed 2\n' | cmp -s - "$scratch/out" && printf 'change: line 7 is no change\n' | cmp -s - "$scratch/err" && cmp -s examples/spill.bin "$scratch/before"
check "change applies a row, answers each change, and hints at a line that is none"
run 0 $bin/check "$scratch/model" "$scratch/table" && out 'accepted\n'
check "check accepts the model and the table that change writes"
run 0 $bin/drain "$scratch/model" "$scratch/fresh" && cmp -s "$scratch/table" "$scratch/fresh"
check "the table that change writes is that of a fresh drain"
printf 'rain 4 1' >"$scratch/row"
run 0 $bin/change "$scratch/model" "$scratch/row" "$scratch/model" && out 'leaves 9 changed 0\n' && cmp -s "$scratch/model" examples/spill.bin
check "change takes changes back, and may write over its own model"
printf '' >"$scratch/row"
run 0 $bin/change examples/valley.bin "$scratch/row" "$scratch/model" "$scratch/table" && out '' && cmp -s "$scratch/model" examples/valley.bin && run 0 $bin/check examples/valley.bin "$scratch/table"
check "change with an empty row writes the model as it is, and its table"
cp "$scratch/table" "$scratch/before"
run 1 $bin/change "$scratch/short" "$scratch/row" "$scratch/new" "$scratch/table" && out 'refused 1 at 1\n' && [ ! -e "$scratch/new" ] && cmp -s "$scratch/table" "$scratch/before"
check "a refused model leaves no changed model, and an old table as it was"
run 1 $bin/change examples/spill.bin "$scratch/none" "$scratch/new" && [ ! -s "$scratch/out" ] && grep -q "^change: cannot read $scratch/none: " "$scratch/err" && [ ! -e "$scratch/new" ]
check "change names a row that is not there"
run 1 $bin/change examples/spill.bin "$scratch/row" "$scratch/none/new" && [ ! -s "$scratch/out" ] && grep -q "^change: cannot write $scratch/none/new: " "$scratch/err"
check "change names a model that it cannot write, and prints nothing"
run 0 $bin/change --help && grep -q '^usage: change MODEL CHANGES' "$scratch/out"
check "change --help prints its usage"

# The text at its edges, on the hollow changed a little: its middle, cell 4, sends to cell 1; lines were worked out by hand.
edge() {
    printf "$1" >"$scratch/row"
    run 0 $bin/change examples/hollow.bin "$scratch/row" "$scratch/model" && run 0 $bin/drain "$scratch/model" && out "$2"
    check "drain at an edge: $3"
}
edge 'height 4 5' 'cells 9 rain 9 leaves 9\nexit 1 amount 2\n' "a level that is just the height has no line"
edge 'height 4 4' 'cells 9 rain 9 leaves 9\nlevel 4 5\nexit 1 amount 2\n' "a level just above its height has one"
edge 'rain 4 0' 'cells 9 rain 8 leaves 8\nlevel 4 5\n' "an exit where just its own rain leaves has no line"
edge 'rain 1 0' 'cells 9 rain 8 leaves 8\nlevel 4 5\nexit 1 amount 1\n' "an exit just above its own rain has one"
edge 'rain 4 1000000' 'cells 9 rain 1000008 leaves 1000008\nlevel 4 5\nexit 1 amount 1000001\n' "the most rain on a cell"
edge 'height 1 1000000\nheight 3 1000000\nheight 5 1000000\nheight 7 1000000\nheight 4 0' 'cells 9 rain 9 leaves 9\nlevel 4 1000000\nexit 1 amount 2\n' "the highest level over the lowest height"

# Usage, and files that cannot be read.
run 0 $bin/drain --help && grep -q '^usage: drain MODEL' "$scratch/out"
check "drain --help prints its usage"
run 0 $bin/drain && grep -q '^usage: drain MODEL' "$scratch/out"
check "drain without arguments prints its usage"
run 1 $bin/drain "$scratch/none" && [ ! -s "$scratch/out" ] && [ "$(wc -l <"$scratch/err")" -eq 1 ] && grep -q "^drain: cannot read $scratch/none: " "$scratch/err"
check "drain names a file that is not there"
run 1 $bin/drain "$scratch" && [ ! -s "$scratch/out" ] && [ "$(wc -l <"$scratch/err")" -eq 1 ]
check "drain names a folder that it cannot read"

echo "$passed" >"$scratch/count"
[ "$failed" -eq 0 ] || echo "$failed checks of the programs failed"
[ "$failed" -eq 0 ]
