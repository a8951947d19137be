#!/usr/bin/env bash
# Pushes 20 million rows of one number, and 5 million rows of a text of 40 bytes and a number, to a file in a pool that holds
# all, and reads them back, beside a loop of plain Rust that copies the same bytes into vectors of 64 KiB and reads the rows
# back one by one.
# Wanted: a push at most 1.8 times the time of the loop's, and a row of one column read at most 3 times.
#
# usage: bench/file.sh [RUNS]   7 runs if left out
. "$(dirname "$0")/common.sh"

runs=${1:-7}

say "proving and building both programs (some minutes where the file's crates weren't proved before) ..."
copy_repository dia_file block_pool turn_table pool_core pool_defs dia_item row_defs dia_edge
crate=$work/repository/crates/bench_file
mkdir -p "$crate/src" "$crate/proofs"
cp "$here/file/main.rt.txt" "$crate/src/main.rt"
for proof in "$here"/file/*_*.antt.txt; do
    name=$(basename "$proof" .antt.txt)
    mkdir -p "$crate/proofs/${name%_*}"
    cp "$proof" "$crate/proofs/${name%_*}/${name##*_}.antt"
done
echo 'bench_file may_wait=6: dia_file block_pool pool_core dia_item dia_edge row_defs atomic_table' >>"$work/repository/crates.txt"
rustc --edition 2021 -O -o "$work/plain" "$here/file/plain.rs"
in_crate bench_file rt run
proved=$crate/out/bench_file

# Ratios of neighbouring runs: the numbers' pushes and reads, then the pairs'.
ratios_0=() ratios_1=() ratios_2=() ratios_3=()
for _ in $(seq "$runs"); do
    "$proved" >"$work/proved.out"
    "$work/plain" >"$work/plain.out"
    if [ "$(cut -d ' ' -f 1 "$work/proved.out")" != "$(cut -d ' ' -f 1 "$work/plain.out")" ]; then
        say "the programs read different rows:"
        cat "$work/proved.out" "$work/plain.out" >&2
        exit 1
    fi
    mapfile -t proved_times < <(cut -d ' ' -f 2- "$work/proved.out" | tr ' ' '\n')
    mapfile -t plain_times < <(cut -d ' ' -f 2- "$work/plain.out" | tr ' ' '\n')
    for i in 0 1 2 3; do
        declare -n ratios=ratios_$i
        ratios+=("$(calculate %.3f "${proved_times[i]} / ${plain_times[i]}")")
    done
done

# Prints a line: `row NAME INDEX MILLIONS WANTED`
row() {
    local -n ratios=ratios_$2
    local middle
    middle=$(median "${ratios[@]}")
    echo "$1: $(calculate %.1f "${proved_times[$2]} / $3 / 1000") ns a row and $(calculate %.1f "${plain_times[$2]} / $3 / 1000") in the last of $runs runs," \
        "ratio $(calculate %.2f "$middle") (the middle one of $runs)${4:+, wanted at most $4: $(verdict "$middle <= $4")}"
}

row 'a number pushed' 0 20 1.8
row 'a number read' 1 20 3
row 'a text and a number pushed' 2 5 1.8
row 'a text and a number read' 3 5 ''
