#!/usr/bin/env bash
# Runs a thousand phases of four empty tasks on threads, beside scoped threads of plain Rust. Wanted: at most twice
# their time.
#
# usage: bench/workers.sh
. "$(dirname "$0")/common.sh"

runs=9

# The program is a test in a copy of the crate.
say "proving and building (some minutes where the crate's tests weren't proved before) ..."
copy_repository worker_step dia_edge
crate=$work/repository/crates/worker_step
cp "$here/workers/bench.rt.txt" "$crate/src/tests/bench.rt"
sed -i 's/^mod errand;/mod bench;\nmod errand;/' "$crate/src/tests.rt"
rustc --edition 2021 -O -o "$work/plain" "$here/workers/plain.rs"
in_crate worker_step rt test
program=$crate/out/worker_step_tests

ratios=()
for _ in $(seq "$runs"); do
    "$program" tests::bench::by_the_clock >"$work/out"
    grep -q 'test result: ok' "$work/out"
    read -r time total < <(grep -o 'phases [0-9 ]*' "$work/out" | cut -d' ' -f2-)
    read -r _ plain plain_total < <("$work/plain")
    if [ "$total" != "$plain_total" ]; then
        say "the programs made different numbers of steps: $total and $plain_total"
        exit 1
    fi
    ratios+=("$(calculate %.3f "$time / $plain")")
done

ratio=$(median "${ratios[@]}")
echo "phases of four empty tasks: in the last of $runs runs $time us on threads, scoped threads of plain Rust $plain us"
echo "ratio $(calculate %.2f "$ratio") (the middle one of $runs), wanted at most 2.00: $(verdict "$ratio <= 2")"
