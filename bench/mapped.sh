#!/usr/bin/env bash
# Pushes 10 million numbers through `map mod mul f0 7919 1000003` into a sink that adds up, beside plain Rust structs: what
# a chain takes of the job of local.sh, without the pool, the feed and the threads.
# Wanted: at most 15 ns a number.
#
# usage: bench/mapped.sh [COUNT]   how many numbers are pushed in a run; 10,000,000 if left out
. "$(dirname "$0")/common.sh"

count=${1:-10000000}
runs=9

say "proving and building both programs ..."
copy_repository lop_chain dia_expr dia_text dia_item row_defs dia_edge
crate=$work/repository/crates/bench_mapped
mkdir -p "$crate/src" "$crate/specs" "$crate/proofs/push_numbers"
cp "$here/mapped/main.rt.txt" "$crate/src/main.rt"
cp "$here/mapped/Invariants.antt.txt" "$crate/proofs/push_numbers/Invariants.antt"
cp "$here/mapped/Answers.antt.txt" "$crate/proofs/push_numbers/Answers.antt"
echo 'bench_mapped: lop_chain dia_expr dia_item dia_edge row_defs' >>"$work/repository/crates.txt"
rustc --edition 2021 -O -o "$work/plain" "$here/mapped/plain.rs"
in_crate bench_mapped rt run -- 1
proved=$crate/out/bench_mapped

lines=() each=() least=
for _ in $(seq "$runs"); do
    "$proved" "$count" >"$work/proved.out"
    "$work/plain" "$count" >"$work/plain.out"
    if [ "$(head -n 1 "$work/proved.out")" != "$(head -n 1 "$work/plain.out")" ]; then
        say "the programs made different rows:"
        head -n 1 "$work/proved.out" "$work/plain.out" >&2
        exit 1
    fi
    chain=$(tail -n 1 "$work/proved.out")
    read -r by_lines by_code < <(tail -n 1 "$work/plain.out")
    lines+=("$(calculate %.3f "$chain / $by_lines")")
    each+=("$(calculate %.2f "$chain * 1000 / $count")")
    least=$(least "$least" "$chain")
done

echo "mapped: $count numbers, in the last of $runs runs $chain us, plain lines $by_lines us, plain code $by_code us"
echo "beside lines: ratio $(calculate %.2f "$(median "${lines[@]}")") (the middle one of $runs)"
ns=$(median "${each[@]}")
echo "a number: $ns ns (the middle one of $runs; at least $(calculate %.1f "$least * 1000 / $count")), wanted at most 15: $(verdict "$ns <= 15")"
