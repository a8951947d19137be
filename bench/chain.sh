#!/usr/bin/env bash
# Pushes 10 million numbers through a map, a filter and a map into a sink that counts, beside plain Rust structs.
# Wanted: at most 10 times the time of the same lines over plain structs.
#
# usage: bench/chain.sh [COUNT]   how many numbers are pushed in a run; 10,000,000 if left out
. "$(dirname "$0")/common.sh"

count=${1:-10000000}
runs=5

say "proving and building both programs ..."
copy_repository lop_chain dia_expr dia_text dia_item row_defs dia_edge
crate=$work/repository/crates/bench_chain
mkdir -p "$crate/src" "$crate/specs" "$crate/proofs/push_numbers"
cp "$here/chain/main.rt.txt" "$crate/src/main.rt"
cp "$here/chain/Invariants.antt.txt" "$crate/proofs/push_numbers/Invariants.antt"
cp "$here/chain/Answers.antt.txt" "$crate/proofs/push_numbers/Answers.antt"
echo 'bench_chain: lop_chain dia_expr dia_item dia_edge row_defs' >>"$work/repository/crates.txt"
rustc --edition 2021 -O -o "$work/plain" "$here/chain/plain.rs"
in_crate bench_chain rt run -- 1
proved=$crate/out/bench_chain

lines=() code=()
for _ in $(seq "$runs"); do
    "$proved" "$count" >"$work/proved.out"
    "$work/plain" "$count" >"$work/plain.out"
    if [ "$(head -n 1 "$work/proved.out")" != "$(head -n 1 "$work/plain.out")" ]; then
        say "the programs made different rows:"
        head -n 1 "$work/proved.out" "$work/plain.out" >&2
        exit 1
    fi
    chain=$(tail -n 1 "$work/proved.out")
    read -r by_lines by_code < <(tail -n 1 "$work/plain.out")
    lines+=("$(calculate %.3f "$chain / $by_lines")")
    code+=("$(calculate %.3f "$chain / $by_code")")
done

echo "chain: $count numbers, in the last of $runs runs $chain us, plain lines $by_lines us, plain code $by_code us"
ratio=$(median "${lines[@]}")
echo "beside lines: ratio $(calculate %.2f "$ratio") (the middle one of $runs), wanted at most 10.00: $(verdict "$ratio <= 10")"
echo "beside code: ratio $(calculate %.2f "$(median "${code[@]}")") (the middle one of $runs)"
