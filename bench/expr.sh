#!/usr/bin/env bash
# Evaluates `add f1 mul f1 3` and `word 2 f0` on a row, each a million times, beside a plain Rust program that does the
# same. Wanted: at most 3 times its time.
#
# usage: bench/expr.sh [COUNT]   how often each is evaluated in a run; 1,000,000 if left out
. "$(dirname "$0")/common.sh"

count=${1:-1000000}
runs=9

say "building both programs ..."
copy_repository dia_expr dia_text dia_item row_defs dia_edge
mkdir -p "$work/repository/crates/bench_expr/src"
cp "$here/expr/main.rt.txt" "$work/repository/crates/bench_expr/src/main.rt"
echo 'bench_expr: dia_expr dia_item' >>"$work/repository/crates.txt"
rustc --edition 2021 -O -o "$work/plain" "$here/expr/plain.rs"
in_crate bench_expr rt run -- 1
proved=$work/repository/crates/bench_expr/out/bench_expr

number=() text=()
for _ in $(seq "$runs"); do
    "$proved" "$count" >"$work/proved.out"
    "$work/plain" "$count" >"$work/plain.out"
    if [ "$(head -n 1 "$work/proved.out")" != "$(head -n 1 "$work/plain.out")" ]; then
        say "the programs computed differently:"
        head -n 1 "$work/proved.out" "$work/plain.out" >&2
        exit 1
    fi
    read -r proved_number proved_text < <(tail -n 1 "$work/proved.out")
    read -r plain_number plain_text < <(tail -n 1 "$work/plain.out")
    number+=("$(calculate %.3f "$proved_number / $plain_number")")
    text+=("$(calculate %.3f "$proved_text / $plain_text")")
done

echo "expressions: $count evaluations each, in the last of $runs runs $proved_number and $proved_text us," \
    "plain $plain_number and $plain_text us"
for one in number text; do
    ratios=${one}'[@]'
    ratio=$(median "${!ratios}")
    echo "$one: ratio $(calculate %.2f "$ratio") (the middle one of $runs), wanted at most 3.00: $(verdict "$ratio <= 3")"
done
