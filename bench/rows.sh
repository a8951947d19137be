#!/usr/bin/env bash
# Reads and compares one million rows of a text and a number, beside a plain Rust program on the same bytes.
# Wanted: at most 1.5 times its time.
#
# usage: bench/rows.sh [ROUNDS]   how often the million is gone over in a run; 60 if left out
. "$(dirname "$0")/common.sh"

rows=1000000
rounds=${1:-60}
runs=7

say "building both programs (the proof of the one takes about a minute) ..."
copy_repository dia_item row_defs dia_edge
mkdir -p "$work/repository/crates/bench_rows/src"
cp "$here/rows/main.rt.txt" "$work/repository/crates/bench_rows/src/main.rt"
echo 'bench_rows: dia_item row_defs dia_edge' >>"$work/repository/crates.txt"
rustc -O -o "$work/plain" "$here/rows/plain.rs"
"$work/plain" make "$work/rows" "$rows"
in_crate bench_rows rt run -- "$work/rows" 1
proved=$work/repository/crates/bench_rows/out/bench_rows

# Each clocks its rounds itself, without start and reading.
proved_time= plain_time= ratios=()
for _ in $(seq "$runs"); do
    measure "$proved" "$work/rows" "$rounds" >"$work/proved.out"
    proved_peak=$peak
    measure "$work/plain" run "$work/rows" "$rounds" >"$work/plain.out"
    plain_peak=$peak
    if [ "$(head -n 1 "$work/proved.out")" != "$(head -n 1 "$work/plain.out")" ]; then
        say "the programs counted differently:"
        head -n 1 "$work/proved.out" "$work/plain.out" >&2
        exit 1
    fi
    proved_now=$(tail -n 1 "$work/proved.out")
    plain_now=$(tail -n 1 "$work/plain.out")
    proved_time=$(least "$proved_time" "$proved_now")
    plain_time=$(least "$plain_time" "$plain_now")
    ratios+=("$(calculate %.3f "$proved_now / $plain_now")")
done

ratio=$(median "${ratios[@]}")
bytes=$(stat -c %s "$work/rows")
echo "rows: $rows read and compared, $bytes bytes, $rounds rounds, best of $runs runs"
printf '%-12s %12s %14s %12s\n' '' 'seconds' 'ns for a row' 'peak MiB'
for one in proved plain; do
    time=${one}_time
    memory=${one}_peak
    printf '%-12s %12s %14s %12s\n' "$one" "$(calculate %.2f "${!time} / 1000000")" \
        "$(calculate %.1f "${!time} * 1000 / $rows / $rounds")" "$(calculate %.0f "${!memory} / 1024")"
done
echo "ratio $(calculate %.2f "$ratio") (the middle one of $runs), wanted at most 1.50: $(verdict "$ratio <= 1.5")"
