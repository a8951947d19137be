#!/usr/bin/env bash
# Reads the largest script, 256 lines of 512 bytes, each a map of the line before with six long expressions.
# Wanted: well under 10 ms.
#
# usage: bench/script.sh [COUNT]   how often it is read in a run; 100 if left out
. "$(dirname "$0")/common.sh"

count=${1:-100}
runs=9

say "building the program ..."
copy_repository script_read script_defs dia_expr dia_text dia_item row_defs dia_edge
mkdir -p "$work/repository/crates/bench_script/src"
cp "$here/script/main.rt.txt" "$work/repository/crates/bench_script/src/main.rt"
echo 'bench_script: script_read' >>"$work/repository/crates.txt"
python3 - "$work/script" <<'END'
import sys
lines = ["line_of_the_script_number_000 = generate 5"]
for i in range(1, 256):
    front = f"line_of_the_script_number_{i:03} = map line_of_the_script_number_{i - 1:03} f0 1 2 3 4 add"
    sums = " add f0" * ((512 - len(front) - 4) // 7) + " f0 1"
    lines.append(front + sums)
with open(sys.argv[1], "w") as script:
    for line in lines:
        script.write(line.ljust(512) + "\n")
END
in_crate bench_script rt run -- "$work/script" 1
proved=$work/repository/crates/bench_script/out/bench_script

times=()
for _ in $(seq "$runs"); do
    "$proved" "$work/script" "$count" >"$work/proved.out"
    times+=("$(calculate %.3f "$(tail -n 1 "$work/proved.out") / 1000 / $count")")
done

middle=$(median "${times[@]}")
echo "script: $(stat -c %s "$work/script") bytes, $(($(head -n 1 "$work/proved.out") / count)) statements," \
    "$middle ms to read (the middle one of $runs), wanted under 10: $(verdict "$middle < 10")"
