#!/usr/bin/env bash
# Sends a million packets through a mail from one sender to one receiver, a thousand at a time, beside a `Mutex` over a
# `VecDeque` of plain Rust that does the same. Reads 20 million rows of one number, and 3 million rows of a text of 40 bytes
# and a number, from a stream of packets, beside a consuming reader of a file of the same rows in as large blocks.
# Wanted: packets in at most 2 times the time of the Mutex, and a row of a stream in at most 1.2 times that of a file.
#
# usage: bench/mail.sh [RUNS]   7 runs if left out
. "$(dirname "$0")/common.sh"

runs=${1:-7}

say "proving and building both programs (some minutes where the streams' crates weren't proved before) ..."
copy_repository mix_stream multiplexer dia_file block_pool turn_table pool_core pool_defs dia_item row_defs dia_edge
crate=$work/repository/crates/bench_mail
mkdir -p "$crate/src" "$crate/proofs"
cp "$here/mail/main.rt.txt" "$crate/src/main.rt"
for proof in "$here"/mail/*_*.antt.txt; do
    name=$(basename "$proof" .antt.txt)
    mkdir -p "$crate/proofs/${name%_*}"
    cp "$proof" "$crate/proofs/${name%_*}/${name##*_}.antt"
done
echo 'bench_mail may_wait=9: multiplexer mix_stream dia_file block_pool pool_core dia_item dia_edge row_defs crossbeam_queue atomic_table' >>"$work/repository/crates.txt"
rustc --edition 2021 -O -o "$work/plain" "$here/mail/plain.rs"
in_crate bench_mail rt run
proved=$crate/out/bench_mail

# Ratios of neighbouring runs: the packets, then the streams of numbers and of pairs.
packets=() numbers=() pairs=()
for _ in $(seq "$runs"); do
    "$proved" >"$work/proved.out"
    "$work/plain" >"$work/plain.out"
    { read -r came mail; read -r one two number_file number_stream; read -r three four pair_file pair_stream; } <"$work/proved.out"
    read -r plain_came plain <"$work/plain.out"
    if [ "$came" != "$plain_came" ] || [ "$one" != "$two" ] || [ "$three" != "$four" ]; then
        say "the programs took different packets, or read different rows:"
        cat "$work/proved.out" "$work/plain.out" >&2
        exit 1
    fi
    packets+=("$(calculate %.3f "$mail / $plain")")
    numbers+=("$(calculate %.3f "$number_stream / $number_file")")
    pairs+=("$(calculate %.3f "$pair_stream / $pair_file")")
done

# Prints a line: `row NAME RATIOS TIME TIME MILLIONS WANTED`
row() {
    local -n ratios=$2
    local middle
    middle=$(median "${ratios[@]}")
    echo "$1: $(calculate %.1f "$3 / $5 / 1000") ns and $(calculate %.1f "$4 / $5 / 1000") in the last of $runs runs," \
        "ratio $(calculate %.2f "$middle") (the middle one of $runs), wanted at most $6: $(verdict "$middle <= $6")"
}

row 'a packet sent and taken, beside a Mutex' packets "$mail" "$plain" 1 2
row 'a number read from a stream, beside a file' numbers "$number_stream" "$number_file" 20 1.2
row 'a text and a number read, beside a file' pairs "$pair_stream" "$pair_file" 3 1.2
