#!/usr/bin/env bash
# Frames, fills, seals, pins, unpins and frees a block of the shared pool a million times with no spill, by one thread and
# by each of four at once, beside a `Mutex` of plain Rust that does the same. Puts, seals, pins and unpins blocks of 64 KiB
# through a pool of 1,024 frames over a file, beside `dd` that writes and reads the same bytes in the same folder; and scans
# 2,048 blocks front to back five times.
# Wanted: at most 2 times the time of the Mutex; at most 1.3 times that of dd; at most 55 of 100 pins from the disk; and in
# the scans after the first at most 5 of 100 of the writes before.
#
# usage: bench/pool.sh [BLOCKS [RUNS]]   20,000 blocks if left out, which are 1.3 GB; 100,000 are 6.5 GB. 5 runs if left
#                                        out. The file lies in $TMPDIR or /tmp. What fits into the system's cache is
#                                        measured there, dd's bytes as the pool's.
. "$(dirname "$0")/common.sh"

blocks=${1:-20000}
runs=${2:-5}

say "proving and building (some minutes where the pool's tests weren't proved before) ..."
copy_repository block_pool turn_table pool_core pool_defs dia_edge

# The rounds are a program over the shared pool.
crate=$work/repository/crates/bench_pool
mkdir -p "$crate/src" "$crate/specs" "$crate/proofs/main" "$crate/proofs/go"
cp "$here/pool/rounds/main.rt.txt" "$crate/src/main.rt"
cp "$here/pool/rounds/Ready.antt.txt" "$crate/specs/Ready.antt"
echo 'pub mod Ready' >"$crate/specs/Lib.antt"
cp "$here/pool/rounds/main_Answers.antt.txt" "$crate/proofs/main/Answers.antt"
cp "$here/pool/rounds/go_Invariants.antt.txt" "$crate/proofs/go/Invariants.antt"
echo 'bench_pool may_wait=5: block_pool dia_edge atomic_table' >>"$work/repository/crates.txt"
rustc --edition 2021 -O -o "$work/plain_rounds" "$here/pool/rounds/plain.rs"
in_crate bench_pool rt run
rounds=$crate/out/bench_pool

alone=() together=()
for _ in $(seq 9); do
    read -r _ pool_alone pool_together < <("$rounds")
    read -r _ plain_alone plain_together < <("$work/plain_rounds")
    alone+=("$(calculate %.3f "$pool_alone / $plain_alone")")
    together+=("$(calculate %.3f "$pool_together / $plain_together")")
done
per_call() { calculate %.0f "$1 / 5000"; }
echo "rounds of 5 calls and a put of 4,096 bytes, in the last of 9 runs: $(per_call "$pool_alone") ns a call by one thread" \
    "and $(per_call "$pool_together") by four, a Mutex $(per_call "$plain_alone") and $(per_call "$plain_together")"
one=$(median "${alone[@]}")
four=$(median "${together[@]}")
echo "one thread: ratio $(calculate %.2f "$one") (the middle one of 9), wanted at most 2.00: $(verdict "$one <= 2")"
echo "four threads: ratio $(calculate %.2f "$four") (the middle one of 9), wanted at most 2.00: $(verdict "$four <= 2")"

# What spills is a test in a copy of the crate: only there can one ask whether what a call requires holds.
cp "$here/pool/spill.rt.txt" "$work/repository/crates/pool_core/src/bench.rt"
printf '#[cfg(test)]\nmod bench;\n' >>"$work/repository/crates/pool_core/src/lib.rt"
in_crate pool_core rt test
program=$work/repository/crates/pool_core/out/pool_core_tests

# The seconds that dd took, from its last line.
clocked() { LC_ALL=C dd "$@" bs=64k 2>&1 | awk '/copied/ { for (i = 2; i <= NF; i++) if ($i ~ /^s,?$/) print $(i - 1) }'; }

put= pin= written= read= ratios=()
for _ in $(seq "$runs"); do
    measure "$program" bench::by_the_clock "$work/disk" "$blocks" >"$work/out"
    grep -q 'test result: ok' "$work/out"
    read -r _ put_now pin_now writes reads <<<"$(grep '^through ' "$work/out")"
    read -r _ scan_time pins misses writes_put writes_first writes_all <<<"$(grep '^scans ' "$work/out")"
    put=$(least "$put" "$(calculate %.6f "$put_now / 1000000")")
    pin=$(least "$pin" "$(calculate %.6f "$pin_now / 1000000")")
    written_now=$(clocked if=/dev/zero of="$work/plain" count="$blocks")
    read_now=$(clocked if="$work/plain" of=/dev/null)
    rm -f "$work/plain"
    written=$(least "$written" "$written_now")
    read=$(least "$read" "$read_now")
    ratios+=("$(calculate %.4f "($put_now + $pin_now) / 1000000 / ($written_now + $read_now)")")
done

# Prints a line: `row NAME SECONDS SECONDS_OF_DD BYTES`
row() {
    printf '%-18s %12s %12s %8s\n' "$1" "$(calculate %.0f "$4 / $2 / 1000000")" \
        "$(calculate %.0f "$4 / $3 / 1000000")" "$(calculate %.2f "$2 / $3")"
}

bytes=$((blocks * 65536))
echo "pool: $blocks blocks, $(calculate %.2f "$bytes / 1000000000") GB, best of $runs runs; peak $(calculate %.0f "$peak / 1024") MiB, of which 64 are frames"
printf '%-18s %12s %12s %8s\n' '' 'pool MB/s' 'dd MB/s' 'times'
row 'put, seal' "$put" "$written" "$bytes"
row 'pin, unpin' "$pin" "$read" "$bytes"
row 'both' "$(calculate %.6f "$put + $pin")" "$(calculate %.6f "$written + $read")" "$((2 * bytes))"
echo "the pool wrote $writes slots and read $reads; dd wrote and read $blocks blocks"
ratio=$(median "${ratios[@]}")
echo "both: $(calculate %.2f "$ratio") times dd's time (the middle one of $runs), wanted at most 1.30: $(verdict "$ratio <= 1.3")"
share=$(calculate %.1f "100 * $misses / $pins")
echo "scans: $misses of $pins pins from the disk in $(calculate %.2f "$scan_time / 1000000") s, $share of 100, wanted at most 55: $(verdict "$share <= 55")"
later=$((writes_all - writes_first))
share=$(calculate %.1f "100 * $later / $writes_first")
echo "$writes_put writes before the scans, $((writes_first - writes_put)) in the first, $later in the others: $share of 100 of those before, wanted at most 5: $(verdict "$share <= 5")"
