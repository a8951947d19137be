#!/usr/bin/env bash
# Takes and gives a counter's turn a million times by one thread, and as often by each of four threads at once, beside
# a `Mutex` of plain Rust. Wanted: at most 1.5 times its time by one thread, and at most 2 times by four.
#
# usage: bench/turn.sh
. "$(dirname "$0")/common.sh"

runs=9

# The program is a test in a copy of the crate of tests, since the counter stands there.
say "proving and building (some minutes where the turn's tests weren't proved before) ..."
copy_repository pool_tests block_pool pool_core pool_defs turn_table dia_edge
crate=$work/repository/crates/pool_tests
mkdir -p "$crate/proofs/turn/bench/go"
cp "$here/turn/bench.rt.txt" "$crate/src/turn/bench.rt"
cp "$here/turn/Invariants.antt.txt" "$crate/proofs/turn/bench/go/Invariants.antt"
sed -i 's/^mod counter;/mod bench;\nmod counter;/' "$crate/src/turn.rt"
rustc --edition 2021 -O -o "$work/plain" "$here/turn/plain.rs"
in_crate pool_tests rt test
program=$crate/out/pool_tests_tests

alone=() together=()
for _ in $(seq "$runs"); do
    "$program" turn::bench::by_the_clock >"$work/out"
    grep -q 'test result: ok' "$work/out"
    read -r turn_alone turn_together total < <(grep -o 'turns [0-9 ]*' "$work/out" | cut -d' ' -f2-)
    read -r _ plain_alone plain_together plain_total < <("$work/plain")
    if [ "$total" != "$plain_total" ]; then
        say "the programs counted differently: $total and $plain_total"
        exit 1
    fi
    alone+=("$(calculate %.3f "$turn_alone / $plain_alone")")
    together+=("$(calculate %.3f "$turn_together / $plain_together")")
done

echo "turns: in the last of $runs runs $turn_alone us by one thread and $turn_together us by four," \
    "a Mutex $plain_alone us and $plain_together us"
one=$(median "${alone[@]}")
four=$(median "${together[@]}")
echo "one thread: ratio $(calculate %.2f "$one") (the middle one of $runs), wanted at most 1.50: $(verdict "$one <= 1.5")"
echo "four threads: ratio $(calculate %.2f "$four") (the middle one of $runs), wanted at most 2.00: $(verdict "$four <= 2")"
