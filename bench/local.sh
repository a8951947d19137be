#!/usr/bin/env bash
# Three jobs of local lines over a file of real text, beside mawk, a GNU tool that does the same, and plain Rust: the
# lines shorter than 40 bytes are printed, the words counted, and the numbers among the third words added up. Each is done
# by one worker and by four, in the default pool, from which most of the input is spilled, and in one that holds all. Then
# 100 million numbers are mapped and added up.
# Wanted by four workers: at most 0.8 times mawk's time for the lines printed, and 0.35 times for the words and the
# numbers; 2.5 times as fast as one worker with the words. Wanted by one worker in the large pool: at most mawk's time,
# and three times that of plain Rust. Wanted of all: at most 1.3 times as much memory as the pool has and 16 MB, and at
# most 15 ns a row and worker for the numbers that are mapped.
#
# usage: bench/local.sh [MEGABYTES]   how large the input is, 200 if left out; the texts are those of the toolchain and
#                                     of this repository, again and again
# THRILL names another program to run in place of the one that this repository builds.
. "$(dirname "$0")/common.sh"

megabytes=${1:-200}
runs=5
count=100000000
default_pool=67108864
large_pool=1073741824
pools=("$default_pool" "$large_pool")
crews=(1 4)

find_program
rustc --edition 2021 -O -o "$work/plain" "$here/local/plain.rs"
folder=$work/folder
# Printable ASCII alone, on which all of the tools agree.
texts | grep -a "^[ -~	]*\$" | fill "$folder" "$megabytes"
cd "$folder"
printf 't = lines in\ns = filter t lt len f0 40\nprint s\n' >filter
printf 't = lines in\nw = flatmap t words 0\nsize w\n' >words
printf 't = lines in\nn = map t num word 2 f0\nsum n 0\n' >sum
printf 'g = generate %s\nm = map g mod mul f0 7919 1000003\nsum m 0\n' "$count" >mapped

# Runs a job with so many workers and so many bytes of a pool: `by_thrill JOB WORKERS POOL`
by_thrill() { measure "$program" run "$1" --workers "$2" --pool "$3"; }
by_plain() { measure "$work/plain" "$1" in; }
by_mawk() {
    case $1 in
    filter) measure mawk 'length($0) < 40' in ;;
    words) measure mawk '{ n += NF } END { print n }' in ;;
    sum) measure mawk '$3 ~ /^[0-9]+$/ { s += $3 } END { printf "%.0f\n", s }' in ;;
    esac
}
by_gnu() {
    case $1 in
    # It would stop at the first line where it saw that it writes to /dev/null.
    filter) measure sh -c "grep -ax '.\{0,39\}' in | cat" ;;
    words) measure wc -w in ;;
    sum) seconds= ;; # no such tool
    esac
}

# Compares what a job prints with what it should: `compare JOB WORKERS POOL FILE`
compare() {
    by_thrill "$1" "$2" "$3" >"$work/thrill.out"
    if ! cmp "$work/thrill.out" "$4" >&2; then
        say "the outputs differ: $1 by $2 workers in a pool of $3 bytes"
        exit 1
    fi
}

# By job, workers and pool: the shortest time, the most memory, the last time, and the ratios to mawk's time, to that of
# plain Rust, and by job and pool that of one worker's time to four workers'.
declare -A best peaks last of_mawk of_plain faster

# Notes the run that was just measured, beside mawk's and plain Rust's of this round: `note KEY`
note() {
    best[$1]=$(least "${best[$1]:-}" "$seconds")
    if [ "$peak" -gt "${peaks[$1]:-0}" ]; then peaks[$1]=$peak; fi
    last[$1]=$seconds
    of_mawk[$1]="${of_mawk[$1]:-} $(calculate %.3f "$seconds / $mawk_now")"
    of_plain[$1]="${of_plain[$1]:-} $(calculate %.3f "$seconds / $plain_now")"
}

# How much memory was taken at most, in terms of what the pool has and 16 MB: `share_of_pool KEY POOL`
share_of_pool() { calculate %.3f "${peaks[$1]} * 1024 / ($2 + 16000000)"; }

echo "local lines: $(stat -c %s in) bytes in $(wc -l <in) lines, best of $runs runs to /dev/null, in seconds"
printf '%-8s %8s %9s %8s %8s %8s %8s %9s %9s %9s %9s\n' '' workers 'pool MiB' thrill mawk GNU plain 'of mawk' \
    'of plain' 'peak MiB' 'of pool'
for job in filter words sum; do
    say "$job ..."
    by_plain "$job" >"$work/plain.out"
    # mawk adds up in fractions, so that its sum may be rounded.
    if [ "$job" != sum ] && ! by_mawk "$job" | cmp - "$work/plain.out" >&2; then
        say "the outputs differ"
        exit 1
    fi
    for pool in "${pools[@]}"; do
        for workers in "${crews[@]}"; do
            compare "$job" "$workers" "$pool" "$work/plain.out"
        done
    done
    rm -f "$work/thrill.out" "$work/plain.out"
    mawk= gnu= plain=
    for _ in $(seq "$runs"); do
        by_gnu "$job" >/dev/null
        if [ -n "$seconds" ]; then gnu=$(least "$gnu" "$seconds"); fi
        by_mawk "$job" >/dev/null
        mawk_now=$seconds mawk=$(least "$mawk" "$seconds")
        by_plain "$job" >/dev/null
        plain_now=$seconds plain=$(least "$plain" "$seconds")
        for pool in "${pools[@]}"; do
            for workers in "${crews[@]}"; do
                by_thrill "$job" "$workers" "$pool" >/dev/null
                note "$job $workers $pool"
            done
            faster["$job $pool"]="${faster["$job $pool"]:-} $(calculate %.3f "${last["$job 1 $pool"]} / ${last["$job 4 $pool"]}")"
        done
    done
    for pool in "${pools[@]}"; do
        for workers in "${crews[@]}"; do
            key="$job $workers $pool"
            printf '%-8s %8s %9s %8s %8s %8s %8s %9s %9s %9s %9s\n' "$job" "$workers" "$((pool >> 20))" \
                "${best[$key]}" "$mawk" "${gnu:--}" "$plain" \
                "$(calculate %.2f "$(median ${of_mawk[$key]})")" "$(calculate %.2f "$(median ${of_plain[$key]})")" \
                "$(calculate %.0f "${peaks[$key]} / 1024")" "$(calculate %.2f "$(share_of_pool "$key" "$pool")")"
        done
    done
done

# Prints a ratio and whether it is what is wanted: `judge WHAT RATIO SIGN WANTED`
judge() {
    local words='at most'
    if [ "$3" = '>=' ]; then words='at least'; fi
    echo "$1: $(calculate %.2f "$2"), wanted $words $4: $(verdict "$2 $3 $4")"
}

for pool in "${pools[@]}"; do
    echo "in a pool of $((pool >> 20)) MiB (ratios are the middle ones of $runs):"
    judge '  filter by four workers, of mawk' "$(median ${of_mawk["filter 4 $pool"]})" '<=' 0.80
    judge '  words by four workers, of mawk' "$(median ${of_mawk["words 4 $pool"]})" '<=' 0.35
    judge '  sum by four workers, of mawk' "$(median ${of_mawk["sum 4 $pool"]})" '<=' 0.35
    judge '  words by one worker, of four' "$(median ${faster["words $pool"]})" '>=' 2.50
    share=0
    for job in filter words sum; do
        for workers in "${crews[@]}"; do
            now=$(share_of_pool "$job $workers $pool" "$pool")
            share=$(calculate %.3f "$now < $share ? $share : $now")
        done
    done
    judge '  memory, of the pool and 16 MB' "$share" '<=' 1.30
done
for job in filter words sum; do
    judge "$job by one worker in the large pool, of mawk" "$(median ${of_mawk["$job 1 $large_pool"]})" '<=' 1.00
    judge "$job by one worker in the large pool, of plain Rust" "$(median ${of_plain["$job 1 $large_pool"]})" '<=' 3.00
done

# The sum over whole rounds of the remainders, and over the numbers behind them.
say "mapped ..."
awk -v count="$count" 'BEGIN {
    p = 1000003
    for (i = 0; i < count % p; i++) sum += i * 7919 % p
    printf "%.0f\n", sum + int(count / p) * p * (p - 1) / 2
}' >"$work/mapped.out"
for workers in "${crews[@]}"; do
    compare mapped "$workers" "$default_pool" "$work/mapped.out"
    times=()
    for _ in $(seq "$runs"); do
        by_thrill mapped "$workers" "$default_pool" >/dev/null
        times+=("$(calculate %.2f "$seconds * $workers * 1000000000 / $count")")
    done
    judge "$count numbers mapped and added up with --workers $workers, ns a row and worker" "$(median "${times[@]}")" '<=' 15
done
