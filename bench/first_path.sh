#!/usr/bin/env bash
# Maps each line of a file of real text to the line twice and prints it, beside mawk that does the same and `cat`.
# Wanted: no slower than mawk, and at most three times as much memory as the input has bytes. What counts is the time to
# /dev/null; that to a file stands beside it, since it hangs on the system's disk.
#
# usage: bench/first_path.sh [MEGABYTES]   how large the input is, 200 if left out; the texts are those of the
#                                          toolchain and of this repository, again and again
# THRILL names another program to run in place of the one that this repository builds.
. "$(dirname "$0")/common.sh"

megabytes=${1:-200}
runs=7

find_program
folder=$work/folder
texts | fill "$folder" "$megabytes"
printf 't = lines in\nm = map t f0 f0\nprint m\n' >"$folder/s"
cd "$folder"

say "comparing the outputs ..."
"$program" run s >"$work/thrill.out"
mawk '{print $0 "\t" $0}' in >"$work/mawk.out"
if ! cmp "$work/thrill.out" "$work/mawk.out" >&2; then
    say "the outputs differ"
    exit 1
fi
rm -f "$work/thrill.out" "$work/mawk.out"

thrill_null= mawk_null= cat_null= thrill_file= mawk_file= cat_file=
thrill_peak= mawk_peak= cat_peak= ratios=()

# Runs a command to /dev/null and to a file, and keeps the shorter times: `both NAME COMMAND..`
both() {
    local name=$1
    shift
    measure "$@" >/dev/null
    printf -v "${name}_now" %s "$seconds"
    printf -v "${name}_null" %s "$(n=${name}_null; least "${!n}" "$seconds")"
    measure "$@" >"$work/to"
    printf -v "${name}_file" %s "$(n=${name}_file; least "${!n}" "$seconds")"
    printf -v "${name}_peak" %s "$peak"
    rm -f "$work/to"
}

say "measuring ..."
cat in >/dev/null
for _ in $(seq "$runs"); do
    both thrill "$program" run s
    both mawk mawk '{print $0 "\t" $0}' in
    both cat cat in
    ratios+=("$(calculate %.3f "$thrill_now / $mawk_now")")
done

bytes=$(stat -c %s in)
echo "first path: $bytes bytes in $(wc -l <in) lines, best of $runs runs"
printf '%-8s %14s %12s %12s %12s %12s\n' '' '/dev/null, s' 'of mawk' 'a file, s' 'of mawk' 'peak MiB'
for one in thrill mawk cat; do
    null=${one}_null file=${one}_file memory=${one}_peak
    printf '%-8s %14s %12s %12s %12s %12s\n' "$one" "${!null}" "$(calculate %.2f "${!null} / $mawk_null")" \
        "${!file}" "$(calculate %.2f "${!file} / $mawk_file")" "$(calculate %.0f "${!memory} / 1024")"
done
echo "the outputs of thrill and mawk are the same"
ratio=$(median "${ratios[@]}")
echo "of mawk's time $(calculate %.2f "$ratio") to /dev/null (the middle one of $runs), wanted at most 1.00: $(verdict "$ratio <= 1")"
times=$(calculate %.4f "$thrill_peak * 1024 / $bytes")
echo "memory $(calculate %.2f "$times") times the input, wanted at most 3.00: $(verdict "$times <= 3")"
