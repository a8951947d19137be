# What the benches share: a copy of the repository with one more program, and runs that are measured.
# Sourced by each bench; the folder that it works in is deleted at the end.
set -euo pipefail
export LC_ALL=C

here=$(cd "$(dirname "${BASH_SOURCE[0]}")" && pwd)
top=$(dirname "$here")
work=$(mktemp -d "${TMPDIR:-/tmp}/bench.XXXXXX")
trap 'rm -rf "$work"' EXIT

say() { printf '%s\n' "$*" >&2; }

# Copies the repository, with what was proved of the crates that are named: `copy_repository CRATE..`
copy_repository() {
    local crate
    mkdir -p "$work/repository/crates"
    cp "$top/crates.txt" "$top/HANDLES" "$work/repository/"
    for crate in "$top"/crates/*/; do
        crate=$(basename "$crate")
        mkdir "$work/repository/crates/$crate"
        find "$top/crates/$crate" -mindepth 1 -maxdepth 1 ! -name out \
            -exec cp -r {} "$work/repository/crates/$crate/" \;
    done
    for crate in "$@"; do
        if [ -d "$top/crates/$crate/out" ]; then
            cp -r "$top/crates/$crate/out" "$work/repository/crates/$crate/"
        fi
    done
}

# Runs an `rt` command in a crate of the copy, and stops with the end of what it wrote where it fails:
# `in_crate CRATE COMMAND..`
in_crate() {
    local crate=$1
    shift
    if ! (cd "$work/repository/crates/$crate" && "$@") >"$work/log" 2>&1; then
        tail -n 30 "$work/log" >&2
        say "$*: failed in $crate"
        exit 1
    fi
}

# Runs a command; `seconds` is then its time by the wall clock, and `peak` its memory at the most in KiB.
measure() {
    if [ -x /usr/bin/time ]; then
        /usr/bin/time -q -o "$work/measured" -f '%e %M' "$@"
    else
        python3 -c '
import resource, subprocess, sys, time
start = time.time()
status = subprocess.call(sys.argv[2:])
peak = resource.getrusage(resource.RUSAGE_CHILDREN).ru_maxrss
open(sys.argv[1], "w").write("%.2f %d\n" % (time.time() - start, peak))
sys.exit(status)' "$work/measured" "$@"
    fi
    read -r seconds peak <"$work/measured"
}

# Arithmetic with fractions: `calculate FORMAT EXPRESSION`
calculate() { awk "BEGIN { printf \"$1\", $2 }"; }

# Whether a condition holds, as a word: `verdict CONDITION`
verdict() { awk "BEGIN { print ($1) ? \"yes\" : \"NO\" }"; }

# The smaller of two numbers, of which the first may be empty.
least() { if [ -z "$1" ]; then echo "$2"; else calculate %s "$1 < $2 ? \"$1\" : \"$2\""; fi; }

# The middle one of some numbers. Ratios are taken of runs that follow one another, since what else the machine does
# changes from minute to minute.
median() { printf '%s\n' "$@" | sort -g | awk '{ all[NR] = $1 } END { print all[int((NR + 1) / 2)] }'; }

# Builds the program where it has changed; `program` is then its path. THRILL names another one to run in its place.
find_program() {
    program=${THRILL:-$top/crates/thrill_main/out/thrill_main}
    if [ -n "${THRILL:-}" ]; then return; fi
    say "building the program where it has changed ..."
    # Without words the program only says how it is used.
    (cd "$top/crates/thrill_main" && rt run) >"$work/log" 2>&1 || true
    if ! grep -q '^rt: running' "$work/log"; then
        tail -n 30 "$work/log" >&2
        say "not built: crates/thrill_main"
        exit 1
    fi
}

# The texts of the toolchain and of this repository: no NUL, which some builds of mawk end a line at, and no line
# longer than a text may be.
texts() {
    local kit
    kit=$(dirname "$(dirname "$(readlink -f "$(command -v rt)")")")
    find "$kit/rattle" "$top/crates" -name out -prune -o -type f \
        \( -name '*.md' -o -name '*.rt' -o -name '*.antt' -o -name '*.rs' -o -name '*.txt' -o -name '*.py' \) -print0 |
        sort -z | xargs -0 cat | tr -d '\000' | awk 'length($0) <= 65536'
}

# Makes the file `in` of so many megabytes: the lines of standard input, again and again. `fill FOLDER MEGABYTES`
fill() {
    local in=$1/in wanted=$(($2 * 1000000))
    mkdir "$1"
    cat >"$work/lines"
    while [ "$(stat -c %s "$in" 2>/dev/null || echo 0)" -lt "$wanted" ]; do
        cat "$work/lines" >>"$in"
        # The last line is cut where it ends and not within.
        if [ "$(stat -c %s "$in")" -gt "$wanted" ]; then
            truncate -s "$wanted" "$in"
            sed -i '$ d' "$in"
            break
        fi
    done
}
