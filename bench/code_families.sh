#!/usr/bin/env bash
# code_families.sh [CODES...]   measures `vcdkit list` on headers with this many codes (by default,
# 100000 and 200000), and `check` on dumps with four changes of each code, for each family of
# code_families.py. It prints the time in ns for each byte of the dump, and that time divided by the
# time for ordinary codes. TMPDIR needs 260 MB.
set -eu
here=$(cd "$(dirname "$0")" && pwd)
sizes=("$@")
[ $# -gt 0 ] || sizes=(100000 200000)
. "$here/common.sh"
need_numbers "${sizes[@]}"

# Sets `command` to the words that run a program.
find_command() {
    command=("$work/vcdkit" "$1")
}

# Nanoseconds a byte of a dump: the best time of three runs.
best_of() {
    for _ in 1 2 3; do times_of "$1" "$2"; done | sort -n |
        awk -v bytes="$(stat -c %s "$2")" 'NR == 1 { print 1e9 * $1 / bytes }'
}

printf '%-40s %8s %6s\n' 'user and system ns a byte, best of three' time ratio
for size in "${sizes[@]}"; do
    for program in list check; do
        changes=0
        [ "$program" = list ] || changes=4
        for family in ordinary close shared digits8 hex16 random12 prefix200; do
            "$here/code_families.py" "$family" "$size" "$changes" > "$work/dump"
            time=$(best_of "$program" "$work/dump")
            [ "$family" != ordinary ] || ordinary=$time
            awk -v what="$program of $size $family codes" -v time="$time" -v beside="$ordinary" \
                'BEGIN { printf "%-40s %8.1f %6.2f\n", what, time, time / (beside + 1e-9) }'
        done
    done
done
