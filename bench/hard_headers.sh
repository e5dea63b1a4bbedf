#!/usr/bin/env bash
# hard_headers.sh [CODES...]   measures `vcdkit list`, `check` and `pick` on headers with this many
# crafted codes (by default, 25000, 100000 and 400000), beside headers with ordinary codes. Crafted
# codes have hashes that are close together if `indexmap` hashes without a seed (crafted_codes.py).
#
# Then it measures `pick` of all and of the last of 1000000 variables in 1000 nested scopes, beside
# `check`; and `pick` of 1000 names among 200000 variables, beside `pick` of one.
# TMPDIR needs 60 MB.
set -eu
here=$(cd "$(dirname "$0")" && pwd)
sizes=("$@")
[ $# -gt 0 ] || sizes=(25000 100000 400000)
. "$here/common.sh"
need_numbers "${sizes[@]}"

names=()

# Sets `command` to the words that run a program.
find_command() {
    case $1 in
        list | check) command=("$work/vcdkit" "$1") ;;
        pick) command=("$work/vcdkit" pick -- "${names[@]}") ;;
    esac
}

# The best time of three runs.
best_of() {
    for _ in 1 2 3; do times_of "$1" "$2"; done | sort -n | awk 'NR == 1 { print $1 }'
}

# A line with the time of a program, and of another one or file beside it.
print_ratio() {
    awk -v what="$1" -v time="$2" -v beside="$3" 'BEGIN {
        printf "%-34s %8.3f %8.3f %6.2f\n", what, time, beside, time / (beside + 1e-9)
    }'
}

printf '%-34s %8s %8s %6s\n' 'user and system s, best of three' time beside ratio
for size in "${sizes[@]}"; do
    "$here/crafted_codes.py" "$size" > "$work/crafted"
    "$here/crafted_codes.py" "$size" ordinary > "$work/ordinary"
    names=(top)
    for program in list check pick; do
        print_ratio "$program of $size crafted codes" \
            "$(best_of "$program" "$work/crafted")" "$(best_of "$program" "$work/ordinary")"
    done
done

"$here/header_dump.py" 1000000 nested > "$work/deep"
names=(u)
print_ratio 'pick of all of 1000 deep, and check' \
    "$(best_of pick "$work/deep")" "$(best_of check "$work/deep")"
mapfile -t names < <("$work/vcdkit" list < "$work/deep" | tail -n 1 | awk '{ print $1 }')
print_ratio 'pick of the last one, and check' \
    "$(best_of pick "$work/deep")" "$(best_of check "$work/deep")"

"$here/header_dump.py" 200000 ordered > "$work/wide"
names=(top.unit_1000)
one=$(best_of pick "$work/wide")
mapfile -t names < <("$work/vcdkit" list < "$work/wide" | awk 'NR % 200 == 1 { print $1 }')
print_ratio "pick of ${#names[@]} names, and of one" "$(best_of pick "$work/wide")" "$one"
