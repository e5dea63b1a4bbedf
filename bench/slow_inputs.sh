#!/usr/bin/env bash
# slow_inputs.sh [VARIABLES]   measures inputs that could be slow, each beside `vcdkit check` of the
# same header with this many variables (200000 by default). It prints the best of three user and
# system times.
#
#     `sample` of one variable at 1000 and at 20000 times
#     `pick` of one name, given once and 30000 times; the same with another name among each 64
#     `pick` of 3000 and 30000 names with a dot inside the last component
#     `check` of 4000000 tokens of one byte in a comment, and in a date, beside as many timestamps
#
# TMPDIR needs 100 MB.
set -eu -o pipefail
here=$(cd "$(dirname "$0")" && pwd)
size=${1:-200000}
. "$here/common.sh"
need_numbers "$size"

# Sets `command` to the words that run a program: these words, or `check`.
find_command() {
    command=("$work/vcdkit" check)
    [ "$1" = check ] || command=("$work/vcdkit" "${words[@]}")
}

# The best time of three runs.
best_of() {
    for _ in 1 2 3; do times_of "$1" "$2"; done | sort -n | awk 'NR == 1 { print $1 }'
}

# A line with two times.
print_times() {
    awk -v what="$1" -v time="$2" -v check="$3" \
        'BEGIN { printf "%-48s %8.3f %8.3f\n", what, time, check }'
}

# A line with the time of these words over a header, and of check of it.
measure() {
    local what=$1 file=$2
    shift 2
    words=("$@")
    print_times "$what" "$(best_of words "$file")" "$(best_of check "$file")"
}

# A dump of one variable, with the lines of standard input as its body.
write_body() {
    echo '$var wire 1 ! a $end $enddefinitions $end'
    cat
}

# This keyword, tokens of one byte, and `$end`.
write_words() {
    echo "$1"
    awk 'BEGIN { for (n = 0; n < 1000000; n++) print "a b c d" }'
    echo '$end'
}

# A header of this many variables in one scope, whose names have a dot.
write_dots() {
    awk -v size="$1" 'BEGIN {
        print "$scope module u $end"
        for (n = 0; n < size; n++) print "$var wire 1 c" n " a." n " $end"
        print "$upscope $end $enddefinitions $end"
    }'
}

printf '%-48s %8s %8s\n' 'user and system s, best of three' time check
"$here/header_dump.py" "$size" ordered > "$work/header"
find_one "$work/header"
for times in 1000 20000; do
    measure "sample of one variable at $times times" "$work/header" \
        sample --at "$(seq -s , 0 $((times - 1)))" -- "$one"
done
for count in 1 30000; do
    mapfile -t names < <(yes top | head -n "$count")
    measure "pick of the top scope, named $count times" "$work/header" pick -- "${names[@]}"
done
mapfile -t names < <(yes top | head -n 30000 |
    awk -v one="$one" 'NR % 64 == 0 { $0 = one } { print }')
measure 'the same, and one variable in each 64 names' "$work/header" pick -- "${names[@]}"
for count in 3000 30000; do
    write_dots "$count" > "$work/dots"
    mapfile -t names < <(seq -f u.a.%.0f 0 $((count - 1)))
    measure "pick of $count names with a dot" "$work/dots" pick -- "${names[@]}"
done
seq -f '#%.0f' 1000000 4999999 | write_body > "$work/marks"
write_words '$comment' | write_body > "$work/comment"
{ write_words '$date'; write_body < /dev/null; } > "$work/date"
for text in comment date; do
    print_times "check of a $text of 4,000,000 tokens, and marks" \
        "$(best_of check "$work/$text")" "$(best_of check "$work/marks")"
done
