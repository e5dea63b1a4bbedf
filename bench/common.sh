# The scripts that measure time source this file. It provides the program under test, a directory
# that is removed at the end, and functions that measure one run. A script first sets `here`, and
# defines find_command, which sets `command` to the program and arguments of a run.
vcdkit=${VCDKIT:-$here/../vcdkit}
[ -x "$vcdkit" ] || { echo "${0##*/}: there is no program $vcdkit: run make first" >&2; exit 2; }

work=$(mktemp -d)
trap 'rm -rf "$work"' EXIT
cp "$vcdkit" "$work/vcdkit"

# User and system time together, and wall time, of one run of a program on a file.
times_of() {
    local TIMEFORMAT='%3U %3S %3R'
    find_command "$1"
    { time "${command[@]}" < "$2" > /dev/null; } 2>&1 | awk '{ print $1 + $2, $3 }'
}

# Sets `one` to the path in the middle of the list of a dump, and leaves that list in $work/list.
find_one() {
    "$work/vcdkit" list < "$1" > "$work/list"
    local middle=$((($(wc -l < "$work/list") + 1) / 2))
    one=$(LC_ALL=C awk -v middle="$middle" 'NR == middle { print $1 }' "$work/list")
}

# Stops, and prints the first comment of the script, which is its usage.
stop_with_usage() {
    sed -n '2,/^set/s/^# //p' "$0" >&2
    exit 2
}

# Stops with the usage if an argument is not a number above 0.
need_numbers() {
    local word
    for word in "$@"; do
        case $word in *[!0-9]* | '' | 0*) stop_with_usage ;; esac
    done
}
