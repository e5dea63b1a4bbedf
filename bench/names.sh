#!/usr/bin/env bash
# names.sh [VARIABLES...]   measures how long `vcdkit pick` takes for the last variable, and for
# 1000 variables at equal distances, on headers with this many variables (by default, 200000 and
# 1000000), beside `vcdkit check`. It prints the best of three user and system times, and the ratio
# of each to the one before.
#
# The headers have no body. Their variables are in scopes of 20 (`spread`), in 1000 nested scopes
# (`deep`), or in one scope (`flat`). `pick` of 1000 names has to keep 1000 variables. TMPDIR needs
# 40 MB.
set -eu -o pipefail
here=$(cd "$(dirname "$0")" && pwd)
kinds=(spread deep flat)
programs=(check 'pick one' 'pick 1000')

sizes=("$@")
[ $# -gt 0 ] || sizes=(200000 1000000)
. "$here/common.sh"
need_numbers "${sizes[@]}"

# Writes a header of this many variables and no body: `spread` over scopes of 20, in 1000 scopes,
# each inside the one before (`deep`), or `flat` in one scope.
write_header() {
    awk -v size="$1" -v kind="$2" '
        function code_of(number, code) {
            for (code = ""; ; number = int((number - number % 94) / 94)) {
                code = code sprintf("%c", 33 + number % 94)
                if (number < 94) return code
            }
        }
        function opens(n) {
            if (kind == "spread") return n % 20 == 0
            if (kind == "deep") return n % share == 0 && depth < 1000
            return n == 0
        }
        BEGIN {
            share = size < 1000 ? 1 : int(size / 1000)
            for (n = 0; n < size; n++) {
                if (opens(n)) {
                    if (kind == "spread" && n) { print "$upscope $end"; depth-- }
                    print "$scope module " (kind == "spread" ? "unit_" n : "u") " $end"
                    depth++
                }
                print "$var wire 1 " code_of(n) " signal_" n " $end"
            }
            while (depth--) print "$upscope $end"
            print "$enddefinitions $end"
        }'
}

# Sets `names` to the paths of 1000 variables, at like distances, the last one's first.
find_names() {
    mapfile -t names < <("$work/vcdkit" list < "$1" | awk -v size="$2" '
        BEGIN { step = size < 1000 ? 1 : int(size / 1000) }
        NR % step == 0 { line[++n] = $1 }
        END { for (k = n; k > n - 1000 && k > 0; k--) print line[k] }')
}

# Sets `command` to the words that run a program.
find_command() {
    case $1 in
        check) command=("$work/vcdkit" check) ;;
        'pick one') command=("$work/vcdkit" pick -- "${names[0]}") ;;
        'pick 1000') command=("$work/vcdkit" pick -- "${names[@]}") ;;
    esac
}

# Makes sure that a pick has as many variables as there are names.
compare_counts() {
    find_command 'pick 1000'
    [ "$("${command[@]}" < "$1" | "$work/vcdkit" list | wc -l)" = "${#names[@]}" ] ||
        { echo "names.sh: not ${#names[@]} variables" >&2; exit 1; }
}

echo 'user and system seconds, best of three; the pick of one name over check;' \
    'that of 1000 names over that of one'
printf '%-8s %9s %6s | %8s %8s %9s | %9s %9s\n' \
    '' variables MB "${programs[@]}" 'one/check' '1000/one'
for kind in "${kinds[@]}"; do
    for size in "${sizes[@]}"; do
        write_header "$size" "$kind" > "$work/header"
        find_names "$work/header" "$size"
        compare_counts "$work/header"
        # The programs take turns, so that what else the machine does meets all of them.
        for _ in 1 2 3; do
            for program in "${programs[@]}"; do
                echo "$program:$(times_of "$program" "$work/header")"
            done
        done > "$work/times"
        awk -F: -v kind="$kind" -v size="$size" -v bytes="$(wc -c < "$work/header")" '
            { split($2, t, " ") }
            !($1 in best) || t[1] < best[$1] { best[$1] = t[1] }
            END {
                one = best["pick one"]
                printf "%-8s %9d %6.1f | %8.3f %8.3f %9.3f | %9.2f %9.2f\n",
                    kind, size, bytes / 1e6, best["check"], one, best["pick 1000"],
                    one / (best["check"] + 1e-9), best["pick 1000"] / (one + 1e-9)
            }' "$work/times"
    done
done
