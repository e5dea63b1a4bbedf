#!/usr/bin/env bash
# bench/peers.sh DUMP...   prints the CPU seconds and the peak memory of `vcdkit check` and of other
# programs that read the whole dump: wc -w counts its words, vcd2fst of GTKWave converts it, GTKWave
# loads it and exits (on an Xvfb display), and sigrok-cli converts it to bytes. Of three runs, the
# one with the least CPU time counts; a program that takes more than 10 s runs only once. VCDKIT
# names the program; by default it is ./vcdkit. Programs that are not installed are skipped.
set -u
program=${VCDKIT:-$(dirname "$0")/../vcdkit}
out=$(mktemp) times=$(mktemp) display=
trap 'rm -f "$out" "$times"; [ -z "$display" ] || kill "$display"' EXIT
has() { command -v "$1" > /dev/null; }
for package in gtkwave sigrok-cli; do
    dpkg-query -W -f '${Package} ${Version}\n' "$package" 2> /dev/null
done
wc --version | head -n 1
if has gtkwave && has Xvfb; then
    exec 3> "$out"
    Xvfb -displayfd 3 -nolisten tcp > /dev/null 2>&1 &
    display=$!
    until [ -s "$out" ]; do sleep 0.2; done
    exec 3>&-
    DISPLAY=:$(cat "$out")
    export DISPLAY
fi

# least NAME DUMP COMMAND..
least() {
    local name=$1 dump=$2
    shift 2
    : > "$times"
    for run in 1 2 3; do
        /usr/bin/time -a -o "$times" -f '%U %S %M' "$@" < "$dump" > /dev/null 2>&1
        awk '$1 + $2 > 10 { slow = 1 } END { exit !slow }' "$times" && break
    done
    awk -v name="$name" -v dump="$(basename "$dump")" -v bytes="$(stat -c %s "$dump")" '
        NF != 3 { next }
        !best || $1 + $2 < best { best = $1 + $2; peak = $3 }
        END {
            printf "%-16s %-14s %7.2f s %7.0f MB/s %8.1f MB\n",
                dump, name, best, bytes / 1e6 / best, peak * 1024 / 1e6
        }
    ' "$times"
}

for dump; do
    least 'vcdkit check' "$dump" "$program" check
    least 'wc -w' "$dump" env LC_ALL=C wc -w
    has vcd2fst && least vcd2fst "$dump" vcd2fst "$dump" "$out"
    [ -n "$display" ] && least 'gtkwave --exit' "$dump" gtkwave --exit --nomenus "$dump"
    has sigrok-cli && least sigrok-cli "$dump" sigrok-cli -I vcd -i "$dump" -O binary -o "$out"
done
