#!/usr/bin/env bash
# make_dumps.sh DIRECTORY [MB] [KIND...]   writes the dumps of the figures (docs/PERFORMANCE.md) to
# DIRECTORY/KIND.vcd, each of about MB megabytes (5 by default). It takes some minutes.
#
# KIND is scalars, many, wide or cpus; without one, it makes all four. A fifth kind, header, has a
# large header and almost no body. designs/ has the sources, with comments that describe them.
# Verilator simulates cpus, and Icarus Verilog the others (Debian: iverilog, verilator, g++, make).
# An existing dump is kept. Two runs of one simulator write the same dump, except for the date.
set -eu
[ $# -ge 1 ] || { sed -n '2,/^set/s/^# //p' "$0" >&2; exit 2; }
here=$(cd "$(dirname "$0")" && pwd)
mkdir -p "$1"
out=$(cd "$1" && pwd)
size=${2:-5}
shift "$(($# < 2 ? $# : 2))"
[ $# -gt 0 ] || set -- scalars many wide cpus
work=$(mktemp -d)
trap 'rm -rf "$work"' EXIT
cd "$work"

# How many clock cycles of a design take so many megabytes.
cycles_of() {
    case $1 in
        scalars) echo $((size * 9877)) ;;
        many) echo $(((size * 1000 - 1253) * 1000 / 22953)) ;;
        wide) echo $((size * 592)) ;;
        cpus) echo $((size * 121)) ;;
        header) echo 0 ;;
    esac
}

# Writes dump.vcd.
simulate() {
    local cycles
    cycles=$(cycles_of "$1")
    if [ "$1" = cpus ]; then
        verilator --binary --timing --trace -j 2 -O3 -Wno-fatal --Mdir cpus --top-module cpus \
            "$here/designs/cpus.sv" > log 2>&1
        cpus/Vcpus "+cycles=$cycles" > log
    else
        iverilog -g2005 -o design.vvp "$here/designs/$1.v"
        vvp -n design.vvp "+cycles=$cycles" > log
    fi
}

for kind in "$@"; do
    [ -e "$here/designs/$kind.v" ] || [ -e "$here/designs/$kind.sv" ] ||
        { echo "make_dumps.sh: there is no design $kind" >&2; exit 2; }
    if [ ! -s "$out/$kind.vcd" ]; then
        simulate "$kind" || { cat log >&2; exit 1; }
        mv dump.vcd "$out/$kind.vcd"
    fi
    echo "$(stat -c %s "$out/$kind.vcd") $out/$kind.vcd"
done
