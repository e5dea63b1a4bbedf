#!/usr/bin/env bash
# run.sh all|check: runs the scripts of this directory, and those of python/tests that ask about
# many dumps, with the programs that are there. `check` takes some ten CPU minutes: it runs fewer
# random dumps, and leaves out what takes minutes by itself. Each script runs, even if one before it
# fails; then the status is 1.
#
# All small dumps take over two hours of CPU time, so a run of `all` asks about an eighth of them,
# another one each time: FIRST=0 to FIRST=7 say which one, and STRIDE=1 asks about all. The second
# reader takes new seeds each time too. All other seeds are fixed.
set -u
cd "$(dirname "$0")/.."
export VCDKIT=./vcdkit
devices=$(mktemp --suffix=.so)
trap 'rm -f "$devices"' EXIT
cc -O1 -shared -fPIC -o "$devices" hostile/devices.c -ldl || exit 1
status=0
# run COMMAND..: runs a script, and notes if it fails
run() { echo "-- $*"; "$@" || { status=1; echo "FAILED: $*"; }; }

run hostile/machine.py ./vcdkit "$devices"
run hostile/streams.py ./vcdkit "$devices"
case $1 in
    check)
        run hostile/hostile.py ./vcdkit "$devices" memory devices cut_off pipes
        run hostile/random_runs.py ./vcdkit --devices "$devices" --runs 10000
        run hostile/crafted.py ./vcdkit limits garbage
        RUNS=2000 run hostile/compare.py ./vcdkit ./vcdkit-compare "$devices" \
            rows pipe streams machine random
        RUNS=5000 run hostile/strobe.py ./vcdkit-strobe "$devices" random streams machine
        ;;
    all)
        run hostile/hostile.py ./vcdkit "$devices" memory large devices cut_off pipes
        run hostile/random_runs.py ./vcdkit --devices "$devices" --runs 50000
        run hostile/crafted.py ./vcdkit
        run hostile/compare.py ./vcdkit ./vcdkit-compare "$devices"
        run hostile/strobe.py ./vcdkit-strobe "$devices"
        stride=${STRIDE:-8}
        run python/tests/second_reader/ask.py --small "$stride:${FIRST:-$((RANDOM % stride))}"
        run python/tests/second_reader/ask.py --seconds 120
        run python/tests/test_expressions.py --count 100000
        run python/tests/test_expressions.py --verilator --count 2000
        [ ! -e libvcdkit.so ] || run hostile/library.py ./vcdkit ./libvcdkit.so
        ;;
esac
exit $status
