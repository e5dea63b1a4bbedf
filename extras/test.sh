#!/usr/bin/env bash
# Tests the Python package and the scripts on samples/ and on small dumps. It builds nothing: it
# uses the program that VCDKIT names, or ./vcdkit. extras/test.sh DUMP.. also checks on these dumps
# what must hold for any dump. If `make library` has left ./libvcdkit.so, it tests that as well. The
# tests that compare what a command prints are in extras/tests (tools/check.py).
set -u
cd "$(dirname "$0")/.."
export VCDKIT=${VCDKIT:-./vcdkit} LC_ALL=C COLUMNS=80 LINES=24
[[ -x $VCDKIT ]] ||
    { echo "extras/test.sh: there is no program $VCDKIT. Run make first." >&2; exit 1; }
VCDKIT=$(realpath "$VCDKIT")
failed=0 tried=0
folder=$(mktemp -d)
# Hundreds of scripts start: each finds Python itself first, not a shim of pyenv, and its modules
# compiled.
PATH=$PWD/extras:$(python3 -c 'import os, sys; print(os.path.dirname(sys.executable))'):$PATH
python3 -m compileall -qq python hostile/reference tools
export PYTHONDONTWRITEBYTECODE=1
# later_what, later_pids: the tests that run in the background, and their processes
later_what=() later_pids=()
trap 'kill "${later_pids[@]}" 2> /dev/null; rm -rf "$folder"' EXIT

# same WHAT WANTED GOT
same() {
    tried=$((tried + 1))
    [[ $2 == "$3" ]] && return
    failed=$((failed + 1))
    printf '%s\n  wanted: %s\n  got:    %s\n' "$1" "${2:0:400}" "${3:0:400}"
}
# later WHAT COMMAND ..: a test that runs beside the others, and has to end with status 0
later() {
    later_what+=("$1")
    "${@:2}" > "$folder/later.${#later_what[@]}" 2>&1 &
    later_pids+=($!)
}
# finish: waits for these tests, and shows what those say that fail
finish() {
    local at said ended
    for at in "${!later_pids[@]}"; do
        said=$folder/later.$((at + 1))
        wait "${later_pids[at]}"
        ended=$?
        ((ended == 0)) ||
            ended+=" $(grep -A 30 -E '^(ERROR|FAIL|Trace)' "$said" || cat "$said")"
        same "${later_what[at]}" 0 "$ended"
    done
    later_pids=()
}

# The package, with numpy and without: a Python with pandas, else with numpy, is
# looked for, and numpy is hidden by a directory that has an empty one.
library=
[[ ! -e libvcdkit.so ]] || library=$PWD/libvcdkit.so
mkdir "$folder/hidden"
echo 'raise ImportError("hidden")' > "$folder/hidden/numpy.py"
with_numpy=
for module in pandas numpy; do
    for python in python3 /usr/bin/python3; do
        [[ -n $with_numpy ]] || ! "$python" -c "import $module" 2> /dev/null || with_numpy=$python
    done
done
later 'the package, without numpy' env PYTHONPATH="$folder/hidden" VCDKIT_LIBRARY="$library" \
    python3 python/tests/test_vcdkit.py
if [[ -n $with_numpy ]]; then
    later 'the package, with numpy' env VCDKIT_LIBRARY="$library" \
        "$with_numpy" python/tests/test_vcdkit.py
    "$with_numpy" -c 'import pandas' 2> /dev/null ||
        echo 'the package is not tried with pandas: there is none'
else
    echo 'the package is not tried with numpy: there is none'
fi
if command -v mypy > /dev/null; then
    later 'the types of package and scripts' mypy --no-error-summary --cache-dir /dev/null \
        --config-file python/mypy.ini python/vcdkit
else
    echo 'the types of package and scripts are not checked: there is no mypy'
fi
later 'the layers of the package' python3 python/tests/test_layers.py
# The second reader: fixed dumps that it makes, and dumps of simulators.
later 'the scripts and the package, against the second reader' "${with_numpy:-python3}" \
    python/tests/second_reader/ask.py --processes 1 --seeds 0:40
later 'the same, about dumps of simulators' "${with_numpy:-python3}" \
    python/tests/second_reader/ask.py --processes 1 --seeds 0:1 samples/*.vcd "$@"
[[ -n $(type -P node) ]] || echo "the page's script is not asked by the second reader: no node"
for script in when diff; do
    later "vcdkit-$script, and what it refuses" python3 "python/tests/test_$script.py"
done
test=python/tests/test_expressions.py
later 'conditions, against Icarus Verilog' python3 $test --count 400
later 'transactions, against two buses in Icarus Verilog' python3 python/tests/test_buses.py
[[ -n $(type -P iverilog) ]] ||
    echo 'conditions and transactions are not compared with Icarus: no iverilog'
later 'conditions, against Verilator' python3 $test --verilator --count 50
[[ -n $(type -P verilator) ]] || echo 'conditions are not compared with Verilator: no verilator'
for some in 120 120:60; do
    later "the same, on every 120th small dump: $some" \
        "${with_numpy:-python3}" python/tests/second_reader/ask.py --processes 1 --small $some
done
later 'the scripts, at any argument, file and stream' python3 python/tests/test_scripts.py
later 'the scripts, on long files and as outputs' python3 python/tests/test_files.py
later 'the pages of vcdkit-wave and vcdkit-diff' python3 python/tests/test_page.py
[[ -n $(type -P chromium chromium-browser google-chrome) ]] ||
    echo 'the pages are not tried in a browser: there is no chromium'
[[ -n $library ]] || echo 'arrays are not tried by the library: no libvcdkit.so'

tests=(extras/tests/*.console)
if [[ -e libvcdkit.a && -n $library ]] && command -v cc > /dev/null; then
    tests+=(extras/c/tests.console)
else
    echo 'the callers in C are not tried: there is no libvcdkit.a (make library), or no cc'
fi
tools/check.py "${tests[@]}"
same 'the commands of extras/tests' 0 $?

# sampled DUMP PATH: what sample says of a variable at the times of $folder/values
sampled() {
    local times
    times=$(cut -d ' ' -f 1 "$folder/values" | paste -s -d ,)
    "$VCDKIT" sample -i "$1" --at "$times" -- "$2" | cut -d ' ' -f 1,3 |
        awk '$2 ~ /^r/ { $2 = substr($2, 2) + 0 } { print }'
}

# What holds of any dump: of three simulators here (Icarus Verilog, Verilator, GHDL), and of those
# that are given.
vcdkit-four-state < samples/ghdl.vcd > "$folder/ghdl.vcd"
for dump in samples/counter.vcd samples/nested.vcd samples/verilator.vcd "$folder/ghdl.vcd" "$@"; do
    "$VCDKIT" cut -i "$dump" --from 0 --to 18446744073709551615 > "$folder/cut.vcd"
    same "$dump: no difference from itself, cut" 'status 0' \
        "$(vcdkit-diff "$dump" "$folder/cut.vcd" 2>&1; echo "status $?")"
    same "$dump: vcdkit-join-bits and vcdkit-close-sections leave the changes of all" \
        "$("$VCDKIT" sample -i "$dump" --at 0,7,1000000 | cksum)" \
        "$(vcdkit-close-sections < "$dump" | vcdkit-join-bits |
            "$VCDKIT" sample --at 0,7,1000000 | cksum)"
    same "$dump: vcdkit-explain has the report of check" "$("$VCDKIT" check -i "$dump")" \
        "$(vcdkit-explain "$dump")"
    vcdkit-four-state < "$dump" | cmp -s - "$dump"
    same "$dump: vcdkit-four-state leaves four states as they are" 0 $?
    same "$dump: vcdkit-find has the rows of list" "$("$VCDKIT" list -i "$dump" | cksum)" \
        "$(vcdkit-find "$dump" | cksum)"
    # The first and the last variable that is no event: each value of a table is that of sample.
    paths=$("$VCDKIT" list -i "$dump" |
        awk '$2 != "event" { if (!first) first = $1; last = $1 } END { print first, last }')
    for path in $paths; do
        vcdkit-table --unit tick "$dump" "$path" | sed 1d | head -n 1000 | tr , ' ' \
            > "$folder/values"
        same "$dump: vcdkit-table of $path" "$(sampled "$dump" "$path")" "$(cat "$folder/values")"
        pattern=^$(sed 's/[^A-Za-z0-9_.]/[&]/g; s/\\/\\\\/g; s/[.]/[.]/g' <<< "$path")'$'
        same "$dump: pick of $path" "$("$VCDKIT" pick -i "$dump" -- "$path" | cksum)" \
            "$(vcdkit-find --pick "$dump" "$pattern" | cksum)"
    done
done

finish
echo "$((tried - failed)) of $tried as they should be"
((failed == 0))
