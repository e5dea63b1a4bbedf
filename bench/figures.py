#!/usr/bin/env python3
"""figures.py DUMP...   prints the table of figures of docs/PERFORMANCE.md for these dumps: the
instructions that each command takes for an item (a timestamp or a change), and what other programs
that read the whole dump take: wc, grep, and the converter vcd2fst if it is installed.

    bench/make_dumps.sh /tmp/dumps
    bench/figures.py /tmp/dumps/{scalars,many,wide,cpus}.vcd

valgrind counts, so other work on the machine does not change the figures. A run reads the first
4 MB of a dump (or MEGABYTES, at least 3), cut off between two lines. A second run reads only
half of that body, and a figure is the difference between the two runs for each item that only
the first one reads. It therefore includes neither the header nor what a command writes at the
end of a run, such as the rows of edges. All programs run in the C locale. VCDKIT names the
program; by default it is the vcdkit in the directory above. The script takes two or three
minutes for each dump."""
import os
import re
import shutil
import subprocess
import sys
import tempfile

LAST = str(2**64 - 1)
COUNT = ["valgrind", "--tool=cachegrind", "--cache-sim=no", "--cachegrind-out-file=/dev/null"]


def run(words):
    """Runs a program in the C locale, and returns what it writes."""
    return subprocess.run(words, stdin=subprocess.DEVNULL, stdout=subprocess.PIPE,
                          stderr=subprocess.PIPE, env={**os.environ, "LC_ALL": "C"})


def instructions(words):
    """Returns how many instructions a run takes."""
    done = run(COUNT + words)
    found = re.search(rb"I +refs: +([\d,]+)", done.stderr)
    if not found or done.returncode > (words[0] == "grep"):  # 1: no line matches
        sys.exit("figures.py: %s\n%s" % (" ".join(words[:4]), done.stderr.decode(errors="replace")))
    return int(found.group(1).replace(b",", b""))


def rows_of(program, paths, folder):
    """Returns a name for each row of the table, and the words of the run over a file."""
    few = paths[::max(1, len(paths) // 5)][:5]
    tops = sorted({path.partition(".")[0] for path in paths})
    rows = [
        ("`check`", lambda dump: [program, "check", dump]),
        ("`pick` of five variables", lambda dump: [program, "pick", "-i", dump, "--", *few]),
        ("`pick` of all", lambda dump: [program, "pick", "-i", dump, "--", *tops]),
        ("`cut` before its window", lambda dump: [program, "cut", "--from", LAST, dump]),
        ("`cut` inside its window", lambda dump: [program, "cut", dump]),
        ("`sample` at one time", lambda dump: [program, "sample", "-i", dump, "--at", LAST, "--",
                                               *few]),
        ("`edges`", lambda dump: [program, "edges", "-i", dump]),
        ("`merge` of the dump with itself", lambda dump: [program, "merge", dump, dump]),
        ("`wc -l`", lambda dump: ["wc", "-l", dump]),
        ("`grep -c '^#'`", lambda dump: ["grep", "-c", "^#", dump]),
        ("`wc -w`", lambda dump: ["wc", "-w", dump])]
    if shutil.which("vcd2fst"):
        rows.append(("`vcd2fst`", lambda dump: ["vcd2fst", dump, os.path.join(folder, "out.fst")]))
    return rows


def write(path, text):
    """Writes a file, and returns its path."""
    with open(path, "wb") as file:
        file.write(text)
    return path


def front_of(name, size):
    """Returns the header and the body of the first bytes of a dump, up to a line's end."""
    with open(name, "rb") as file:
        text = file.read(size)
    end = text.index(b"\n", text.index(b"$enddefinitions")) + 1
    return text[:end], text[end:text.rindex(b"\n") + 1]


def items_of(program, path, text):
    """Writes a dump, and returns how many items it has."""
    report = run([program, "check", write(path, text)]).stdout
    if not report:  # a section is cut off: the dump ends before its time
        report = run([program, "check", write(path, text[:text.rindex(b"\n#") + 1])]).stdout
    return sum(int(count) for count in re.findall(rb"(?m)^(?:times|changes) (\d+)", report))


def column_of(program, name, size, folder):
    """Returns the names of the rows and the figures of a dump."""
    head, body = front_of(name, size)
    half, whole = os.path.join(folder, "half.vcd"), os.path.join(folder, "whole.vcd")
    items = items_of(program, whole, head + body)
    items -= items_of(program, half, head + body[:body.rindex(b"\n", 0, len(body) // 2) + 1])
    paths = [row.split(" ")[0] for row in run([program, "list", whole]).stdout.decode().split("\n")]
    column = []
    for row, words in rows_of(program, paths[:-1], folder):
        more = instructions(words(whole)) - instructions(words(half))
        column.append((row, more / items / (2 if "merge" in row else 1)))
    return column


def main(dumps):
    if not dumps or dumps[0].startswith("-"):
        print(__doc__)
        return 0 if dumps else 2
    program = os.environ.get("VCDKIT") or os.path.join(os.path.dirname(__file__), "..", "vcdkit")
    size = int(float(os.environ.get("MEGABYTES", "4")) * 1e6)
    with tempfile.TemporaryDirectory() as folder:
        columns = [column_of(os.path.abspath(program), dump, size, folder) for dump in dumps]
    names = [os.path.basename(dump).replace(".vcd", "") for dump in dumps]
    print("| command | %s |\n|---|%s" % (" | ".join(names), "---|" * len(names)))
    for cells in zip(*columns):
        print("| %s | %s |" % (cells[0][0], " | ".join("%.1f" % figure for _, figure in cells)))
    return 0


if __name__ == "__main__":
    sys.exit(main(sys.argv[1:]))
