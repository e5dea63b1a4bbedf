#!/usr/bin/env python3
"""costs.py COMMAND..: runs a command, such as `make` or .ci/run, and then writes to standard error
how much CPU time (user and system) its proofs took, in seconds, as rows of a table: for each crate
its proof (with what builds the program), its tests, and its must-fail edits together. To these
belongs a second proof of the crate if `rt ci` tries them, and of the functions that they call if
tools/try_edits.py does. The last line has the minutes of the whole command, tests included.

It looks at the processes of the prover ten times a second, so a row can lack a tenth of a second
for each of them. Other proofs on the machine count too. The exit status is the command's."""
import collections
import os
import subprocess
import sys
import time

TICKS = os.sysconf("SC_CLK_TCK")
KINDS = "proof", "proof of tests", "proofs with edits"


def words_of(process):
    with open("/proc/%s/cmdline" % process, "rb") as file:
        return file.read().decode(errors="replace").split("\0")


def seconds_of(process):
    """Returns the CPU time of a process without that of its children: a proof over kept work has
    copies of itself do the work, which are processes of the prover too."""
    with open("/proc/%s/stat" % process, encoding="utf-8") as file:
        return sum(map(int, file.read().rpartition(")")[2].split()[11:13])) / TICKS


def kind_of(process, words):
    if "--test" in words:
        return KINDS[1]
    folder = os.readlink("/proc/%s/cwd" % process)
    return KINDS[2 if "/rt-edit-" in folder or "/vcdkit-edits-" in folder else 0]


def sample(found):
    """Notes, for each process of the prover, its crate, its kind and its CPU time so far."""
    for process in filter(str.isdigit, os.listdir("/proc")):
        try:
            words = words_of(process)
            if words[0].endswith("/rattle") and "--crate-name" in words:
                crate = words[words.index("--crate-name") + 1]
                found[process, crate, kind_of(process, words)] = seconds_of(process)
        except (OSError, IndexError):
            pass  # it has ended


def main():
    found, began = {}, time.monotonic()
    command = subprocess.Popen(sys.argv[1:])
    while command.poll() is None:
        sample(found)
        time.sleep(0.1)
    costs = collections.defaultdict(lambda: dict.fromkeys(KINDS, 0))
    for (_, crate, kind), seconds in found.items():
        costs[crate][kind] += seconds
        costs["all"][kind] += seconds
    print("| crate | %s |\n%s" % (" | ".join(KINDS), "|---" * 4 + "|"), file=sys.stderr)
    for crate, row in sorted(costs.items(), key=lambda row: -sum(row[1].values())):
        print("| %s |" % " | ".join([crate, *("%.0f" % row[kind] for kind in KINDS)]),
              file=sys.stderr)
    spent = os.times()
    print("the whole command: %.1f CPU minutes, %.1f by the clock" % (
        (spent.children_user + spent.children_system) / 60, (time.monotonic() - began) / 60),
        file=sys.stderr)
    return command.returncode


if __name__ == "__main__":
    sys.exit(main())
