#!/usr/bin/env python3
"""gate.py [--no-edits]: what `make test` runs, in three parts:

  tests     of pages, completions, scripts and package, and hostile runs with fixed seeds
  proofs    `rt ci`, in a copy of this tree without the must-fail edits: it proves each crate and
            its tests, and runs the tests and the programs
  edits     tools/try_edits.py, over the libraries that `rt ci` built or kept (not with --no-edits)

If the programs in the top directory are newer than their sources, the tests run first, with them.
If there were none, or `rt ci` built others, the tests run with what it built.

Each part prints a line with its minutes. The last line, `N passed, M failed`, adds up: `rt ci` and
the edits count as they say, and each command of the tests as one. If M is 0, so is the status."""
import filecmp
import os
import subprocess
import sys
import time

import prove
import try_edits

TESTS = "docs-check", "completions-check", "extras-check", "hostile-check"
# How many passed and failed in each part.
FOUND = []


def part(name, run, *given):
    """Runs a part, which returns how many passed and failed. Returns whether none failed."""
    began = time.monotonic()
    print("== " + name, flush=True)
    passed, failed = run(*given)
    FOUND.append((passed, failed))
    print("%s: %d passed, %d failed, %.1f minutes"
          % (name, passed, failed, (time.monotonic() - began) / 60), flush=True)
    return not failed


def make(target):
    """Makes a target, and shows all that it prints if it fails, or else its last line."""
    ran = subprocess.run(["make", "-s", target], cwd=prove.TOP, stdin=subprocess.DEVNULL,
                         stdout=subprocess.PIPE, stderr=subprocess.STDOUT, encoding="utf-8",
                         errors="replace", check=False)
    said = ran.stdout.rstrip("\n")
    print(said if ran.returncode else said.rpartition("\n")[2])
    return int(ran.returncode == 0), int(ran.returncode != 0)


def tests():
    for target in TESTS:
        part("make " + target, make, target)


def is_of(top, name):
    """Returns whether a program in the top directory is that of the copy."""
    crate, program = prove.MAINS[name], os.path.join(prove.TOP, name)
    return os.path.isfile(program) and filecmp.cmp(
        program, os.path.join(top, "crates", crate, "out", crate), shallow=False)


def main(words):
    if words not in ([], ["--no-edits"]):
        print(__doc__, file=sys.stdout if words == ["--help"] else sys.stderr)
        return 0 if words == ["--help"] else 2
    prove.end_on_signals()
    is_fresh = prove.is_fresh()
    if is_fresh:
        tests()
    with prove.copied() as top:
        if part("rt ci", prove.rt_ci, top):
            if not is_fresh or not all(is_of(top, name) for name in prove.MAINS):
                prove.take_programs(top)
                tests()
            if not words:
                part("must-fail edits", try_edits.tried, top, try_edits.with_edits())
        else:
            print("FAILED: rt ci, so no edits were tried" + ("" if is_fresh else ", and no tests"))
    passed, failed = map(sum, zip(*FOUND))
    print("%d passed, %d failed" % (passed, failed))
    return int(failed > 0)


if __name__ == "__main__":
    sys.exit(main(sys.argv[1:]))
