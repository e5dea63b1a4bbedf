#!/usr/bin/env python3
"""check.py [FILE..]: runs the commands that pages and tests show, and compares what they print.

In each ```console block of a page (without arguments, of DOCUMENTS), bash runs each line that
begins with a dollar sign and a blank, in the top directory of the repository. The lines below it,
up to the next command, have to be what it prints, standard output and standard error together. A
line that begins with `# ` is a comment for the reader. If the line of a command ends in `\\`, the
command continues in the next line; if it contains << 'END', the command ends with the line END. The
variable T names an empty directory for the files that a page writes; it is removed at the end, and
in what is printed, its name is $T. If a block begins with ```console PROGRAM .. and one of these
programs (or modules of Python) is missing, the block is skipped, and the last line of the output
says so.

What tables name has to be in the crates (contracts.py says which tables and what they may name).

A file of tests, whose name ends in .console, is one block. A command behind `1$ ` has to end with
status 1, and one behind `$ ` with status 0. A pipe fails if any part of it does (pipefail).

As the pages say, the top directory and extras/ are on the PATH, and python/ is on PYTHONPATH.
`vcdkit` is the program that VCDKIT names, or the ./vcdkit that `make` built, and `vcdkit-compare`
is the one beside it.

The exit status is 0 if everything is as written, 1 if something differs, and 2 if one of these
programs is missing."""
import difflib
import importlib.util
import os
import re
import shutil
import subprocess
import sys
import tempfile

from contracts import faults_of

TOP = os.path.dirname(os.path.dirname(os.path.abspath(__file__)))
DOCUMENTS = ["README.md", "docs/TUTORIAL.md", "docs/FAQ.md", "docs/MANUAL.md",
             "docs/INTERNALS.md", "docs/RECIPES.md", "docs/MANY_DUMPS.md", "docs/PYTHON.md",
             "docs/PRODUCERS.md", "extras/README.md"]
PROGRAM = os.path.abspath(os.path.join(TOP, os.environ.get("VCDKIT") or "vcdkit"))
SECONDS = 300
START = re.compile(r"([0-9]*)\$ (.*)")


def commands_of(document):
    """The commands of a document in order: the line, the command, the lines that it prints, the
    programs that it needs, and the status of a test."""
    is_tests = document.endswith(".console")
    commands, is_inside, goes_on, needs = [], is_tests, False, []
    with open(os.path.join(TOP, document), encoding="utf-8") as lines:
        for number, line in enumerate(lines, 1):
            line = line.rstrip("\n")
            start = START.match(line)
            if line.startswith("```") and not is_tests:
                words = line[3:].split()
                is_inside, goes_on, needs = words[:1] == ["console"], False, words[1:]
            elif is_inside and (goes_on or start):
                if goes_on:
                    commands[-1][1] += "\n" + line
                else:
                    status = int(start.group(1) or 0) if is_tests else None
                    commands.append([number, start.group(2), [], needs, status])
                is_text = "<< 'END'" in commands[-1][1] and line != "END"
                goes_on = line.endswith("\\") or is_text
            elif is_inside and commands and not line.startswith("# "):
                commands[-1][2].append(line)
    return commands


def printed_by(command, folder, programs, status):
    """The lines that a command prints, and one more if its status is not this one."""
    words = {name: word
             for name, word in os.environ.items()
             if name not in ("MAKELEVEL", "MAKEFLAGS", "MFLAGS")}
    path = (programs, TOP, os.path.join(TOP, "extras"), words["PATH"])
    words.update(LC_ALL="C", T=folder, PYTHONDONTWRITEBYTECODE="1", VCDKIT=PROGRAM,
                 PATH=os.pathsep.join(path), PYTHONPATH=os.path.join(TOP, "python"))
    bash = ["bash", "-c"] if status is None else ["bash", "-o", "pipefail", "-c"]
    try:
        done = subprocess.run(bash + [command], cwd=TOP, env=words, timeout=SECONDS,
                              stdin=subprocess.DEVNULL, stdout=subprocess.PIPE,
                              stderr=subprocess.STDOUT)
    except subprocess.TimeoutExpired:
        return ["(not done after %d seconds)" % SECONDS]
    lines = done.stdout.decode("utf-8", "backslashreplace").replace(folder, "$T").split("\n")
    lines = lines[:-1] if lines[-1] == "" else lines
    return lines + ["(status %d)" % done.returncode] * (status not in (None, done.returncode))


def text_of(document):
    """The text of a document."""
    with open(os.path.join(TOP, document), encoding="utf-8") as file:
        return file.read()


def check(documents, programs):
    """Runs the commands of these documents, with the directory of the programs first on the PATH,
    and returns the exit status."""
    run, differ, faults, missing = 0, 0, 0, set()
    for document in documents:
        for number, fault in faults_of(text_of(document)):
            faults += 1
            print("%s:%d: %s" % (document, number, fault))
        with tempfile.TemporaryDirectory() as folder:
            for number, command, expected, needs, status in commands_of(document):
                absent = {program for program in needs
                          if not shutil.which(program) and not importlib.util.find_spec(program)}
                if absent:
                    missing |= absent
                    continue
                printed, run = printed_by(command, folder, programs, status), run + 1
                if printed != expected:
                    differ += 1
                    print("%s:%d: $ %s" % (document, number, command))
                    for line in difflib.unified_diff(expected, printed, "written", "printed",
                                                     lineterm="", n=1):
                        print("    " + line)
    print("%d of %d commands as they should be" % (run - differ, run)
          + ("; those that need %s were skipped" % ", ".join(sorted(missing))) * bool(missing))
    return 1 if differ or faults or not run else 0


def main(documents):
    folder, name = os.path.split(PROGRAM)
    with tempfile.TemporaryDirectory() as programs:
        for own in "vcdkit", "vcdkit-compare", "vcdkit-strobe":
            program = os.path.join(folder, name.replace("vcdkit", own, 1))
            if not os.access(program, os.X_OK):
                print("tools/check.py: there is no %s: run make" % program, file=sys.stderr)
                return 2
            os.symlink(program, os.path.join(programs, own))
        return check(documents or DOCUMENTS, programs)


if __name__ == "__main__":
    sys.exit(main(sys.argv[1:]))
