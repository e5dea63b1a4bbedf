#!/usr/bin/env python3
"""manuals.py DIRECTORY SCRIPT...: writes a man page for each script to the directory, made from its
--help.

A help text consists of blocks with empty lines between them: first the usage, then the line that
whatis shows. A later block is text, or has a heading in lower case with a colon, such as options or
examples. A script that cannot run here gets no page: its message says why."""
import itertools
import os
import re
import subprocess
import sys

ROFF = str.maketrans({"\\": "\\e", "-": "\\-", "'": "\\(aq", "`": "\\(ga", "^": "\\(ha",
                      "~": "\\(ti"})
HEADS = {"positional arguments:": "ARGUMENTS", "optional arguments:": "OPTIONS",
         "example:": "EXAMPLES"}


def roff(block):
    """Returns the lines of a block, those that are indented as they are."""
    for is_indented, lines in itertools.groupby(block.split("\n"), lambda line: line[:1] == " "):
        lines = [line[2 * is_indented:].translate(ROFF) for line in lines]
        lines = ["\\&" * line.startswith(".") + line for line in lines]
        yield from [".EX", *lines, ".EE"] if is_indented else lines


def page_of(name, text):
    """Returns the man page of a script with this help."""
    usage, about, *blocks = text.rstrip().split("\n\n")
    sections, texts = [], []
    for block in blocks:
        head, _, rest = block.partition("\n")
        if re.match("[a-z ]+:$", head):
            sections.append((HEADS.get(head, head[:-1].upper()), roff(rest)))
        else:
            texts += [".PP"] * bool(texts) + list(roff(block))
    usage = usage[len("usage: "):].translate(ROFF).replace("\n       ", "\n")
    sections = [("NAME", [name.translate(ROFF) + " \\- " + about[:1].lower()
                          + about[1:].translate(ROFF)]),
                ("SYNOPSIS", [".EX", usage, ".EE"]), ("DESCRIPTION", texts), *sections,
                ("SEE ALSO", [".BR vcdkit (1)"])]
    lines = ['.TH %s 1 "" vcdkit "User Commands"' % name.upper().translate(ROFF)]
    for head, its in sections:
        lines += ['.SH "%s"' % head, *its]
    return "\n".join(lines) + "\n"


def main(words):
    if len(words) < 2 or words[0].startswith("-"):
        print(__doc__, file=sys.stderr)
        return 2
    for script in words[1:]:
        done = subprocess.run([os.path.abspath(script), "--help"], stdout=subprocess.PIPE,
                              universal_newlines=True, env={**os.environ, "COLUMNS": "74"})
        if done.returncode == 0:
            name = os.path.basename(script)
            with open(os.path.join(words[0], name + ".1"), "w", encoding="utf-8") as page:
                page.write(page_of(name, done.stdout))
            os.chmod(page.name, 0o644)
    return 0


if __name__ == "__main__":
    sys.exit(main(sys.argv[1:]))
