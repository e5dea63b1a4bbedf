#!/usr/bin/env python3
"""links.py DIRECTORY: looks for the target of each link of the pages (*.md) below a directory, and
for the heading that it names.

It prints each link that leads nowhere or out of the directory, and ignores links to the web. The
status is 0 if there is no such link."""
import os
import re
import sys

LINK = re.compile(r"\[[^\]\[]*\]\(([^)\s]+)\)")


def headings(page):
    """The names that a page's headings have in links."""
    found, is_code = set(), False
    with open(page, encoding="utf-8") as lines:
        for line in lines:
            is_code ^= line.startswith("```")
            if line.startswith("#") and not is_code:
                text = re.sub(r"[^\w\- ]", "", line.lstrip("#").strip().lower())
                found.add(text.replace(" ", "-"))
    return found


def faults_of(page, top):
    """The links of a page that lead nowhere."""
    with open(page, encoding="utf-8") as file:
        text = re.sub(r"(?ms)^```.*?^```", "", file.read())
    for target in LINK.findall(re.sub(r"`[^`\n]*`(?!\])", "", text)):
        path, _, name = target.partition("#")
        if re.match(r"[a-z]+:", target):
            continue
        whole = os.path.normpath(os.path.join(os.path.dirname(page), path)) if path else page
        if not os.path.exists(whole):
            yield target, "is not there"
        elif os.path.relpath(whole, top).startswith(".."):
            yield target, "is outside"
        elif name and whole.endswith(".md") and name not in headings(whole):
            yield target, "has no such heading"


def main(words):
    if len(words) != 1 or words[0].startswith("-"):
        print(__doc__, file=sys.stdout if words == ["--help"] else sys.stderr)
        return 0 if words == ["--help"] else 2
    pages = faults = 0
    for folder, below, files in os.walk(words[0], followlinks=True):
        below[:] = sorted(name for name in below if name not in ("out", ".git"))
        for name in sorted(files):
            if name.endswith(".md"):
                pages += 1
                for target, why in faults_of(os.path.join(folder, name), words[0]):
                    faults += 1
                    print("%s: %s %s" % (os.path.join(folder, name), target, why))
    print("%d pages, %d links lead nowhere" % (pages, faults))
    return 1 if faults or not pages else 0


if __name__ == "__main__":
    sys.exit(main(sys.argv[1:]))
