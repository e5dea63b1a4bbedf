#!/usr/bin/env python3
"""edits.py [CRATE..]: prints the must-fail edits of these crates, or of all.

An edit is a file crates/CRATE/must-fail/NAME.edit. Its first line says what the wrong code does,
and which clause of which function rejects it, in one of these forms:

    # TEXT. Rejected in `FUNCTION`, by `CLAUSE`.
    # TEXT. Rejected in `FUNCTION`, by its only clause.
    # TEXT. Rejected in `FUNCTION`, by `CLAUSE` of `CALLED`.
    # TEXT. Rejected in `FUNCTION`, at the call of `CALLED`.

Several places are joined by ", and ", and a remark may follow the last one after a comma.
The exit status is 1 if there is no edit, or if the first line of an edit has another form;
otherwise it is 0. tools/try_edits.py tries the edits."""
import re
import sys
from pathlib import Path
from typing import Iterator, NamedTuple

CRATES = Path(__file__).resolve().parent.parent / "crates"
PLACE = (r"in `([\w:]+)`(?: of `(\w+)`)?, "
         r"(?:by its only clause|by `(\w+)`(?: of `(\w+)`)?|at the call of `(\w+)`)")
FORM = re.compile(r"# (.*)\. Rejected (%s(?:, and %s)*)(?:, [\w ]+)?\." % ((PLACE,) * 2))


class Place(NamedTuple):
    """What rejects an edit: a clause of a function or, if it calls a function there, a clause of
    that one. The clause is "" if it is the only one, or if any `requires` of a call will do."""
    function: str
    clause: str
    called: str


def files_in(crate: str) -> "list[Path]":
    """Returns the edits of a crate, or of all if it is "*", in the order of their paths."""
    return sorted(CRATES.glob(crate + "/must-fail/*.edit"))


def places_in(purpose: str) -> "Iterator[Place]":
    """Yields what rejects an edit with this first line, which has one of the forms."""
    for function, owner, clause, promised, called in re.findall(PLACE, FORM.fullmatch(purpose)[2]):
        yield Place("::".join(filter(None, (owner, function))), clause, promised or called)


def main(crates: "list[str]") -> int:
    """Prints the edits, and returns the exit status."""
    if crates[:1] == ["--help"]:
        print(__doc__)
        return 0
    lines = []
    for file in (file for crate in crates or ["*"] for file in files_in(crate)):
        purpose = file.read_text(encoding="utf-8").split("\n", 1)[0]
        lines.append("%s/%s: %s" % (file.parent.parent.name, file.stem,
                                    purpose[2:] if FORM.fullmatch(purpose) else "no purpose"))
    print("\n".join(lines) or "no must-fail edits")
    return int(not lines or any(line.endswith(": no purpose") for line in lines))


if __name__ == "__main__":
    sys.exit(main(sys.argv[1:]))
