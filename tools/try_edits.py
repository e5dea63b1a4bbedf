#!/usr/bin/env python3
"""try_edits.py [CRATE..]: tries the must-fail edits of these crates, or of all. The prover has to
reject each of them in every function that its first line names, and by the clause that it names
there (tools/edits.py).

First `rt ci` proves the crates, in a copy without the edits (tools/prove.py), or takes them from an
earlier run. Over the libraries that it built there, `rattle check --only` then checks the functions
that reject an edit, and what they call, in a copy of the crate with the edit, from scratch.

The proof of a function uses only the contracts of the functions that it calls. So edits that change
nothing but the bodies of the functions that reject them share a copy, if these are different
functions. If one of them is not rejected there, for example because a function that it calls was,
it is tried once more, alone.

A line for each function shows the open goal that rejects an edit. The last line is `N passed, M
failed`, and the exit status is 0 if M is 0."""
import os
import re
import shutil
import subprocess
import sys
import tempfile
import time
from concurrent.futures import ThreadPoolExecutor
from pathlib import Path
from typing import Dict, List, NamedTuple, Tuple

import contracts
import edits
import prove

# What rattle prints of a goal that is open: a note on the source, or an error in a proof file. The
# notes on a function come before its verdict.
NOTE = re.compile(r"note: src/\S+: (?=it is not proved|`search` found no proof)(.*?\(`(\S+)`\).*)")
ERROR = re.compile(r"\./proofs/(\S+)/\w+\.antt:\d+:\d+: error: (`(\S+)`: .*)")
VERDICT = re.compile(r"fn \w+::(\S+): (.*)")
# An error that only says that the proof names what the edit took away.
NAMES = re.compile(r"has no field|is not in scope|has no `|was not admitted")
# The open goals of each function: their names, and what rattle says of them.
Goals = Dict[str, List[Tuple[str, str]]]


def paths_in(crate: str) -> "Dict[str, contracts.Function]":
    """Returns the functions of a crate, by the paths that rattle gives them."""
    found = {}
    for file in sorted((edits.CRATES / crate / "src").glob("**/*.rt")):
        modules = file.relative_to(edits.CRATES / crate / "src").with_suffix("").parts
        for one in filter(lambda it: it.name, contracts.functions_in(file)):
            trait = re.findall(r"(?<!')\b\w+", one.trait)
            owner = one.owner + "".join(word[0].upper() + word[1:] for word in trait)
            parts = *(it for it in modules if it not in ("lib", "main")), owner, one.name
            found["::".join(filter(None, parts))] = one
    return found


def is_in_body(text: str, old: str, name: str) -> bool:
    """Returns whether a text is in the body of a function of this name: whether the function is
    the last one that begins before the text, and its body begins there, but does not end."""
    at = text.find(old)
    heads = list(contracts.FUNCTION.finditer(text, 0, max(at, 0)))
    if not heads or heads[-1][2] != name:
        return False
    before, indent = text[heads[-1].end():at], heads[-1][1]
    return ("\n%s}\n" % indent not in before
            and bool(re.search(r"\A.*\{$|^%s(\).*)?\{$" % indent, before, re.M)))


class Edit(NamedTuple):
    """A must-fail edit: its name, the pairs of texts that it replaces, each with its file, and, for
    each function that rejects it, the form of the goal that has to be open there."""
    name: str
    changes: List[Tuple[str, str, str]]
    goals: "Dict[str, re.Pattern]"

    def applied(self, texts: "Dict[str, str]") -> "Dict[str, str]":
        """Returns these texts, by their files, with the edit."""
        texts = dict(texts)
        for file, old, new in self.changes:
            if texts[file].count(old) != 1:
                raise ValueError("%s: an old text is not there exactly once" % self.name)
            texts[file] = texts[file].replace(old, new)
        return texts

    def is_shared(self, texts: "Dict[str, str]") -> bool:
        """Returns whether it changes only bodies of the functions that reject it."""
        names = {path.rpartition("::")[2] for path in self.goals}
        return all(any(is_in_body(texts[file], old, name) for name in names)
                   for file, old, _ in self.changes)

    def rejected(self, goals: Goals) -> "Dict[str, str]":
        """Returns what rattle says of a goal that has to be open, for each function where it is."""
        found: "Dict[str, str]" = {}
        for path, form in self.goals.items():
            for name, text in goals.get(path, []):
                if form.fullmatch(name):
                    found.setdefault(path, text)
        return found


def goal_of(place: edits.Place) -> "re.Pattern":
    """Returns the form of the goals that a place of a first line means."""
    begin = r"%s(-.*)?-requires" % place.called if place.called else "returns"
    if place.clause:
        return re.compile(r"%s(-.*)?-clause-%s" % (begin, place.clause))
    return re.compile(begin + (".*" if place.called else "(?!.*-clause-).*"))


def read(file: Path, paths: "Dict[str, contracts.Function]") -> Edit:
    """Returns the edit of a file, in a crate that has these functions."""
    crate, lines = file.parent.parent.name, file.read_text(encoding="utf-8").split("\n")
    name, path, old, changes, goals = "%s/%s" % (crate, file.stem), "", "", [], {}
    for line in lines:
        key, _, text = line.partition(":")
        path = text.strip() if key == "file" else path
        old = text[1:] if key == "old" else old
        if key == "new":
            changes.append((path, old, re.sub(r"\A ", "", text)))
    if not changes or not edits.FORM.fullmatch(lines[0]):
        raise ValueError("%s: its first line has another form, or it changes nothing" % name)
    for place in edits.places_in(lines[0]):
        owner, _, last = place.function.rpartition("::")
        found = [it for it, one in paths.items() if one.name == last and owner in ("", one.owner)]
        here = [it for it in found if paths[it].file.partition("/")[2] in {it[0] for it in changes}]
        if len(here or found) != 1:
            raise ValueError("%s: `%s` is not one function: %s" % (name, place.function, found))
        goals[(here or found)[0]] = goal_of(place)
    return Edit(name, changes, goals)


def open_goals(lines: "List[str]") -> "Tuple[Dict[str, str], Goals]":
    """Returns the verdict on each function, and the open goals of those that are not proved."""
    verdicts, goals, errors, notes = {}, {}, {}, []
    for line in lines:
        note, error, verdict = NOTE.match(line), ERROR.match(line), VERDICT.match(line)
        if note:
            notes.append((note[2], note[1]))
        elif error and not NAMES.search(error[2]):
            errors.setdefault(error[1].replace("/", "::"), []).append((error[3], error[2]))
        elif verdict:
            verdicts[verdict[1]] = verdict[2]
            if verdict[2] != "proved":
                goals[verdict[1]] = [*errors.get(verdict[1], []), *notes]
            notes = []
    return verdicts, goals


class Trial:
    """The edits of a crate of a copy of the repository, tried in copies of the crate."""

    def __init__(self, top: str, crate: str):
        self.folder, self.said = Path(top, "crates", crate), []
        self.words, paths = prove.words_of(top, crate), paths_in(crate)
        self.edits = [read(file, paths) for file in edits.files_in(crate)]
        self.texts = {file: (self.folder / file).read_text(encoding="utf-8")
                      for edit in self.edits for file, _, _ in edit.changes}

    def check(self, tried: "List[Edit]") -> "List[str]":
        """Checks the functions that reject these edits in a copy with all of them, and returns what
        rattle printed."""
        texts = self.texts
        for edit in tried:
            texts = edit.applied(texts)
        only = [word for path in sorted({it for edit in tried for it in edit.goals})
                for word in ("--only", path)]
        with tempfile.TemporaryDirectory(prefix="vcdkit-edits-") as copy:
            for part in filter(lambda it: (self.folder / it).is_dir(), ("src", "specs", "proofs")):
                shutil.copytree(self.folder / part, Path(copy, part))
            for file, text in texts.items():
                Path(copy, file).write_text(text, encoding="utf-8")
            ran = subprocess.run([os.path.join(prove.KIT, "bin/rattle"), "check", *self.words,
                                  *only], cwd=copy, stdin=subprocess.DEVNULL,
                                 stdout=subprocess.PIPE, stderr=subprocess.STDOUT,
                                 encoding="utf-8", errors="replace")
        return ran.stdout.rstrip("\n").split("\n")

    def try_in_one(self, tried: "List[Edit]") -> "List[Edit]":
        """Tries these edits in one copy, notes which goals reject them, and returns those that are
        not rejected."""
        lines = self.check(tried)
        verdicts, goals = open_goals(lines)
        missed = [it for it in tried if len(it.rejected(goals)) < len(it.goals)]
        for edit in filter(lambda it: it not in missed, tried):
            self.said += ["%s: rejected in `%s`: %.200s" % (edit.name, *it)
                          for it in edit.rejected(goals).items()]
        for edit in missed if len(tried) == 1 else ():
            for path in edit.goals.keys() - edit.rejected(goals):
                self.said.append("FAILED: %s is not rejected in `%s` by the clause that it names: "
                                 "%s" % (edit.name, path, verdicts.get(path, "not checked")))
                self.said += ["  %.200s" % text for _, text in goals.get(path, [])]
            self.said += lines[:12] if not verdicts else []
        return missed

    def run(self) -> int:
        """Tries the edits, and returns how many were rejected."""
        began, shared, alone, failed = time.monotonic(), [], [], []
        for edit in self.edits:
            (shared if edit.is_shared(self.texts) else alone).append(edit)
        while shared:
            together: "List[Edit]" = []
            for edit in shared:
                if not any(edit.goals.keys() & it.goals.keys() for it in together):
                    together.append(edit)
            shared = [it for it in shared if it not in together]
            missed = self.try_in_one(together)
            (failed if len(together) == 1 else alone).extend(missed)
        for edit in alone:
            failed += self.try_in_one([edit])
        self.said.append("%s: %d of %d edits rejected, %.1f minutes" % (
            self.folder.name, len(self.edits) - len(failed), len(self.edits),
            (time.monotonic() - began) / 60))
        return len(self.edits) - len(failed)


def tried(top: str, crates: "List[str]") -> "Tuple[int, int]":
    """Tries the edits of these crates of a copy of the repository, as many crates at a time as
    prove.lanes() says, those with the most edits first. Prints what came of them, and returns how
    many were rejected, and how many were not."""
    def one(crate: str) -> "Tuple[int, int]":
        try:
            trial = Trial(top, crate)
            passed = trial.run()
        except (OSError, ValueError) as error:
            print("FAILED: %s: %s" % (crate, error), flush=True)
            return 0, 1
        print("\n".join(trial.said), flush=True)
        return passed, len(trial.edits) - passed

    crates = sorted(crates, key=lambda it: -len(edits.files_in(it)))
    with ThreadPoolExecutor(prove.lanes()) as pool:
        passed, failed = map(sum, zip((0, 0), *pool.map(one, crates)))
    return passed, failed or int(not passed)


def with_edits() -> "List[str]":
    return sorted({file.parent.parent.name for file in edits.files_in("*")})


def main(words: "List[str]") -> int:
    if words[:1] == ["--help"]:
        print(__doc__)
        return 0
    crates = words or with_edits()
    with prove.copied(crates) as top:
        passed, failed = (0, 1) if prove.rt_ci(top)[1] else tried(top, crates)
    print("%d passed, %d failed" % (passed, failed))
    return int(failed > 0)


if __name__ == "__main__":
    sys.exit(main(sys.argv[1:]))
