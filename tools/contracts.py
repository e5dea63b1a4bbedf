#!/usr/bin/env python3
"""contracts.py NAME..: prints where these functions are, or all functions of these crates, and the
clauses of their contracts.
contracts.py PAGE.md..: looks for what the tables of these pages name.

In a table with the columns "function" and "clause", each function has to be in the crate before its
name (`CRATE::FUNCTION`), or else in that of the heading, and has to have one of the clauses. Each
name in the column "clause" has to be one of these:

- a clause of a function of the row (`ensures` stands for the clause that has no name);
- a definition that such a clause cites, itself or by another definition;
- with "of `X`" after it: a part of the definition X.

A row without a function goes on with the one above it. In the section "Laws", the names before the
colon of an item have to be functions of some laws.rt, and the page has to name all of them.

tools/check.py looks for the same on each page that it checks. The exit status is 1 if a name is not
there."""
import re
import sys
from functools import lru_cache
from pathlib import Path
from typing import Dict, FrozenSet, Iterator, List, NamedTuple, Set, Tuple

CRATES = Path(__file__).resolve().parent.parent / "crates"
NAME = re.compile(r"`([^`]+)`")
FUNCTION = re.compile(r'^([ \t]*)(?:pub(?:\(\w+\))? )?(?:const |extern "C" )?fn (\w+)', re.M)
MEMBER = re.compile(r"^[ \t]+ghost (\w+)\s*[:=]\s*\{", re.M)
OWNER = re.compile(r"^(?:pub(?:\(\w+\))? )?(?:impl|trait|struct|enum)\b(?:<[^{]*?>(?= ))?"
                   r"(?:([^{;]*) for)? ([^{;]*)", re.M)
CLAUSE = re.compile(r"\s*(requires|ensures)(?:\s+(\w+))?\s*\{")
DEFINITION = re.compile(r"^ *(?:abbrev pub|unfoldable pub|pub record|pub data) (\w+)", re.M)
WORD = re.compile(r"\w+")
COMMENT = re.compile(r"//.*")
LAW = re.compile(r"- ((?:`\w+`(?:\\\*)?(?:, )?)+): ")
PART = re.compile(r"((?:`\w+`(?:, | and )?)+) of `(\w+)`")


class Function(NamedTuple):
    """A function of a crate, or a ghost member of a type or trait (without a name): its file, the
    type or trait that it belongs to, the trait that it implements, as written, and its clauses,
    each with its kind, its name and its text."""
    file: str
    owner: str
    trait: str
    name: str
    clauses: List[Tuple[str, str, str]]

    def line(self) -> str:
        """Returns the function with the names of its clauses, as a line."""
        parts = ["%s: %s" % (self.file, "::".join(filter(None, (self.owner, self.name))))]
        for kind in ("requires", "ensures", "ghost"):
            names = [name for of, name, _ in self.clauses if of == kind]
            if names:
                parts.append(kind + " " * any(names) + ", ".join(filter(None, names)))
        return "; ".join(parts)


@lru_cache(maxsize=None)
def words_of(text: str) -> "FrozenSet[str]":
    """Returns the words in a text."""
    return frozenset(WORD.findall(text))


def end_of(text: str, start: int) -> int:
    """Returns where the brace closes that is just before `start`."""
    depth, position = 1, start
    while depth and position < len(text):
        depth += {"{": 1, "}": -1}.get(text[position], 0)
        position += 1
    return position


def clauses_at(text: str, start: int) -> "List[Tuple[str, str, str]]":
    """Returns the clauses between a signature and its body: kind, name, text."""
    clauses, position = [], start
    while position < len(text) and text[position] not in "{;":
        clause = CLAUSE.match(text, position)
        if clause:
            position = end_of(text, clause.end())
            clauses.append((clause[1], clause[2] or "", text[clause.end():position - 1]))
        else:
            position += 1
    return clauses


def functions_in(path: Path) -> "Iterator[Function]":
    """Yields the functions and ghost members of a file."""
    text, file = COMMENT.sub("", path.read_text(encoding="utf-8")), str(path.relative_to(CRATES))
    owners = [(it.start(), WORD.search(it[2])[0], it[1] or "") for it in OWNER.finditer(text)]

    def owner_at(start: int) -> "Tuple[str, str]":
        return ([(0, "", "")] + [owner for owner in owners if owner[0] < start])[-1][1:]
    for found in FUNCTION.finditer(text):
        owner, trait = owner_at(found.start()) if found[1] else ("", "")
        yield Function(file, owner, trait, found[2], clauses_at(text, found.end()))
    for found in MEMBER.finditer(text):
        member = text[found.end():end_of(text, found.end()) - 1]
        yield Function(file, *owner_at(found.start()), "", [("ghost", found[1], member)])


def own_clauses(functions: "List[Function]") -> "Set[str]":
    """Returns the names of the clauses of these functions, and their kinds."""
    clauses = [clause for one in functions for clause in one.clauses]
    return {name or kind for kind, name, _ in clauses} | {kind for kind, _, _ in clauses}


class Sources:
    """The functions and definitions of all crates."""

    def __init__(self) -> None:
        self.functions: "Dict[str, List[Function]]" = {}
        self.definitions: "Dict[str, Dict[str, str]]" = {}
        for folder in sorted(path for path in CRATES.iterdir() if path.is_dir()):
            files = sorted((folder / "src").glob("**/*.rt"))
            self.functions[folder.name] = [one for file in files for one in functions_in(file)]
            for file in sorted((folder / "specs").glob("**/*.antt")):
                self._define(folder.name, file.read_text(encoding="utf-8"))
        self.laws = {one.name for all_of in self.functions.values() for one in all_of
                     if one.file.endswith("/laws.rt")}

    def _define(self, crate: str, text: str) -> None:
        """Takes in the definitions of a file."""
        found = list(DEFINITION.finditer(text))
        for one, after in zip(found, found[1:] + [None]):
            texts = self.definitions.setdefault(one[1], {})
            texts[crate] = text[one.start():after.start() if after else len(text)]

    def named(self, name: str, crate: str = "") -> "List[Function]":
        """Returns the functions `NAME` or `TYPE::NAME`, of this crate or of all, or of the crate
        that stands before the name; for the name of a type or trait, all that belongs to it; for
        that of a crate, its functions that have clauses."""
        front, _, rest = name.partition("::")
        if front in self.functions:
            return self.named(rest, front) if rest else [
                one for one in self.functions[front] if one.name and one.clauses]
        owner, _, last = name.rpartition("::")
        crates = [crate] if crate else list(self.functions)
        among = [one for each in crates for one in self.functions.get(each, [])]
        found = [one for one in among if one.name == last and owner in ("", one.owner)]
        found += [one for each in found if not each.clauses and each.trait
                  for all_of in self.functions.values() for one in all_of
                  if one.owner == WORD.search(each.trait)[0] and one.name == last]
        return found or [one for one in among if one.owner == name]

    def cited(self, functions: "List[Function]") -> "Dict[str, str]":
        """Returns the names in these contracts and in the definitions that they cite, each with its
        definition, or with "" if it has none."""
        names: "Dict[str, str]" = {}
        todo = [(one.file.split("/")[0], text) for one in functions for _, _, text in one.clauses]
        while todo:
            crate, text = todo.pop()
            for name in (word for word in words_of(text) if word not in names):
                texts = self.definitions.get(name, {})
                crates = [crate] if crate in texts else list(texts)
                names[name] = "".join(texts[each] for each in crates)
                todo += [(each, texts[each]) for each in crates]
        return names


def rows_of(page: str) -> "Iterator[Tuple[int, str, Dict[str, str]]]":
    """Yields the rows of the tables of a page: line, heading, and the cells by their columns. An
    item of the section "Laws" is such a row too."""
    heading, section, columns, is_code = "", "", None, False
    for number, line in enumerate(page.split("\n"), 1):
        is_code ^= line.startswith("```")
        if line.startswith("#") and not is_code:
            heading = line.lstrip("# ").strip("`")
            section = heading if line.startswith("## ") else section
        law = LAW.match(line)
        if law and section == "Laws":
            yield number, heading, {"law": law[1]}
        if not line.startswith("|") or is_code:
            columns = None
            continue
        cells = [cell.strip() for cell in re.split(r"(?<!\\)\|", line)[1:-1]]
        if columns is None:
            columns = cells
        elif not set(line) <= set("|-: "):
            yield number, heading, dict(zip(columns, cells))


class Promises:
    """Looks for what the rows of a page name, one row after the other."""

    def __init__(self, sources: Sources) -> None:
        self.sources = sources
        self.functions: "List[Function]" = []
        self.cited: "Dict[str, str]" = {}
        self.laws: "Set[str]" = set()

    def faults(self, heading: str, cells: "Dict[str, str]") -> "Iterator[str]":
        """Yields what is wrong with a row."""
        if "law" in cells:
            named = set(NAME.findall(cells["law"]))
            self.laws |= named
            yield from ("no law `%s`" % law for law in sorted(named - self.sources.laws))
        if "function" in cells and "clause" in cells:
            crate = heading if heading in self.sources.functions else ""
            found = {name: self.sources.named(name, crate)
                     for name in NAME.findall(cells["function"])}
            yield from ("no function `%s`%s" % (name, crate and " in " + crate)
                        for name in found if not found[name])
            if found:
                self.functions = [one for each in found.values() for one in each]
                self.cited = self.sources.cited(self.functions)
            faults = list(self._clause_faults(cells["clause"]))
            clauses = set(NAME.findall(PART.sub("", cells["clause"])))
            if clauses and not faults:
                faults = ["`%s` has none of these clauses" % name for name in found
                          if found[name] and not clauses & own_clauses(found[name])]
            yield from faults

    def _clause_faults(self, cell: str) -> "Iterator[str]":
        """Yields the names of a cell that the functions at hand do not have."""
        for parts, whole in PART.findall(cell):
            text = "".join(self._cited_by(whole))
            for part in NAME.findall(parts):
                if not re.search(r"\b%s :" % part, text):
                    yield "no `%s` of `%s`" % (part, whole)
        own = own_clauses(self.functions)
        for name in NAME.findall(PART.sub("", cell)):
            is_cited = name in self.cited and (self.cited[name] or not name[0].islower())
            if name not in own and not is_cited:
                yield "no clause `%s` in %s" % (
                    name, ", ".join(sorted({one.name for one in self.functions})) or "no function")

    def _cited_by(self, name: str) -> "Iterator[str]":
        """Yields the definitions of a name, or of the case of this name, and what they cite."""
        crate = self.functions[0].file.split("/")[0] if self.functions else ""
        for text in {self.cited.get(name) or text for each, text in self.cited.items()
                     if each == name or re.search(r"^  %s :" % name, text, re.M)}:
            yield from self.sources.cited([Function(crate, "", "", "", [("", "", text)])]).values()
            yield text


def faults_of(page: str) -> "Iterator[Tuple[int, str]]":
    """Yields what the tables of a page name although it is not there: line and text."""
    rows = [row for row in rows_of(page) if row[2].keys() & {"law", "clause"}]
    if not rows or not CRATES.is_dir():
        return
    promises = Promises(Sources())
    for number, heading, cells in rows:
        for fault in promises.faults(heading, cells):
            yield number, fault
    if promises.laws:
        for law in sorted(promises.sources.laws - promises.laws):
            yield rows[-1][0], "the page has no law `%s`" % law


def main(words: "List[str]") -> int:
    """Prints functions, or what is wrong with pages, and returns the exit status."""
    if not words or words[0].startswith("-"):
        print(__doc__, file=sys.stdout if words == ["--help"] else sys.stderr)
        return 0 if words == ["--help"] else 2
    status, sources = 0, Sources()
    for word in words:
        if word.endswith(".md"):
            lines = ["%s:%d: %s" % (word, number, fault)
                     for number, fault in faults_of(Path(word).read_text(encoding="utf-8"))]
            status |= bool(lines)
        else:
            lines = [one.line() for one in sources.named(word)]
            if not lines:
                lines, status = ["no function " + word], 1
        for line in lines:
            print(line)
    return status


if __name__ == "__main__":
    sys.exit(main(sys.argv[1:]))
