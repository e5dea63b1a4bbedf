"""The lines of vcdkit-diff, its JUnit file, and its cuts around the first difference."""
import argparse
import contextlib
import os
import sys
from typing import Any, Callable, Dict, Iterable, List, Optional, Sequence, Tuple

from ..errors import failing
from ..model.values import Cell, value_in
from ..questions.compare import FIRST, Comparison, Difference
from ..questions.saved import Exceptions
from ..questions.sides import Side, Sides
from ..reading.files import write
from .junit import Test
from .text import AnyForm, counted, form_of, in_json, shown, write_json

MAX_LINES = 20
# What the words of a line are, by its first one.
FIELDS = {"timescale": ("a", "b"), "alone": ("dump", "path", "variables"),
          "size": ("path", "a", "b"), "differs": ("time", "path", "a", "b"), "ends": ("a", "b"),
          "edges": ("a", "b"), "window": ("file",), "page": ("file",)}
Line = Tuple[Any, ...]  # a kind, and its fields; a time is in ticks of A, an end in those of each


class Lines:
    """The lines of each kind, which are written as they come, and go to a JUnit file. Without that,
    only the first one of each kind is kept."""

    def __init__(self, asked: argparse.Namespace):
        self._asked = asked
        self.times: List[Callable[[int], str]] = [str, str]  # what shows ticks of each
        self.lines: Dict[str, List[str]] = {}
        self.compared = ""
        self.notes: List[str] = []  # what standard error has of --waive

    def _form(self, line: Line) -> AnyForm:
        """Returns the form of both values, binary if they have one text in that which is asked for:
        in hexadecimal, two mixtures of x or z may be the same digit, X."""
        form: AnyForm = self._asked.forms.get(line[2], self._asked.form)
        is_alike = form and form_of(form).is_alike and len({
            shown(one, form) for one in line[3:]}) < 2
        return "binary" if is_alike else form

    def _text(self, line: Line) -> str:
        """Returns a line as a reader sees it."""
        what, *fields = line
        if what == "differs":
            fields[0] = self.times[0](fields[0])
            fields[2:] = [one if isinstance(one, str) and one in ("-", "triggered")
                          else shown(one, self._form(line)) for one in fields[2:]]
        if what == "ends":
            fields = [None if end is None else text(end) for text, end in zip(self.times, fields)]
        return " ".join(map(str, [what, *("-" if one is None else one for one in fields)]))

    def say(self, what: str, lines: Iterable[Line]) -> None:
        """Writes lines of a kind."""
        kept = self.lines.setdefault(what, [])
        for line in lines:
            text = self._text(line)
            if self._asked.junit is not None or not kept:
                kept.append(text)
            if self._asked.json:
                values = [in_json(one, self._form(line)) if what == "differs" and at > 2 else one
                          for at, one in enumerate(line)]
                write_json(dict(zip(("kind", *FIELDS[what]), values)))
            else:
                print(text)
        sys.stdout.flush()

    def say_some(self, what: str, lines: List[Line]) -> None:
        """Writes lines of a kind, the first ones if they are many and --every is not given."""
        rest = len(lines) - MAX_LINES if self._asked.extent == FIRST else 0
        self.say(what, lines if rest <= 0 else lines[:MAX_LINES])
        if rest > 0:
            front = " ".join(map(str, lines[0][:1 + (what == "alone")]))
            self.lines[what].append("%s .. %d more (--every)" % (front, rest))
            self.put(self.lines[what][-1], kind="more", of=front, lines=rest)

    def put(self, text: str, **row: Any) -> None:
        """Writes a line, or a row as JSON."""
        write_json(row) if self._asked.json else print(text)

    def differs(self) -> bool:
        return any(self.lines.values())

    def tests(self) -> List[Test]:
        """Returns a test for each kind of line that was looked for."""
        return [Test(self._asked.file, what, "failure" if lines else "", "".join(lines[:1]),
                     "\n".join(lines), "\n".join(
                         [self.compared, *self.notes] if what == "differs" else []))
                for what, lines in self.lines.items()]


def cell_of(value: Optional[bytes], is_event: bool) -> Cell:
    """Returns a value of a line; of an event whether it is triggered."""
    if is_event:
        return "triggered" if value else "-"
    return None if value is None else value_in(value, len(value))


def lines_of(differences: Iterable[Difference], side: Side) -> List[Line]:
    """Returns the lines of differences of one time, in the order of their names."""
    return [("differs", one.times[0], one.name, *(cell_of(its, None in one.values and any(
        side.types[at] == "event" for at in side.of_name.get(one.name, ()))) for its in one.values))
            for one in sorted(differences, key=lambda one: one.name)]


def say_headers(report: Lines, sides: Sides, comparison: Comparison, is_common: bool) -> None:
    """Says what the headers do not have in common."""
    if not is_common:
        scales = [str(side.scale) if side.scale else None for side in sides]
        report.say("timescale", [("timescale", *scales)] if scales[0] != scales[1] else [])
        for letter, names, side, other in zip("AB", comparison.alone, sides, sides[::-1]):
            report.say_some("alone", [("alone", letter, *one) for one in side.alone(names, other)])
    report.say("size", [("size", *one) for one in comparison.sizes])


def say_compared(report: Lines, sides: Sides, count: int, waived: int, edges: Sequence[int]
                 ) -> None:
    """Keeps how many signals are compared, and how many edges if there is a clock."""
    report.compared = "compared %s%s (A has %d, B has %d)" % (
        counted(count, "signal"), ", %d waived" % waived if waived else "",
        len(sides[0].paths), len(sides[1].paths))
    if edges:
        report.compared += " at %s (A has %d, B has %d)" % (
            counted(min(edges), "edge"), edges[0], edges[1])


def say_ends(report: Lines, sides: Sides, comparison: Comparison, has_clock: bool) -> None:
    """Says whether one of them is longer. Without a timestamp, a dump ends at 0."""
    if has_clock:
        counts = [*map(len, comparison.times)]
        report.say("edges", [("edges", *counts)] if len(set(counts)) > 1 else [])
        return
    ends = [side.report.last for side in sides]
    spans = {min((end or 0) * factor, comparison.window[1])
             for end, factor in zip(ends, comparison.factors)}
    report.say("ends", [("ends", *ends)] if len(spans) > 1 else [])


def part_in(into: Optional[str], letter: str) -> str:
    """Returns the path of the cut of a dump."""
    return os.path.join(into or ".", "diff.%s.vcd" % letter)


def write_parts(report: Lines, sides: Sides, times: Sequence[int], spans: Sequence[int],
                into: str) -> None:
    """Writes the cuts around a time of both, and says where they are."""
    with failing(into):
        os.makedirs(into, exist_ok=True)
    for letter, side, at, span in zip("ab", sides, times, spans):
        path = part_in(into, letter)
        write(path, side.dump.around(at, span).blocks())
        report.put("window " + path, kind="window", file=path)


def say_values(report: Lines, asked: argparse.Namespace, sides: Sides, comparison: Comparison,
               exceptions: Exceptions) -> List[Difference]:
    """Says where values differ that are no exceptions; returns the first difference of each."""
    first: Dict[str, Difference] = {}
    with contextlib.closing(comparison.differences()) as differences:
        for every in differences:
            found = [one for one in every if not exceptions.has(sides[0].owns(one.name)[0])]
            for one in found:
                first.setdefault(one.name, one)
            report.say_some("differs", lines_of(found, sides[0]) if found else [])
            if found and asked.extent == FIRST:
                break
    report.say("differs", [])
    return [*first.values()]
