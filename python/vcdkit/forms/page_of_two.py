"""A page with the signals that differ between two dumps, for vcdkit-diff: each of A above that of
B, in a window around the first difference."""
import os
from functools import partial
from typing import Dict, List, Optional, Sequence, Tuple

from ..model.signals import Signal
from ..model.times import Window
from ..questions.compare import Difference, Same
from ..questions.sides import Sides, pairs_called
from ..questions.streams import Reader, TooMuch, differences
from ..reading.source import Edge
from . import page
from .page import Page, PageRow
from .text import Form

NEAR = 10  # changes before and after the first difference that are shown first
Named = Tuple[str, Tuple[Signal, Signal]]


class Surroundings:
    """The time that a page has, in ticks of both dumps: `span` of them before and after the first
    difference. B is moved, so that the first difference is at one time in both."""

    def __init__(self, sides: Sides, factors: Tuple[int, int], first: Difference, span: int):
        self.mark, other = (time * factor for time, factor in zip(first.times, factors))
        self.later, self.factors = (0, self.mark - other), factors
        self.begin = max(self.mark - span, 0, min(
            side.dump.begin() * factor + later
            for side, factor, later in zip(sides, factors, self.later)))
        # Of each dump, in its own ticks.
        self.parts = [Window(max(self.begin - later, 0) // factor, 1 + min(
            (self.mark + span - later) // factor, side.report.last or 0))
            for side, factor, later in zip(sides, factors, self.later)]
        self.ends = [self.time(at, part.last) for at, part in enumerate(self.parts)]

    def time(self, at: int, ticks: int) -> int:
        """Returns a time of a dump as the page has it: from its begin, at least 0."""
        return max(ticks * self.factors[at] + self.later[at] - self.begin, 0)

    def near(self, rows: Sequence[PageRow]) -> Tuple[int, int]:
        """Returns a window with some changes of the two rows around the mark."""
        at = self.mark - self.begin
        times = sorted({time for row in rows for time in row.stream.times})
        before = [time for time in times if time < at][-NEAR:]
        after = [time for time in times if time > at][:NEAR]
        return self.begin + (before or [0])[0], self.begin + (after or [max(self.ends)])[-1]


def rows_of(window: Surroundings, sides: Sides, pairs: Sequence[Named], same: Same,
            forms: Dict[str, Form]) -> List[PageRow]:
    """Returns the rows of pairs of signals. Fails if they have too much for a page."""
    reader, streams = Reader(keeps_texts=True), []
    for at, side in enumerate(sides):
        signals = [its[at] for _, its in pairs]
        part = side.picked([one.path for one in signals])
        streams.append(reader.read(part, signals, window.parts[at], partial(window.time, at)))
    rows = []
    for (name, both), *its in zip(pairs, *streams):
        is_event = both[0].type == "event"
        differs = differences(its, is_event, min(window.ends), same)
        names = forms[name].names if name in forms else {}
        rows += [PageRow(signal._replace(path=name), stream, letter, differs, names)
                 for letter, signal, stream in zip("AB", both, its)]
    return rows


def page_of(window: Surroundings, sides: Sides, rows: Sequence[PageRow], row: int, has_clock: bool
            ) -> Page:
    """Returns what a page says of two dumps. It begins with a row, that of A of a pair; with a
    clock, with the values before its edge, which are those that differ."""
    scales = [side.scale for side in sides if side.scale]
    scale = min(scales, key=lambda one: one.femtoseconds) if len(scales) == 2 else None
    about = [line for letter, side in zip("AB", sides)
             for line in page.about(side.dump, letter + ": ")]
    by = window.later[1]
    if by:
        text = scale.text(abs(by)) if scale else "%d ticks" % abs(by)
        about.append("B is shown %s %s" % (text, "later" if by > 0 else "earlier"))
    return Page(" and ".join(os.path.basename(side.dump.name) for side in sides), about,
                scale, window.begin, window.begin + max(window.ends), window.mark,
                window.near(rows[row:row + 2]), row=row,
                ends=[(letter, window.begin + end) for letter, end in zip("AB", window.ends)],
                cursor=max(window.mark - has_clock, window.begin))


def texts_of(sides: Sides, factors: Tuple[int, int], found: Sequence[Difference],
             edges: Sequence[Edge], same: Same, span: Optional[int],
             forms: Dict[str, Form]) -> List[str]:
    """Returns the text of a page with the signals that differ, and the clocks, in parts. Without a
    span, it has as much time as there is room for."""
    clocks = [side.dump.signals[side.of_name[name][0]] for side, (name, *_) in zip(sides, edges)]
    pairs: List[Named] = [(clocks[0].path, (clocks[0], clocks[1]))] if clocks else []
    pairs += [(name, its) for name in sorted(one.name for one in found)
              for _, its in pairs_called(sides, name)]
    # That of the first line: the first name of those that differ at the first time.
    first = min(one.name for one in found if one.times == found[0].times)
    row = 2 * [name for name, _ in pairs].index(first, bool(edges))
    tried = max((side.report.last or 0) * factor for side, factor in zip(sides, factors))
    while True:
        window = Surroundings(sides, factors, found[0], tried if span is None else span)
        try:
            rows = rows_of(window, sides, pairs, same, forms)
            return page.texts_of(page_of(window, sides, rows, row, bool(edges)), rows)
        except TooMuch:
            if span is not None or tried < 2:
                raise
            tried //= 8
