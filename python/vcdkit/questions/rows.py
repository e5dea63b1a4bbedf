"""The rows of a table: values at times, at changes and at the edges of clocks."""
import heapq
from operator import itemgetter
from typing import (TYPE_CHECKING, Callable, Collection, Dict, Iterable, Iterator, List, Optional,
                    Sequence, Set, Tuple)

from ..errors import DumpFault, UnknownName, UsageError
from ..model.names import field_of, utf8_names
from ..model.signals import Signal, words_in
from ..model.values import Cell, Row, same, value_in, value_of
from ..reading import body
from ..reading.source import Edge, Source
from ..reading.strobes import at_clocks
from ..reading.texts import Headed, Made

if TYPE_CHECKING:
    from .condition import Conditions

TIMES_OF_A_CALL = 5000  # a word of Linux has at most 131,071 bytes


def first_ones(its: Sequence[int], are: Callable[[int], bool]) -> Sequence[int]:
    """Returns those up to the first one of which something is not true, nor of any later one."""
    low, high = 0, len(its)
    while low < high:
        middle = (low + high) // 2
        low, high = (middle + 1, high) if are(its[middle]) else (low, middle)
    return its[:low]


def states(places: Dict[int, Signal]) -> Dict[int, Signal]:
    """Returns the signals that are no events, by their places."""
    return {place: one for place, one in places.items() if one.type != "event"}


def sampled(source: Source, times: Iterable[int], names: List[str],
            faults: Optional[List[DumpFault]] = None) -> Dict[int, Dict[int, Cell]]:
    """Returns of each time, in ticks, the values of the signals that full names select, and maybe
    of others, by their places. With a list for it, a fault is put there, and the times before it
    are returned."""
    words = utf8_names(names)
    places = sorted(states(source.places(words)))
    every, has_more = sorted(set(times)), isinstance(source.text, Headed)  # expressions
    found: Dict[int, Dict[int, Cell]] = {}
    for begin in range(0, len(every), TIMES_OF_A_CALL):
        some = every[begin:begin + TIMES_OF_A_CALL]
        # Expressions are those of a cut, which ends before a later fault.
        asked = (source.cut(0, some[-1]) if has_more else source).made(
            "sample", ["--at", ",".join(map(str, some)), "--", *words])
        text: List[bytes] = []
        try:
            text += asked.blocks()
        except DumpFault as fault:
            if faults is None:
                raise
            faults.append(fault)
            if has_more:
                known = first_ones(some, source.goes_beyond)
                return {**found, **(sampled(source, known, names) if known else {})}
        values = [*map(value_of, words_in(b"".join(text).decode("utf-8", "surrogateescape"))[2::3])]
        size = len(places)
        found.update((time, dict(zip(places, values[at * size:(at + 1) * size])))
                     for at, time in enumerate(some) if (at + 1) * size <= len(values))
        if faults:  # `sample` takes the fault of a part for its end
            return {time: its for time, its in found.items()
                    if not isinstance(source.text, Made) or source.goes_beyond(time)}
    return found


def at_times(source: Source, columns: Collection[int], times: List[int], names: List[str],
             only: Optional["Conditions"] = None) -> Iterator[Row]:
    """Returns a row for each of some times, with the values of the signals at some places, which
    full names select; only those at which a condition holds, if there is one."""
    if only:
        holding = _holding(source, only, times)
        times = [time for time in times if time in holding]
    faults: List[DumpFault] = []
    found = sampled(source, times, names, faults) if columns else {}
    yield from (Row(time, [found[time][place] for place in columns])
                for time in times if time in found or not faults)
    if faults:
        raise faults[0]


def _holding(source: Source, condition: "Conditions", times: Iterable[int]) -> Set[int]:
    """Returns those of some times at whose end a condition holds."""
    asked: List[body.Step] = [(time, []) for time in sorted({*times})]
    holds, found, now = condition.compiled(), set(), 0
    part = source.cut(0, asked[-1][0] if asked else 0).part([*condition.paths])
    for time, changes in heapq.merge(body.steps(part, condition.over), asked, key=itemgetter(0)):
        if time > now:  # the events are over
            condition.end()
        now = time
        condition.take(changes, time)
        found.update([time] * (not changes and bool(holds())))
    return found


def edges_of(source: Source, rise: Optional[str], fall: Optional[str]) -> List[Edge]:
    """Returns the edges of the clocks that are named."""
    return [(*_clock_of(source, name), falls) for name, falls in ((rise, False), (fall, True))
            if name is not None]


def _clock_of(source: Source, name: str) -> Tuple[str, int]:
    """Returns the path and the place of the bit that a name selects; UsageError if it is none."""
    try:
        clock = source[name]
    except UnknownName:
        from .condition import names_in
        its = names_in(source, [name], [])[name] if field_of(name) else None
        if its and its.end - its.begin == 1:
            return its.signal.path, its.signal.size - its.end
        raise
    is_what = ("it is an event" if clock.type == "event"
               else "it is a real number" if clock.is_real
               else "it has %d bits" % clock.size if clock.size != 1 else "")
    if is_what:
        raise UsageError("%s: is not a one-bit clock: %s" % (name, is_what))
    return clock.path, 0


class Cells:
    """The last value of each signal of a table; `row` has them in order, None for none."""

    def __init__(self, columns: Sequence[Signal]):
        self.row: List[Cell] = [None] * len(columns)
        self._texts: Dict[bytes, bytes] = {}  # as the body has them; empty for none
        self._columns: Dict[bytes, Tuple[int, List[int]]] = {}  # of a code the size, and places
        for at, one in enumerate(columns):
            code = one.code.encode()
            self._texts[code] = b""
            self._columns.setdefault(code, (one.size, []))[1].append(at)

    def take(self, changes: body.Changes) -> bool:
        """Takes changes, some maybe of other signals; whether a value is another one then."""
        is_other = False
        for code, text in changes:
            was = self._texts.get(code)
            if was is not None and was != text:
                self._texts[code] = text
                size, places = self._columns[code]
                value = value_in(text, size)
                for place in places:
                    self.row[place] = value
                is_other = is_other or text[:1] != b"r" or same(text) != same(was)
        return is_other


def as_they_come(source: Source, names: List[str], columns: Sequence[Signal],
                 edges: Sequence[Edge], only: Optional["Conditions"]) -> Iterator[Row]:
    """Returns a row for each of some edges, with the values just before it; without edges, for each
    time at whose end a value of a column is another one than before, with the values then. With a
    condition, it returns only rows at which that holds. The names select all these signals."""
    codes = {one.code.encode() for one in columns}.union(only.over if only else ())
    cells, row_of = Cells(columns), tuple.__new__  # Row() would take longer
    holds = only.compiled() if only else None
    if only:
        only.look_back(dict.fromkeys(edges, 1))
    for time, changes, _ in at_clocks(source, names, codes, dict.fromkeys(edges, 1)):
        is_other = cells.take(changes)
        if only:
            only.take(changes, time)
        if (is_other or edges) and (holds is None or holds()):
            yield row_of(Row, (time, cells.row[:]))
        if only:
            only.end()
