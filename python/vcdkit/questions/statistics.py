"""How signals change in a window: periods, pulses, and how long they have each value."""
import math
from typing import Any, Dict, List, Optional, Sequence, Tuple

from ..model.signals import Signal
from ..model.times import Window
from ..model.values import same, value_in
from ..reading import body
from ..reading.source import Source

MAX_VALUES = 1 << 16  # of one signal; further ones count as one
OTHERS = b"others"


class Lengths:
    """How many lengths of time there are, the shortest, the longest and their sum, in ticks."""

    __slots__ = ("count", "shortest", "longest", "sum")

    def __init__(self) -> None:
        self.count = self.sum = 0
        self.shortest: Optional[int] = None
        self.longest: Optional[int] = None

    def add(self, length: int) -> None:
        """Counts a length."""
        self.count += 1
        self.sum += length
        if self.shortest is None or length < self.shortest:
            self.shortest = length
        if self.longest is None or length > self.longest:
            self.longest = length

    def facts(self) -> Dict[str, Any]:
        """Returns what there is to say of them."""
        return {"times": self.count, "shortest": self.shortest, "longest": self.longest,
                "mean": self.sum / self.count}


class Held:
    """A value of a signal: its time in ticks, how often the signal takes it, and its pulses."""

    __slots__ = ("text", "ticks", "times", "pulses")

    def __init__(self, text: bytes):
        self.text, self.ticks, self.times, self.pulses = text, 0, 0, Lengths()


class Statistics:
    """What is counted of the values of one code, as they come."""

    def __init__(self, signal: Signal, short: int = 0):
        self.signal, self._short = signal, short
        self.glitches = Lengths()  # of the pulses that are shorter than that
        self.first_glitch = 0
        self.values: Dict[bytes, Held] = {}
        self.changes, self.periods = 0, Lengths()
        # The value now, since when, and whether a change in the window began it.
        self._text: Optional[bytes] = None
        self._begin, self._is_whole = 0, False
        # The last rise or trigger, the ticks of 1 since then, and those of all whole periods.
        self._edge: Optional[int] = None
        self._high = self._high_of_periods = 0

    def _leave(self, time: int, is_whole: bool) -> None:
        """Counts the value that ends at a time, or with the window."""
        length, text = time - self._begin, self._text
        if not length or text is None:
            return
        if text not in self.values and len(self.values) >= MAX_VALUES:
            text = OTHERS
        value = self.values.get(text) or self.values.setdefault(text, Held(text))
        value.ticks += length
        value.times += 1
        if is_whole:
            value.pulses.add(length)
        if is_whole and length < self._short:
            self.first_glitch = self.first_glitch if self.glitches.count else self._begin
            self.glitches.add(length)
        if self._text == b"1":
            self._high += length

    def _note_edge(self, time: int) -> None:
        """Counts a rise or a trigger."""
        if self._edge is not None:
            self.periods.add(time - self._edge)
            self._high_of_periods += self._high
        self._edge, self._high = time, 0

    def start(self, time: int, text: bytes) -> None:
        """Takes a value from before the window, or the first one."""
        self._text, self._begin = same(text), time

    def change(self, time: int, text: bytes) -> None:
        """Takes the value at the end of a time."""
        text = same(text) if text[:1] == b"r" else text
        if self.signal.type == "event":
            self.changes += 1
            self._note_edge(time)
        elif self._text is None:
            self.start(time, text)
        elif text != self._text:
            self.changes += 1
            self._leave(time, self._is_whole)
            if self.signal.size == 1 and (self._text, text) == (b"0", b"1"):
                self._note_edge(time)
            elif text not in (b"0", b"1"):
                self._edge = None  # a period with an x or a z is none
            self._text, self._begin, self._is_whole = text, time, True

    def end(self, time: int) -> None:
        """Takes the end of the window."""
        self._leave(time, False)

    def duty(self) -> Optional[float]:
        """Returns the part of all periods in which it is 1; `None` if it has none."""
        if not self.periods.count or self.signal.type == "event":
            return None
        return self._high_of_periods / self.periods.sum

    def range(self) -> Optional[Dict[str, float]]:
        """Returns the facts of its numbers, also of infinite ones; `None` if there is none."""
        its = [(value_in(text, self.signal.size), held.ticks) for text, held in self.values.items()]
        numbers = [(number, ticks) for number, ticks in its
                   if isinstance(number, float) and not math.isnan(number)]
        if not numbers:
            return None
        from fractions import Fraction  # few signals need it
        mean = sum(number for number, _ in numbers if math.isinf(number))
        return {"least": min(numbers)[0], "largest": max(numbers)[0], "mean": mean or float(
            sum(Fraction(number) * ticks for number, ticks in numbers)
            / sum(ticks for _, ticks in numbers))}


def shares_of(its: Statistics, count: Optional[int]) -> List[Dict[str, Any]]:
    """Returns how long and how often a signal has each value, and its shortest and longest pulse:
    those with most time first, at most so many of them."""
    every = sorted(its.values.values(), key=lambda value: -value.ticks)
    span = sum(value.ticks for value in every)
    return [{"value": OTHERS.decode() if one.text == OTHERS else value_in(
        one.text, its.signal.size), "ticks": one.ticks, "share": one.ticks / span,
        "times": one.times, "shortest": one.pulses.shortest, "longest": one.pulses.longest}
        for one in every[:count]]


def statistics_of(dump: Source, names: List[str], window: Window, short: int = 0) -> Sequence[
        Tuple[Signal, Statistics]]:
    """Returns the signals that names select, each with what is counted of its code."""
    signals = dump.select(names)
    found = {one.code.encode(): Statistics(one, short) for one in signals}
    changes_of = body.Known(found).__getitem__
    for time, begin, lines in body.begun(dump.cut(window.begin, window.last).part(names)):
        for code, text in changes_of(begin):
            found[code].start(time, text)
        for code, text in changes_of(lines):
            found[code].change(time, text)
    last = dump.window_to_end(window).last
    for one in found.values():
        one.end(last)
    return [(one, found[one.code.encode()]) for one in signals]
