"""The changes of signals that a page of waveforms shows, in a form that JSON has."""
import math
from array import array
from typing import Any, Callable, Dict, List, Optional, Sequence, Union

from ..errors import UsageError
from ..model.signals import Signal
from ..model.times import Window
from ..model.values import real_of
from ..reading import body
from ..reading.source import Source
from .compare import Same

MAX_CHANGES, MAX_BYTES = 3_000_000, 1 << 26  # of a page
MAX_KEPT = 1 << 16  # values that are kept to be given again
Packed = Union[str, float]


class TooMuch(UsageError):
    """A page would be too large."""


class Stream:
    """The changes of a signal: times from the begin of the page, and the values from then on, as
    the page has them and, for a comparison, as the body has them."""

    def __init__(self) -> None:
        self.times = array("Q")
        self.values: List[Packed] = []
        self.texts: List[bytes] = []

    def row(self) -> List[Any]:
        """Returns it as JSON has it: the time from change to change, and the values; of digits a
        text; of a few values these, and their places."""
        gaps = [time - before for time, before in zip(self.times, [0, *self.times[:-1]])]
        table = {value: at for at, value in enumerate(dict.fromkeys(self.values))}
        if all(isinstance(value, str) and len(value) == 1 for value in table):
            return [gaps, "".join(map(str, self.values))]
        if 2 * len(table) > len(self.values):
            return [gaps, self.values]
        return [gaps, list(table), [table[value] for value in self.values]]


class Reader:
    """Reads the changes of signals, and counts them for a page. With `keeps_texts`, streams also
    have the texts of the body."""

    def __init__(self, keeps_texts: bool = False):
        self._keeps_texts = keeps_texts
        self._count = self._bytes = 0
        self._kept: Dict[bytes, Packed] = {}

    def read(self, part: Source, signals: Sequence[Signal], window: Window,
             to: Callable[[int], int]) -> List[Stream]:
        """Returns a stream for each signal of a part of a dump, from the begin of a window to its
        end; signals that have one value have one stream. `to` makes a time of the page of one of
        the dump. Fails if it is too much for a page."""
        of_code: Dict[bytes, Dict[bool, Stream]] = {}  # that of an event, and that of others
        streams = [of_code.setdefault(one.code.encode(), {}).setdefault(
            one.type == "event", Stream()) for one in signals]
        for time, changes in body.steps(part.within(window), of_code):
            now = to(time)
            for code, text in changes:
                for is_event, stream in of_code[code].items():
                    self._add(stream, now, text, is_event)
            if self._count > MAX_CHANGES or self._bytes > MAX_BYTES:
                what = ("{:,} changes".format(MAX_CHANGES) if self._count > MAX_CHANGES
                        else "%d MB of values" % (MAX_BYTES >> 20))
                raise TooMuch("more than %s: name fewer signals, or show less time (there is room "
                              "up to %s)" % (what, part.time(max(time - 1, window.begin))))
        return streams

    def _add(self, stream: Stream, time: int, text: bytes, is_event: bool) -> None:
        its = "1" if is_event else self._packed(text)
        if is_event or stream.values[-1:] != [its]:
            self._count += 1
            stream.times.append(time)
            stream.values.append(its)
            if self._keeps_texts:
                stream.texts.append(text)

    def _packed(self, text: bytes) -> Packed:
        """Returns a value as the page has it; the same object again if it is a frequent one."""
        its = self._kept.get(text)
        if its is None:
            if len(self._kept) >= MAX_KEPT:
                self._kept.clear()
            its = self._kept[text] = packed(text)
            self._bytes += len(str(its)) + 3
        return its


def packed(text: bytes) -> Packed:
    """Returns a value of a body as the page has it: a number, `r` and a text that is no number, or
    digits: in hexadecimal if all are known."""
    if text[:1] == b"r":
        number = real_of(text)
        is_number = isinstance(number, float) and math.isfinite(number)
        return number if is_number else "r" + str(number)
    return text.decode() if text.strip(b"01") else "%x" % int(text, 2)


def differences(streams: Sequence[Stream], is_event: bool, end: int, same: Same) -> Stream:
    """Returns whether two streams differ, up to a time: 1 from when they do, and 0 from when they
    are the same again. Two events differ at the times of only one of them."""
    found = Stream()
    tables = [dict(zip(one.times, one.texts)) for one in streams]
    values: List[Optional[bytes]] = [None, None]
    times = sorted({*tables[0], *tables[1], *(time + 1 for time in (
        [*tables[0], *tables[1]] if is_event else []))})
    for time in times:
        if time > end:
            break
        values = [table.get(time, None if is_event else value)
                  for table, value in zip(tables, values)]
        digit = "0" if same(*values) else "1"
        if not found.values or found.values[-1] != digit:
            found.times.append(time)
            found.values.append(digit)
    return found
