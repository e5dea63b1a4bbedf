"""What a picture has room for: of each signal what its pixels show.

A pixel is red if and only if the signal is x at some time of it, and a block if and only if the
signal changes there more than once. Of a block only that is kept, so the work for a long dump is
that of its text, not of its changes. The script of a page (eachPiece, blocksOf) draws the same."""
import io
import math
from typing import BinaryIO, Dict, FrozenSet, Iterator, List, NamedTuple, Tuple

from ..model.signals import Signal
from ..model.times import Window
from ..model.values import Value, same, value_in
from ..reading import body
from ..reading.source import Source

BLOCK = 1 << 20
UNKNOWN = body.letters_in(b"x")
MAX_DIGITS = 1000  # of a number that is a float
SMALL = 1 << 9  # bytes of the begin of a pixel, in which most signals change
Point = Tuple[int, object]


class Pixels(NamedTuple):
    """The pixels that show a window, in which its ticks are at equal distances. The last tick is
    at the end of the last pixel, so it is the first of a pixel behind it."""

    window: Window
    width: int

    @property
    def length(self) -> int:
        """How long the window is. One of a single tick is shown as long as that."""
        return max(self.window.last - self.window.begin, 1)

    def of(self, time: int) -> int:
        """Returns the pixel of a time."""
        return (time - self.window.begin) * self.width // self.length

    def first(self, pixel: int) -> int:
        """Returns the first tick of a pixel, or of those behind it if it has none."""
        return self.window.begin - (-pixel * self.length // self.width)


class Several(NamedTuple):
    """What a pixel shows in place of a value if the signal changes several times in it: of a real
    signal its least and largest number (the least one is greater if there is no number), and
    whether the signal is x at some time of the pixel."""

    least: float
    largest: float
    has_x: bool

    @property
    def kind(self) -> str:
        """The class of its shape."""
        return "x" if self.has_x else "several"


class Lane:
    """The points of a signal: pairs of a time, and the value from then on or Several."""

    def __init__(self, signal: Signal):
        self.signal = signal
        self.points: List[Point] = []
        self.text = b""  # the value now
        self.is_event, self.is_real = signal.type == "event", signal.is_real
        # Of the pixel: its first changes, and all numbers of a real signal.
        self.first: List[Tuple[int, bytes]] = []
        # Whether further changes in the pixel say nothing new, but for the last value.
        self.is_full = False
        self.numbers: List[Tuple[int, float]] = []
        self.has_x, self.time = False, 0
        self.before = b""  # the value at the begin of the pixel

    def note(self, time: int, text: bytes) -> None:
        """Takes a value from a time on."""
        text = same(text) if self.is_real else text
        if text == self.text and not self.is_event:
            return
        if self.first and self.time < time:  # else the last value was there for no time
            self.has_x = self.has_x or body.has_letter(self.text, b"x")
        self.text, self.time = text, time
        # Of the values of one time only the last one counts, and not if it is that from before.
        if self.first and self.first[-1][0] == time:
            self.first.pop()
        if self.numbers and self.numbers[-1][0] == time:
            self.numbers.pop()
        is_back = text == (self.first[-1][1] if self.first else self.before)
        if len(self.first) < 2 and (self.is_event or not is_back):
            self.first.append((time, text))
        self.is_full = len(self.first) == 2 and not self.is_real
        number = self.value(text) if self.is_real and self.first else None
        if isinstance(number, float) and math.isfinite(number):
            self.numbers.append((time, number))

    def value(self, text: bytes) -> object:
        """Returns the value that a text of the body has; of a real signal digits are a number."""
        value = value_in(text, self.signal.size)
        if self.is_real and isinstance(value, Value):
            return float(int(value)) if value.is_known and len(value) <= MAX_DIGITS else value
        return value

    def close(self, pixel: int, of: Pixels) -> None:
        """Ends a pixel."""
        if self.text and len(self.first) > 1:
            begin, end = of.first(pixel), min(of.first(pixel + 1), of.window.last)
            is_late = self.first[0][0] > begin or pixel * of.length % of.width > 0
            has_x = self.has_x or body.has_letter(self.text, b"x") or (
                is_late and body.has_letter(self.before, b"x"))
            numbers = [number for _, number in self.numbers]
            self.points.append((begin, Several(min(numbers, default=math.inf),
                                               max(numbers, default=-math.inf), has_x)))
            self.points.append((end, self.value(self.text)))
        else:
            self.points += [(time, self.value(text)) for time, text in self.first]
        self.first, self.numbers, self.is_full, self.has_x = [], [], False, False
        self.before = self.text


class Lanes:
    """The lanes of some signals in a window, which has so many pixels."""

    def __init__(self, signals: List[Signal], window: Window, width: int):
        self.pixels = Pixels(window, width)
        self.of_code: Dict[bytes, Lane] = {one.code.encode(): Lane(one) for one in signals}
        self.time, self.pixel = window.begin, 0

    def read(self, out: BinaryIO) -> None:
        """Takes the text of a body, which begins with a timestamp."""
        for block in iter(lambda: out.read(BLOCK) + out.readline(), b""):
            text, begin = b"\n" + block, 0
            while begin < len(text) - 1:
                end = body.time_after(text, begin, self.pixels.first(self.pixel + 1) - 1)
                if begin < end:
                    self.take(text, begin, end)
                else:
                    self.close()
                    self.pixel = self.pixels.of(body.time_at(text, begin))
                begin = end
        self.close()

    def close(self) -> None:
        """Ends the pixel."""
        for lane in self.of_code.values():
            if lane.first:
                lane.close(self.pixel, self.pixels)

    # Of a part of a text, its begin and its end are line feeds.

    def take(self, text: bytes, begin: int, end: int) -> None:
        """Takes a part of the pixel: each line of its begin, and then only the changes of signals
        that say something new, and the last values of the others."""
        middle = text.find(body.TIME, begin + SMALL, end)
        if end - begin <= 8 * SMALL or middle < 0:
            self.take_lines(text[begin + 1:end + 1])
            return
        self.take_lines(text[begin + 1:middle + 1])
        for piece in _pieces(text, middle, end):
            codes = self.codes(False)
            if not codes:
                break
            for code, value, at in body.changes_in(text, *piece, codes):
                time = body.time_at(text, text.rfind(body.TIME, 0, at + 1))
                self.of_code[code].note(time, value)
        self.note_unknown(text, middle, end)
        self.take_last(text, middle, end)

    def note_unknown(self, text: bytes, begin: int, end: int) -> None:
        """Notes which signals are x at the end of a time."""
        for found in UNKNOWN.finditer(text, begin, end):
            lane = self.of_code.get(found.group(1))
            if lane and not lane.has_x:
                to = text.find(body.TIME, found.end(), end + 1)
                lane.has_x = not 0 <= body.next_change(text, found.group(1), found.end()) < (
                    to if to >= 0 else end)

    def take_last(self, text: bytes, begin: int, end: int) -> None:
        """Takes the last values of the signals whose lanes are full, and the last time."""
        codes, size = self.codes(True), SMALL
        self.time = body.time_at(text, text.rfind(body.TIME, begin, end))
        while codes and end > begin:
            middle = max(text.rfind(body.TIME, begin, max(end - size, begin)), begin)
            last = {code: value for code, value, _ in body.changes_in(text, middle, end, codes)}
            for code, value in last.items():
                lane = self.of_code[code]
                lane.has_x, lane.text = lane.has_x or body.has_letter(lane.text, b"x"), value
            codes, end, size = codes.difference(last), middle, 4 * size

    def codes(self, is_full: bool) -> FrozenSet[bytes]:
        """Returns the codes whose lanes are full in this pixel, or those that are not."""
        return frozenset(code for code, lane in self.of_code.items() if lane.is_full == is_full)

    def take_lines(self, text: bytes) -> None:
        """Takes each line of a text."""
        for line in io.BytesIO(text):
            if line[:1] == b"#":
                self.time = int(line[1:])
            elif line[:1] != b"$":
                code, value = body.change(line)
                self.of_code[code].note(self.time, value)


def _pieces(text: bytes, begin: int, end: int) -> Iterator[Tuple[int, int]]:
    """Returns the ends of pieces of a text, each longer than the one before."""
    size = SMALL
    while begin < end:
        size *= 4
        to = text.find(body.TIME, begin + size, end)
        yield begin, to if to > 0 else end
        begin = to if to > 0 else end


def lanes_of(dump: Source, names: List[str], window: Window, width: int) -> Lanes:
    """Returns the lanes of the signals that names select, in a window of so many pixels."""
    lanes = Lanes(dump.select(names), window, width)
    with dump.cut(window.begin, window.last).part(names).body() as out:
        lanes.read(out)
    return lanes
