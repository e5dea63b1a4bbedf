"""What each bit of some signals does in a window: how often it rises, falls and becomes x, and how
long it has each value."""
from itertools import compress, islice
from operator import lt, sub
from typing import Callable, Dict, Iterator, List, NamedTuple, Tuple

from ..model.names import bare
from ..model.signals import Declaration
from ..model.times import Window
from ..reading import body
from ..reading.source import Source

BATCH = 1 << 20  # bytes that are read before values are counted
ENOUGH = 64  # values of a code that are then counted
MAX_DIGITS = 1 << 22  # that are counted together
# Of two digits that follow each other, and of a digit that stays, which of the counts grows.
PAIRS = ((b"01", 0), (b"10", 1), (b"0x", 2), (b"1x", 2), (b"zx", 2))
DIGITS = ((b"1", 3), (b"x", 4), (b"z", 5))
IS = {digit: bytes(code == digit[0] for code in range(256)) for digit, _ in DIGITS}
Taken = Tuple[Callable[[bytes], object], bytes, Callable[[int], object]]


class Bits:
    """What the bits of one code do. Each is x until it has a value, which is no change. Only the
    last value of a time counts."""

    def __init__(self, size: int, begin: int, has_ticks: bool):
        self.size = size
        self.values: List[bytes] = []  # that are not counted yet
        self.times: List[int] = []  # of these
        self._counts = [[0] * size for _ in range(6)]  # as BitCounts has them
        self._has_ticks = has_ticks
        self._last, self._since = b"", begin

    def start(self, text: bytes) -> None:
        """Takes a value as the one that there is."""
        self._last = self._full(text)

    def count(self) -> None:
        """Counts the values, in which times are whole."""
        times, values = self.times, self.values
        if not all(map(lt, times, islice(times, 1, None))):
            last = dict(zip(times, values))
            times, values = list(last), list(last.values())
        at_once = MAX_DIGITS // self.size + 1
        for at in range(0, len(values), at_once):
            self._count(times[at:at + at_once], values[at:at + at_once])
        self.values.clear()
        self.times.clear()

    def end(self, time: int) -> None:
        """Takes the end of the window."""
        self._add_ticks(self._last or b"x" * self.size, [time - self._since])
        self._since = time

    def counts(self) -> Iterator[Tuple[int, ...]]:
        """Returns the counts of each bit, the leftmost first, as BitCounts has them."""
        return zip(*self._counts)

    def _full(self, text: bytes) -> bytes:
        """Returns all digits of a value."""
        return text.rjust(self.size, text[:1] if text[0] in b"xz" else b"0")

    def _count(self, times: List[int], values: List[bytes]) -> None:
        """Counts values, each at the end of a time."""
        if not self._last:
            self.end(times[0])
            self.start(values[0])
        digits = b"".join([self._last, *(values if self.size == 1 else map(self._full, values))])
        self._add_ticks(digits, list(map(sub, times, [self._since, *times])))
        pairs = [(pair, self._counts[at]) for pair, at in PAIRS if pair[1:] in digits]
        for place in range(self.size):
            column = digits[place::self.size]
            for pair, counts in pairs:
                counts[place] += column.count(pair)
        self._last, self._since = digits[-self.size:], times[-1]

    def _add_ticks(self, digits: bytes, lengths: List[int]) -> None:
        """Adds how long each bit has each value, for some values one after the other."""
        for digit, at in DIGITS if self._has_ticks else ():
            marks, ticks = digits.translate(IS[digit]), self._counts[at]
            for place in range(self.size if digit in digits else 0):
                ticks[place] += sum(compress(lengths, marks[place::self.size]))


class BitCounts(NamedTuple):
    """What a bit of a signal does: its number by the declaration, how often it rises, falls and
    becomes x, and the ticks for which it is 1, x and z."""

    of: Declaration
    path: str
    number: int
    rises: int
    falls: int
    unknowns: int
    high: int
    unknown: int
    floating: int


def counts_of(dump: Source, names: List[str], window: Window, has_ticks: bool) -> List[BitCounts]:
    """Returns the bits of the signals that names select, in the order of the names, from the left
    to the right, with what they do in a window; the ticks of each value only if they are asked for.
    Real numbers and events have none."""
    chosen = [dump.declarations[place] for place, one in dump.places(dump.full(names)).items()
              if not one.is_real and one.type != "event"]
    found = {one.signal.code.encode(): Bits(one.signal.size, window.begin, has_ticks)
             for one in chosen}
    taken, left = _Takers(found).__getitem__, BATCH
    for time, begin, lines in body.begun(dump.cut(window.begin, window.last).part(names)):
        for code, value in body.Known(found)[begin] if begin else ():
            if value[:1] != b"r":
                found[code].start(value)
        for add, value, note in map(taken, lines.split(b"\n")):
            add(value)
            note(time)
        left -= len(lines)
        if left < 0:
            left = BATCH
            for bits in found.values():
                if len(bits.times) >= ENOUGH:
                    bits.count()
    for bits in found.values():
        bits.count()
        bits.end(window.last)
    return [one for declaration in chosen for one in _of_bits(declaration, found)]


def _of_bits(of: Declaration, found: Dict[bytes, Bits]) -> Iterator[BitCounts]:
    """Returns what the bits of a variable do."""
    path, form = of.signal.path, "%s"
    if of.has_numbers:
        path, form = bare(path), "%s[%d]"
    for number, counts in zip(of.bits, found[of.signal.code.encode()].counts()):
        yield BitCounts(of, form % (path, number)[:1 + of.has_numbers], number, *counts)


class _Takers(Dict[bytes, Taken]):
    """What takes the value of each line, the value, and what takes its time."""

    def __init__(self, found: Dict[bytes, Bits]):
        super().__init__()
        self._vectors: Dict[bytes, Bits] = {}
        for code, bits in found.items():
            if bits.size > 1:
                self._vectors[code] = bits
                continue
            add, note = bits.values.append, bits.times.append
            for digit in (b"0", b"1", b"x", b"z"):
                self[digit + code] = add, digit, note

    def __missing__(self, line: bytes) -> Taken:
        if line[:1] == b"b":
            text, code = line.split(b" ")
            bits = self._vectors.get(code)
            if bits:
                return bits.values.append, text[1:], bits.times.append
        return bool, b"", bool  # which take nothing of it
