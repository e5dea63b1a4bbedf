"""The values with an x, or with an x or a z, that signals take. Only such lines of a body matter,
and the next value of each of their codes, which ends it. Few lines are that in most dumps. A
regular expression finds them, and the others are never looked at one by one."""
import io
from typing import BinaryIO, Collection, Dict, Iterator, List, Optional, Set, Tuple

from ..model.signals import Signal
from ..reading import body
from ..reading.source import Source

MAX_STARTS = 64  # values of a block; if there are more, each line is looked at
MAX_CODES = 16  # codes that are looked for one by one
Signals = Dict[bytes, List[Signal]]


class _Lines:
    """What timed() takes as `some`: the values with one of some letters, each next value of their
    codes, and the timestamps before these."""

    def __init__(self, letters: bytes):
        self._find, self._letters = body.letters_in(letters).finditer, letters
        self._shown: Set[bytes] = set()  # codes whose last value has one of the letters

    def __call__(self, out: BinaryIO) -> Iterator[bytes]:
        for block in body.blocks(out):
            text = b"\n" + block
            starts = [found.start() for found in self._find(text)]
            lines = (self._of_each_line(block) if len(starts) > MAX_STARTS
                     else self._of_some_lines(text, starts))
            its = b"".join(lines)
            if its:
                yield its

    def _is_wanted(self, line: bytes) -> bool:
        """Whether a line with a value matters; notes the value."""
        code, value = body.change(line)
        was_shown = code in self._shown
        if body.has_letter(value, self._letters):
            self._shown.add(code)
            return True
        self._shown.discard(code)
        return was_shown

    def _of_each_line(self, block: bytes) -> Iterator[bytes]:
        for line in io.BytesIO(block):
            if line[:1] == b"#" or line[:1] != b"$" and self._is_wanted(line):
                yield line

    def _of_some_lines(self, text: bytes, starts: Collection[int]) -> Iterator[bytes]:
        """Looks only at lines that have one of the letters, and at the next lines of their codes.
        A place is that of the line feed before a line."""
        codes = self._shown
        if len(codes) > MAX_CODES:
            codes = codes.intersection(body.CODES.findall(text))
        found: Dict[int, bytes] = {at: body.line_at(text, at) for at in starts}
        ends = [body.next_change(text, body.change(line)[0], at + len(line))
                for at, line in found.items()]
        ends += [body.next_change(text, code, 0) for code in codes]
        found.update((at, body.line_at(text, at)) for at in ends if at >= 0)
        last = 0
        for at, line in sorted(found.items()):
            if self._is_wanted(line):
                yield from _time(text, last, at + 1)
                yield line
                last = at
        yield from _time(text, last, len(text))


def _time(text: bytes, begin: int, end: int) -> Iterator[bytes]:
    """Returns the last timestamp of a part of a text, if there is one."""
    at = text.rfind(body.TIME, begin, end)
    if at >= 0:
        yield body.line_at(text, at)


def values_that_become(part: Source, signals: Signals, letters: bytes, begin: int
                       ) -> Iterator[Tuple[int, bytes, bytes]]:
    """Returns, as values_of(), only values that follow one without the letters, maybe one from
    before the part, which begins at a time."""
    known, last = body.Known(signals), {}  # type: body.Known, Dict[bytes, bytes]
    for time, before, text in body.begun(part):
        last.update(known[before] if begin else ())
        for code, value in known[text if begin else before + b"\n" + text]:
            if body.has_letter(value, letters) and not body.has_letter(
                    last.get(code, letters), letters):
                yield time, code, value
            last[code] = value


def values_of(part: Source, signals: Signals, letters: bytes) -> Iterator[Tuple[int, bytes, bytes]]:
    """Returns the time, the code and the text of each value of a part that has one of some letters
    at the end of a time and was another one before."""
    lines = _Lines(letters)
    last: Dict[bytes, Optional[bytes]] = {}  # the last value of each code, if it is shown
    for time, changes in body.steps(part, signals, lines):
        for code, text in changes:
            is_shown = body.has_letter(text, letters)
            if is_shown and last.get(code) != text:
                yield time, code, text
            last[code] = text if is_shown else None
