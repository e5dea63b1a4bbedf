"""What is before the fault of a dump, as a dump."""
import re
from typing import Iterator, Optional

from ..errors import DumpFault
from ..reading import body
from ..reading.source import Source
from .rows import first_ones


def has_header(dump: Source) -> bool:
    """Whether the header of a dump has no fault, so that values before a fault can be kept."""
    try:
        return bool(dump.header_text())
    except DumpFault:
        return False


class Good:
    """The text of a faulty dump up to the fault, in pieces; then `last` is its last timestamp,
    `None` if there is none. `around` is the text up to the end of the line of the fault."""

    def __init__(self, dump: Source, around: bytes):
        self._dump, self._around = dump, around
        self.last: Optional[int] = None
        self._is_empty = True

    def __iter__(self) -> Iterator[bytes]:
        tail, is_open = b"", False
        try:
            for block in self._dump.cut().blocks():
                text = tail + block
                self._is_empty = self._is_empty and not body.CODES.search(text)
                last, section = body.last_time(text), body.last_command(text)
                self.last = self.last if last is None else last
                is_open = is_open if section is None else section.startswith(b"$dump")
                tail = text[-32:]  # longer than a timestamp
                yield block
        except DumpFault:
            pass
        if is_open:
            yield b"$end\n"
        time = self._time_without_change()
        if time is not None:
            self.last = time
            yield b"#%d\n" % time
        elif self._is_empty and body.first_time(self._dump) is None:
            self.last = None  # `cut` wrote the time 0

    def _time_without_change(self) -> Optional[int]:
        """Returns the timestamp right before the fault, which `cut` does not write as no change is
        between them; `None` if there is none."""
        times = {int(one) for one in re.findall(rb"(?<!\S)#0*(\d{1,20})\s", self._around)}
        later = sorted(time for time in times if time > (self.last or 0))
        # Some may be in a comment, or behind the fault.
        return max(first_ones(later, lambda time: self._dump.goes_beyond(time - 1)), default=None)

    def good_until(self, fault: DumpFault) -> int:
        """Returns the last time whose values it has all; -1 if there is none."""
        if self.last is None:
            return -1
        return self.last - (not self._dump.is_finished(self.last, fault))
