"""Times: ticks of a dump, or numbers with a unit; and windows of ticks."""
import re
from typing import Callable, NamedTuple, Optional, Union

from ..errors import UsageError

Time = Union[int, str]
UNITS = ("s", "ms", "us", "ns", "ps", "fs")
LAST_TICK = 2**64 - 1
AMOUNT = r"(\d+)(?:\.(\d*))?(\s*)(%s|tick)?" % "|".join(UNITS)
WHOLE_AMOUNT = re.compile(r"\s*%s\s*\Z" % AMOUNT)


class Amount(NamedTuple):
    """A whole number of a unit, or of ticks if the unit is empty."""

    number: int
    unit: str

    def __str__(self) -> str:
        return "%d%s" % self


class Window(NamedTuple):
    """The ticks from one up to another one, which is no longer in it."""

    begin: int
    stop: int

    @property
    def last(self) -> int:
        """The last tick in it."""
        return self.stop - 1


def amount_in(text: str) -> Optional[Amount]:
    """Returns the time that a text is, in a smaller unit if it has a fraction: 1.5ns is 1500ps.
    `None` if it is no time, or no whole number of femtoseconds."""
    found = WHOLE_AMOUNT.match(text)
    if not found:
        return None
    whole, part, unit = found.group(1), (found.group(2) or "").rstrip("0"), found.group(4) or ""
    while part and unit in UNITS[:-1]:
        whole, part, unit = whole + (part + "00")[:3], part[3:], UNITS[UNITS.index(unit) + 1]
    return None if part else Amount(int(whole), "" if unit == "tick" else unit)


def amount_of(time: Time) -> Amount:
    """Returns a time as a whole number of ticks or of a unit. Raises UsageError if it is none."""
    if isinstance(time, str):
        amount = None if time.rstrip().endswith("tick") else amount_in(time)
        if amount is None:
            lower = re.sub("[\xb5\u03bc]", "u", time.lower())  # of a micro sign
            if amount_in(lower) and not lower.rstrip().endswith("tick"):
                raise UsageError("bad time: %s: write %s" % (time, lower))
            raise UsageError('bad time: %s: write ticks, such as 1150, or a time with a unit, such '
                             'as "115ns" or "1.5us"' % time)
        return amount
    try:
        ticks = time.__index__()
    except AttributeError:
        raise UsageError('bad time: %r: ticks are whole numbers; a time with a unit is a text, '
                         'as "1.5ns"' % (time,)) from None
    if not 0 <= ticks <= LAST_TICK:
        raise UsageError("bad time: %d: ticks are from 0 to 2^64 - 1" % ticks)
    return Amount(ticks, "")


class Timescale(Amount):
    """How long a tick is: 1, 10 or 100 of a unit. Its text is `100ps`, for example."""

    __slots__ = ()

    def ticks(self, time: Time, is_up: bool = False) -> int:
        """Returns a time in ticks: one between two ticks is rounded down, or up."""
        span = self.span(time)
        return -(-span // self.femtoseconds) if is_up else span // self.femtoseconds

    def span(self, time: Time) -> int:
        """Returns a time in femtoseconds."""
        number, unit = amount_of(time)
        return number * (_per(unit) if unit else self.femtoseconds)

    def text(self, ticks: int, unit: str = "") -> str:
        """Returns ticks in the largest unit in which they are a whole number, such as `115ns`,
        which vcdkit accepts as a time. If a unit is given, returns them exactly in that unit, such
        as `0.115us`."""
        if unit:
            return self.decimal(ticks, unit) + unit
        span = ticks * self.femtoseconds
        unit = next((unit for unit in UNITS if span and span % _per(unit) == 0), self.unit)
        return "%d%s" % (span // _per(unit), unit)

    def decimal(self, ticks: int, unit: str) -> str:
        """Returns ticks as a decimal number of a unit, with all its digits: `0.115`."""
        span, per = ticks * self.femtoseconds, _per(unit)
        part = str(per + span % per)[1:].rstrip("0")
        return "%d" % (span // per) + ("." + part if part else "")

    def in_unit(self, unit: str) -> Callable[[int], Union[int, str]]:
        """Returns what shows ticks as a decimal number of a unit, and fast if that is whole."""
        factor, rest = divmod(self.femtoseconds, _per(unit))
        if rest:
            return lambda ticks: self.decimal(ticks, unit)
        return factor.__mul__

    def seconds(self, ticks: float) -> float:
        """Returns ticks in seconds, to the precision of a float."""
        return ticks * self.femtoseconds / 1e15

    @property
    def femtoseconds(self) -> int:
        """How long a tick is, in femtoseconds."""
        return self.number * _per(self.unit)


def _per(unit: str) -> int:
    """Returns how many femtoseconds a unit has."""
    if unit not in UNITS:
        raise UsageError("bad unit: %s: it may be tick, %s" % (unit, ", ".join(UNITS)))
    return int(1000 ** (len(UNITS) - 1 - UNITS.index(unit)))
