"""What answers are made of, and the values of a body, in which digits are written with as few as
say the value, and a real number with an r before it."""
import functools
import numbers
import operator
import re
from typing import Any, Callable, List, NamedTuple, NoReturn, Optional, Union

MAX_KEPT = 1 << 14  # values that are kept to be given again
NAN = float("nan")
NUMBER_FORMAT = re.compile(r"(?:(.?)([<>=^]))?[-+ ]?#?(0?)(\d*)[_,]?([bdnoxX])\Z", re.DOTALL)


class Report(NamedTuple):
    """What a dump has of each; `last` is its last timestamp in ticks, or `None` if it has none."""

    scopes: int
    variables: int
    codes: int
    times: int
    sections: int
    changes: int
    last: Optional[int]


class Edges(NamedTuple):
    """How often a value changes, and how often its least significant bit rises and falls."""

    changes: int
    rises: int
    falls: int


class Value(str):
    """All digits of a value (0, 1, x or z), the most significant first. A Value is a text that is
    also a number.

    It compares with numbers (`value == 5`, `0 < value <= 9`) and formats as one (`f"{value:x}"`).
    As in Verilog, it is true if one of its digits is 1. If it has an x or a z, it equals no number,
    is neither less nor greater than any, and int() of it raises ValueError. If two Values of
    different sizes are compared, the shorter one is extended as in a dump. As the key of a
    dictionary, a Value is its text. Arithmetic with it is refused (TypeError): use int() for its
    number. Only `+` with a text joins."""

    __slots__ = ("_number",)  # what _known() says, once it was asked for

    @property
    def is_known(self) -> bool:
        """Whether each digit is 0 or 1."""
        return not self.strip("01")

    def hex(self) -> str:
        """Returns a digit for four bits, x or z if all four are that, and X for a mixture."""
        return self._in_groups(4)

    def signed(self) -> int:
        """Returns its number in two's complement."""
        return int(self) - (str(self)[:1] == "1") * (1 << len(self))

    def __int__(self) -> int:
        number = self._known()
        if number is None:
            raise ValueError("%s is no number" % self)
        return number

    __index__ = __int__

    def __bool__(self) -> bool:
        return "1" in str(self)

    def __getitem__(self, at: Any) -> "Value":
        return Value(str.__getitem__(self, at))

    def __format__(self, form: str) -> str:
        number = NUMBER_FORMAT.match(form)
        if not number:
            return format(str(self), form)
        if self.is_known:
            return format(int(self), form)
        fill, place, zero, width, base = number.groups()
        text = self._in_groups({"x": 4, "X": 4, "o": 3}.get(base, 1)).lstrip("0")
        place = ">" if place in (None, "=") else place
        return format(text, (fill or zero or " ") + place + width)

    def __eq__(self, other: object) -> bool:
        if other.__class__ is int:
            try:  # a fifth of the time of what is below
                return self._number == other
            except AttributeError:
                return self._known() == other
        return self._compares(operator.eq, other)

    __hash__ = str.__hash__

    def __add__(self, other: Any) -> str:
        return str(self) + str(other) if _is_text(other) else _no_number(self)

    def __radd__(self, other: Any) -> str:
        return str(other) + str(self) if _is_text(other) else _no_number(self)

    def _known(self) -> Optional[int]:
        """Returns its number; `None` if it has an x or a z."""
        try:
            return self._number
        except AttributeError:
            self._number: Optional[int] = int(str(self), 2) if self.is_known else None
            return self._number

    def _compares(self, are: Callable[[Any, Any], bool], other: object) -> bool:
        """Compares it with a Value, a number or a text."""
        if isinstance(other, Value):
            width = max(len(self), len(other))
            return bool(are(full(self, width), full(other, width)))
        if isinstance(other, numbers.Real):
            number = self._known()
            return bool(are(NAN if number is None else number, other))
        if isinstance(other, str):
            return bool(are(str(self), other))
        return NotImplemented

    def _in_groups(self, size: int) -> str:
        """Returns a digit for so many bits: x or z if all are, else X if some are not known."""
        bits = full(self, -len(self) // size * -size)
        return "".join("%x" % int(some, 2) if not some.strip("01")
                       else some[0] if len(set(some)) == 1 else "X"
                       for some in (bits[at:at + size] for at in range(0, len(bits), size)))


for _are in operator.ne, operator.lt, operator.le, operator.gt, operator.ge:
    setattr(Value, "__%s__" % _are.__name__,
            lambda self, other, are=_are: self._compares(are, other))


def _is_text(other: object) -> bool:
    """Whether it is a text, and no Value."""
    return isinstance(other, str) and not isinstance(other, Value)


def _no_number(value: Value, *_: object) -> NoReturn:
    """Refuses arithmetic with a Value."""
    raise TypeError("a Value is the text of its digits, here %s: write int(value) for its number"
                    % value)


_BINARY = "sub mul truediv floordiv divmod pow lshift rshift and or xor".split()
# Of "mod" only one: "%d" % value comes to the other one too.
for _name in (*_BINARY, *("r" + name for name in _BINARY), "mod", "neg", "pos", "abs", "invert"):
    setattr(Value, "__%s__" % _name, _no_number)


# What a sample or a row has of a signal: the text of a real number that is none is a str, and
# `None` is no value yet.
Cell = Union[Value, float, str, None]


class Row(NamedTuple):
    """A row of a table: its time in ticks, and a value of each signal."""

    time: int
    values: List[Cell]


def extension(digits: str) -> str:
    """Returns the digit that fills a value to the left of its digits."""
    return digits[0] if digits[0] in "xz" else "0"


def full(digits: str, size: int) -> str:
    """Returns digits, extended to a size."""
    return str(digits).rjust(size, extension(str(digits)))


def real(text: str) -> Union[float, str]:
    """Returns a real number. A dump may have a text there that is none: that is returned so."""
    try:
        return float(text) if text.isascii() and "_" not in text else text
    except ValueError:
        return text


def value_of(text: str) -> Cell:
    """Returns the value that `sample` writes: digits, `r` and a real number, or `-`."""
    return None if text == "-" else real(text[1:]) if text[0] == "r" else Value(text)


# Of values as a body has them.

def real_of(text: bytes) -> Union[float, str]:
    """Returns the real number that stands behind an r."""
    return real(text[1:].decode(errors="backslashreplace"))


@functools.lru_cache(maxsize=MAX_KEPT)
def same(text: bytes) -> bytes:
    """Returns a value in the form that all equal values have: 1.0, 1e0 and 1 are one number, and so
    are -0 and 0, and NaN and NaN."""
    number = real_of(text) if text[:1] == b"r" else ""
    return b"r%a" % (number + 0.0) if isinstance(number, float) else text


@functools.lru_cache(maxsize=MAX_KEPT)
def value_in(text: bytes, size: int) -> Cell:
    """Returns the value that a text of a body is for a signal of some size."""
    return real_of(text) if text[:1] == b"r" else Value(full(text.decode(), size))
