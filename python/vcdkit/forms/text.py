"""Values and times as a reader sees them, or as JSON has them."""
import math
import re
from typing import Any, Callable, Dict, NamedTuple, Optional, Union

from ..model.times import UNITS, Timescale
from ..model.values import Cell, Value

LEADING = re.compile(r"0+(?=[01])|x+(?=x)|z+(?=z)")


class Form(NamedTuple):
    """A form of values: what the help says of it, and the text of a value. Unless the form is also
    of digits that have an x or a z, these, and a single one, are written as they are. The text may
    be a decimal number, or letters. Digits that differ may have one text.
    Values may have names."""

    what: str
    text: Callable[[Value], str]
    has_x: bool = False
    is_number: bool = False
    is_letters: bool = False
    is_alike: bool = False
    names: Dict[str, str] = {}  # of values, by their shortest digits


AnyForm = Union[str, Form, None]  # a key of FORMS, or one with names for values


def shortest(digits: str) -> str:
    """Returns the fewest digits that say a value."""
    match = LEADING.match(digits)
    return digits[match.end():] if match else digits


def form_of(form: Union[str, Form]) -> Form:
    """Returns a form."""
    return FORMS[form] if isinstance(form, str) else form


def shown(value: Cell, form: AnyForm = None) -> str:
    """Returns a value as a reader sees it: `-` if there is none, a real number as 1.5 or 3."""
    if value is None:
        return "-"
    if isinstance(value, float):
        return repr(value)[:-2] if repr(value).endswith(".0") else repr(value)
    if form is None or not isinstance(value, Value):
        return value
    its = form_of(form)
    is_text = its.has_x or len(value) > 1 and value.is_known
    return its.text(value) if is_text else str(value)  # a Value may be false


def _letters_of(value: Value) -> str:
    """Returns the letters that the bytes of a number are: \\xNN for a byte that is none."""
    number = int(value)
    text = number.to_bytes(max((number.bit_length() + 7) // 8, 1), "big").decode("latin-1")
    return "".join(one if " " <= one <= "~" and one != "\\" else "\\x%02x" % ord(one)
                   for one in text)


FORMS = {  # RADICES and textOf of page.html, and extras/README.md, have them too
    "hex": Form("in hexadecimal", Value.hex, has_x=True, is_alike=True),
    "decimal": Form("in decimal, without a sign", lambda value: str(int(value)), is_number=True),
    "signed": Form("in decimal, as two's complement", lambda value: str(value.signed()),
                   is_number=True),
    "ascii": Form("as text, one character for 8 bits", _letters_of, is_letters=True),
    "binary": Form("in binary, with all digits", str, has_x=True)}


def counted(count: int, what: str) -> str:
    """Returns how many there are, in words."""
    return "%d %s%s" % (count, what, "s" * (count != 1))


def mean_text(scale: Optional[Timescale], ticks: float, unit: Optional[str]) -> str:
    """Returns a mean length of time to six digits: in a unit that is given, else in the largest one
    of which it has one. 0 is in the unit of the time scale, as in other times."""
    if scale is None or unit == "tick":
        return "%.6g" % ticks
    if not ticks:
        return scale.text(0, unit or "")
    lengths = [(scale.seconds(ticks) * 1000**power, its) for power, its in enumerate(UNITS)]
    its = [pair for pair in lengths if pair[1] == unit] or [
        pair for pair in lengths if pair[0] >= 1] or lengths[-1:]
    return "%.6g%s" % its[0]


def write_json(row: Dict[str, Any]) -> None:
    """Writes a row as JSON, on a line of its own. A byte that is no UTF-8 is written as \\xNN."""
    import json
    text = json.dumps(row, ensure_ascii=False)
    print(re.sub("[\udc80-\udcff]", lambda byte: "\\\\x%02x" % (ord(byte.group()) - 0xdc00), text))


def in_json(value: Cell, form: AnyForm) -> Union[int, float, str, None]:
    """Returns a value as JSON has it: a real number and one in decimal as a number, digits as a
    text, and null if there is none."""
    if value is None or isinstance(value, float) and math.isfinite(value):
        return value
    text = shown(value, form)
    its = form_of(form) if form else None
    is_number = (its and its.is_number and isinstance(value, Value) and value.is_known
                 and shortest(value) not in its.names)
    return int(text) if is_number else text
