"""How values are compared, and how the scripts show them."""
import json
import math
from typing import Any, Dict, List, Optional, Sequence, Tuple

from dumps import Real, Value, number

FORMS = [None, "--hex", "--decimal", "--signed", "--ascii", "--binary"]


def is_known(digits: str) -> bool:
    """Whether all digits are 0 or 1."""
    return not digits.strip("01")


def integer(digits: str, is_signed: bool = False) -> int:
    """Returns the number that known digits are."""
    return int(digits, 2) - (1 << len(digits)) * (is_signed and digits[0] == "1")


def same(one: Any, other: Any, tolerance: float = 0.0) -> bool:
    """Whether two values are the same: real numbers are compared as numbers, and NaN is NaN."""
    if not isinstance(one, Real) or not isinstance(other, Real) or one == other:
        return bool(one == other)
    mine, its = number(one.text), number(other.text)
    if mine is None or its is None or mine != mine or its != its:
        return mine is not None and its is not None and mine != mine and its != its
    if mine == its or math.isinf(mine) or math.isinf(its):
        return mine == its
    return abs(mine - its) <= tolerance * max(1, abs(mine), abs(its))


def real_text(real: float) -> str:
    """Returns a number as the scripts write it."""
    text = repr(real)
    return text[:-2] if text.endswith(".0") else text


def unsigned(text: str) -> str:
    """Returns a value, of which a zero may have lost its sign: it is the same number."""
    return "0" if text == "-0" else text


def shown(value: Optional[Value], form: Optional[str] = None) -> str:
    """Returns a value in a form; `-` if there is none."""
    if value is None:
        return "-"
    if isinstance(value, Real):
        real = number(value.text)
        return value.text if real is None else real_text(real)
    if form == "--hex":
        wide = value.rjust(-(-len(value) // 4) * 4, value[0] if value[0] in "xz" else "0")
        return "".join(hex_digit(wide[at:at + 4]) for at in range(0, len(wide), 4))
    if form in (None, "--binary") or not is_known(value) or len(value) == 1:
        return value
    if form in ("--decimal", "--signed"):
        return str(integer(value, form == "--signed"))
    whole = integer(value)
    return "".join(chr(one) if 32 <= one < 127 and one != 92 else "\\x%02x" % one
                   for one in whole.to_bytes(max(1, (whole.bit_length() + 7) // 8), "big"))


def hex_digit(digits: str) -> str:
    """Returns the digit for four bits."""
    if is_known(digits):
        return "%x" % int(digits, 2)
    return digits[0] if len(set(digits)) == 1 else "X"


def in_json(value: Optional[Value], form: Optional[str] = None) -> Any:
    """Returns a value as JSON has it."""
    if value is None:
        return None
    if isinstance(value, Real):
        real = number(value.text)
        return real if real is not None and math.isfinite(real) else shown(value)
    if form in ("--decimal", "--signed") and is_known(value):
        return int(shown(value, form))
    return shown(value, form)


def cell(value: Optional[Value]) -> Any:
    """Returns a value as the package has it: a real number as a float, or as its text."""
    if isinstance(value, Real):
        real = number(value.text)
        return value.text if real is None else real
    return value


def from_json(line: str) -> Any:
    """Returns what strict JSON says: no constants of JavaScript, and no key twice."""
    def refuse(name: str) -> None:
        raise ValueError("JSON has no " + name)

    def once(pairs: Sequence[Tuple[str, Any]]) -> Dict[str, Any]:
        if len({key for key, _ in pairs}) < len(pairs):
            raise ValueError("a key is there twice")
        return dict(pairs)
    return json.loads(line, parse_constant=refuse, object_pairs_hook=once)


def all_from_json(text: str) -> List[Any]:
    """Returns what the lines of a text say."""
    return [from_json(line) for line in text.splitlines()]
