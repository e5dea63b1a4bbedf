"""What a side of a comparison can be, as far as its known digits and its kind say that; an x stands
for any digit. A comparison with a number that it never is can be refused."""
import math
from typing import Any, Tuple

from .operators import OPERATORS, Kind, Value, converted, digits_of


def ends_of(value: Value, own: Kind, to: Kind) -> Tuple[Any, Any]:
    """Returns the least and the greatest number that a value of an own kind can be in another."""
    kind = to if to.width and not to.sign else own
    digits = converted(value, own, kind)
    if not isinstance(digits, str) or not kind.width:
        return (-math.inf, math.inf) if isinstance(digits, str) else (digits, digits)
    ends = [digits.replace("x", digit).replace("z", digit) for digit in "01"]
    if kind.sign and digits[0] in "xz":  # the least one is below 0
        ends = ["1" + ends[0][1:], "0" + ends[1][1:]]
    return kind.of(int(ends[0], 2)), kind.of(int(ends[1], 2))


def is_never(sign: str, ends: Tuple[Any, Any], value: Value, number: Value, kind: Kind) -> bool:
    """Whether a comparison of a value, which has some ends, with a number of a kind never holds;
    with !=, whether == does not."""
    if sign[0] in "<>":
        return not OPERATORS[sign].function(kind, ends[sign[0] == ">"], number)
    least, greatest = ends_of(number, kind, kind)
    pairs = zip(*(digits_of(one, kind.width) for one in (value, number))) if kind.width else ()
    others = "01xz" if sign in ("===", "!==") else "01"
    return bool(greatest < ends[0] or ends[1] < least) or any(
        one in "01" and other in others and one != other for one, other in pairs)
