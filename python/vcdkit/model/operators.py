"""What the operators of Verilog make of values: clause 5 of IEEE Std 1364-2005.

A value of some bits is an int if all its digits are 0 or 1, else its digits, a str. A real number
is a float, with the arithmetic of IEEE Std 754; x if it is unknown. Each operator takes the kind in
which it works first."""
import functools
import math
import operator
from typing import Any, Callable, Dict, NamedTuple, Sequence, Tuple

Value = Any  # an int, a float or a str
Operate = Callable[..., Any]
INVERSE = str.maketrans("01z", "10x")


class Kind(NamedTuple):
    """The size in bits of a value, which is 0 for a real number, and its greatest number and its
    sign bit, which is 0 if it is unsigned."""

    width: int
    mask: int
    sign: int

    def of(self, number: Any) -> Any:
        """Returns a number in as many bits, or as a float."""
        if self.width:
            return ((number & self.mask) ^ self.sign) - self.sign
        try:
            return float(number)
        except OverflowError:
            return math.inf if number > 0 else -math.inf


def kind_of(width: int, is_signed: bool = False) -> Kind:
    """Returns the kind of values of some bits."""
    return Kind(width, (1 << width) - 1, is_signed << width >> 1)


BIT, REAL = kind_of(1), Kind(0, 0, 0)


def digits_of(value: Value, width: int) -> str:
    """Returns the digits of a value."""
    return value if isinstance(value, str) else "{:0{}b}".format(value & (1 << width) - 1, width)


def value_of_digits(digits: str, kind: Kind) -> Value:
    """Returns the value that digits are."""
    return digits if digits.strip("01") else kind.of(int(digits, 2))


def converted(value: Value, own: Kind, to: Kind) -> Value:
    """Returns a value of a kind as one of another kind. Digits are added only on the left."""
    if not isinstance(value, str):
        return to.of(value) if not to.width else value if to.sign else value & own.mask
    if to.width and own.width:
        return value.rjust(to.width, value[0] if to.sign else "0")
    return "x"


def _arithmetic(operate: Operate, kind: Kind, *values: Value) -> Value:
    """Returns a number: if one of the values is unknown, it is."""
    if str not in map(type, values):
        try:
            return kind.of(operate(*values))
        except ZeroDivisionError:
            pass
    return "x" * (kind.width or 1)


def _quotient(one: int, other: int) -> int:
    """Returns a quotient, rounded towards 0."""
    return abs(one) // abs(other) * (1 if (one < 0) == (other < 0) else -1)


def _real_quotient(one: float, other: float) -> float:
    """Returns a quotient of real numbers."""
    if other:
        return one / other
    return math.copysign(math.inf, one) * math.copysign(1, other) if abs(one) > 0 else math.nan


def _real_power(one: float, other: Any) -> float:
    """Returns a power of real numbers, as the function pow of C does."""
    other = REAL.of(other)
    try:
        return math.pow(one, other)
    except (OverflowError, ValueError):
        if one < 0 and other % 1:
            return math.nan
        return math.copysign(math.inf, one) if other % 2 == 1 else math.inf


def _power(kind: Kind, one: Value, other: Value) -> Value:
    """Returns a power. That of the whole number 0 to a negative one is unknown."""
    if not kind.width or isinstance(one, str) or isinstance(other, str):
        return _arithmetic(_real_power, kind, one, other)
    if other >= 0:
        return kind.of(pow(one, other, kind.mask + 1))
    return (one ** (other % 2) if one in (1, -1) else 0) if one else "x" * (kind.width or 1)


def _shift(is_left: bool, is_signed: bool, kind: Kind, one: Value, by: Value) -> Value:
    """Returns a value shifted by a number of bits, which is unsigned."""
    if isinstance(by, str):
        return "x" * (kind.width or 1)
    by = min(by, kind.width)
    if not isinstance(one, str):
        return kind.of(one << by if is_left else (one if is_signed else one & kind.mask) >> by)
    fill = one[0] if kind.sign and is_signed else "0"
    return value_of_digits(one[by:] + "0" * by if is_left else
                           fill * by + one[:kind.width - by], kind)


def _table(operate: Operate, decides: str) -> Dict[Tuple[str, str], str]:
    """Returns what digits make, of which one may decide whatever the other is."""
    return {(one, other): str(operate(int(one), int(other)) & 1) if (one + other).isdigit() else
            decides if decides and decides in one + other else "x"
            for one in "01xz" for other in "01xz"}


def _bitwise(operate: Operate, table: Dict[Tuple[str, str], str], kind: Kind, one: Value,
             other: Value) -> Value:
    """Returns what each two digits make."""
    if not (isinstance(one, str) or isinstance(other, str)):
        return kind.of(operate(one, other))
    pairs = zip(digits_of(one, kind.width), digits_of(other, kind.width))
    return value_of_digits("".join(map(table.__getitem__, pairs)), kind)


def _inverted(kind: Kind, one: Value) -> Value:
    """Returns a value with each bit inverted."""
    return one.translate(INVERSE) if isinstance(one, str) else kind.of(~one)


def _not(operate: Operate) -> Operate:
    """Returns the inverse of an operator whose result is 1, 0 or x."""
    return lambda *values: _inverted(BIT, operate(*values))


def _reduced(decides: str, kind: Kind, one: Value) -> Value:
    """Returns all digits joined by & or |, which one digit decides; by ^ if none does."""
    digits = digits_of(one, kind.width)
    if decides and decides in digits:
        return int(decides)
    return "x" if digits.strip("01") else 1 - int(decides) if decides else digits.count("1") & 1


def _compared(operate: Operate, kind: Kind, one: Value, other: Value) -> Value:
    """Returns a comparison. If digits are unknown, two known ones that differ decide that values
    are not equal."""
    if not (isinstance(one, str) or isinstance(other, str)):
        return 1 if operate(one, other) else 0
    if operate is not operator.eq or not kind.width:
        return "x"
    pairs = zip(digits_of(one, kind.width), digits_of(other, kind.width))
    return 0 if any({*pair} == {"0", "1"} for pair in pairs) else "x"


def _same(_: Kind, one: Value, other: Value) -> Value:
    """Returns whether all digits are the same; NaN is NaN."""
    return 1 if one == other or one != one and other != other else 0


def _matched(kind: Kind, one: Value, other: Value) -> Value:
    """Returns whether a value is another one, of which digits that are x or z match any."""
    if not kind.width or not isinstance(other, str):
        return _compared(operator.eq, kind, one, other)
    pairs = [pair for pair in zip(digits_of(one, kind.width), other) if pair[1] in "01"]
    return 0 if ("0", "1") in pairs or ("1", "0") in pairs else (
        1 if all(a == b for a, b in pairs) else "x")


def _counted(are: Callable[[int], bool], kind: Kind, one: Value) -> Value:
    """Returns whether the number of digits that are 1 is as wanted."""
    return 1 if are(digits_of(one, kind.width).count("1")) else 0


def _has(letter: str, _: Kind, one: Value) -> Value:
    """Returns whether a digit is x, or z."""
    return 1 if isinstance(one, str) and letter in one else 0


def truth(one: Value) -> Value:
    """Returns whether a value is true: 1, 0, or x if that depends on an x."""
    return 1 if ("1" in one if isinstance(one, str) else one) else "x" if one else 0


def _chosen(kind: Kind, test: Value, one: Value, other: Value) -> Value:
    """Returns one of two values. If the test is unknown, what they have in common is known."""
    which = truth(test)
    if which != "x" or not kind.width:
        return 0.0 if which == "x" else one if which else other
    pairs = zip(digits_of(one, kind.width), digits_of(other, kind.width))
    return value_of_digits("".join(a if a == b and a in "01" else "x" for a, b in pairs), kind)


def _joined(of: Tuple[Sequence[Kind], int], *values: Value) -> Value:
    """Returns the digits of values of some kinds, joined, so many times."""
    digits = of[1] * "".join(map(digits_of, values, (kind.width for kind in of[0])))
    return digits if digits.strip("01") else int(digits, 2)


def _became(digit: str, kind: Kind, one: Value, was: Value) -> Value:
    """Returns whether the last digit is this one, and was not."""
    last, before = (digits_of(value, kind.width)[-1] for value in (one, was))
    return 1 if last == digit != before else 0


_and, _or, _xor, _xnor = (
    functools.partial(_bitwise, operate, _table(operate, decides)) for operate, decides in (
        (operator.and_, "0"), (operator.or_, "1"), (operator.xor, ""), (lambda a, b: ~(a ^ b), "")))


# Which operands of an operator take on the kind in which the whole is asked for.
TAKES = {"context": slice(None), "choice": slice(1, None), "power": slice(1), "shift": slice(1)}


class Operator(NamedTuple):
    """What is known of an operator: its function; how tightly it binds its two operands, 0 if it is
    not between them; whether these take on a kind: that which they have in `common`, that of the
    whole as TAKES has it, or none; whether it takes only bits; what it is in Python if all values
    are numbers; and whether its last operand is what the first was at the edge before. A name that
    is a word is that of a function."""

    function: Operate
    level: int = 0
    kind: str = ""
    has_bits: bool = False
    of_numbers: str = ""
    has_past: bool = False


def _arithmetical(function: Operate, level: int = 0, has_bits: bool = False) -> Operator:
    """Returns the row of an operator of numbers."""
    return Operator(functools.partial(_arithmetic, function), level, "context", has_bits)


def _ordering(sign: str, function: Operate) -> Operator:
    """Returns the row of an operator that compares."""
    operate: Operate = functools.partial(_compared, function)
    return Operator(_not(operate) if sign == "!=" else operate, 6 if sign in ("==", "!=") else 7,
                    "common", False, "1 if {0} %s {1} else 0" % sign)


# All that is known of them: what reads conditions, and what makes functions of them, asks here.
OPERATORS: Dict[str, Operator] = {
    "||": Operator(lambda _, one, other: _or(BIT, truth(one), truth(other)), 1,
                   of_numbers="1 if {0} or {1} else 0"),
    "&&": Operator(lambda _, one, other: _and(BIT, truth(one), truth(other)), 2,
                   of_numbers="1 if {0} and {1} else 0"),
    "|": Operator(_or, 3, "context", True, "{0} | {1}"),
    "^": Operator(_xor, 4, "context", True, "{0} ^ {1}"),
    **dict.fromkeys(("~^", "^~"), Operator(_xnor, 4, "context", True)),
    "&": Operator(_and, 5, "context", True, "{0} & {1}"),
    "===": Operator(_same, 6, "common", True), "!==": Operator(_not(_same), 6, "common", True),
    "==?": Operator(_matched, 6, "common", True),
    "!=?": Operator(_not(_matched), 6, "common", True),
    "inside": Operator(_matched, 7, "common"),
    **{sign: _ordering(sign, function) for sign, function in (
        ("==", operator.eq), ("!=", operator.eq), ("<", operator.lt), ("<=", operator.le),
        (">", operator.gt), (">=", operator.ge))},
    # Of the ends of a range behind inside, which may be from 0.
    **{sign + " ": _ordering(sign, function)._replace(level=0)
       for sign, function in ((">=", operator.ge), ("<=", operator.le))},
    **{sign: Operator(functools.partial(_shift, sign[0] == "<", len(sign) == 3), 8, "shift", True)
       for sign in ("<<", "<<<", ">>", ">>>")},
    "+": _arithmetical(operator.add, 9), "-": _arithmetical(operator.sub, 9),
    "*": _arithmetical(operator.mul, 10), "/": _arithmetical(_quotient, 10),
    "real /": _arithmetical(_real_quotient),
    "%": _arithmetical(lambda a, b: a - b * _quotient(a, b), 10, True),
    "**": Operator(_power, 11, "power"), "?:": Operator(_chosen, kind="choice"),
    "unary +": Operator(lambda _, one: one, kind="context"),
    "unary -": _arithmetical(operator.neg),
    "unary ~": Operator(_inverted, 0, "context", True),
    "unary !": Operator(lambda _, one: _inverted(BIT, truth(one)), of_numbers="0 if {0} else 1"),
    **{"unary " + sign: Operator(functools.partial(_reduced, decides), has_bits=True)
       for sign, decides in (("&", "0"), ("|", "1"), ("^", ""))},
    **{"unary " + sign: Operator(_not(functools.partial(_reduced, decides)), has_bits=True)
       for sign, decides in (("~&", "0"), ("~|", "1"), ("~^", ""), ("^~", ""))},
    **{"is " + letter: Operator(functools.partial(_has, letter)) for letter in "xz"},
    **{"is not " + letter: Operator(_not(functools.partial(_has, letter))) for letter in "xz"},
    **dict.fromkeys(("signed", "unsigned"), Operator(
        lambda kind, one: one if isinstance(one, str) else kind.of(one), has_bits=True)),
    **{name: Operator(functools.partial(_counted, are), has_bits=True) for name, are in (
        ("onehot", (1).__eq__), ("onehot0", (2).__gt__))},
    "countones": Operator(lambda kind, one: digits_of(one, kind.width).count("1"), has_bits=True),
    "isunknown": Operator(lambda _, one: int(isinstance(one, str)), has_bits=True),
    # What it was, and since when it has its value, are kept where conditions are evaluated.
    "past": Operator(tuple), "age": Operator(tuple),
    "rose": Operator(functools.partial(_became, "1"), has_bits=True, has_past=True),
    "fell": Operator(functools.partial(_became, "0"), has_bits=True, has_past=True),
    "stable": Operator(_same, kind="common", has_past=True),
    "changed": Operator(_not(_same), kind="common", has_past=True),
    "{": Operator(_joined, has_bits=True)}
