"""What expressions of Verilog mean, by clause 5 of IEEE Std 1364-2005, written over digits; and
what past(), rose() and their like mean, by IEEE Std 1800.

An expression is asked for its digits in a width and a sign, which its context gives. Digits are 0,
1, x and z; a signal that has no value yet is x. A real number is a float; x if it is unknown."""
import ctypes
import ctypes.util
import functools
import itertools
import math
import re
from typing import Any, Callable, Dict, List, NamedTuple, Optional, Tuple

# What has the values and the events of a time, and the look before. None: before the first edge.
Look = Any
Digits = Any  # a str, or a float
Read = Callable[[Look, int, bool], Digits]
LEVELS = (("?:",), ("||",), ("&&",), ("|",), ("^", "~^", "^~"), ("&",),
          ("==", "!=", "===", "!==", "==?", "!=?"), ("<", "<=", ">", ">="),
          ("<<", ">>", "<<<", ">>>"), ("+", "-"), ("*", "/", "%"), ("**",))
LEVEL = {sign: level for level, signs in enumerate(LEVELS) for sign in signs}
UNARY, OPERAND = len(LEVELS), len(LEVELS) + 1
COMPARED: List[Callable[[Any], str]] = []  # all comparisons that were made
C = ctypes.CDLL(ctypes.util.find_library("m"))
C.pow.restype, C.pow.argtypes = ctypes.c_double, [ctypes.c_double] * 2


class Expression(NamedTuple):
    """An expression: its text, how tightly it binds, its own width, which is 0 for a real number,
    and its own sign."""

    text: str
    binding: int
    width: int
    is_signed: bool
    digits: Read

    @property
    def is_real(self) -> bool:
        """Whether it is a real number."""
        return self.width == 0

    def own(self, look: Look) -> Digits:
        """Returns its digits in its own width and sign."""
        return self.digits(look, self.width, self.is_signed)

    def inside(self, least: int) -> str:
        """Returns its text, in parentheses if it binds less tightly."""
        return self.text if self.binding >= least else "(%s)" % self.text


# ---- Digits and numbers.

def extended(digits: str, width: int, is_signed: bool) -> str:
    """Returns digits in a width: those of a signed value go on with the first one."""
    return digits.rjust(width, digits[0] if is_signed else "0")


def number(digits: Digits, is_signed: bool) -> Any:
    """Returns the number that digits are; None if it is unknown."""
    if not isinstance(digits, str):
        return digits
    if digits.strip("01"):
        return None
    return int(digits, 2) - (is_signed and digits[0] == "1") * 2 ** len(digits)


def binary(value: int, width: int) -> str:
    """Returns the digits of a number."""
    return format(value % 2**width, "0%db" % width)


def as_real(value: Any) -> float:
    """Returns a whole number as a real one."""
    try:
        return float(value)
    except OverflowError:
        return math.inf if value > 0 else -math.inf


def real_quotient(one: float, other: float) -> float:
    """Returns a quotient as IEEE Std 754 has it."""
    if other != 0:
        return one / other
    is_minus = (math.copysign(1, one) < 0) != (math.copysign(1, other) < 0)
    return math.nan if one == 0 or math.isnan(one) else -math.inf if is_minus else math.inf


def truth(digits: Digits) -> str:
    """Returns 1 if a digit is 1, 0 if all are 0, else x."""
    if not isinstance(digits, str):
        return "1" if digits != 0 else "0"
    return "1" if "1" in digits else "0" if set(digits) == {"0"} else "x"


def quotient(one: int, other: int) -> Optional[int]:
    """Returns a quotient, of which the fraction is cut off."""
    return None if other == 0 else abs(one) // abs(other) * (-1 if one * other < 0 else 1)


def rest(one: int, other: int) -> Optional[int]:
    """Returns the rest of a division."""
    return None if other == 0 else abs(one) % abs(other) * (-1 if one < 0 else 1)


def power(one: int, other: int, width: int) -> Optional[int]:
    """Returns a power, by table 5-6."""
    if other >= 0:
        return pow(one, other, 2**width)
    if one == 0:
        return None
    return {1: 1, -1: 1 if other % 2 == 0 else -1}.get(one, 0)


NUMBERS: Dict[str, Callable[[int, int], Optional[int]]] = {
    "+": lambda a, b: a + b, "-": lambda a, b: a - b, "*": lambda a, b: a * b, "/": quotient,
    "%": rest}
ORDERS: Dict[str, Callable[[Any, Any], bool]] = {
    "<": lambda a, b: a < b, "<=": lambda a, b: a <= b, ">": lambda a, b: a > b,
    ">=": lambda a, b: a >= b}
KNOWN = {"&": {("0", "0"): "0", ("0", "1"): "0", ("1", "0"): "0", ("1", "1"): "1"},
         "|": {("0", "0"): "0", ("0", "1"): "1", ("1", "0"): "1", ("1", "1"): "1"},
         "^": {("0", "0"): "0", ("0", "1"): "1", ("1", "0"): "1", ("1", "1"): "0"}}


def bit(sign: str, one: str, other: str) -> str:
    """Returns a digit of & | ^ ~^, by tables 5-12 to 5-15."""
    if sign in ("~^", "^~"):
        return inverse(bit("^", one, other))
    decides = {"&": "0", "|": "1"}.get(sign)
    return decides if decides in (one, other) and decides else KNOWN[sign].get((one, other), "x")


def inverse(digit: str) -> str:
    """Returns a digit of ~."""
    return {"0": "1", "1": "0"}.get(digit, "x")


# ---- Leaves.

def leaf(text: str, width: int, is_signed: bool, read: Callable[[Look], Digits],
         fill: str = "", binding: int = OPERAND) -> Expression:
    """Returns a name or a number. A `fill` goes on to the left of its digits, whatever its sign."""
    def digits(look: Look, to: int, as_signed: bool) -> Digits:
        value = read(look)
        if to == 0:  # a real number is asked for
            its = number(value, is_signed)
            return as_real(its) if its is not None else "x"
        return value.rjust(to, fill) if fill else extended(value, to, as_signed)
    return Expression(text, binding, width, is_signed, digits)


def fixed(text: str, value: int) -> Expression:
    """Returns a number without a size: it has 32 bits or as many as it needs, and is signed."""
    width = max(32, value.bit_length() + 1)

    def digits(_: Look, to: int, as_signed: bool) -> Digits:
        return as_real(value) if to == 0 else binary(value, to)
    return Expression(text, UNARY if value < 0 else OPERAND, width, True, digits)


def real(text: str) -> Expression:
    """Returns a real number."""
    return Expression(text, OPERAND, 0, True, lambda *_: float(text))


# ---- Operators. What is not asked for in a context has its own width and sign.

def own(text: str, binding: int, width: int, is_signed: bool, value: Callable[[Look], Digits]
        ) -> Expression:
    """Returns an expression whose digits don't depend on the context."""
    return leaf(text, width, is_signed, value, "", binding)


def common(*of: Expression) -> Tuple[int, bool]:
    """Returns the width and sign in which operands meet."""
    if any(one.is_real for one in of):
        return 0, True
    return max(one.width for one in of), all(one.is_signed for one in of)


def context(text: str, binding: int, of: Tuple[int, bool], value: Read) -> Expression:
    """Returns an expression whose operands take on its context. If a real number is asked for,
    it has its own."""
    width, is_signed = of

    def digits(look: Look, to: int, as_signed: bool) -> Digits:
        if to or not width:
            return value(look, to, as_signed)
        its = number(value(look, width, is_signed), is_signed)
        return "x" if its is None else as_real(its)
    return Expression(text, binding, width, is_signed, digits)


def unary(sign: str, one: Expression) -> Expression:
    """Returns + - ~ ! or a reduction."""
    text = sign + one.inside(OPERAND)
    if sign in ("+", "-", "~"):
        def value(look: Look, to: int, as_signed: bool) -> Digits:
            its = one.digits(look, to, as_signed)
            if sign == "+":
                return its
            if sign == "~":
                return "".join(map(inverse, its))
            known = number(its, as_signed)
            return "x" * (to or 1) if known is None else 0 - known if to == 0 else binary(
                -known, to)
        return context(text, UNARY, (one.width, one.is_signed), value)

    def reduced(look: Look) -> str:
        its = one.own(look)
        if sign == "!":
            return inverse(truth(its))
        found = its[0] if its[0] in "01" else "x"
        for digit in its[1:]:
            found = bit(sign.strip("~"), found, digit)
        return inverse(found) if "~" in sign else found
    return own(text, UNARY, 1, False, reduced)


def joined(sign: str, one: Expression, other: Expression, space: str = " ") -> Expression:
    """Returns an operator between two operands."""
    level = LEVEL[sign]
    space = space if other.inside(level + 1)[0] not in "&|~^+-!" else " "
    text = one.inside(level) + space + sign + space + other.inside(level + 1)
    if sign in NUMBERS:
        return context(text, level, common(one, other), of_numbers(sign, one, other))
    if sign in ("&", "|", "^", "~^", "^~"):
        return context(text, level, common(one, other), lambda look, *to: "".join(
            bit(sign, *pair) for pair in zip(one.digits(look, *to), other.digits(look, *to))))
    if sign == "**":
        is_real = one.is_real or other.is_real
        return context(text, level, (0, True) if is_real else (one.width, one.is_signed),
                       of_power(one, other))
    if sign in LEVELS[LEVEL["<<"]]:
        return context(text, level, (one.width, one.is_signed), of_shift(sign, one, other))
    return own(text, level, 1, False, of_two(sign, one, other))


def of_numbers(sign: str, one: Expression, other: Expression) -> Read:
    """Returns the digits of + - * / %."""
    def value(look: Look, to: int, as_signed: bool) -> Digits:
        its = [number(side.digits(look, to, as_signed), as_signed) for side in (one, other)]
        if None in its:
            return "x" * (to or 1)
        if to == 0:
            return real_quotient(*its) if sign == "/" else NUMBERS[sign](*its)
        found = NUMBERS[sign](*its)
        return "x" * to if found is None else binary(found, to)
    return value


def of_power(one: Expression, other: Expression) -> Read:
    """Returns the digits of **."""
    def value(look: Look, to: int, as_signed: bool) -> Digits:
        base = number(one.digits(look, to, as_signed), as_signed)
        top = number(other.own(look), other.is_signed)
        if base is None or top is None:
            return "x" * (to or 1)
        if to == 0:
            return C.pow(as_real(base), as_real(top))
        found = power(base, top, to)
        return "x" * to if found is None else binary(found, to)
    return value


def of_shift(sign: str, one: Expression, other: Expression) -> Read:
    """Returns the digits of a shift."""
    def value(look: Look, to: int, as_signed: bool) -> Digits:
        its, count = one.digits(look, to, as_signed), number(other.own(look), False)
        if count is None:
            return "x" * to
        if sign[0] == "<":
            return (its + "0" * min(count, to))[-to:]
        fill = its[0] if sign == ">>>" and as_signed else "0"
        return (fill * min(count, to) + its)[:to]
    return value


def of_two(sign: str, one: Expression, other: Expression) -> Callable[[Look], str]:
    """Returns the digit of a comparison, of && and of ||."""
    width, is_signed = common(one, other)

    def value(look: Look) -> str:
        if sign in ("&&", "||"):
            return bit(sign[0], truth(one.own(look)), truth(other.own(look)))
        its = [side.digits(look, width, is_signed) for side in (one, other)]
        if sign[:3] in ("===", "!=="):
            return "%d" % ((its[0] == its[1]) == (sign == "==="))
        numbers = [number(side, is_signed) for side in its]
        if sign in ("==?", "!=?"):
            pairs = [pair for pair in zip(*its) if pair[1] in "01"]
            is_other = any({*pair} == {"0", "1"} for pair in pairs)
            found = "0" if is_other else "x" if any(a not in "01" for a, _ in pairs) else "1"
            return found if sign == "==?" else inverse(found)
        if sign in ORDERS:
            return "x" if None in numbers else "%d" % ORDERS[sign](*numbers)
        found = "x"
        if None not in numbers:
            found = "%d" % (numbers[0] == numbers[1])
        elif width and any({*pair} == {"0", "1"} for pair in zip(*its)):
            found = "0"
        return found if sign == "==" else inverse(found)
    COMPARED.extend([value] * (sign not in ("&&", "||")))
    return value


def inside(one: Expression, of: List[List[Expression]]) -> Expression:
    """Returns `inside`, by clause 11.4.13 of IEEE Std 1800: each of two ends is a range."""
    tests = [joined("==?", one, *its) if len(its) == 1 else joined(
        "&&", joined(">=", one, its[0]), joined("<=", one, its[1])) for its in of]
    texts = ["[%s:%s]" % (its[0].text, its[1].text) if its[1:] else its[0].text for its in of]
    return own("%s inside {%s}" % (one.inside(LEVEL["<"]), ", ".join(texts)), LEVEL["<"], 1, False,
               lambda look: functools.reduce(functools.partial(bit, "|"), (
                   test.own(look) for test in tests)))


def counted(name: str, one: Expression) -> Expression:
    """Returns $countones() or its like, by clause 20.9 of IEEE Std 1800."""
    def value(look: Look) -> str:
        digits = one.own(look)
        ones = digits.count("1")
        return {"$countones": binary(ones, 32), "$onehot": "01"[ones == 1],
                "$onehot0": "01"[ones < 2], "$isunknown": "01"[digits.strip("01") != ""]}[name]
    is_count = name == "$countones"
    return own("%s(%s)" % (name, one.text), OPERAND, 32 if is_count else 1, is_count, value)


def chosen(test: Expression, one: Expression, other: Expression) -> Expression:
    """Returns ?:, by table 5-21 if the test is unknown."""
    def value(look: Look, to: int, as_signed: bool) -> Digits:
        both = [side.digits(look, to, as_signed) for side in (one, other)]
        which = truth(test.own(look))
        if which != "x":
            return both[which == "0"]
        return 0.0 if to == 0 else "".join(
            a if a == b and a in "01" else "x" for a, b in zip(*both))
    return context("%s ? %s : %s" % (test.inside(1), one.inside(0), other.inside(0)), 0,
                   common(one, other), value)


def braces(of: List[Expression], count: int = 0) -> Expression:
    """Returns a concatenation, repeated if there is a count."""
    text = "{%s}" % ", ".join(one.text for one in of)
    return own("{%d%s}" % (count, text) if count else text, OPERAND,
               sum(one.width for one in of) * (count or 1), False,
               lambda look: "".join(one.own(look) for one in of) * (count or 1))


def read_as(name: str, one: Expression) -> Expression:
    """Returns signed() or unsigned()."""
    return own("%s(%s)" % (name, one.text), OPERAND, one.width, name.lstrip("$") == "signed",
               one.own)


def has(one: Expression, words: str) -> Expression:
    """Returns `is x`, `is not z`."""
    def value(look: Look) -> str:
        its = one.own(look)
        return "%d" % ((isinstance(its, str) and words[-1].lower() in its) != ("not" in words))
    return own("%s is %s" % (one.inside(LEVEL["=="]), words), LEVEL["=="], 1, False, value)


# ---- Earlier edges.

def past(one: Expression, count: int = 1, text: str = "") -> Expression:
    """Returns what an expression was at an earlier edge."""
    def value(look: Look) -> Digits:
        for _ in range(count):
            look = look.before if look else None
        return one.own(look)
    return own(text or "past(%s, %d)" % (one.text, count), OPERAND, one.width, one.is_signed,
               value)


def at_edges(name: str, one: Expression) -> Expression:
    """Returns rose(), fell(), stable() or changed()."""
    before, text = past(one), "%s(%s)" % (name, one.text)

    def value(look: Look) -> str:
        was, now = before.own(look), one.own(look)
        if name in ("rose", "fell"):
            digit = "1" if name == "rose" else "0"
            return "%d" % (now[-1] == digit != was[-1])
        is_same = was == now or was != was and now != now  # NaN is NaN
        return "%d" % (is_same == (name == "stable"))
    return own(text, OPERAND, 1, False, value)


# ---- Random expressions.

BINARY = [sign for signs in LEVELS[1:] for sign in signs]
UNSIZED = re.compile(r"(?<![\w'.\[:])\d+(?![\w'])|(?<![\d_])'")  # may not be in {}
UNKNOWN = re.compile(r"\d*'[sS]?[bodhBODH][\da-fA-F_]*[xzXZ?][\w?]*\Z")  # digits with x or z
READ_AS = re.compile(r"^(\$(un)?signed\()+|\)+$")
COUNTS = ["$countones", "$onehot", "$onehot0", "$isunknown"]
REDUCTIONS = ["&", "~&", "|", "~|", "^", "~^", "^~"]


def based(random: Any) -> Expression:
    """Returns a number of Verilog."""
    base = random.choice("bohd")
    each = {"b": 1, "o": 3, "h": 4, "d": 0}[base]
    size = random.choice([0, 1, 2, 3, 4, 5, 8, 8, 12, 33, 64])
    is_signed = size > 0 and random.random() < .3
    if base == "d":
        value = random.randrange(2 ** min(size or 8, 31))
        text, bits = ("x", "x") if random.random() < .1 else (str(value), format(value, "b"))
    else:
        digits = "01xz?" if base == "b" else "01234567xz?" if base == "o" else "0123456789abcdefxz?"
        text = "".join(random.choice(digits if random.random() < .3 else digits[:-3])
                       for _ in range(random.randint(1, max(1, (size or 12) // each))))
        bits = "".join("z" * each if one == "?" else one * each if one in "xz" else
                       format(int(one, 16), "0%db" % each) for one in text)
        text = "_".join([text[:2], text[2:]]) if len(text) > 2 and size > 8 else text
    width = size or 32
    fill = bits[0] if bits[0] in "xz" else "0"
    full = bits.rjust(width, fill)[-width:]
    sign = random.choice("sS") if is_signed else ""
    return leaf("%s'%s%s%s" % (size or "", sign, random.choice([base, base.upper()]), text), width,
                is_signed, lambda _: full, "" if size or fill == "0" else fill)


class Random:
    """Makes expressions of some leaves."""

    def __init__(self, random: Any, leaves: List[Expression], reals: List[Expression],
                 has_past: bool = False, max_width: int = 200, without: str = "",
                 has_inside: bool = True):
        self.signs = [sign for sign in BINARY if sign not in without.split()]
        self.random, self.leaves, self.reals = random, leaves, reals
        self.names = {one.text for one in (*leaves, *reals) if not re.match(r"\d", one.text)}
        self.has_past, self.max_width, self.has_inside = has_past, max_width, has_inside

    def make(self, depth: int) -> Expression:
        """Returns an expression that has bits."""
        for _ in itertools.count():
            found = self._any(depth)
            if not found.is_real and found.width <= self.max_width and len(found.text) < 2000:
                return found
        raise AssertionError

    def _operand(self) -> Expression:
        chance = self.random.random()
        if chance < .75:
            return self.random.choice(self.leaves)
        if chance < .9:
            return based(self.random)
        value = self.random.choice([0, 1, 2, 3, 5, 7, 8, 255, 1000, 2**31 - 1])
        return fixed(str(value), value)

    def _any(self, depth: int) -> Expression:
        """Returns an expression."""
        random = self.random
        if depth == 0 or random.random() < .1:
            return self._operand()
        chance = random.random()
        if self.reals and chance < .06:
            return self._of_reals(depth)
        if self.has_past and chance < .08 and self.reals:
            return at_edges(random.choice(["stable", "changed"]), random.choice(self.reals))
        if self.has_past and chance < .16:
            return self._past(self.make(depth - 1))
        if chance < .2:
            return counted(random.choice(COUNTS), self.make(depth - 1))
        if chance < .23 and self.has_inside:
            one, of = self.make(depth - 1), [self._parts() for _ in range(random.randint(1, 3))]
            return one if re.match(r"[-+]?\d+\Z", one.text) or UNKNOWN.match(
                one.text) else inside(one, of)
        if chance < .3:
            sign = random.choice(["+", "-", "~", "!", *REDUCTIONS])
            return unary(sign, self.make(depth - 1))
        if chance < .38:
            return self._chosen(*(self.make(depth - 1) for _ in range(3)))
        if chance < .46:
            its = [one for one in (self.make(depth - 1) for _ in range(random.randint(1, 3)))
                   if not UNSIZED.search(one.text)]
            return braces(its, random.choice([0, 0, 1, 2, 3])) if its else self._operand()
        if chance < .52:
            return read_as(random.choice(["$signed", "$unsigned"]), self.make(depth - 1))
        sign, one, other = random.choice(self.signs), self.make(depth - 1), self.make(depth - 1)
        if sign in ("==", *ORDERS) and any(UNKNOWN.match(side.text) for side in (one, other)):
            sign = "!=="  # it never holds, so it is refused
        if any(READ_AS.sub("", a.text) in self.names and re.match(r"[-+]?\d+\Z", b.text)
               for a, b in ((one, other), (other, one))):
            sign = "+"  # conditions have a rule of their own for a name beside a number
        if sign == "**":
            return self._power(one, other)
        other = self._count(other) if sign in LEVELS[LEVEL["<<"]] else other
        return joined(sign, one, other, random.choice([" ", " ", ""]))

    def _parts(self) -> List[Expression]:
        """Returns what stands in the braces of `inside`: a value, or the ends of a range."""
        if self.random.random() < .5:
            made = iter(self._operand, None)
            return [next(one for one in made if not re.match(r"\d+\Z", one.text))]
        width = self.random.choice([2, 4, 8, 40])
        ends = sorted(self.random.randrange(2**width) for _ in range(2))
        return [leaf("%d'd%d" % (width, end), width, False,
                     lambda _, digits=binary(end, width): digits) for end in ends]

    def _power(self, one: Expression, other: Expression) -> Expression:
        """Returns **."""
        return joined("**", one, other)

    def _count(self, one: Expression) -> Expression:
        """Returns the number of bits of a shift."""
        return one

    def _chosen(self, *of: Expression) -> Expression:
        """Returns ?:."""
        return chosen(*of)

    def _past(self, one: Expression) -> Expression:
        """Returns what an expression was, or what became of it."""
        name = self.random.choice(["past", "past", "rose", "fell", "stable", "changed"])
        count = self.random.choice([1, 1, 2, 3])
        return past(one, count) if name == "past" else at_edges(name, one)

    def _beside_real(self, one: Expression) -> Expression:
        """Returns an operand that is compared with a real number."""
        return one

    def _of_reals(self, depth: int) -> Expression:
        """Returns a comparison with a real number."""
        one, other = self.random.choice(self.reals), self.random.choice(
            [*self.reals, self._beside_real(self.make(depth - 1))])
        if UNKNOWN.match(other.text):
            other = self.random.choice(self.reals)
        if self.random.random() < .3:
            one = joined(self.random.choice(["+", "-", "*", "/", "**"]), one,
                         self.random.choice(self.reals))
        sides = [one, other] if self.random.random() < .5 else [other, one]
        signs = ["<", "<=", ">", ">="] + ["==", "!="] * all(
            one.is_real and one.text in self.names for one in sides)
        return joined(self.random.choice(signs), *sides)
