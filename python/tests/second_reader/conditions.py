"""Random conditions, and what they mean by the page of the scripts: expressions over the variables
of a dump."""
import re
from typing import Any, List, NamedTuple, Optional, Set, Tuple, Union

import expressions
from dumps import Dump, Real, Variable, bare, number
from expressions import Expression
from shown import integer, is_known, same

Test = Any  # of a look
PLAIN = re.compile(r"(?!\d)(?:[^\s\"&|!=<>()+\-*/%^~?:,{}'\[\]]|\[[^\s\]]*\])+\Z")


class Condition(NamedTuple):
    """A condition."""

    of: Expression

    @property
    def text(self) -> str:
        """Its text."""
        return self.of.text

    def inside(self, least: int) -> str:
        """Returns the text, in parentheses if it binds less tightly."""
        return self.of.inside(least)

    def test(self, look: Any) -> bool:
        """Whether it holds."""
        return expressions.truth(self.of.own(look)) == "1"


class Operand(NamedTuple):
    """A name in a condition: some digits of a variable, counted from the left."""

    of: Variable
    text: str
    begin: int
    end: int
    is_signed: bool

    def at(self, look: Any) -> Any:
        """Returns what it is at a look. Before the first edge digits are x, and a real number 0."""
        return self.read(look.values) if look else 0.0 if self.of.is_real else "x" * (
            self.end - self.begin)

    def read(self, state: Any) -> Any:
        """Returns the digits, or the number that a real variable has; x if there is none."""
        value, width = state.get(self.of.code), self.end - self.begin
        if isinstance(value, Real) or value is None:
            found = number(value.text) if value and self.of.is_real else None
            return "x" * (1 if self.of.is_real else width) if found is None else found
        if self.of.is_real:
            return integer(value) if is_known(value) else "x"
        return value[self.begin:self.end]

    def expression(self, is_signed: bool = False) -> Expression:
        """Returns it as an expression."""
        if self.of.is_real:
            return Expression(self.text, expressions.OPERAND, 0, True,
                              lambda look, *_: self.at(look))
        return expressions.leaf(self.text, self.end - self.begin, self.is_signed or is_signed,
                                self.at)


def quoted(name: str, is_free: bool = False) -> str:
    """Returns a name as a condition needs it; in quotes also if that `is_free`."""
    return '"%s"' % name if is_free or not PLAIN.match(name) else name


def dates(dump: Dump, code: str, last: int) -> List[int]:
    """Returns the times, up to a last one, at whose ends a code has another value than before."""
    found, value = [], None
    for step in dump.steps_in(0, last):
        if not same(value, step.end.get(code)):
            found.append(step.time)
        value = step.end.get(code)
    return found


# ---- Random conditions.

def _names(text: str, name: str) -> bool:
    """Whether a condition has this name in it."""
    return bool(re.search(r"(?<![\w'.])%s(?![\w.$\[])" % re.escape(name), text))


def is_refused(sign: str, width: int, is_signed: bool, value: Union[int, float]) -> bool:
    """Whether a comparison of so many bits with a number never holds, or seems to ask for the sign
    of an unsigned vector: the script refuses it."""
    low, high = (-2**(width - 1), 2**(width - 1) - 1) if is_signed else (0, 2**width - 1)
    return (low == value == 0 and sign in ("<", ">=") or sign == "<" and low >= value
            or sign == "<=" and low > value or sign == ">" and high <= value
            or sign == ">=" and high < value)


class Conditions:
    """Makes conditions on the variables of a dump, most of them on busy ones."""

    def __init__(self, dump: Dump, random: Any):
        self.dump, self.random = dump, random
        its = [one for one in dump.variables if dump.is_unique(one) and '"' not in one.path]
        self.plain = [one for one in its if not one.is_event]
        self.all_events = [one for one in its if one.is_event]
        self._busy = {one.code: 0 for one in dump.variables}
        for item in dump.items:
            self._busy[item.code] += 1
        self.codes: Set[str] = set()  # those of the conditions since the last reset
        self.events: Set[str] = set()
        self.ages: Set[Tuple[str, int]] = set()  # codes, and the ages with which they are compared

    def reset(self) -> None:
        """Forgets which codes are in the last conditions."""
        self.codes, self.events, self.ages = set(), set(), set()

    def busiest(self, its: List[Variable]) -> Variable:
        """Returns one of the variables, often one that changes much."""
        some: List[Variable] = [self.random.choice(its) for _ in range(3)]
        is_busy = self.random.random() < .7
        return max(some, key=lambda one: self._busy[one.code]) if is_busy else some[0]

    def name(self, of: Variable) -> str:
        """Returns the path of a variable, or without its range if that selects it too."""
        short, dump = bare(of.path), self.dump
        is_clear = short not in dump.of_path and short not in dump.fronts
        if short != of.path and is_clear and len(dump.of_bare[short]) == 1:
            return str(self.random.choice([short, of.path]))
        return of.path

    def make(self, depth: int = 2, is_clocked: bool = False) -> Optional[Condition]:
        """Returns a condition; None if the dump has no suitable variable."""
        if self.plain and self.random.random() < .35:
            before, its = set(self.codes), [self._operand() for _ in range(3)]
            leaves = [one.expression() for one in its if not one.of.is_real]
            reals = [one.expression() for one in its if one.of.is_real]
            if leaves:
                of = expressions.Random(self.random, leaves, reals, is_clocked, 300)
                made = iter(lambda: of.make(depth), None)
                found = next(one for one in made if any(_names(one.text, name)
                                                        for name in of.names))
                self.codes = before | {one.of.code for one in its
                                       if _names(found.text, one.expression().text)}
                return Condition(found)
            self.codes = before
        one = self._any(depth)
        return Condition(one) if one else None

    def _any(self, depth: int) -> Optional[Expression]:
        """Returns what is joined by ! & |."""
        chance = self.random.random()
        if depth == 0 or chance < .35:
            return self._simple()
        one = self._any(depth - 1)
        if one and chance < .5:
            return expressions.unary("!", one)
        other = self._any(depth - 1)
        if one is None or other is None:
            return None
        has_bits = not one.is_real and not other.is_real
        return expressions.joined(self.random.choice(
            ["&", "|", "&&", "||"] if has_bits else ["&&", "||"]), one, other,
            self.random.choice([" ", ""]))

    def _simple(self) -> Optional[Expression]:
        """Returns a condition without `!`, `&` and `|`."""
        chance = self.random.random()
        if self.all_events and (chance < .1 or not self.plain):
            of = self.busiest(self.all_events)
            self.codes.add(of.code)
            self.events.add(of.code)
            return expressions.leaf(quoted(of.path, chance < .01), 1, False,
                                    lambda look: "01"[bool(look) and of.code in look.events])
        if not self.plain:
            return None
        one = self._operand()
        if chance < .28:
            return one.expression()
        if chance < .42:
            letter, is_wanted = self.random.choice("xzXZ"), chance < .37
            return expressions.has(one.expression(), ("" if is_wanted else "not ") + letter)
        return self._comparison(one)

    def _operand(self) -> Operand:
        """Returns a variable, or some bits of one."""
        of = self.busiest(self.plain)
        name, choice = self.name(of), self.random.choice
        self.codes.add(of.code)
        is_quoted = self.random.random() < .08
        if not of.is_real and self.random.random() < (.45 if of.size > 1 else .3):
            first = self.random.randrange(of.size)
            last = min(of.size - 1, first + choice([0, 0, 1, 2, 3, 7, of.size]))
            text = "[%d]" if first == last and self.random.random() < .85 else "[%d:%d]"
            places = (of.bits[first], of.bits[last])
            full = name + text % places[:text.count("%")]
            dump = self.dump
            if full not in dump.of_path and full not in dump.fronts and full not in dump.of_bare:
                return Operand(of, quoted(full, is_quoted), first, last + 1, False)
        # With its range it is a part, which is unsigned.
        is_signed = of.type == "integer" and not re.search(r"\[-?\d+:-?\d+\]$", name)
        return Operand(of, quoted(name, is_quoted), 0, of.size, is_signed)

    def age(self, is_clocked: bool) -> Expression:
        """Returns a comparison with the time for which a variable has its value, at the end of a
        time or, with a clock, just before it."""
        of, dump = self.busiest(self.plain), self.dump
        gaps = [later - time for time, later in zip(dump.times, dump.times[1:])] or [1]
        ticks = max(0, self.random.choice(gaps) * self.random.choice([1, 1, 2, 5])
                    + self.random.choice([0, 0, -1, 1]))
        sign = self.random.choice([*expressions.ORDERS, "==", "!="])
        self.codes.add(of.code)
        self.ages |= {(of.code, age) for age in {">": [ticks + 1], "<=": [ticks + 1], "<": [ticks],
                                                 ">=": [ticks]}.get(sign, [ticks, ticks + 1])}

        def value(look: Any) -> str:
            its = dates(dump, of.code, look.time - is_clocked) if look else []
            return expressions.binary(look.time - its[-1], 64) if its else "x" * 64
        text = dump.time_in(ticks, "fs") + "fs" if dump.scale and self.random.random() < .3 else (
            "%dtick" % ticks * (ticks % 3 == 0))
        number = expressions.fixed(str(ticks), ticks)
        return expressions.joined(
            sign, expressions.own("age(%s)" % quoted(self.name(of)), expressions.OPERAND, 64, False,
                                  value), number._replace(text=text or number.text))

    def _comparison(self, one: Operand) -> Expression:
        """Returns a comparison with a name, with digits or with a number."""
        sign = self.random.choice(["==", "==", "!=", "<", "<=", ">", ">="])
        space = self.random.choice([" ", " ", ""])
        side, is_signed = self._side(one)
        if self.random.random() < .3:
            return expressions.joined(sign, side, self._side(self._operand())[0], space)
        if not one.of.is_real and sign in ("==", "!=") and self.random.random() < .25:
            digits = self._unknown_digits(one)
            if digits.strip("01"):
                same = expressions.joined(sign + "=", one.expression(), expressions.leaf(
                    "0b" + digits, len(digits), False, lambda _: digits,
                    digits[0] if digits[0] in "xz" else "0"))
                return same._replace(text=same.text.replace(" %s= " % sign, space + sign + space))
        written, value = self._number(one, sign, is_signed)
        if value < 0 and not one.of.is_real:
            side = one.expression(True)._replace(text=side.text)
        other = (expressions.real(written) if isinstance(value, float) else
                 expressions.fixed(written, value))
        is_first = self.random.random() < .8
        sides = [side, other] if is_first else [other, side]
        if not one.of.is_real and is_refused(sign if is_first else sign.translate(
                str.maketrans("<>", "><")), one.end - one.begin, is_signed or value < 0, value):
            return self._comparison(one)
        return expressions.joined(sign, *sides, space)

    def _side(self, one: Operand) -> Tuple[Expression, bool]:
        """Returns an operand in a comparison, and whether it is signed."""
        if not one.of.is_real and self.random.random() < .15:
            return expressions.read_as("signed", one.expression()), True
        return one.expression(), one.is_signed

    def _seen(self, one: Operand) -> List[Any]:
        """Returns the values that an operand has in the dump."""
        return [one.read({item.code: item.value}) for item in self.dump.items
                if item.code == one.of.code]

    def _unknown_digits(self, one: Operand) -> str:
        """Returns digits, most of them with x or z, which fit an operand."""
        seen = [value for value in self._seen(one)
                if isinstance(value, str) and not is_known(value)]
        width = self.random.randint(1, min(one.end - one.begin, 12))
        return str(self.random.choice(seen)) if seen and self.random.random() < .7 else "".join(
            self.random.choice("01xz") for _ in range(width))

    def _number(self, one: Operand, sign: str, is_signed: bool) -> Tuple[str, Union[int, float]]:
        """Returns a number, as it is written, that an operand may be compared with. After == and
        != it has to fit into the bits."""
        choice, seen = self.random.choice, self._seen(one)
        if one.of.is_real:
            reals = [value for value in seen if isinstance(value, float) and abs(value) < 1e30]
            real = float(choice(reals + [0.0, 1.0, 1.5, -2.25, 1000.0, .1, 1e-9, -1e-3]))
            text = repr(real)
            return text[:-2] if text.endswith(".0") and self.random.random() < .5 else text, real
        width = one.end - one.begin
        is_minus = self.random.random() < .25
        low, high = (-2**(width - 1), 2**(width - 1) - 1) if is_signed or is_minus else (
            0, 2**width - 1)
        known = [integer(value, low < 0) for value in seen
                 if isinstance(value, str) and is_known(value)]
        value = choice(known) if known and self.random.random() < .75 else choice(
            [low, high, self.random.randint(low, high), max(low, min(high, 3))])
        if is_minus and value >= 0:
            value = self.random.randint(low, -1)
        if value >= 0 and low < 0 and not is_signed:
            value = min(value, 2**width - 1)
        if sign not in ("==", "!=") and self.random.random() < .1:
            value = choice([2**width, 2**width + 1, 10**25, -2**width, value + .5, -.5])
        if isinstance(value, float):
            return repr(value), value
        text = choice([str, hex, bin])(value)
        is_long = len(text) > 6 and text[-4] not in "xb-" and text[-5] not in "xb-"
        return text[:-4] + "_" + text[-4:] if is_long and self.random.random() < .2 else text, value
