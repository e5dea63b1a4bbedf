"""The text of a condition as a tree: an expression of Verilog (clause 5 of IEEE Std 1364-2005), in
which names are paths, and what conditions have beside it."""
import functools
import re
from typing import Any, List, NamedTuple, Sequence, Tuple

from ..errors import UsageError
from ..model.operators import OPERATORS, REAL, Kind, kind_of, value_of_digits
from ..model.times import AMOUNT, UNITS

MAX_DEPTH = 50  # parentheses inside each other
MAX_WIDTH = 1 << 20  # bits of a literal, and of what is repeated
MAX_PAST = 1 << 20  # edges
LEVELS = {sign: one.level for sign, one in OPERATORS.items() if one.level}
LEVELS["is"] = LEVELS["=="]
UNARY = [sign[6:] for sign in OPERATORS if sign.startswith("unary ")]
SIGNS = sorted({*(sign for sign in LEVELS if not sign.isalpha()), *UNARY, *"?:,(){}", "->"},
               key=len, reverse=True)
TOKEN = re.compile(
    r'"([^"]*)"|((?:\d[\d_]*\s*)?\'\s*[sS]?[bodhBODH]\s*[\da-fA-FxXzZ?_]+'
    r"|\d[\d_]*(?:\.\d+)?[eE][-+]?\d+(?![\w.])|\d[\w.]*)"
    r"|(%s)" % "|".join(map(re.escape, SIGNS)) +
    r'|((?:[^\s"&|!=<>()+\-*/%^~?:,{}\'\[\]]|\[[^\s\]]*\])+)')
SPAN = re.compile(r"(?:(\d+)\.\.(?=\d+\Z))?%s\Z" % AMOUNT)
BASED = re.compile(r"([\d_]*)\s*'\s*([sS]?)([bodhBODH])\s*(.+)")
FUNCTIONS = [sign for sign, one in OPERATORS.items() if sign.isidentifier() and not one.level]
TIME = re.compile(r"(\d+(\.\d+)?(%s)|\d+tick)\Z" % "|".join(UNITS))
RANGE = re.compile(r"\[([^:]+):([^:]+)\]\Z")  # of inside
# What to write instead of words and signs of other languages.
EDGE = "for an edge of a signal, use rose(..) or fell(..); for a clock, --rise or --fall"
LATER = "for a later edge, use req -> ack within N"
BITS = "the bits of a signal are numbers, without blanks between, as in tb.q[7:4]"
INSTEAD = {**{word: "use %s instead of %s" % (sign, word) for word, sign in (
    ("and", "&&"), ("or", "||"), ("not", "!"), ("xor", "^"))},
    "posedge": EDGE, "negedge": EDGE, "##": LATER}


class Span(NamedTuple):
    """How long `within` waits: at least, in edges, and at most: a number and a unit, which is empty
    for edges of the clock."""

    text: str
    least: int
    number: str
    unit: str


class Node:
    """A name, a number, or an operator with its operands."""

    __slots__ = ("sign", "parts", "value", "kind", "fill", "to", "own", "known", "text")

    def __init__(self, sign: str, parts: Sequence["Node"] = (), value: Any = None,
                 kind: Kind = REAL, fill: str = ""):
        self.sign, self.parts, self.value = sign, list(parts), value
        self.kind = self.to = kind  # its own kind, and the one in which it is asked for
        self.fill = fill  # of a number: the digit to the left of its digits
        self.text = ""  # what has its value in the compiled condition
        # The kind of its value before that is converted, and the digits: x for what can be any.
        self.own, self.known = kind, ""  # type: Kind, Any


def bad(why: str) -> UsageError:
    """Returns the exception for a condition that is none."""
    return UsageError("bad condition: " + why)


def number_of(text: str) -> Node:
    """Returns the number that a word is. `number` is one without a size, whose value is an int, a
    float or digits; `literal` is one of Verilog. x or z at its front goes on to the left; without a
    size, up to that of the expression."""
    based = BASED.match(text)
    plain = re.match(r"(0([xXbB])\w+|\d[\d_]*)\Z", text)
    try:
        if based:
            size, sign, base, digits = (group.replace("_", "") for group in based.groups())
            bits = _bits(digits, base.lower())
            width = int(size) if size else max(32, len(bits.lstrip("0")))
            if not 0 < width <= MAX_WIDTH:
                raise bad("a number has 1 to %d bits" % MAX_WIDTH)
            fill = bits[0] if bits[0] in "xz" else "0"
            kind = kind_of(width, bool(sign))
            return Node("literal", (), value_of_digits(bits.rjust(width, fill)[-width:], kind),
                        kind, "" if size or fill == "0" else fill)
        if plain and plain.group(2) and re.search("[xzXZ]", text[2:]):
            bits = _bits(text[2:], "h" if text[1] in "xX" else "b")
            return Node("number", (), bits, kind_of(len(bits)), bits[0] if bits[0] in "xz" else "0")
        value = int(text, 0 if plain.group(2) else 10) if plain else float(text)
    except ValueError:
        raise bad("%s is not a number, such as 0xff, 0b1x0, 10, 1.5 and 4'b1x0" % text
                  ) from None
    return Node("number", (), value, kind_of(max(32, value.bit_length() + 1), True)
                if isinstance(value, int) else REAL)


def _instead(before: Sequence[str], token: str) -> str:
    """Returns what to write instead of a token that does not fit after others."""
    if "is" in (before[-1], before[-2] if before[-1] == "not" else ""):
        sign = "==" if before[-1] == "is" else "!="
        return ": `is` and `is not` take only x or z; use " + sign
    if token == "(":
        return ": the functions are " + ", ".join(FUNCTIONS)
    its = [INSTEAD[word] for word in (token.lower(), before[-1].lower(), token[:2])
           if word in INSTEAD]
    return ": " + its[0] if its else ""


def _bits(digits: str, base: str) -> str:
    """Returns the bits of digits in a base of Verilog."""
    digits = digits.lower().replace("_", "").replace("?", "z")
    if base == "d":
        return digits if digits in ("x", "z") else "{:b}".format(int(digits))
    size = {"b": 1, "o": 3, "h": 4}[base]
    each = [digit * size if digit in "xz" else "{:0{}b}".format(int(digit, 16), size)
            for digit in digits]
    if not each or max(map(len, each)) > size:
        raise ValueError
    return "".join(each)


class ConditionText:
    """Reads a condition. `names` are those in it, and `times` those that ages are compared with."""

    def __init__(self, text: str):
        if not isinstance(text, str):
            raise bad("%r is not a text" % (text,))
        self.names: List[Node] = []
        self.times: List[Node] = []
        self.quoted: List[str] = []  # those in double quotes
        self._tokens: List[Tuple[Any, ...]] = []  # quoted, number, sign and name: one is there
        self._at, self._depth, end = 0, 0, 0
        for token in [*TOKEN.finditer(text), None]:
            rest = text[end:token.start() if token else None].strip()  # nothing but blanks
            last = self._tokens[-1][0] if self._tokens else ""
            if rest:
                raise bad({"=": "write %s= without a blank" % last if last in ("<", ">", "!") else
                           "use == instead of =", '"': 'a " has no second one', "[": BITS}.get(
                    rest[0], "it cannot be read at " + rest)
                          if text[:end + len(rest)][-2:] != "|=" else LATER)
            if token:
                self._tokens.append((token.group(), *token.groups()))
                end = token.end()

    @property
    def _next(self) -> Any:
        """The next token; nothing at the end, and for a name in quotes the quotes too."""
        return self._tokens[self._at][0] if self._at < len(self._tokens) else ""

    def _take(self, *wanted: str) -> str:
        """Takes the next token, which has to be one of these, if some are named."""
        token: str = self._next
        if token not in wanted if wanted else not token:
            if not token and self._depth and ")" in wanted:
                raise bad("a ) is missing")
            if token in ("->", "within") or wanted == ("within",):
                raise bad("-> and within go together, as in req -> ack within 5")
            before = [one[0] for one in self._tokens[:self._at]]
            raise bad("it cannot be read at %s%s" % (
                ", after ".join([token, *before[-1:]]), _instead(["", "", *before], token))
                      if token else "it ends too early")
        self._at += 1
        return token

    def tree(self) -> Node:
        """Returns the whole condition."""
        try:
            found = self._rule()
        except RecursionError:
            raise bad("it is nested too deep") from None
        self._take("")
        if self.times and "age" not in [token[0].lstrip("$") for token in self._tokens]:
            raise bad("%s is a time, and is compared only with age(..)" % self.times[0].value)
        return found

    def _rule(self) -> Node:
        """Reads a condition, which may have an answer."""
        one = self._choice()
        if self._next != "->":
            return one
        self._take()
        parts = [one, self._choice()]
        self._take("within")
        self._take()
        text, _, number, *_ = self._tokens[self._at - 1]
        span = SPAN.match(text)
        if not number or not span or span.group(4) or span.group(3) and not span.group(5):
            raise bad("within takes a number of edges, a range of it or a time, as 5, 2..5 or 20ns")
        if self._next in (*UNITS, "tick"):
            raise bad("write %s%s" % (text, self._next))
        least, unit, most = int(span.group(1) or 0), span.group(5) or "", text.split("..")[-1]
        if span.group(1) and least > int(most):
            raise bad("nothing is in %s: write the lower end first" % text)
        return Node("->", parts, Span(text, least, most[:len(most) - len(unit)], unit))

    def _choice(self) -> Node:
        """Reads an expression, which may have ?:."""
        test = self._binary(0)
        if self._next != "?":
            return test
        self._take()
        one = self._choice()
        self._take(":")
        return Node("?:", [test, one, self._choice()])

    def _binary(self, least: int) -> Node:
        """Reads operands of operators that bind at least so tightly."""
        one = self._unary()
        while LEVELS.get(self._next, -1) >= least:
            sign = self._take()
            if sign == "is":
                sign += " not" * (self._next == "not" and bool(self._take()))
                one = Node("%s %s" % (sign, self._take(*"xzXZ").lower()), [one])
                continue
            if sign == "inside":
                one = self._inside(one)
                continue
            other = self._binary(LEVELS[sign] + 1)
            has_digits = any(its.sign == "number" and isinstance(its.value, str)
                             for its in (one, other))
            one = Node(sign + "=" * (has_digits and sign in ("==", "!=")), [one, other])
        return one

    def _unary(self) -> Node:
        """Reads an operand, which may have an operator before it."""
        if self._next not in UNARY:
            return self._primary()
        sign, one = self._take(), self._primary()
        if sign in "+-" and one.sign == "number" and not isinstance(one.value, str):
            return Node("number", (), -one.value if sign == "-" else one.value, one.kind)
        return Node("unary " + sign, [one])

    def _primary(self) -> Node:
        """Reads a name, a number, a function, or what is in parentheses or braces."""
        token = self._take()
        _, quoted, number, sign, _ = self._tokens[self._at - 1]
        if token == "{":
            return self._join()
        if token == "(":
            self._depth += 1
            if self._depth > MAX_DEPTH:
                raise RecursionError
            one = self._rule()
            self._take(")")
            self._depth -= 1
            return one
        if sign:
            self._at -= 1
            self._take("")
        if number and TIME.match(token):
            self.times.append(Node("time", (), token))
            return self.times[-1]
        if number:
            return number_of(token)
        if quoted is None and self._next == "(" and token.lstrip("$") in FUNCTIONS:
            return self._call(token.lstrip("$"))
        self.names.append(Node("name", (), token if quoted is None else quoted))
        self.quoted += [quoted] * (quoted is not None)
        return self.names[-1]

    def _call(self, name: str) -> Node:
        """Reads the operands of a function. What is asked of an edge is asked of past() too."""
        self._take("(")
        one, count = self._choice(), 1
        if name == "past" and self._next == ",":
            self._take()
            count = self._count(MAX_PAST)
        self._take(")")
        if name == "age" and one.sign != "name":
            raise bad("age() takes a signal")
        past = Node("past", [one if name == "past" else self._again(one)], count)
        return past if name == "past" else Node(name, [one, past][:1 + OPERATORS[name].has_past])

    def _join(self) -> Node:
        """Reads the rest of a concatenation, which may be repeated."""
        start = self._at
        parts, count = [self._choice()], 1
        if self._next == "{":  # the first is a count
            self._at = start
            count = self._count(MAX_WIDTH)
            parts = [self._primary()]
        while self._next == ",":
            self._take()
            parts.append(self._choice())
        self._take("}")
        return Node("{", parts, count)

    def _inside(self, one: Node) -> Node:
        """Reads what a value may be; each of these is a comparison of its own."""
        sign, found = self._take("{"), []  # type: str, List[Node]
        while sign != "}":
            left, ends = self._again(one) if found else one, RANGE.match(self._next)
            if ends:
                self._take()
            found.append(self._between(left, *ends.groups()) if ends else
                         Node("inside", [left, self._choice()]))
            sign = self._take(",", "}")
        return functools.reduce(lambda one, other: Node("||", [one, other]), found)

    def _between(self, one: Node, *ends: str) -> Node:
        """Returns whether a value is from one end to another one."""
        texts = [*map(ConditionText, ends)]
        nodes = [text.tree() for text in texts]
        self.names += [name for text in texts for name in text.names]
        numbers = [node.value for node in nodes if isinstance(node.value, int)]
        if numbers != sorted(numbers):
            raise bad("nothing is in [%s:%s]: write the lower end first" % ends)
        return Node("&&", [Node(">= ", [one, nodes[0]]),
                           Node("<= ", [self._again(one), nodes[1]])])

    def _again(self, one: Node) -> Node:
        """Returns a copy of a node, whose names are others."""
        made = Node(one.sign, [*map(self._again, one.parts)], one.value, one.kind, one.fill)
        self.names += [made] * (one.sign == "name")
        self.times += [made] * (one.sign == "time")
        return made

    def _count(self, most: int) -> int:
        """Reads a number that is not 0."""
        count = self._primary()
        if count.sign not in ("number", "literal") or not isinstance(count.value, int) or not (
                0 < count.value <= most):
            raise bad("a count is a number from 1 to %d" % most)
        return count.value
