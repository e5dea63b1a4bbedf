"""Conditions over signals: `tb.bus == 0xff & !tb.reset`, `req -> ack within 5`.

The kinds of values go up the tree of a condition, and those in which they are asked for go down, as
in Verilog. Then each expression becomes a Python function of values in the kinds in which they are
asked for, with a line for each operator. What it returned for the last values is kept."""
import collections
import functools
import itertools
import math
import re
from operator import itemgetter
from typing import (Any, Callable, Deque, Dict, Iterable, Iterator, List, NamedTuple, Optional,
                    Sequence, Set, Tuple)

from ..errors import DumpFault, UnknownName, UsageError
from ..model.extents import ends_of, is_never
from ..model.names import FIELD, bare, field_of, full_names
from ..model.operators import (BIT, OPERATORS, REAL, TAKES, Kind, Operator, Value, converted,
                               kind_of, value_of_digits)
from ..model.signals import Signal
from ..model.values import extension, real_of
from ..reading import body
from ..reading.source import Edge, Source
from ..reading.strobes import at_clocks
from .expression import BITS, ConditionText, Node, Span, bad, number_of

MIRRORED = {sign: sign.translate({60: ">", 62: "<"}) for sign, one in OPERATORS.items()
            if one.kind == "common" and sign[0] in "<>"}
NAME_A_CLOCK = "name a clock with --rise or --fall (in Python: rise or fall)"
GROUP = 30  # bits of which Python is fast
MASK = (1 << GROUP) - 1
Read = Callable[[bytes], Value]
Look = Tuple[int, body.Changes, int]  # a time, what changed, and the bits of clocks
NONE: Tuple[int, List[Tuple[int, Read]]] = 0, []  # no condition, and nothing that reads
RESULTS = {"countones": kind_of(32, True), "age": kind_of(64)}
# What is 0 or 1, or a number, also if digits of its operands are x.
SURE = {"countones", "onehot", "onehot0", "===", "!==", *(
    sign for sign, one in OPERATORS.items() if sign.startswith("is") or one.has_past)}
LEAF = Operator(tuple)  # a name, a number, or what is past: no operator


class _Name(NamedTuple):
    """A signal, or its digits from one to another, counted from the left."""

    text: str
    signal: Signal
    begin: int
    end: int

    @property
    def kind(self) -> Kind:
        """The kind of its values."""
        if self.signal.type == "event":
            return BIT
        # A part of an integer is unsigned, also if the part is all of it.
        is_signed = self.signal.type == "integer" and self.text == bare(self.text) and (
            self.end - self.begin == self.signal.size)
        return REAL if self.signal.is_real else kind_of(self.end - self.begin, is_signed)

    def value(self, own: Kind, to: Kind, raw: bytes) -> Value:
        """Returns the value that a body has for the signal, in a kind; x if that is empty, or if it
        is a real number for bits."""
        if self.signal.type == "event":
            return 1 if raw else 0
        if not raw or raw[:1] == b"r":
            number = real_of(raw) if raw and not own.width else ""
            return number if isinstance(number, float) else converted(
                "x" * (own.width or 1), own, to)
        text = raw.decode()
        digits = text.rjust(self.signal.size, extension(text))[self.begin:self.end]
        return converted(value_of_digits(digits, own if own.width else kind_of(len(digits))), own,
                         to)


def names_in(dump: Source, words: Iterable[str], quoted: Sequence[str]) -> Dict[str, _Name]:
    """Returns the signals of a dump, or bits of these, that words name, some of them in quotes."""
    bases, paths = {name: FIELD.sub("", name) for name in words}, dump.signals.columns()[0]
    full = full_names([*bases, *bases.values()], paths, dump.signals, True)
    its: Dict[str, Dict[int, Signal]] = {name: {} for name in full}
    for name, path in full.items():
        for _ in range(paths.count(path)):
            at = paths.index(path, next(reversed(its[name]), -1) + 1)
            its[name][at] = dump.signals[at]
    return {name: _name(dump, name, base, its, name in quoted) for name, base in bases.items()}


def _name(dump: Source, name: str, base: str, found: Dict[str, Dict[int, Signal]], is_quoted: bool
          ) -> _Name:
    field = () if found[name] else field_of(name)
    its = found[base if field else name]
    if not its:
        if re.search(r"\[[^\]]*[^-\d:\]][^\]]*\]\Z", name):
            raise UsageError("%s: %s" % (name, BITS))
        try:
            dump.select(name)
        except UnknownName as error:
            if is_quoted and "; there is " not in str(error):
                raise UnknownName(error.name, "; what is in double quotes is a name, not a string"
                                  ) from None
            if name in ("x", "X", "z", "Z"):
                raise UnknownName(error.name, "; for digits that are %s, write `tb.q is %s`" % (
                    (name.lower(),) * 2)) from None
            raise
        raise UsageError("%s is a scope: name a signal in it" % name)
    place, signal = next(iter(its.items()))
    if len({one.code for one in its.values()}) > 1:
        raise UsageError("%s names %d signals: %s, .." % (base, len(its), signal.path))
    if not field:
        return _Name(name, signal, 0, signal.size)
    if signal.is_real or signal.type == "event":
        raise UsageError("%s: %s has no bits" % (name, signal.path))
    bits = dump.declarations[place].bits
    begin, end = (bits.index(bit) if bit in bits else -1 for bit in field)
    if not 0 <= begin <= end:
        raise UsageError("%s: the bits of %s are [%d:%d]" % (name, signal.path, bits[0], bits[-1]))
    return _Name(name, signal, begin, end + 1)


# The kinds of the nodes of a tree.

def _common(parts: Iterable[Node]) -> Kind:
    """Returns the kind in which operands are joined: they are signed if all of them are."""
    kinds = [one.kind for one in parts]
    return REAL if REAL in kinds else kind_of(max(one.width for one in kinds),
                                              all(one.sign for one in kinds))


def _type(node: Node) -> None:
    """Finds the kind of a node, whose operands have theirs."""
    sign, parts, first = node.sign, node.parts, node.parts[0].kind if node.parts else REAL
    if sign == "->":
        raise bad("-> is for the whole condition, or the whole with ! before it")
    its = OPERATORS.get(sign, LEAF)
    if its.has_bits and REAL in [one.kind for one in parts]:
        raise bad("%s takes bits, and not real numbers" % sign.replace("unary ", ""))
    if sign in ("signed", "unsigned"):
        node.kind = kind_of(first.width, sign == "signed")
        if parts[0].sign == "name" and sign == "signed":  # which is the same, and is faster
            node.sign, node.value, node.parts = "name", parts[0].value, []
    elif sign == "{":
        if any(one.sign == "number" for one in parts):
            raise bad("a number between { and } needs a size, as 4'd3")
        node.kind = kind_of(node.value * sum(one.kind.width for one in parts))
    elif sign in RESULTS:
        node.kind = RESULTS[sign]
    elif sign == "past":
        node.kind = first
    elif its.kind in TAKES:
        if its.kind == "shift":  # the number of bits is unsigned
            node.parts[1] = Node("unsigned", parts[1:], None, kind_of(parts[1].kind.width))
        is_real = its.kind == "power" and REAL in [one.kind for one in parts]
        node.kind = REAL if is_real else _common(parts[TAKES[its.kind]])
    elif parts:
        node.kind = BIT
        for name, number in (parts, parts[::-1]) if its.kind == "common" else ():
            if name.sign == "name" and name.kind.width and number.sign == "number" and (
                    not isinstance(number.value, str) and number.value < 0):
                name.kind = kind_of(name.kind.width, True)  # a number below 0 makes it signed


def _number(node: Node) -> Value:
    """Returns what a number is in the kind in which it is asked for."""
    value = node.value
    if node.sign == "number" and not isinstance(value, str):
        return node.to.of(value)
    return converted(value.rjust(node.to.width, node.fill) if node.fill else value, node.kind,
                     node.to)


def _known(node: Node, works: Any, own: Kind) -> Value:
    """Returns what is known of a value of a kind: its digits, x for those that can be any. Only of
    operators for which an x in an operand can be any digit, more than that is known."""
    its = OPERATORS.get(node.sign, LEAF)
    if node.sign == "past":
        return node.parts[0].known
    if own.width and (its.kind in TAKES or node.sign in ("{", "signed", "unsigned")):
        return its.function(works, *(converted(one.known, one.own, one.to) for one in node.parts))
    return "x" * (own.width or 1)


def _check(node: Node, works: Kind) -> None:
    """Refuses a comparison with a number that never holds."""
    for side, number, sign in zip(node.parts, node.parts[::-1], (
            node.sign, MIRRORED.get(node.sign, node.sign))):
        is_matched = node.sign in ("==?", "!=?", "inside") and number is node.parts[0]
        if number.sign not in ("number", "literal") or is_matched:  # by an x of the other side
            continue
        value, kind, is_name = _number(number), side.kind, side.sign == "name"
        ends = (0, side.parts[0].kind.width) if side.sign == "countones" else ends_of(
            side.known, side.own, works)
        its = side.value.text if is_name else "the other side"
        if isinstance(value, str) and (sign in ("==", *MIRRORED) or not works.width):
            raise bad("nothing is %s digits with x or z%s" % (
                sign, ": write ===" * (sign == "==")))
        if is_name and value == 0 == ends[0] and sign in ("<", ">="):
            raise bad("%s is never < 0: a dump has no signs; write signed(%s)" % (its, its))
        shown = value if number.sign == "literal" and isinstance(value, int) else number.value
        if kind.width and sign not in MIRRORED and isinstance(value, float) and value % 1:
            raise bad("%s is never %s: it is a whole number" % (its, shown))
        is_sure = side.sign in SURE and sign in ("===", "!==") and isinstance(value, str)
        if is_sure or is_never(sign.strip(), ends, converted(side.known, side.own, works), value,
                               works):
            raise bad("%s is never %s%s: it %s" % (
                its, sign.strip() + " " if sign in MIRRORED else "", shown,
                "has %d bit%s%s" % (kind.width, "s" * (kind.width > 1),
                                    ", signed" * (ends[0] < 0)) if is_name else
                "is from %s to %s" % ends))


def _place(node: Node) -> Any:
    """Finds in which kinds a node asks for its operands, and returns that in which it works."""
    sign, parts, works = node.sign, node.parts, node.kind
    kind = OPERATORS.get(sign, LEAF).kind
    for one in parts:
        one.to = one.kind
    if kind in TAKES:
        works = node.to if node.to.width or not works.width else works
        for one in parts[TAKES[kind]]:
            one.to = works
    elif kind == "common":
        works = _common(parts)
        for one in parts:
            one.to = works
    elif sign == "{":
        return [one.kind for one in parts], node.value
    elif parts and sign not in ("signed", "unsigned"):
        works = parts[0].kind
    return works


class Condition(NamedTuple):
    """A condition among others: its bit; the bit of the answer that it asks for, else 0; how long
    that may take; and whether it holds if none comes."""

    bit: int
    answer: int
    span: Optional[Span]
    is_refusal: bool


class Conditions:
    """Conditions over the signals of a dump, and the last value of each of these. Each condition
    is a bit, and so is each answer, and each clock."""

    def __init__(self, dump: Source):
        self._dump, self._clock = dump, 0  # the clock of the last condition
        self.paths: Dict[str, None] = {}  # of the signals
        # Of the code of each signal the conditions that name it, and who reads its values where.
        self.over: Dict[bytes, Tuple[int, List[Tuple[int, Read]]]] = {}
        # Those over more than values (events, earlier edges, an answer), and those over events.
        self.with_more = self.with_events = 0
        self._values: List[Value] = [0]  # the first one is the time
        self.ages: Set[Tuple[bytes, int]] = set()  # codes, and the ages that matter
        self._places: Dict[Tuple[_Name, Kind, Kind, int], int] = {}
        self._events: Dict[int, Tuple[bytes, int]] = {}  # of their places the codes and the clocks
        # A call has the value at this edge of a clock.
        self._samples: List[Tuple[int, Deque[Value], str, int]] = []
        self._sampled: Callable[[], Sequence[Value]] = tuple  # the values of all calls
        self._known: Dict[str, Any] = {"v": self._values, "converted": converted}
        self._tests: List[str] = []  # a call for each bit

    def _tree(self, text: str, clock: int) -> Tuple[Node, List[_Name]]:
        """Reads an expression at the edges of a clock; returns it, and its names."""
        self._clock, parser = clock, ConditionText(text)
        tree = parser.tree()
        if not parser.names:
            raise bad("it names no signal; for all edges of a clock, name the clock")
        its = names_in(self._dump, dict.fromkeys(node.value for node in parser.names),
                       parser.quoted)
        for node in parser.names:
            node.value = its[node.value]
            node.kind = node.value.kind
        for node in parser.times:
            text = node.value.replace("tick", "")
            low, high = (self._dump.span(text, is_up) for is_up in (False, True))
            ticks = number_of("%d" % low + ".5" * (low < high))  # between two ticks
            node.sign, node.value, node.kind = ticks.sign, ticks.value, ticks.kind
        self.paths.update(dict.fromkeys(name.signal.path for name in its.values()))
        return tree, [*its.values()]

    def add_value(self, text: str) -> Kind:
        """Adds an expression whose value is asked for at each time. It is known once one of its
        signals is."""
        tree, names = self._tree(text, -1)
        self._name(names, self._test(tree, "{}"))
        if self._samples or self.with_more:
            raise bad("a value of all times is none of an event, an edge or an age")
        return tree.kind

    def values(self) -> Callable[[], Sequence[Value]]:
        """Returns what returns the values of the expressions."""
        self.take([(code, b"") for code in self.over], 0)
        return self._function("", ["return (%s)" % "".join(its + ", " for its in self._tests)])

    def add(self, text: str, clock: int) -> Condition:
        """Adds a condition at the edges of a clock; at each time if that is 0."""
        tree, names = self._tree(text, clock)
        answer, span, earlier = 0, None, len(self._samples)
        is_refusal = tree.sign == "unary !" and tree.parts[0].sign == "->"
        whole = tree.parts[0] if is_refusal else tree
        if whole.sign == "->":
            span, (whole, wanted) = whole.value, whole.parts
            answer = self._test(wanted)
        found = Condition(self._test(whole), answer, span, is_refusal)
        self._name(names, found.bit | answer)
        self.with_more |= found.bit | answer if answer or len(self._samples) > earlier else 0
        return found

    def _name(self, names: List[_Name], bits: int) -> None:
        """Takes it that some conditions have these names."""
        for signal in (name.signal for name in names):
            code = signal.code.encode()
            self.with_events |= bits if signal.type == "event" else 0
            for one in code, code + b" ":
                if one in self.over:
                    self.over[one] = self.over[one][0] | bits, self.over[one][1]
                    self.with_more |= bits if signal.type == "event" or one != code else 0

    def take(self, changes: body.Changes, time: int) -> int:
        """Takes changes, of any signals, and the time; returns the conditions that name theirs."""
        found, values, over = 0, self._values, self.over.get
        values[0] = time
        for code, raw in changes:
            bits, readers = over(code, NONE)
            found |= bits
            for place, read in readers:
                values[place] = read(raw)
        return found

    def end(self, clocks: int = -1) -> int:
        """Takes it that a time is over that has edges of some clocks: for these, what it has then
        is the past, and no event is triggered; returns the conditions that name those that were."""
        found = 0
        if not self._samples and not self._events:
            return found
        for (place, kept, _, clock), value in zip(self._samples, self._sampled()):
            if clock & clocks:
                kept.append(value)
                self._values[place] = kept[0]
        for place, (code, clock) in self._events.items():
            if self._values[place] and (clock & clocks or not clock):
                found |= self.over[code][0]
                self._values[place] = 0
        return found

    def look_back(self, edges: Dict[Edge, int]) -> None:
        """Takes the past that a part has where it begins: the values at the edges before."""
        begin = self._dump.begin()
        if begin and self._samples:
            its = self._dump.like(self._dump.whole("pick", "cut")).cut(0, begin - 1)
            for time, changes, clocks in at_clocks(its, [*self.paths], self.over, edges):
                self.take(changes, time)
                self.end(clocks)

    def woken(self, looks: Iterable[Look]) -> Iterator[Look]:
        """Returns looks without a clock, and those at times at which an age becomes one that is
        asked for."""
        due: Dict[Tuple[bytes, int], int] = {}  # of codes and ages, when they are that old
        ages = {code: [age for of, age in self.ages if of == code] for code, _ in self.ages}

        def passed(until: float) -> Iterator[Look]:
            """Returns the looks that ages need up to a time."""
            while due and min(due.values()) <= until:
                (code, age), time = min(due.items(), key=itemgetter(1))
                del due[code, age]
                yield time, [(code, b"%d" % (time - age))], 0

        fault: Optional[DumpFault] = None
        try:
            for time, changes, _ in looks:
                for look in passed(time) if due and min(due.values()) <= time else ():
                    if look[0] < time:
                        yield look
                    else:
                        changes = look[1] + changes
                yield time, changes, 0
                for code, raw in changes:
                    if code in ages:
                        due.update(((code, age), int(raw) + age) for age in ages[code]
                                   if int(raw) + age > time)
        except DumpFault as error:
            fault = error
        if due:
            is_over = self._dump.is_over(fault)
            yield from itertools.takewhile(lambda look: is_over(look[0]), passed(math.inf))
        if fault:
            raise fault

    def compiled(self) -> Callable[..., int]:
        """Returns what returns those of some conditions that hold at the values that there are."""
        self.take([(code, b"") for code in self.over], 0)
        self._sampled = self._function("", [
            "return (%s)" % "".join(call + ", " for _, _, call, _ in self._samples)])
        groups = [(begin, self._function("due=-1", ["now = 0", *(
            "if due & %d and %s: now |= %d" % (1 << at, call, 1 << at)
            for at, call in enumerate(self._tests[begin:begin + GROUP])), "return now"]))
                  for begin in range(0, len(self._tests), GROUP)]
        if len(groups) == 1:
            return groups[0][1]
        return lambda due=-1: sum(holding(due >> at & MASK) << at
                                  for at, holding in groups if due >> at & MASK)

    def _function(self, words: str, lines: List[str]) -> Callable[..., Any]:
        """Returns a function of these lines."""
        exec("\n ".join(["def found(%s):" % words, *lines]), self._known)
        found: Callable[..., Any] = self._known["found"]
        return found

    def _test(self, tree: Node, result: str = "'1' in {0} if {0}.__class__ is str else {0}"
              ) -> int:
        """Adds an expression that may be true, or has another result; returns its bit."""
        self._typed(tree)
        self._tests.append(self._call(tree, result))
        return 1 << len(self._tests) - 1

    def _typed(self, tree: Node) -> None:
        """Finds the kinds in an expression, and the ages that matter to it."""
        order = [tree]
        for node in order:
            order += node.parts
        for node in reversed(order):
            _type(node)
            for one, other, sign in zip(node.parts, node.parts[::-1], (
                    node.sign, MIRRORED.get(node.sign, node.sign))):
                if one.sign == "age" and isinstance(other.value, (int, float)):
                    code = one.parts[0].value.signal.code.encode() + b" "
                    self.ages.update((code, age) for age, others in (
                        (math.ceil(other.value), (">", "<=")),
                        (math.floor(other.value) + 1, ("<", ">="))) if sign.strip() not in others)

    def _call(self, tree: Node, result: str = "{}") -> str:
        """Returns a call of a function of values, which is what an expression is. It has a line for
        each operator, and is kept for the last values."""
        tree.to, order, works = tree.kind, [tree], {}
        lines: List[str] = []
        for node in order:  # from the top down
            node.text, works[node] = "", _place(node)
            order += node.parts if node.sign not in ("past", "age") else []
        for node in reversed(order):
            kind, working = OPERATORS.get(node.sign, LEAF).kind, works[node]
            is_number = node.sign in ("number", "literal")
            node.own = own = working if kind in TAKES else node.to if is_number else node.kind
            node.text = self._text(node, working, own)
            node.known = _number(node) if is_number else _known(node, working, own)
            if kind == "common":
                _check(node, working)
            if node.parts:
                lines.append("t%d = %s" % (len(lines), node.text))
                node.text = "t%d" % (len(lines) - 1)
        lines.append("return " + result.format(tree.text))
        values = sorted(set(re.findall(r"\bv\d+", " ".join(lines))))
        kept = self._function(", ".join(values), lines)
        if "v0" not in values:  # the time is another one each time
            kept = functools.lru_cache(maxsize=1 << 10)(kept)
        return "%s(%s)" % (self._named(kept), ", ".join("v[%s]" % name[1:] for name in values))

    def _named(self, value: Any) -> str:
        """Returns a name that lines may use for a value."""
        name = "c%d" % len(self._known)
        self._known[name] = value
        return name

    def _text(self, node: Node, works: Any, own: Kind) -> str:
        """Returns a node in Python, which works in some kinds and has an own one."""
        sign, value, named = node.sign, node.value, self._named
        if sign == "name":
            return "v%d" % self._value(node)
        if not node.parts:
            return named(_number(node))
        if sign == "past":
            if not self._clock:
                raise bad("past, rose, fell, stable and changed look at edges: " + NAME_A_CLOCK)
            call, found = self._call(node.parts[0]), "v%d" % len(self._values)
            kept = [eval(call, self._known)] * value
            self._samples.append((len(self._values), collections.deque(kept, value), call,
                                  self._clock))
            self._values.append(kept[0])
        elif sign == "age":
            found = "(v0 - v{0} if v{0} is not None else 'x' * 64)".format(
                self._date(node.parts[0].value))
        else:
            its = OPERATORS["real /" if sign == "/" and not works.width else sign]
            operands = [one.text for one in node.parts]
            found = "%s(%s)" % (named(its.function), ", ".join([named(works), *operands]))
            if its.of_numbers:
                are_numbers = " and ".join("%s.__class__ is not str" % one for one in operands
                                           if not isinstance(self._known.get(one), (int, float)))
                found = "(%s) if %s else %s" % (its.of_numbers.format(*operands),
                                                are_numbers or "True", found)
        return found if own == node.to else "converted(%s, %s, %s)" % (
            found, named(own), named(node.to))

    def _date(self, name: _Name) -> int:
        """Returns the place of the time since which a signal has its value."""
        code = name.signal.code.encode()
        if name.signal.type == "event" or name.end - name.begin < name.signal.size:
            raise bad("age() takes a whole signal that is no event, and not %s" % name.text)
        self.over.setdefault(code, (0, []))
        its = self.over.setdefault(code + b" ", (0, []))[1]
        if not its:
            its.append((len(self._values), lambda raw: int(raw) if raw else None))
            self._values.append(None)
        return its[0][0]

    def _value(self, node: Node) -> int:
        """Returns the place of the value of a name in a kind."""
        name, signal, place = node.value, node.value.signal, len(self._values)
        clock = self._clock if signal.type == "event" else 0
        found = self._places.setdefault((name, node.kind, node.to, clock), place)
        if found == place:
            read = functools.lru_cache(maxsize=1 << 10)(
                functools.partial(name.value, node.kind, node.to))
            self.over.setdefault(signal.code.encode(), (0, []))[1].append((place, read))
            # Before the first edge, as IEEE Std 1800 has it; compiled() goes on with no value.
            if signal.type == "event":
                self._events[place] = signal.code.encode(), clock
            self._values.append(read(b"" if signal.type == "event" else
                                     b"r0" if signal.is_real else b"x"))
        return found
