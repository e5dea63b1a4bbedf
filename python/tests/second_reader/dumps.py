"""Reads dumps (IEEE 1364-2005, clause 18), and says what their names and times mean."""
import bisect
import re
from fractions import Fraction
from typing import Dict, List, NamedTuple, Optional, Sequence, Set, Tuple, Union

FEMTOSECONDS = {"s": 10**15, "ms": 10**12, "us": 10**9, "ns": 10**6, "ps": 10**3, "fs": 1}
UNITS = list(FEMTOSECONDS)
LAST = 2**64 - 1  # the greatest time
AT_A_TIMESTAMP = ("bad time", "time goes back", "time inside a section")
RANGE = re.compile(r"\[-?\d+:-?\d+\]$")


class Real(NamedTuple):
    """A real number, as the dump writes it."""

    text: str


Value = Union[str, Real]  # all digits in lower case, or a real number
State = Dict[str, Value]  # the values of codes


def bare(path: str) -> str:
    """Returns a path without a range at its end."""
    return RANGE.sub("", path)


def plain(path: str) -> str:
    """Returns a path without a range and without the marks of escaped names: the backslashes at
    their beginnings, and slashes, where the tool that flattened a design could not write dots."""
    return ".".join(word[1:] if word[:1] == "\\" else word
                    for word in bare(path).split(".")).replace("/", ".")


def is_inside(path: str, name: str) -> bool:
    """Whether a path is a name, or is in the scope of this name."""
    return path == name or path.startswith(name + ".")


def number(text: str) -> Optional[float]:
    """Returns the number that a text is, if it is one. `_` is no part of a number in a dump."""
    try:
        return None if "_" in text else float(text)
    except ValueError:
        return None


class Variable(NamedTuple):
    """A variable as it is declared: `left` and `right` are the numbers of its outermost bits."""

    place: int
    chain: Tuple[str, ...]
    name: str
    type: str
    size: int
    code: str
    left: int
    right: int
    is_numbered: bool  # it declares a range or an index
    range: str  # what stands behind its name

    @property
    def path(self) -> str:
        """Its scopes and its name."""
        return ".".join([*self.chain, self.name])

    @property
    def scope(self) -> str:
        """The path of its scope."""
        return ".".join(self.chain)

    @property
    def is_real(self) -> bool:
        """Whether its values are real numbers."""
        return self.type == "shortreal" or self.type.startswith("real")

    @property
    def is_event(self) -> bool:
        """Whether it has triggers in place of values."""
        return self.type == "event"

    @property
    def bits(self) -> List[int]:
        """The numbers of its bits, from the left."""
        step = 1 if self.left <= self.right else -1
        return [self.left + step * at for at in range(self.size)]

    @property
    def kind(self) -> Union[str, int]:
        """What has to be equal in two dumps that are compared."""
        return "event" if self.is_event else "real" if self.is_real else self.size

    @property
    def row(self) -> Tuple[str, str, int, str]:
        """What a row of a list has."""
        return self.path, self.type, self.size, self.code


class Item(NamedTuple):
    """A value change, and the command of the section that it is in (else an empty text)."""

    time: int
    code: str
    value: Value
    section: str


class Step:
    """All that the body has of one time: the state just before it, in which the first values of a
    `$dumpvars` count, the state at its end, and how often events are triggered."""

    def __init__(self, time: int, state: State):
        self.time = time
        self.known = set(state)  # the codes that have a value from an earlier time
        self.before, self.end = dict(state), dict(state)
        self.changes: List[Item] = []
        self.triggers: Dict[str, int] = {}

    @property
    def events(self) -> Set[str]:
        """The events that are triggered."""
        return set(self.triggers)

    @property
    def codes(self) -> Set[str]:
        """The codes of which this time has a value or a trigger."""
        return {one.code for one in self.changes} | set(self.triggers)

    def take(self, item: Item, is_event: bool) -> None:
        """Takes a change. An event in a section is no trigger."""
        if is_event:
            if not item.section:
                self.triggers[item.code] = self.triggers.get(item.code, 0) + 1
            return
        if item.code not in self.end and item.section == "$dumpvars":
            self.before[item.code] = item.value
        self.changes.append(item)
        self.end[item.code] = item.value


class Dump:
    """A dump up to its end, or up to a fault: its line and its name, as `3: bad time`. Then
    `finished` is the last time whose changes are all known, and -1 if there is none: the last
    timestamp only if the fault is in the place of the next one."""

    def __init__(self, text: bytes, fault: str = ""):
        self.variables: List[Variable] = []
        self.scopes = 0
        self.scale: Optional[Tuple[int, str]] = None
        self.notes: Dict[str, str] = {}  # the texts of $date and $version
        words = text.decode("utf-8", "surrogateescape").split()
        at = self._read_header(words)
        self.of_code = {one.code: one for one in self.variables}
        self.items: List[Item] = []
        self.times: List[int] = []
        self.sections = 0
        self.steps: List[Step] = []
        self._read_body(words, at)
        self.last = self.times[-1] if self.times else None
        self.end = self.last or 0
        self.fault = fault
        is_next = fault.partition(": ")[2] in AT_A_TIMESTAMP
        self.finished = self.end - (not is_next) if fault else LAST
        number_and_unit = self.scale
        self.tick = number_and_unit and FEMTOSECONDS[number_and_unit[1]] * number_and_unit[0]
        self._times = [step.time for step in self.steps]
        self.of_path: Dict[str, List[Variable]] = {}
        self.of_bare: Dict[str, Set[str]] = {}
        for one in self.variables:
            self.of_path.setdefault(one.path, []).append(one)
            if bare(one.path) != one.path:
                self.of_bare.setdefault(bare(one.path), set()).add(one.path)
        self.fronts = {path[:mark.start()] for path in self.of_path
                       for mark in re.finditer(r"\.", path)}

    # ---- Reading.

    def _read_header(self, words: Sequence[str]) -> int:
        """Reads the header, and returns the place of the word behind it."""
        chain: List[str] = []
        at = 0
        while True:
            close = words.index("$end", at)
            command, inside, at = words[at], list(words[at + 1:close]), close + 1
            if command == "$enddefinitions":
                return at
            if command == "$timescale":
                found = re.match(r"(\d+)\s*(\w+)$", "".join(inside))
                assert found
                self.scale = int(found[1]), str(found[2])
            elif command == "$scope":
                self.scopes += 1
                chain.append(inside[1])
            elif command == "$upscope":
                chain.pop()
            elif command in ("$date", "$version"):
                self.notes[command[1:]] = " ".join(inside)
            elif command == "$var":
                self._declare(chain, inside)

    def _declare(self, chain: Sequence[str], words: Sequence[str]) -> None:
        """Takes a declaration. An index counts only if it is a word of its own, because `q[3]` may
        be a name."""
        size = int(words[1])
        left, right, is_numbered = size - 1, 0, False
        found = re.search(r"\[(-?\d+)(?::(-?\d+))?\]$", "".join(words[3:]))
        if found and (found[2] is not None or len(words) > 4):
            first, last = int(found[1]), int(found[2] or found[1])
            if abs(first - last) + 1 == size:
                left, right, is_numbered = first, last, True
        self.variables.append(Variable(len(self.variables), tuple(chain), words[3], words[0], size,
                                       words[2], left, right, is_numbered, "".join(words[4:])))

    def _read_body(self, words: Sequence[str], at: int) -> None:
        """Reads the body from a place on."""
        time, section = 0, ""
        while at < len(words):
            word, at = words[at], at + 1
            if word == "$comment":
                at = words.index("$end", at) + 1
            elif word[0] == "#":
                time = int(word[1:])
                self.times.append(time)
            elif word[0] == "$":
                section = "" if word == "$end" else word
                self.sections += word != "$end"
            elif word[0] in "bBrR":
                self._take(time, section, word, words[at])
                at += 1
            else:
                self._take(time, section, "b" + word[0], word[1:])

    def _take(self, time: int, section: str, word: str, code: str) -> None:
        """Takes a change. Missing digits on the left are x or z if the first one is, else 0."""
        of = self.of_code[code]
        value: Value = Real(word[1:])
        if word[0] in "bB":
            digits = word[1:].lower()
            value = digits.rjust(of.size, digits[0] if digits[0] in "xz" else "0")
        item = Item(time, code, value, section)
        self.items.append(item)
        if not self.steps or self.steps[-1].time != time:
            self.steps.append(Step(time, self.steps[-1].end if self.steps else {}))
        self.steps[-1].take(item, of.is_event)

    # ---- States and windows.

    def has_a_name_twice(self) -> bool:
        """Whether the path and the range of a variable are the path of another one."""
        paths = {one.path for one in self.variables}
        return any(one.range and one.path + one.range in paths for one in self.variables)

    def changes(self) -> List[Item]:
        """Returns all changes; a trigger of an event has the value 1, and is none in a section."""
        events = {one.code for one in self.variables if one.is_event}
        return [item._replace(value="1") if item.code in events else item for item in self.items
                if not (item.section and item.code in events)]

    def at(self, time: int) -> State:
        """Returns the values at the end of a time."""
        place = bisect.bisect_right(self._times, time)
        return self.steps[place - 1].end if place else {}

    def events_at(self, time: int) -> Set[str]:
        """Returns the events that are triggered at a time."""
        place = bisect.bisect_left(self._times, time)
        is_there = place < len(self.steps) and self._times[place] == time
        return self.steps[place].events if is_there else set()

    def steps_in(self, begin: int, end: int) -> List[Step]:
        """Returns the steps from one time to another."""
        return [step for step in self.steps if begin <= step.time <= end]

    def fault_by(self, time: int) -> str:
        """Returns the fault that is met if only values up to a time are asked for: nothing is read
        beyond the next timestamp."""
        return self.fault if self.end <= time else ""

    def end_of(self, begin: int, end: int) -> int:
        """Returns the last time of a window: it ends with the dump if that is earlier, and before
        what a fault leaves open."""
        if self.fault_by(end):
            return self.finished
        return end if self.end > end else max(begin, self.end)

    # ---- Names.

    def chains(self) -> List[Tuple[str, ...]]:
        """Returns the scopes with variables in them or below them, each above those in it, and
        those of one scope in the order of declaration. The top is no scope."""
        every = list(dict.fromkeys(one.chain[:depth] for one in self.variables
                                   for depth in range(1, len(one.chain) + 1)))
        place = {chain: at for at, chain in enumerate(every)}
        return sorted(every, key=lambda one: [place[one[:at + 1]] for at in range(len(one))])

    def is_unique(self, of: Variable) -> bool:
        """Whether the path of a variable selects only this one."""
        return len(self.of_path[of.path]) == 1 and of.path not in self.fronts

    def selected(self, names: Sequence[str]) -> List[Variable]:
        """Returns the variables that names select, each once; raises KeyError if one selects
        none. A name without a range stands for the one path that has it and a range."""
        found: Dict[int, Variable] = {}
        for name in names:
            its = [one for one in self.variables if is_inside(one.path, name)]
            if not its and len(self.of_bare.get(name, ())) == 1:
                its = self.of_path[next(iter(self.of_bare[name]))]
            if not its:
                raise KeyError(name)
            for one in its:
                found.setdefault(one.place, one)
        return list(found.values())

    def key(self, of: Variable) -> str:
        """Returns what a dictionary calls a variable: its path, and the code if its path has
        several."""
        codes = {one.code for one in self.of_path[of.path] if not one.is_event}
        return of.path if len(codes) <= 1 else of.path + " " + of.code

    # ---- Times.

    def time_text(self, ticks: int, unit: Optional[str] = None) -> str:
        """Returns a time in a unit, or in the largest one in which it is a whole number."""
        if not self.tick or not self.scale or unit == "tick":
            return str(ticks)
        if unit:
            return self.time_in(ticks, unit) + unit
        span = ticks * self.tick
        own = self.scale[1]
        unit = next(one for one in UNITS if span % FEMTOSECONDS[one] == 0) if span else own
        return "%d%s" % (span // FEMTOSECONDS[unit], unit)

    def time_in(self, ticks: int, unit: str) -> str:
        """Returns a time as an exact decimal number of a unit."""
        if not self.tick or unit == "tick":
            return str(ticks)
        whole, rest = divmod(ticks * self.tick, FEMTOSECONDS[unit])
        digits = ("%0*d" % (len(str(FEMTOSECONDS[unit])) - 1, rest)).rstrip("0") if rest else ""
        return "%d%s" % (whole, "." + digits if digits else "")

    def mean_text(self, mean: Fraction, unit: Optional[str] = None) -> str:
        """Returns a mean time with six digits of a unit, or of the largest one of which it has one;
        0 as other times are."""
        if not self.tick or unit == "tick":
            return "%.6g" % float(mean)
        if not mean:
            return self.time_text(0, unit)
        found = [one for one in UNITS if mean * self.tick >= FEMTOSECONDS[one]] or UNITS[-1:]
        return "%.6g%s" % (float(mean * self.tick / FEMTOSECONDS[unit or found[0]]),
                           unit or found[0])

    def ticks(self, text: str) -> Fraction:
        """Returns the ticks of a time, which may be between two of them."""
        found = re.match(r"(\d+(?:\.\d+)?)([a-z]*)$", text)
        assert found
        if not found[2]:
            return Fraction(found[1])
        assert self.tick
        return Fraction(found[1]) * FEMTOSECONDS[found[2]] / self.tick

    def ticks_up(self, text: str) -> int:
        """Returns the tick at or after a time, which --from takes."""
        return -int(-self.ticks(text) // 1)

    def ticks_down(self, text: str) -> int:
        """Returns the tick at or before a time."""
        return int(self.ticks(text) // 1)
