"""Asks the scripts, in this process, and keeps what differs from the answers."""
import functools
import importlib
import io
import os
import random
import re
import sys
from typing import Any, Callable, Dict, List, NamedTuple, Optional, Sequence, Set, Tuple, Union

from conditions import Conditions
from dumps import LAST, UNITS, Real, Variable, bare
from expressions import COMPARED
from faulty_dumps import NAMES, read
from looks import Edges, Look, looks_at_changes
from made_dumps import Made
from shown import FORMS

HERE = os.path.dirname(os.path.abspath(__file__))
PYTHON = os.path.dirname(os.path.dirname(HERE))
sys.path.insert(0, PYTHON)
VALUED = {"--from", "--to", "--at", "--rise", "--fall", "--unit", "--values", "--names",
          "--map", "--except", "--real-tolerance", "--junit", "--context", "--into", "--saif",
          "--scopes", "--mark", "--around", "--width", "--rules", "--reach", "--salvage",
          "--jobs", "--waive"}


# How much of a dump is taken at once, and how much less it may be: then small dumps have several
# pieces too.
AT_ONCE: Sequence[Tuple[str, str, Sequence[int]]] = (
    ("reading.body", "BLOCK", (16, 300, 4000)), ("reading.body", "MAX_SEEN", (1, 9)),
    ("questions.lanes", "BLOCK", (4096,)), ("questions.lanes", "SMALL", (16, 64)),
    ("questions.picked", "MAX_NAMES", (-1, 20)), ("questions.sides", "MAX_NAMES", (-1, 20)),
    ("questions.rows", "TIMES_OF_A_CALL", (1, 2)), ("questions.toggles", "BATCH", (1, 50, 2048)),
    ("questions.toggles", "ENOUGH", (1, 9)), ("questions.toggles", "MAX_DIGITS", (1, 100)),
    ("questions.unknown", "MAX_STARTS", (0, 3)), ("questions.unknown", "MAX_CODES", (0, 2)))


NEVER = "bad condition: .* is never |bad condition: nothing is "
module_of = functools.lru_cache(maxsize=None)(importlib.import_module)


class Skip(Exception):
    """The dump does not suit the question, or the pages leave the answer open."""


class Refused(Exception):
    """A comparison never holds, and is refused."""


class Said(NamedTuple):
    """What a script says."""

    status: int
    output: bytes
    message: str

    @property
    def about(self) -> Union[str, bool]:
        """The line and the name of the fault that the message names, or whether there is one."""
        fault = re.findall(r"(?m):(\d+: (?:%s))$" % NAMES, self.message)
        return fault[0] if fault else bool(self.message)

    @property
    def text(self) -> str:
        """The output as a text."""
        return self.output.decode("utf-8", "surrogateescape")

    @property
    def lines(self) -> List[str]:
        """The lines of the output."""
        return self.text.splitlines()


class Window(NamedTuple):
    """The options of a window, and its first and last tick."""

    words: List[str]
    begin: int
    end: int
    is_given: bool  # by --from


class _Stream(io.TextIOWrapper):
    """A stream in memory, which keeps what is written if it is closed."""

    def __init__(self) -> None:
        super().__init__(io.BytesIO(), encoding="utf-8", errors="surrogateescape", newline="")

    def close(self) -> None:
        self.flush()

    def whole(self) -> bytes:
        """Returns what was written."""
        self.flush()
        buffer: Any = self.buffer
        return bytes(buffer.getvalue())


def run(script: str, words: Sequence[str]) -> Said:
    """Runs vcdkit-SCRIPT in this process; raises Refused if it refuses a comparison."""
    said = said_by(script, words)
    if said.status == 2 and re.search(NEVER, said.message):
        raise Refused(said.message)
    return said


def said_by(script: str, words: Sequence[str]) -> Said:
    """Runs vcdkit-SCRIPT in this process."""
    main = module_of("vcdkit.commands." + script.replace("-", "_")).main
    streams = _Stream(), _Stream()
    saved = sys.stdout, sys.stderr, sys.argv
    sys.stdout, sys.stderr = streams
    sys.argv = [os.path.join(os.path.dirname(PYTHON), "extras", "vcdkit-" + script)]
    try:
        status = main(list(words))
    except SystemExit as end:
        status = end.code
    finally:
        sys.stdout, sys.stderr, sys.argv = saved
    return Said(int(status or 0), streams[0].whole(),
                streams[1].whole().decode("utf-8", "surrogateescape"))


Differ = Callable[[str, Any, Any, Any], None]
WHOLE: Dict[Tuple[str, str], int] = {}  # as the package has the sizes of AT_ONCE


class Asker:
    """A dump in a file, and what a question about it needs."""

    def __init__(self, seed: int, text: bytes, clocks: Sequence[str], path: str, differ: Differ,
                 other: bytes = b""):
        self.seed, self.text, self.path, self.differ = seed, text, path, differ
        self.other = other
        self.dump = read(text)
        self.random = random.Random("a question %d" % seed)
        self.conditions = Conditions(self.dump, self.random)
        self._clocks, self._bits = clocks, set()  # type: Sequence[str], Set[str]
        self.write(path, text)

    def reset(self, kind: str) -> None:
        """Begins a question of a kind, whose choices depend only on the seed and the kind."""
        self.random.seed("%d %s" % (self.seed, kind))
        self.conditions.reset()
        COMPARED.clear()
        is_less = self.happens(.3) and kind != "nested"  # that has long lines
        for name, size, smaller in AT_ONCE:
            module = module_of("vcdkit." + name)
            whole = WHOLE.setdefault((name, size), getattr(module, size))
            setattr(module, size, self.random.choice(smaller) if is_less else whole)

    @staticmethod
    def write(path: str, text: bytes) -> str:
        """Writes a file, and returns its path."""
        with open(path, "wb") as file:
            file.write(text)
        return path

    def same(self, kind: str, words: Any, got: Any, wanted: Any) -> bool:
        """Keeps a difference if there is one; returns whether there is none."""
        if got != wanted:
            self.differ(kind, words, got, wanted)
        return bool(got == wanted)

    def happens(self, share: float) -> bool:
        """Whether something happens that does in this share of all cases."""
        return self.random.random() < share

    def maybe(self, share: float, *words: str) -> List[str]:
        """Returns the words in this share of all cases."""
        return list(words) if self.happens(share) else []

    def other_text(self) -> bytes:
        """Returns another dump, to be merged with this one: now and then this one again."""
        return self.text if self.happens(.2) else self.other or Made(self.seed + 700000).text

    def is_settled(self) -> bool:
        """Whether the outcome of a comparison that was made is always the same: it may be refused.
        """
        its, looks = self.dump.of_code.values(), []  # type: Any, List[Look]
        for _ in range(200):
            digits = self.random.choice(["0", "1", "01", "01", "01", "01x", "01xz"])
            values: Any = {one.code: Real("%r" % self.random.gauss(0, 9)) if one.is_real else
                           "".join(self.random.choices(digits, k=one.size)) for one in its}
            looks.append(Look(self.tick(), values, set(), looks[-1] if looks else None))
        return any(len({value(look) for look in looks} - {"x"}) < 2 for value in COMPARED)

    # ---- Random parts of a question.

    def tick(self) -> int:
        """Returns a time, most often one of the dump."""
        choice = self.random.choice
        time: int = choice(self.dump.times or [0]) + choice([0, 0, 0, 0, -1, 1, 2, -3, 7])
        return max(0, min(LAST, time))

    def time(self, share: float = .3) -> str:
        """Returns a time, in this share of all cases with a unit."""
        ticks = self.tick()
        if self.dump.scale and self.happens(share):
            unit = self.random.choice(UNITS)
            text = self.dump.time_in(ticks, unit)
            if "." not in text and unit != "fs" and self.happens(.3):
                text += ".%d" % self.random.randint(0, 9)
            if len(text) < 18 and self.dump.ticks(text + unit) <= LAST:
                return text + unit
        return str(ticks)

    def window(self, share: float = .45, after: float = .1) -> Window:
        """Returns a window, of which each end is given in this share of all cases. In another share
        it counts from when a condition begins to hold."""
        if self.happens(after):
            return self._window_after(self.window(share, 0))
        first = self.time() if self.happens(share) else ""
        last = self.time() if self.happens(share) else ""
        begin = self.dump.ticks_up(first) if first else 0
        end = self.dump.ticks_down(last) if last else LAST
        if begin > end:
            first, begin = "", 0
        return Window(["--from", first] * bool(first) + ["--to", last] * bool(last), begin, end,
                      bool(first))

    def _window_after(self, window: Window) -> Window:
        """Returns a window whose times count from when a condition begins to hold."""
        self.need_whole()
        self.conditions.reset()
        found = self.conditions.make(1) if self.dump.times else None
        looks = looks_at_changes(self.dump, self.conditions.codes)
        time = next((look.time for look in looks if found and found.test(look)), None)
        self.conditions.reset()
        if time is None or not found:
            raise Skip
        return Window([*window.words, "--after=" + found.text], min(time + window.begin, LAST),
                      min(time + window.end, LAST), True)

    def is_late(self, window: Window, kind: str, words: Any, said: Said, faulty: int = 1) -> bool:
        """Whether a window begins after the last timestamp, which is a usage error, unless there is
        a fault before it."""
        if window.begin <= self.dump.end:
            return False
        fault = self.dump.fault
        self.same(kind + ", a late window", words, (said.status, said.output, said.about),
                  (faulty if fault else 2, b"", fault or True))
        return True

    def fault(self, window: Window) -> Union[str, bool]:
        """Returns the fault that a question about a window meets; whether there is one."""
        return self.dump.fault_by(window.end) or False

    def has_fault(self, window: Window, kind: str, words: Any, said: Said) -> bool:
        """Whether a window meets a fault, so that a script that needs all of it writes nothing."""
        fault = self.fault(window)
        if fault:
            self.same(kind + ", a fault", words, (said.status, said.output, said.about),
                      (1, b"", fault))
        return bool(fault)

    def need_whole(self) -> None:
        """Skips the question if the dump has a fault."""
        if self.dump.fault:
            raise Skip

    def names(self, most: int = 3) -> List[str]:
        """Returns names of variables and scopes."""
        found = []
        for _ in range(self.random.randint(1, most)):
            of, how = self.random.choice(self.dump.variables), self.random.random()
            is_small = len(self.dump.variables) < 60
            name = bare(of.path) if how > .85 else of.path
            if .65 < how < .8 and of.chain and is_small:
                name = of.scope
            try:
                self.dump.selected([name])
            except KeyError:
                name = of.path
            found.append(name)
        return found

    def derived(self) -> Tuple[str, Variable]:
        """Returns an expression with a name, and the variable that it is; the dump then has its
        values. It has none before one of its variables has one."""
        self.conditions.reset()
        found = self.conditions.make()
        if not found or found.of.is_real or self.conditions.events:
            raise Skip
        for step in self.dump.steps:
            for state in step.before, step.end:
                digits = found.of.own(Look(step.time, state, set()))
                state.pop(" e", None)
                if not self.conditions.codes.isdisjoint(state):
                    state[" e"] = digits
        one = Variable(-1, (), "an_expression", "wire", found.of.width, " e", 0, 0, False, "")
        return "an_expression = " + found.text, one

    def unit(self, share: float = .25) -> Optional[str]:
        """Returns a unit in this share of all cases."""
        if not self.happens(share):
            return None
        return str(self.random.choice([*UNITS, "tick"])) if self.dump.scale else "tick"

    def form(self) -> Tuple[List[str], Optional[str]]:
        """Returns an option for the form of values, and the form."""
        form = self.random.choice(FORMS)
        return [form] if form else [], form

    def bit_clock(self) -> Variable:
        """Returns a bit of a vector as a variable; the dump then has its changes."""
        its = [one for one in self.dump.variables if one.size > 1 and not one.is_real
               and self.dump.is_unique(one)]
        if not its:
            raise Skip
        of = self.random.choice(its)
        at = self.random.randrange(of.size)
        one = of._replace(name="%s[%d]" % (of.name, of.bits[at]), size=1,
                          code=" %d of %s" % (at, of.code))
        if any(one.path in names for names in (
                self.dump.of_path, self.dump.fronts, self.dump.of_bare)):
            raise Skip
        for step in self.dump.steps if one.code not in self._bits else ():
            step.changes = [its for item in step.changes for its in (
                [item, item._replace(code=one.code, value=str(item.value)[at])]
                if item.code == of.code else [item])]
            if of.code in step.known:
                step.known.add(one.code)
            for state in step.before, step.end:
                if of.code in state:
                    state[one.code] = str(state[of.code])[at]
        self._bits.add(one.code)
        return one

    def clock(self) -> Variable:
        """Returns a variable that can be a clock, most often one that is made as one."""
        its = [one for one in self.dump.variables if one.size == 1 and not one.is_event
               and not one.is_real and self.dump.is_unique(one)]
        if not its:
            raise Skip
        busy = [one for one in its if one.code in self._clocks]
        found: Variable = self.random.choice(busy if busy and self.happens(.85) else its)
        return found

    def clocks(self) -> Tuple[List[str], Edges]:
        """Returns options for a clock, which may be a bit of a vector, and its edges."""
        one = self.bit_clock() if self.happens(.15) else self.clock()
        other = one if self.happens(.6) else self.clock()
        rise = ["--rise", self.conditions.name(one)], {(one.code, "0", "1")}
        fall = ["--fall", self.conditions.name(other)], {(other.code, "1", "0")}
        both = rise[0] + fall[0], rise[1] | fall[1]
        found: Tuple[List[str], Edges] = self.random.choice([rise, rise, fall, both])
        return found

    def own_clock(self) -> Tuple[str, Edges]:
        """Returns a clock as a rule or a channel has one of its own behind its name, and its
        edges."""
        one = self.bit_clock() if self.happens(.15) else self.clock()
        is_fall, path = self.happens(.4), self.conditions.name(one)
        if path[:1] in "!":
            raise Skip
        return "@" + "!" * is_fall + path, {(one.code, *("10" if is_fall else "01"))}

    def placed(self, options: Sequence[str], arguments: Sequence[str]) -> List[str]:
        """Returns options before, between and after the other arguments."""
        groups, rest = [], list(options)
        while rest:
            count = 2 if rest[0] in VALUED else 1
            words, rest = rest[:count], rest[count:]
            is_joined = count == 2 and (words[1].startswith("-") or self.happens(.2))
            groups.append(["=".join(words)] if is_joined else words)
        self.random.shuffle(groups)
        if self.happens(.5) or any(word.startswith("-") for word in arguments):
            return [*sum(groups, []), "--", *arguments]
        found = [[word] for word in arguments]
        for group in groups:
            found.insert(self.random.randint(0, len(found)), group)
        return sum(found, [])
