"""Sources: texts of dumps that questions are asked of, with their headers, names and parts."""
import contextlib
import functools
from typing import (BinaryIO, Callable, Dict, Iterable, Iterator, List, Optional, Sequence, Tuple,
                    TypeVar, Union)

from ..errors import (AT_A_TIMESTAMP, DumpFault, NoTimescale, UnknownName, UsageError, VcdkitError)
from ..model.names import full_names, hint, places_of, utf8_names
from ..model.signals import Declaration, Header, Scope, Signal, Signals, words_in
from ..model.times import LAST_TICK, Amount, Time, Timescale, Window, amount_of
from ..model.values import Report
from . import header, program
from .texts import Bytes, File, Headed, Made, Text, narrowed

Names = Union[str, Iterable[str]]
# The path of a clock, the place of its bit from the right, and whether it falls there.
Edge = Tuple[str, int, bool]
Its = TypeVar("Its", bound="Source")


class Source:
    """What can be read of a dump, and of parts of it."""

    def __init__(self, text: Text, options: Tuple[str, ...] = (),
                 heads: Optional[Dict[Text, header.Head]] = None):
        """`options` are those of the program with which it is read. `heads` are the headers that
        were read, of texts without cuts, which have the same header."""
        self.text, self.options, self._heads = text, options, {} if heads is None else heads
        self._last: Tuple[List[str], Dict[int, Signal]] = [], {}  # names, and what they select

    def like(self: Its, text: Text) -> Its:
        """Returns what can be read of another text, with the same options."""
        made = self.__class__.__new__(self.__class__)
        Source.__init__(made, text, self.options, self._heads)
        return made

    def made(self: Its, command: str, words: Sequence[str], of: Tuple[Text, ...] = ()) -> Its:
        """Returns what a command makes of it, or of other texts."""
        return self.like(Made(command, (*self.options, *words), of or (self.text,)))

    @property
    def name(self) -> str:
        """What messages call it."""
        return self.text.name

    def __repr__(self) -> str:
        command = self.text.command if isinstance(self.text, Made) else "merge"
        return "<Dump %s%s>" % ("" if command == "merge" else command + " of ", self.name)

    def unpacker(self) -> Optional[List[str]]:
        """Returns the words of the program that unpacks the file; `None` if it is plain text."""
        return self.text.unpacker() if isinstance(self.text, File) else None

    # Reading.

    @contextlib.contextmanager
    def open(self) -> Iterator[BinaryIO]:
        """Opens the text of the dump, to be read as a binary file."""
        try:
            with program.opened(narrowed(self.text)) as file:
                yield file
        except UnknownName as error:
            if error.of is None:
                raise
            paths = Source(error.of).signals.columns()[0]
            raise UnknownName(error.name, hint(error.name, paths)) from None

    @contextlib.contextmanager
    def body(self) -> Iterator[BinaryIO]:
        """Opens the text of the dump, behind the header."""
        with self.open() as file:
            for line in file:
                if line == header.BODY:
                    break
            yield file

    def blocks(self) -> Iterator[bytes]:
        """Returns the text in pieces."""
        with self.open() as text:
            yield from iter(lambda: text.read(1 << 18), b"")

    def read(self) -> bytes:
        """Returns the text of the dump. Dump(dump.read()) keeps a part for many questions."""
        return b"".join(self.blocks())

    def answer(self, command: str, words: Sequence[str] = ()) -> str:
        """Returns what a command writes of it."""
        return self.made(command, words).read().decode("utf-8", "surrogateescape")

    def check(self) -> Report:
        """Reads the whole dump, and returns its counts. Raises DumpFault if it has a fault."""
        return Report._make(None if number == "-" else int(number)
                            for number in words_in(self.answer("check"))[1::2])

    # The header.

    @property
    def _head(self) -> header.Head:
        """The header, which is read once. That of a part is made of the header of its dump: so no
        fault of a body is in it, and the variables of a part of a faulty dump are known."""
        text = self.whole("cut")
        if text not in self._heads:
            of = text if not isinstance(text, Made) else text._replace(of=tuple(
                Bytes(self.like(one).header_text(), one.name) for one in text.of))
            with self.like(of).made("cut", ["--from", "0", "--to", "0"]).open() as out:
                its = header.Head(header.front(out))
                if its.text:
                    out.close()  # a fault of the body comes after it
            self._heads[text] = its
        return self._heads[text]

    def header_text(self) -> bytes:
        """Returns the text of the header, as vcdkit writes it, to the end of its last line."""
        return self._head.text

    @property
    def signals(self) -> Signals:
        """The variables of the header, in the order of declaration: a sequence. Its columns() are
        lists of the paths, types, sizes and codes."""
        return self._head.signals

    @property
    def header(self) -> Header:
        """The header's date, version and time scale."""
        return self._head.facts

    @property
    def timescale(self) -> Optional[Timescale]:
        """How long a tick is, as str() shows it: `100ps`. `None` if the header does not say."""
        return self.header.timescale

    @property
    def tree(self) -> Scope:
        """The scopes of the header, in a scope without a name: dump.tree.scopes[0].signals, or
        [scope.path for scope in dump.tree.walk()], for example."""
        return self._head.declared[0]

    @property
    def declarations(self) -> List[Declaration]:
        """How each of the signals is declared."""
        return self._head.declared[1]

    # Names.

    def __getitem__(self, name: str) -> Signal:
        """Returns the one signal of a name; UnknownName if there is none, UsageError if several."""
        chosen = self.select(name)
        if len({one.code for one in chosen}) > 1:
            raise UsageError("%s: selects %d signals, where one is asked for: %s, .."
                             % (name, len(chosen), chosen[0].path))
        return chosen[0]

    __iter__ = None  # else Python would look for [0], [1], ..

    def select(self, names: Names) -> List[Signal]:
        """Returns the signals that names select, each once, in their order; or UnknownName."""
        its = self.full(names)
        return list(self.places(its).values()) if its else []

    def has(self, name: str) -> bool:
        """Whether a name selects a signal."""
        return any(places_of(self.full(name), self.signals.columns()[0]).values())

    def full(self, names: Names) -> List[str]:
        """Returns names; one for which a path with a range stands is replaced by that."""
        its = name_list(names)
        full = full_names(its, self.signals.columns()[0], self.signals)
        return [full[name] for name in its]

    def places(self, names: List[str]) -> Dict[int, Signal]:
        """Returns the signals that full names select, by their places; all without names."""
        if not names:
            return dict(enumerate(self.signals))
        last_names, last = self._last
        if names == last_names:
            return last
        chosen: Dict[int, Signal] = {}
        for name, places in places_of(names, self.signals.columns()[0]).items():
            if not places:
                raise UnknownName(name, hint(name, self.signals.columns()[0]))
            chosen.update((place, self.signals[place]) for place in places)
        self._last = names, chosen
        return chosen

    # Times.

    def ticks(self, time: Time, is_up: bool = False) -> int:
        """Returns a time in ticks, rounded down, or up. Raises NoTimescale if the time has a unit
        and the dump has no time scale."""
        ticks = self.span(time, is_up)
        if ticks > LAST_TICK:
            raise UsageError("bad time: %s: ticks are from 0 to 2^64 - 1" % time)
        return ticks

    def span(self, time: Time, is_up: bool = False) -> int:
        """Returns as ticks() how long a time is, which may be longer than any dump."""
        amount = amount_of(time)
        return self._scale_of(amount).ticks(str(amount), is_up)

    def _scale_of(self, amount: Amount) -> Timescale:
        """Returns the time scale; of an amount of ticks any will do."""
        if amount.unit and self.timescale is None:
            raise NoTimescale("%s: no timescale: give times in ticks" % self.name)
        return self.timescale if amount.unit and self.timescale else Timescale(1, "fs")

    def time(self, ticks: int, unit: str = "") -> str:
        """Returns ticks with a unit, such as `115ns`: the largest unit in which they are a whole
        number, or the unit that is given. If there is no time scale, or the unit is `tick`, returns
        only the number."""
        scale = None if unit == "tick" else self.timescale
        return scale.text(ticks, unit) if scale else str(ticks)

    def window(self, time: Time, before: Time, after: Optional[Time] = None) -> Tuple[int, int]:
        """Returns the first and the last tick from `before` before a time to `after` after it, as
        far as there are ticks. That of the time itself, rounded down, is always in the window."""
        amounts = [amount_of(one) for one in (time, before, before if after is None else after)]
        scale = self._scale_of(max(amounts, key=lambda one: bool(one.unit)))
        (at, early, late), tick = (scale.span(str(one)) for one in amounts), scale.femtoseconds
        first, here, last = -(-(at - early) // tick), at // tick, (at + late) // tick
        return max(min(first, here), 0), min(max(last, here), LAST_TICK)

    def window_to_end(self, window: Window) -> Window:
        """Returns a window that ends with the dump if that is earlier; it has its first tick."""
        last = self.within(window).check().last or 0
        return window._replace(stop=max(last, window.begin) + 1)

    # Parts.

    def pick(self: Its, names: Names) -> Its:
        """Returns the dump of some signals, or scopes."""
        chosen = name_list(names)
        if not chosen:
            raise UsageError("pick() needs a name")
        if utf8_names(chosen) != chosen:
            raise UsageError("pick() takes names of UTF-8: name a scope around others")
        return self.made("pick", ["--", *chosen])

    def part(self: Its, names: List[str]) -> Its:
        """Returns a dump that has all that some names select, all without names. It has more if a
        name is not UTF-8."""
        words = utf8_names(self.full(names))
        return self.pick(words) if words else self if isinstance(self.text, Made) else self.cut()

    def cut(self: Its, begin: Time = 0, end: Time = LAST_TICK) -> Its:
        """Returns the dump from one time to another, with the values just before `begin`."""
        return self.made("cut", ["--from", self._word(begin, True), "--to", self._word(end)])

    def within(self: Its, window: Window) -> Its:
        """Returns the dump in a window; the same one if that has all ticks."""
        is_whole = window == (0, LAST_TICK + 1)
        return self if is_whole else self.cut(window.begin, window.last)

    def strobe(self: Its, edges: Sequence[Edge], names: List[str]) -> Its:
        """Returns the dump of what names select, all without names, just before each of some edges:
        its times are the numbers of these, and the time of each is its first change."""
        paths = dict.fromkeys(path for path, *_ in edges)
        # Only words of UTF-8 can be given to a program, and a signal may have the whole word as its
        # path, so a clock may need another name.
        others = set(self.signals.columns()[0]).intersection(
            "%s@%d" % (path, place) for path, place, _ in edges)
        new = {path: "~" * (1 + max(map(len, self.signals.columns()[0]))) + str(at)
               for at, path in enumerate(paths) if utf8_names([path]) != [path]
               or any(one.rpartition("@")[0] == path for one in others)}
        words = [word for path, place, falls in edges for word in (
            "--fall" if falls else "--rise", "%s@%d" % (new.get(path, path), place))]
        its = [one for one in utf8_names(self.full([*names, *paths])) if one not in new] \
            if names else []
        words += ["--", *its, *(new.values() if its else ())]
        text = self.cut().text if new or self.options else self.text
        if not new:
            return self.like(Made("strobe", tuple(words), (text,)))
        front, back = (functools.partial(header.renamed, one) for one in (
            new, dict(zip(new.values(), new))))
        return self.like(Headed(back, Made("strobe", tuple(words), (Headed(front, text),))))

    def _word(self, time: Time, is_up: bool = False) -> str:
        """Returns a time as vcdkit accepts it: one of a unit whose number would be too large, as in
        18446744073709551700fs, is one of ticks."""
        amount = amount_of(time)
        return str(amount if amount.number <= LAST_TICK else self.ticks(time, is_up))

    def around(self: Its, time: Time, before: Time, after: Optional[Time] = None) -> Its:
        """Returns the dump from `before` before a time to `after`, else `before`, after it."""
        return self.cut(*self.window(time, before, after))

    def _parts(self, *commands: str) -> Tuple[List[Made], Text]:
        """Returns what some commands made, the last one first, and the text of which they did."""
        parts, text = [], self.text
        while isinstance(text, Made) and text.command in commands:
            parts.append(text)
            text = text.of[0]
        return parts, text

    def whole(self, *commands: str) -> Text:
        """Returns the text of which some commands made this one."""
        return self._parts(*commands)[1]

    def before(self: Its, time: int) -> Its:
        """Returns the dump of which it is a cut, up to before a time, with the signals that it
        has."""
        parts, text = self._parts("pick", "cut")
        for part in reversed(parts):
            text = part._replace(of=(text,)) if part.command == "pick" else text
        return self.like(text).cut(0, time - 1)

    def begin(self) -> int:
        """Returns the tick with which it begins: 0, unless it is a cut."""
        words = [part.words for part in self._parts("pick", "cut")[0] if part.command == "cut"]
        return max((self.ticks(its[its.index("--from") + 1], True) for its in words), default=0)

    # Faults.

    def is_finished(self, time: int, fault: DumpFault) -> bool:
        """Whether a fault comes after all changes of a time: a later timestamp comes before the
        fault, or the time is a timestamp, and the fault is in the place of the next one."""
        text = self.whole("pick", "cut")  # they leave times out
        while isinstance(text, Headed):
            text = self.like(text.of).whole("pick", "cut")
        # One of the dumps of a merge has the fault; the others may change at that time.
        is_in_place = not isinstance(text, Made) and fault.fault in AT_A_TIMESTAMP
        return is_in_place and not time or self.like(text).goes_beyond(time - is_in_place)

    def is_over(self, fault: Optional[DumpFault]) -> Callable[[int], bool]:
        """Returns whether a time is over where the dump ends, or what is before its fault."""
        last = 0 if fault else self.check().last or 0
        return lambda time: self.is_finished(time, fault) if fault else time <= last

    def goes_beyond(self, time: int) -> bool:
        """Whether there is no fault before the first timestamp after a time."""
        try:  # `cut` ends there
            self.cut(time, time).read()
        except VcdkitError:
            return False
        return True


def merge(*dumps: Its) -> Its:
    """Returns one dump of up to 64: the signals of the first are in the scope in1, and so on. Its
    tick is the shortest of theirs; a dump without a time scale counts as one of 1s."""
    if not dumps:
        raise UsageError("merge() needs a dump")
    for one in dumps:
        if not isinstance(one, Source):
            raise UsageError("merge() takes Dumps, and %r is none: write Dump(..)" % (one,))
    return dumps[0].made("merge", [], tuple(one.text for one in dumps))


def name_list(names: Names) -> List[str]:
    """Returns one name or several as a list."""
    its = [names] if isinstance(names, (str, bytes)) or not isinstance(names, Iterable) else names
    chosen = list(its)
    for name in chosen:
        if not isinstance(name, str):
            raise UsageError("%r is no name: names are texts" % (name,))
    return chosen
