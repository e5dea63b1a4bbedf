"""Where the values of two dumps differ, for vcdkit-diff. They are as vcdkit-compare writes them."""
import collections
import functools
import itertools
import re
from array import array
from math import gcd, isclose, isnan
from operator import itemgetter
from typing import (TYPE_CHECKING, BinaryIO, Callable, Container, Dict, Generator, Iterator, List,
                    NamedTuple, Optional, Sequence, Set, Tuple)

from ..errors import RunFailed, UsageError
from ..model.signals import Signal
from ..model.times import LAST_TICK
from ..model.values import full, real_of
from ..reading import body
from ..reading.comparing import are_alike, lines
from ..reading.header import renamed
from ..reading.source import Edge, Source, merge
from ..reading.strobes import at_clocks
from ..reading.texts import Headed, Text
from .sides import Sides, numbered, pairs_called

if TYPE_CHECKING:
    from .condition import Conditions

# Which differences are due, as vcdkit-compare calls it; the second is the first one of each pair.
FIRST, EACH_PAIR, ALWAYS = "--first", "", "--always"
Same = Callable[[Optional[bytes], Optional[bytes]], bool]


class Difference(NamedTuple):
    """The name and the values of a pair, None if there is none yet, or if an event is not
    triggered; and the time of each dump, in ticks."""

    times: Tuple[int, int]
    name: str
    values: Tuple[Optional[bytes], Optional[bytes]]


def same_within(tolerance: float, x_matches: bool = False) -> Same:
    """Returns whether two values are the same. Real numbers are if they differ by at most the
    tolerance, or the tolerance times the larger one; NaN is NaN. If x matches, digits that are x or
    z in one of them may be anything in the other one."""
    def same(one: Optional[bytes], other: Optional[bytes]) -> bool:
        if x_matches and one and other and not b"r" in one[:1] + other[:1]:
            size = max(len(one), len(other))
            pairs = zip(*(full(text.decode(), size) for text in (one, other)))
            return all({*pair} != {"0", "1"} for pair in pairs)
        if one == other or one is None or other is None or not one[:1] == other[:1] == b"r":
            return one == other
        mine, its = real_of(one), real_of(other)
        if isinstance(mine, str) or isinstance(its, str):  # a text that is no number
            return False
        return isclose(mine, its, rel_tol=tolerance, abs_tol=tolerance) or (
            isnan(mine) and isnan(its))
    return same


class Comparison:
    """The comparison of two dumps by vcdkit-compare: at each time, or at the edges of a clock that
    both have, at which a condition holds. `alone` are the variables that only one of them has,
    `sizes` those that cannot be compared."""

    def __init__(self, sides: Sides, same: Same, extent: str, edges: Sequence[Edge]):
        """The edges are those of a clock in both dumps, with the names that these have here."""
        self._sides, self._same, self._extent, self._edges = sides, same, extent, edges
        self.only: List[Optional["Conditions"]] = [None, None]  # of a clock, for each dump
        spans = [side.scale.femtoseconds if side.scale else 0 for side in sides]
        one, other = (span // gcd(*spans) if all(spans) else 1 for span in spans)
        self.factors = one, other  # by which the ticks of each become those of both
        self.times = array("Q"), array("Q")  # of edges, up to now
        self.window = (0, LAST_TICK)  # without a clock, in ticks of both
        self.within: Optional[int] = None  # differences that last no longer do not count
        self.alone: Tuple[List[str], List[str]] = ([], [])
        self.sizes: List[Tuple[object, ...]] = []
        self._lines: Iterator[List[bytes]] = iter(())  # as vcdkit-compare writes them

    def start(self) -> None:
        """Finds what the headers do not have in common, and how many pairs are compared."""
        places = [side.places for side in self._sides]
        self._lines = iter([[b"compared", b"%d" % min(map(len, places))]])
        if not all(places):
            for names, its, side in zip(self.alone, places, self._sides):
                names += [side.names[at] for at in its]
        elif self._edges or self.factors[0] != self.factors[1] or not are_alike(
                *(side.dump for side in self._sides)):
            self._lines = self._written(places)
        for what, *words in self._lines:
            if what == b"alone":
                is_of_b = words[0] == b"B"
                self.alone[is_of_b].append(self._called(words[1], is_of_b, self.alone[is_of_b]))
            elif what == b"size":
                self.sizes.append((self._called(words[0]), *(
                    int(its) if its.isdigit() else its.decode() for its in words[1:])))
            else:
                self._lines = itertools.chain([[what, *words]], self._lines)
                break
        counts = [len(its) - len(names) - len(self.sizes) for its, names in zip(places, self.alone)]
        self.compared = counts[0]
        if counts[0] != counts[1]:
            raise RunFailed("vcdkit-compare pairs %d signals with %d" % (counts[0], counts[1]))

    def count(self, some: Container[str]) -> int:
        """Returns how many pairs are compared of some names of A."""
        side = self._sides[0]
        others = [*self.alone[0], *(str(its[0]) for its in self.sizes)]
        return sum(side.names[at] in some for at in side.places) - sum(
            side.owns(name)[0] in some for name in others)

    def _called(self, path: bytes, at: int = 0, alone: Optional[List[str]] = None) -> str:
        """Returns the name of a dump's variable in a line; of one that is alone, after others."""
        its = path.decode("utf-8", "surrogateescape").partition(".")[2]
        side, other = self._sides[at], None if alone is None else self._sides[1 - at]
        return side.called(its, other, alone or ())

    def differences(self) -> Generator[List[Difference], None, None]:
        """Returns the differences of each time together, unless ALWAYS only the first of a name."""
        done: Set[str] = set()
        every = self._differing()
        if self.within is not None:
            every = self._lasting(sorted({one.name for one in every}), self.within)
        for _, its in itertools.groupby(every, itemgetter(0)):
            found = [one for one in its if one.name not in done]
            if self._extent != ALWAYS:
                done.update(one.name for one in found)
            if found:
                yield found

    def _differing(self) -> Iterator[Difference]:
        """Returns the differences of all pairs. Fails unless all were compared."""
        count = 0
        for what, *words in self._lines:
            if what == b"compared":
                count = int(words[0])
                continue
            at, path = int(words[0]), words[1]
            one, other = (None if value == b"-" else value for value in words[2:])
            if self._edges and at > min(map(len, self.times)):
                continue  # there is no such edge in one of them
            if not self._same(one, other):
                first, second = (its[at - 1] for its in self.times) if self._edges else (
                    at // factor for factor in self.factors)
                yield Difference((first, second), self._called(path), (one, other))
        if count != self.compared:
            raise RunFailed("vcdkit-compare has compared %d of %d pairs" % (count, self.compared))

    def _lasting(self, names: List[str], within: int) -> Iterator[Difference]:
        """Returns of some pairs the differences that last longer than so many ticks of both."""
        from .lasting import Pair, longer
        pairs = [(name, places, its[0]) for name in names
                 for places, its in pairs_called(self._sides, name)]
        if not pairs:
            return
        text, begin, end = self._merged([*zip(*(places for _, places, _ in pairs))])
        merged = self._sides[0].dump.like(text)
        paths, _, _, codes = merged.signals.columns()
        code_of = dict(zip(numbered(paths), codes))
        keys = [side.keys() for side in self._sides]
        found = [Pair(name, signal, [code_of[key[at]].encode() for key, at in zip(keys, places)])
                 for name, places, signal in pairs]
        steps = body.steps(merged.cut(begin, end), {code for one in found for code in one.codes})
        for time, name, values in longer(found, steps, self._same, within, end):
            first, second = (time // factor for factor in self.factors)
            yield Difference((first, second), name, values)

    def _written(self, places: Sequence[Sequence[int]]) -> Iterator[List[bytes]]:
        """Returns what vcdkit-compare writes. If values that are not equal may be the same, it
        looks at each time at which they are not equal."""
        one, other = self._sides
        is_loose = self._same(b"x", b"1") or any(
            Signal("", name, 0, "").is_real for name in {one.types[at] for at in places[0]})
        extent = self._extent if self.within is None else EACH_PAIR
        words = [ALWAYS if is_loose else extent] * bool(is_loose or extent)
        names = {**one.moved(), **other.moved()}
        if self._edges:
            own = "~" * (1 + max(map(len, one.paths + other.paths)))  # no path has it
            text = merge(self._strobe(0, own), self._strobe(1, own)).text
            words += ["--except", "in1." + own]
        else:
            text, begin, end = self._merged(places)
            words += ["--from", str(begin), "--to", str(end)]
        return lines(words, Headed(functools.partial(renamed, names), text) if names else text)

    def _merged(self, places: Sequence[Sequence[int]]) -> Tuple[Text, int, int]:
        """Returns a merge of both, and the window in which they are compared."""
        dumps = []
        for at, (side, factor) in enumerate(zip(self._sides, self.factors)):
            # To pick most signals takes longer than to merge all.
            dumps.append(side.picked([side.paths[place] for place in places[at]])
                         if 2 * len(places[at]) < len(side.paths) else side.dump)
            # A merge takes a dump without a time scale for one of seconds.
            if side.scale and not self._sides[1 - at].scale:
                dumps[at] = dumps[at].like(Headed(lambda text: re.sub(
                    rb"(?m)^\$timescale\n.*\n\$end\n", b"", text, count=1), dumps[at].cut().text))
            if (side.report.last or 0) * factor > LAST_TICK:
                raise UsageError("%s: its last time is 2^64 ticks or more in the time scale of the "
                                 "other dump: give --to" % side.dump.name)
        return merge(*dumps).text, self.window[0], self._end()

    def _end(self) -> int:
        """Returns the last time at which they are compared without a clock, in ticks of both."""
        return min(self.window[1], *((side.report.last or 0) * factor for side, factor in zip(
            self._sides, self.factors)))

    def has_value(self, waived: Container[str]) -> bool:
        """Whether a pair has a value where it is compared, or is an event, if nothing differs. Some
        names do not count."""
        side = self._sides[0]
        lines = {at: name + side.behind(at) * (len(side.of_name[name]) > 1)
                 for at in side.places for name in [side.names[at]] if name not in waived}
        alone, every = (collections.Counter(its) for its in (self.alone[0], lines.values()))
        places = [at for at, line in lines.items() if alone[line] < every[line]]
        paths = [side.paths[at] for at in places]
        codes = {side.dump.signals.columns()[3][at].encode() for at in places}
        if any(side.types[at] == "event" for at in places):
            return True
        if not self._edges:
            begin, end = (time // self.factors[0] for time in (self.window[0], self._end()))
            return any(body.steps(side.picked(paths).cut(begin, end), codes))
        last, clock = self.times[0][min(map(len, self.times)) - 1], self._edges[0]
        path = side.paths[side.of_name[clock[0]][0]]
        return any(changes for time, changes, _ in itertools.takewhile(
            lambda its: its[0] <= last, at_clocks(
                side.dump, side.naming([path, *paths]), codes, {(path, *clock[1:]): 1})))

    def _strobe(self, at: int, own: str) -> Source:
        """Returns a dump whose times are the numbers of the edges of one of both, with the times of
        these in a scope of their own."""
        side, edge, only = self._sides[at], self._edges[at], self.only[at]
        names = [edge[0], *(only.paths if only else ())]
        paths = [side.paths[one] for one in [side.of_name[its][0] for its in names] + side.places]
        names, edges = side.naming(paths), {(paths[0], *edge[1:]): 1}
        codes = side.dump.signals.columns()[3]
        mark = b" %b\n" % (b"!" * (1 + max(map(len, codes))))  # the end of a line of a time
        blocks = body.blocks
        if only:
            its = {codes[one].encode() for one in side.places}
            looks = at_clocks(side.dump, names, {*its, *only.over}, edges)
            blocks = functools.partial(_holding, only, edge, looks, its, mark)
        found = side.dump.strobe([*edges], names)
        return found.like(Headed(
            lambda text: text.replace(b" strobe ", b" %b " % own.encode(), 1), found.text,
            functools.partial(_timed, blocks, self.times[at], mark)))


def _timed(blocks: Callable[[BinaryIO], Iterator[bytes]], times: "array[int]", mark: bytes,
           file: BinaryIO) -> Iterator[bytes]:
    """Returns the body of a strobe in blocks, and keeps the times of its edges."""
    for block in blocks(file):
        times.extend(int(text[text.rindex(b"b") + 1:], 2) for text in block.split(mark)[:-1])
        yield block


def _holding(only: "Conditions", edge: Edge, looks: Iterator[Tuple[int, body.Changes, int]],
             codes: Set[bytes], mark: bytes, _: BinaryIO) -> Iterator[bytes]:
    """Returns the body of a strobe that has only the edges at which a condition holds."""
    number, found = 0, {}  # type: int, Dict[bytes, bytes]
    holds = only.compiled()
    only.look_back({edge: 1})
    for time, changes, _bits in looks:
        found.update(changes)
        only.take(changes, time)
        if holds():
            number += 1
            yield b"#%d\nb%b%b" % (number, bin(time)[2:].encode(), mark) + b"".join(
                b"%b%b %b\n" % (b"b" * (value[:1] != b"r"), value, code)
                for code, value in found.items() if code in codes)
            found.clear()
        only.end()
