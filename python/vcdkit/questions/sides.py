"""Two dumps side by side, for vcdkit-diff: what their variables are called, and which are asked
for. Which of them belong together, vcdkit-compare says: by their names and ranges."""
import functools
import itertools
from typing import Any, Dict, Iterable, Iterator, List, Optional, Sequence, Set, Tuple

from ..errors import UnknownName, UsageError
from ..model.names import (bare, field_of, fronts, full_names, hint, names_for, places_of, plain,
                           range_in)
from ..model.signals import Signal
from ..model.values import Report
from ..reading import header
from ..reading.comparing import header_of
from ..reading.source import Edge, Source
from ..reading.texts import Headed, Made, Text
from .picked import MAX_NAMES
from .rows import edges_of

Map = Tuple[str, str]  # the path of a scope or a signal, and what it becomes


class Side:
    """One of the dumps, and its scope in the merge of both, which has its variables in the same
    order, with other codes. `names` are their paths, of which maps replace the front, as A writes
    them; `mapped` has the maps that fit, `changed` those of them that change a name, and `places`
    those of the variables that are compared."""

    def __init__(self, dump: Source, report: Report, scope: str, columns: Sequence[List[Any]]):
        self.dump, self.report, self._scope = dump, report, scope
        self.scale = dump.timescale
        paths, self.types, _, self.codes = columns
        self.paths = [path[len(scope) + 1:] for path in paths]
        self.mapped: Set[str] = set()
        self.changed: Set[str] = set()

    def spell(self, maps: Sequence[Sequence[Map]]) -> None:
        """Gives its variables names, which maps make of the paths, some after the others."""
        # Those that are no front of a path are for what has a range too.
        no_front = {front for its in maps for front, _ in its if not any(
            (path + ".").startswith(front + ".") for path in self.paths)}
        self.spelled = [self._mapped(path, maps, no_front) for path in self.paths
                        ] if maps else self.paths

    def _mapped(self, name: str, maps: Sequence[Sequence[Map]], no_front: Set[str]) -> str:
        for some in maps:
            its = [one for one in some if one[0] == name or name.startswith(one[0] + ".")
                   or one[0] == bare(name) and one[0] in no_front]
            self.mapped.update(front for front, _ in its)
            for front, new in its[:1]:
                rest, old = name[len(front):], name
                name = new + rest if new else rest[1:] if rest[:1] == "." else name
                self.changed.update([front] * (name != old))
        return name

    def write_as(self, names: Dict[str, str]) -> None:
        """Lets names be written as the other dump writes them."""
        self.names = [names.get(name, name) for name in self.spelled] if names else self.spelled
        self.of_name: Dict[str, List[int]] = {}  # the places of each name
        for at, name in enumerate(self.names):
            self.of_name.setdefault(name, []).append(at)
        self.choose({*self.of_name})

    def choose(self, names: Set[str]) -> None:
        """Lets only variables of some names be compared."""
        self.chosen = names
        self.places = [at for at, name in enumerate(self.names) if name in names]

    def moved(self) -> Dict[str, str]:
        """Returns the variables that get other names in the merge, and these: what is not compared
        is in a scope of its own."""
        return {"%s.%s" % (self._scope, path): "%s.%s" % (
            self._scope if name in self.chosen else "other", name)
            for path, name in zip(self.paths, self.names)
            if path != name or name not in self.chosen}

    @functools.cached_property
    def named(self) -> Source:
        """The dump with these names."""
        names = {path: name for path, name in zip(self.paths, self.names) if path != name}
        whole = self.dump.like(self.dump.whole("cut"))
        text: Text = Headed(functools.partial(header.renamed, names), whole.cut().text)
        if isinstance(self.dump.text, Made):
            text = self.dump.text._replace(of=(text,))
        return self.dump.like(text) if names else self.dump

    def naming(self, paths: Sequence[str]) -> List[str]:
        """Returns names that select these paths; they may be none, which means all."""
        is_all = len({*paths}) == len({*self.paths})
        names = [] if is_all else names_for(paths, self.paths)
        return names if sum(map(len, names)) <= MAX_NAMES else []

    def picked(self, paths: Sequence[str]) -> Source:
        """Returns a dump that has these paths; it may have others if not all names are UTF-8, or if
        a command line has no room for them."""
        names = self.naming(paths)
        return self.dump.part(names) if names else self.dump

    def selected(self, asked: Sequence[str]) -> Dict[str, Set[str]]:
        """Returns of each name that is asked for the names of the variables that it selects."""
        full = full_names(asked, self.spelled, frozenset(self.spelled)) if asked else {}
        places = places_of(full.values(), self.spelled) if asked else {}
        return {name: {self.names[at] for at in places[path]} for name, path in full.items()}

    def owns(self, line: str) -> List[str]:
        """Returns the names that are a line or its front, the longest first."""
        return [line[:end] for end in range(len(line), 0, -1) if line[:end] in self.chosen]

    def called(self, path: str, other: Optional["Side"] = None, names: Sequence[str] = ()) -> str:
        """Returns what a line calls a variable that vcdkit-compare calls by a path: with its range
        if that tells it from others. If the other one lacks it, the path always has the range, and
        may be the name of another one; `names` are those of the lines before."""
        own, *near = self.owns(path) or [path]
        if other and own == path and near and names.count(path) >= len(self.of_name[path]) - len(
                other.of_name.get(path, ())) and (
                    path[len(near[0]):] in map(self.behind, self.of_name[near[0]])):
            own = near[0]
        return own if len(self.of_name.get(own, ())) == 1 else path

    def behind(self, at: int) -> str:
        """Returns what a variable has behind its name, as header.renamed() writes it."""
        old, new, its = self.paths[at], self.names[at], self.dump.declarations[at].behind
        return its if old == new else "" if range_in(new) else its or range_in(old)

    def ticks_of_both(self, time: str, factor: int) -> int:
        """Returns how many ticks of both a time is, of which so many are a tick of this dump."""
        return (self.scale.span(time) * factor // self.scale.femtoseconds if self.scale
                else self.dump.ticks(time))

    def keys(self) -> List[Tuple[str, int]]:
        """Returns the paths of its variables in the merge, as numbered() does."""
        return numbered("%s.%s" % (self._scope, path) for path in self.paths)

    def edge(self, rise: Optional[str], fall: Optional[str]) -> Edge:
        """Returns the edge of a clock that a name selects."""
        try:
            return edges_of(self.named, rise, fall)[0]
        except UnknownName:
            name = rise or fall or ""
            raise UnknownName("%s: %s" % (self.dump.name, name), hint(name, self.names)) from None

    def alone(self, names: Sequence[str], other: "Side") -> List[Tuple[str, int]]:
        """Returns what the other one does not have, of the variables that it lacks: their names, or
        the outermost scopes around them of which it has nothing; and how many are there."""
        has = {one for name in other.names for one in fronts(name)} if names else set()
        count: Dict[str, int] = {}
        for path in names:
            name = [path, *(one for one in fronts(path) if one not in has and "\\" not in one)][-1]
            count[name] = count.get(name, 0) + 1
        return list(count.items())


Sides = Tuple[Side, Side]
Pair = Tuple[int, int]  # the places of two variables


def pairs_called(sides: Sides, line: str) -> List[Tuple[Pair, Tuple[Signal, Signal]]]:
    """Returns the pairs of variables that are compared and that a line calls so: those that have
    the same behind their names, if there are several."""
    one, other = sides
    found: List[Pair] = []
    for own in one.owns(line):
        ours, theirs = one.of_name[own], other.of_name.get(own, [])
        if len(ours) + len(theirs) > 2:
            behind = line[len(own):] if len(ours) > 1 else one.behind(ours[0])
            ours = [at for at in ours if one.behind(at) == behind]
            theirs = [at for at in theirs if other.behind(at) == behind]
        found += zip(ours, theirs) if own == line or len(one.of_name[own]) > 1 else []
    pairs = [(places, (one.dump.signals[places[0]], other.dump.signals[places[1]]))
             for places in sorted(found)]
    return [(places, its) for places, its in pairs if len({
        of.type if of.type == "event" else "real" if of.is_real else of.size for of in its}) == 1]


def numbered(paths: Iterable[str]) -> List[Tuple[str, int]]:
    """Returns paths, each with how many of the same one are before it."""
    counts: Dict[str, Iterator[int]] = {}
    return [(path, next(counts.setdefault(path, itertools.count()))) for path in paths]


def sides_of(dumps: Sequence[Source], maps: Sequence[Map], names: Sequence[str],
             exceptions: Sequence[str]) -> Tuple[Sides, List[str]]:
    """Reads both dumps, at the same time, and chooses the variables that names select, as choose().
    Returns also the options that change nothing. Fails if both lack what a map or an exception
    names."""
    from concurrent.futures import ThreadPoolExecutor  # the import takes time
    with ThreadPoolExecutor() as pool:
        reports = [*pool.map(Source.check, dumps)]
    columns: Sequence[List[Any]] = header.Head(header_of(dumps)).signals.columns()
    count = sum(path.startswith("in1.") for path in columns[0])
    one = Side(dumps[0], reports[0], "in1", [its[:count] for its in columns])
    other = Side(dumps[1], reports[1], "in2", [its[count:] for its in columns])
    # One of several maps, of what no dump has, takes what the others have made.
    known = {name for path in [*one.paths, *other.paths] * (len(maps) > 1)
             for name in (bare(path), *fronts(path))}
    for side in one, other:
        side.spell([[its for its in maps if (its[0] in known) == is_known]
                    for is_known in (True, False)] if maps else [])
    one.write_as({})
    other.write_as(_respelled(one, other))
    lacking, idle = choose((one, other), names, exceptions)
    lacking += [front for front, _ in maps if front not in one.mapped | other.mapped]
    idle += ["--map " + "=".join(its) for its in maps if its[0] not in one.changed | other.changed]
    for name in lacking:
        raise UsageError("neither dump has %s%s" % (name, hint(name, [*dict.fromkeys(
            [*one.paths, *other.paths, *one.spelled, *other.spelled])])))
    return (one, other), idle


def _respelled(one: Side, other: Side) -> Dict[str, str]:
    """Returns the names of B that A writes in another way, and these: they differ only in whether
    the range, which is the same, is in the name, or in how a path with escaped names is written."""
    sides = ((one, {*one.spelled}.difference(other.spelled)),
             (other, {*other.spelled}.difference(one.spelled)))
    loose: Dict[str, Tuple[List[str], List[str]]] = {}
    for at, (_, names) in enumerate(sides):
        for name in names:
            loose.setdefault(plain(name), ([], []))[at].append(name)
    alike = {theirs[0]: ours[0] for ours, theirs in loose.values() if len(ours) == len(theirs) == 1}
    names = {*alike, *alike.values()}
    ranges: Dict[str, Set[Tuple[int, ...]]] = {}
    for side, _ in sides if alike else ():
        for name, its in zip(side.spelled, side.dump.declarations):
            if name in names:
                ranges.setdefault(plain(name), set()).add(field_of(range_in(name)) or its.declared)
    return {theirs: ours for theirs, ours in alike.items() if len(ranges[plain(ours)] - {()}) < 2}


def choose(sides: Sides, names: Sequence[str], exceptions: Sequence[str]
           ) -> Tuple[List[str], List[str]]:
    """Takes the variables that names select, all without names, but for the exceptions. What a name
    selects in one dump, it selects in the other one too. Fails if a dump lacks a name, and returns
    the exceptions that both lack, and the options of those that leave nothing out."""
    found = [side.selected([*names, *exceptions]) for side in sides]
    both = {name: its | found[1][name] for name, its in found[0].items()}
    for side in sides:
        for name in names:
            if not both[name] & side.of_name.keys():
                raise UnknownName("%s: %s" % (side.dump.name, name), hint(name, side.spelled))
    chosen: Set[str] = set()
    for side in sides if both else ():
        some = side.chosen.intersection(
            set().union(*map(both.__getitem__, names)) if names else side.chosen)
        chosen |= some
        side.choose(some.difference(*map(both.__getitem__, exceptions)))
    return ([name for name in exceptions if not both[name]],
            ["--except " + name for name in exceptions if chosen.isdisjoint(both[name])])
