"""Asks vcdkit-diff about a dump and another one."""
import json
import os
import re
import shutil
from math import gcd
from typing import Any, Dict, List, NamedTuple, Optional, Sequence, Set, Tuple
import xml.etree.ElementTree as xml

from asker import Asker, Said, Skip, Window, run
from conditions import Test
from dumps import LAST, Dump, Value, Variable, bare, is_inside, plain
from faulty_dumps import read
from looks import Edges, Look, looks_at_edges
from of_pages import same_page_of_two
from other_dumps import Changed, OtherDump
from shown import all_from_json, from_json, in_json, same, shown

MAX_LINES = 20  # of each kind, without --every
Pair = Tuple[str, Variable, Variable]


class Asked(NamedTuple):
    """What is asked of two dumps."""

    maps: List[Tuple[str, str]]
    names: List[str]
    exceptions: List[str]
    window: Window
    is_common: bool
    every: bool
    tolerance: float
    x_matches: bool
    within: str = ""
    waived: Sequence[str] = ()  # the names in the file of --waive

    def renamed(self, path: str) -> str:
        """Returns a path as --map has it; the longest OLD counts."""
        for old, new in sorted(self.maps, key=lambda one: -len(one[0])):
            if is_inside(path, old):
                return (new + path[len(old):]) if new else path[len(old) + 1:]
        return path

    def are_alike(self, one: Optional[Value], other: Optional[Value]) -> bool:
        """Whether two values do not differ."""
        if self.x_matches and isinstance(one, str) and isinstance(other, str):
            return all(a == b or {a, b} & {"x", "z"} for a, b in zip(one, other))
        return same(one, other, self.tolerance)


class Sides:
    """The variables of both dumps by their names, which are paired."""

    def __init__(self, dumps: Sequence[Dump], asked: Asked):
        self.dumps, self.asked = dumps, asked
        self.of_name: List[Dict[str, List[Variable]]] = [{}, {}]
        self.all_names: List[Set[str]] = [set(), set()]
        for at, dump in enumerate(dumps):
            for one in dump.variables:
                name = asked.renamed(one.path)
                self.all_names[at].add(name)
                self.of_name[at].setdefault(name, []).append(one)
        self.factors = factors_of(*dumps)
        self.window = self._window()
        self.groups = self._groups()
        self._choose()
        self.pairs: List[Pair] = []
        self.sizes: List[str] = []
        self.paired: Set[Tuple[int, int]] = set()  # a dump, and the place of a variable
        for name, other in self.groups:
            if name in self.of_name[0]:
                self._pair(name, other)

    def _window(self) -> Tuple[int, int]:
        """Returns the first and the last common tick that are compared. Ticks are those of A."""
        words, one, factor = self.asked.window.words, self.dumps[0], self.factors[0]
        texts = dict(zip(words[::2], words[1::2]))
        return (-int(-one.ticks(texts.get("--from", "0")) * factor // 1),
                int(one.ticks(texts["--to"]) * factor // 1) if "--to" in texts else LAST * LAST)

    def end(self) -> int:
        """Returns the last common tick that is compared without a clock."""
        begin, end = self.window
        return min(end, *(max(begin, dump.end * factor)
                          for dump, factor in zip(self.dumps, self.factors)))

    def is_long(self, begin: int, end: int) -> bool:
        """Whether a difference from one common tick to another counts."""
        within = self.asked.within
        return not within or end - begin > self.dumps[0].ticks(within) * self.factors[0] // 1

    def windows(self, is_clocked: bool) -> List[Tuple[int, int]]:
        """Returns the window of each dump: if its ends are between two ticks, it is longer, or with
        a clock shorter."""
        begin, end = self.window
        return [(-(-begin // factor), min(LAST, end // factor)) if is_clocked else
                (begin // factor, min(LAST, -(-end // factor))) for factor in self.factors]

    def selected(self, name: str) -> List[Set[str]]:
        """Returns the names that a name selects in each dump. What it selects in one, it also
        selects in the other one, if the two are compared."""
        found = []
        for names in self.all_names:
            its = {one for one in names if is_inside(one, name)}
            ranged = {one for one in names if bare(one) == name}
            found.append(its or (ranged if len(ranged) == 1 else set()))
        both = [pair for pair in self.groups if pair[0] in found[0] or pair[1] in found[1]]
        return [its | {pair[at] for pair in both} for at, its in enumerate(found)]

    def _choose(self) -> None:
        """Leaves only what is compared."""
        names, others = ([self.selected(name) for name in some]
                         for some in (self.asked.names, self.asked.exceptions))
        self.is_known = all(map(all, names)) and all(map(any, others))
        for at in (0, 1):
            self.of_name[at] = {
                name: its for name, its in self.of_name[at].items()
                if not names or any(name in one[at] for one in names)}
        self.idle = ["--except " + name for name, one in zip(self.asked.exceptions, others)
                     if all(one[at].isdisjoint(self.of_name[at]) for at in (0, 1))]
        for at in (0, 1):
            self.of_name[at] = {name: its for name, its in self.of_name[at].items()
                                if not any(name in one[at] for one in others)}
        paths = {one.path for dump in self.dumps for one in dump.variables}
        self.idle += ["--map %s=%s" % one for one in self.asked.maps if not any(
            path != self.asked.renamed(path) and is_inside(path, one[0]) and not any(
                is_inside(path, old) for old, _ in self.asked.maps if len(old) > len(one[0]))
            for path in paths)]

    def waived(self, name: str) -> Set[str]:
        """Returns the names that a line of --waive selects, as A has them."""
        as_a = {other: one for one, other in self.groups}
        mine, its = self.selected(name)
        return mine | {as_a.get(one, one) for one in its}

    def notes(self, left_out: Set[str]) -> List[str]:
        """Returns what is said of each line of --waive, if some names are left out."""
        found = []
        for at, name in enumerate(self.asked.waived, 1):
            its = self.waived(name)
            found.append("%d: %s: leaves out %d of %d signals" % (
                at, name, len(its & left_out), len(its)) if its & left_out else
                "warning: %d: %s: %s" % (at, name, "is not needed" if its else "selects nothing"))
            left_out = left_out - its
        return found

    def _groups(self) -> List[Tuple[str, str]]:
        """Returns the names that belong together: equal ones, and two that differ only by a range
        or escaped names, if each dump has only one of these."""
        one, other = self.of_name
        found = [(name, name) for name in one if name in other]
        rest: List[Dict[str, List[str]]] = [{}, {}]
        for its, mine, theirs in ((rest[0], one, other), (rest[1], other, one)):
            for name in mine:
                if name not in theirs:
                    its.setdefault(plain(name), []).append(name)
        loose = [(rest[0][name][0], rest[1][name][0]) for name in rest[0]
                 if len(rest[0][name]) == len(rest[1].get(name, ())) == 1]
        return found + [pair for pair in loose if len(
            self._ranges(0, pair[0]) | self._ranges(1, pair[1])) < 2]

    def _ranges(self, at: int, name: str) -> Set[Tuple[int, ...]]:
        """Returns the range in a name, else those with which its variables are declared."""
        if name != bare(name):
            return {tuple(map(int, name[len(bare(name)) + 1:-1].split(":")))}
        return {(its.left, its.right) for its in self.of_name[at][name] if its.is_numbered}

    def _pair(self, name: str, written: str) -> None:
        """Pairs the variables of a name, which B writes in its way: those of one range, the first
        with the first; and two that are alone, if one of them has no range."""
        one, other = self.of_name[0][name], self.of_name[1][written]
        ranges = [[its.range for its in side] for side in (one, other)]
        if name != written and name != bare(name):
            ranges[1] = [""] * len(other)
        elif name != written and written != bare(written):
            ranges[1] = [its or written[len(bare(written)):] for its in ranges[1]]
        keys = [[(its, side[:at].count(its)) for at, its in enumerate(side)] for side in ranges]
        found = [(at, keys[1].index(key)) for at, key in enumerate(keys[0]) if key in keys[1]]
        if not found and len(one) == len(other) == 1 and "" in (ranges[0][0], ranges[1][0]):
            found = [(0, 0)]
        for at, place in found:
            mine, its = one[at], other[place]
            self.paired |= {(0, mine.place), (1, its.place)}
            shown_name = self.name_in(0, mine)
            if mine.kind == its.kind:
                self.pairs.append((shown_name, mine, its))
            else:
                self.sizes.append(shown_name)

    def name_in(self, at: int, of: Variable) -> str:
        """Returns what a line calls a variable: as A writes it, and its range tells it from others
        of its path."""
        own = self.asked.renamed(of.path)
        name = {other: one for one, other in self.groups}.get(own, own) if at else own
        its = of.range if name == own or name == bare(name) else ""
        if name == bare(name) and name != own:
            its = its or own[len(bare(own)):]
        return name + its * (len(self.of_name[at][own]) > 1)

    def clocks(self) -> List[Pair]:
        """Returns the pairs of which the name can be that of a clock."""
        def is_clear(name: str) -> bool:
            return all(sum(plain(other) == plain(name) or other.startswith(name + ".")
                           for other in names) == 1 for names in self.all_names)
        return [pair for pair in self.pairs if pair[1].kind == 1 and is_clear(pair[0])
                and pair[1] in self.of_name[0].get(pair[0], ())
                and len(self.of_name[0][pair[0]]) == 1]

    def alone(self) -> List[Tuple[str, str, int]]:
        """Returns what only one dump has: the outermost scope that the other has not, else the
        path; and how many variables it has there. No scope has a backslash."""
        found: Dict[Tuple[str, str], int] = {}
        for at, letter in enumerate("AB"):
            theirs = self.all_names[0] if at else {
                dict((other, one) for one, other in self.groups).get(name, name)
                for name in self.all_names[1]}
            theirs = _fronts(theirs)
            for one in [one for its in self.of_name[at].values() for one in its
                        if (at, one.place) not in self.paired]:
                path = self.name_in(at, one)
                name = next((front for front in sorted(_fronts({path}), key=len)
                             if front not in theirs and "\\" not in front), path)
                found[letter, name] = found.get((letter, name), 0) + 1
        return [(*key, count) for key, count in found.items()]


def _fronts(names: Set[str]) -> Set[str]:
    """Returns the names, and what is before each dot in them: a name selects what is inside it, be
    it a scope or not."""
    return {name[:at] for name in names for at, letter in enumerate(name + ".") if letter == "."}


# ---- What is asked.

def another(of: Asker, changed: Changed) -> Tuple[str, Dump]:
    """Writes another dump, and returns its path and what it has."""
    text = b""
    if of.other and of.happens(.7):
        text = partner(of, changed)
    if not text or read(text).fault:
        text = OtherDump(of.dump, of.random, changed).text
    return of.write(of.path + ".b.vcd", text), Dump(text)


def partner(of: Asker, changed: Changed) -> bytes:
    """Returns another small dump, maybe with a scope around all, as another tool writes ranges, or
    with another name."""
    header, end, body = of.other.partition(b"$enddefinitions")
    if changed.is_bare or of.happens(.1):
        header = re.sub(rb"\[\d+:\d+\]", b"", header)
    if of.happens(.1):
        header = re.sub(rb"(?<= )[cab] \$end", b"d $end", header, count=1)
    names = changed.top.split(".") if changed.top else []
    first = re.search(rb"\$(scope|var)", header)
    at = first.start() if first else 0
    scopes = "".join("$scope module %s $end " % name for name in names).encode()
    return header[:at] + scopes + header[at:] + b"$upscope $end " * len(names) + end + body


def random_changes(of: Asker) -> Changed:
    """Returns what is different in the other dump."""
    dump, variables = of.dump, of.dump.variables
    without = of.random.sample(variables, min(len(variables) - 1, 3)) if of.happens(.12) else []
    single = [one for one in variables if not one.is_real and not one.is_event
              and one not in without and sum(other.code == one.code for other in variables) == 1]
    top = of.random.choice(["TOP", "a.b", "tb"]) if of.happens(.25) else ""
    if any(is_inside(one.path, top) for one in dump.variables):
        top = ""
    return Changed(of.random.choice([1, 1, 3]) if of.happens(.55) else 0, of.happens(.12),
                   of.happens(.12), of.random.choice([-1, 1]) if of.happens(.2) else 0,
                   of.happens(.25), top, without,
                   of.random.choice(single) if single and of.happens(.06) else None,
                   of.happens(.06))


def random_asked(of: Asker, changed: Changed, other: Dump) -> Asked:
    """Returns what is asked, so that names mean the same in both dumps."""
    maps = [(changed.top, "")] if changed.top else []
    if of.happens(.15):
        scope = of.random.choice(of.dump.variables).scope
        if scope and not any(is_inside(one.path, "NEW") for one in of.dump.variables):
            its = changed.top + "." + scope if changed.top else scope
            is_there = any(is_inside(one.path, its) for one in other.variables)
            maps += [(scope, "NEW.s")] + [(its, "NEW.s")] * (is_there and its != scope)
    window = of.window(.3, 0) if of.happens(.3) else Window([], 0, LAST, False)
    asked = Asked(maps, [], [], window, of.happens(.3), of.happens(.5),
                  of.random.choice([0, 0, 0, 1e-9, .1]), of.happens(.2))
    names = [asked.renamed(one.path) for dump in (of.dump, other) for one in dump.variables]
    names += [bare(name) for name in names] + [name.rpartition(".")[0] or name for name in names]
    if of.happens(.3):
        asked = asked._replace(names=of.random.sample(names, min(len(names), 2)))
    waived = [of.random.choice([*names, "nothing"]) for _ in range(of.random.choice([1, 2]))]
    return asked._replace(exceptions=[of.random.choice(names)] if of.happens(.2) else [],
                          waived=waived if of.happens(.2) else [])


# ---- What differs.

class Difference(NamedTuple):
    """The first time at which a pair differs, in ticks of A, and both values, or whether an event
    is triggered."""

    mark: int
    time: int
    name: str
    is_event: bool
    values: Tuple[Any, Any]


def looks_at_times(sides: Sides) -> List[Tuple[Look, Look]]:
    """Returns what both dumps have at each time at which one of them has a change, up to the end of
    the shorter one; times are in common ticks."""
    begin, pairs = sides.window[0], list(zip(sides.dumps, sides.factors))
    times = {begin} | {step.time * factor for dump, factor in pairs for step in dump.steps}
    last = sides.end()
    return [tuple(Look(time, dump.at(time // factor), events_of(dump, time, factor))  # type: ignore
                  for dump, factor in pairs) for time in sorted(times) if begin <= time <= last]


def events_of(dump: Dump, time: int, factor: int) -> Set[str]:
    """Returns the events that are triggered at a time in common ticks."""
    return set() if time % factor else dump.events_at(time // factor)


def differences(sides: Sides, looks: Sequence[Tuple[Look, Look]], factor: int) -> List[Difference]:
    """Returns the first differences of each name, those of one time in the order of their names. If
    they have to be longer than a time, those of events are."""
    found = []
    for name, one, other in sides.pairs:
        last = None
        for mark, (mine, its) in enumerate(looks):
            if one.is_event:
                values: Tuple[Any, Any] = one.code in mine.events, other.code in its.events
                is_alike = values[0] == values[1]
            else:
                values = mine.values.get(one.code), its.values.get(other.code)
                is_alike = sides.asked.are_alike(*values)
            if last and is_alike and sides.is_long(last[1], mine.time):
                break
            last = None if is_alike else last or (Difference(
                mark, mine.time // factor, name, one.is_event, values), mine.time)
            if last and (one.is_event or not sides.asked.within):
                break
        if last and (one.is_event or sides.is_long(last[1], sides.end())):
            found.append(last[0])
    first = {name: min(one.mark for one in found if one.name == name)
             for name in {one.name for one in found}}
    return sorted((one for one in found if one.mark == first[one.name]),
                  key=lambda one: (one.mark, one.name))


def factors_of(one: Dump, other: Dump) -> List[int]:
    """Returns how many common ticks a tick of each dump has."""
    if not one.tick or not other.tick:
        return [1, 1]
    common = gcd(one.tick, other.tick)
    return [one.tick // common, other.tick // common]


def condition_of_both(of: Asker, sides: Sides) -> Optional[Tuple[str, List[Test]]]:
    """Returns a condition that means the same in both dumps, and what tests it in each."""
    of.conditions.reset()
    condition = of.conditions.make()
    alike = {one.code: its.code for _, one, its in sides.pairs
             if (one.left, one.right) == (its.left, its.right)}
    lone = {one.code for one in of.dump.variables if (0, one.place) not in sides.paired}
    codes = of.conditions.codes | of.conditions.events
    if not condition or not codes <= {*alike} - lone or any(
            sides.asked.renamed(one.path) != one.path for one in of.dump.variables):
        return None

    def as_one(look: Look) -> Look:
        """Returns a look at the other dump with the codes of the first."""
        return Look(look.time, {code: look.values[its] for code, its in alike.items()
                                if its in look.values},
                    {code for code, its in alike.items() if its in look.events})

    return condition.text, [condition.test, lambda look: condition.test(as_one(look))]


def kept(looks: List[Look], test: Test) -> List[Look]:
    """Returns the looks at which a condition holds. An event counts at the next one of these."""
    found, events = [], set()  # type: List[Look], Set[str]
    for look in looks:
        events = events | look.events
        if test(look):
            found.append(look._replace(events=events))
            events = set()
    return found


def ask_diff(of: Asker) -> None:
    """Asks what differs between a dump and another one."""
    of.need_whole()
    changed = random_changes(of)
    path, other = another(of, changed)
    asked = random_asked(of, changed, other)
    sides = Sides([of.dump, other], asked)
    factors = sides.factors
    if any(dump.end * factor > LAST for dump, factor in zip(sides.dumps, factors)):
        raise Skip  # there is no such tick of both
    words, form, unit, clock = *of.form(), of.unit(.2), of.happens(.35) and sides.clocks()
    is_json, page, report = of.happens(.4), of.path + ".html", of.path + ".xml"
    counts, looks = [1, 1], looks_at_times(sides)
    if not clock and of.happens(.4):
        begin, end = sorted(look.time for look, _ in of.random.choices(looks, k=2))
        ticks = max(0, (end - begin) // factors[0] + of.random.choice([-1, 0, 0, 1]))
        has_unit = of.dump.scale and of.happens(.5)
        asked = sides.asked = asked._replace(
            within=of.dump.time_in(ticks, "fs") + "fs" if has_unit else str(ticks))
        words.append("--within=" + asked.within)
    if clock:
        name, one, its = of.random.choice(clock)
        edge = of.random.choice([("--rise", "0", "1"), ("--fall", "1", "0")])
        words += [edge[0], name]
        both = [looks_at_edges(dump, {(code, edge[1], edge[2])}, *window) for dump, code, window in
                zip(sides.dumps, (one.code, its.code), sides.windows(True))]
        only = condition_of_both(of, sides) if of.happens(.6) else None
        if only:
            words.append("--if=" + only[0])  # it may begin with -
            both = [kept(each, test) for each, test in zip(both, only[1])]
        looks = [(mine, its) for mine, its in zip(*both)]
        counts = [len(each) for each in both]
    words += [*asked.window.words, *["--common"] * asked.is_common, *["--every"] * asked.every,
              *["--x-matches"] * asked.x_matches, *["--json"] * is_json,
              *(["--real-tolerance", str(asked.tolerance)] if asked.tolerance else []),
              *(["--unit", unit] if unit else []), *of.maybe(.15, "--junit", report),
              *of.maybe(.12, "--html=" + page)]
    for old, new in asked.maps:
        words += ["--map", "%s=%s" % (old, new)]
    for name in asked.exceptions:
        words += ["--except", name]
    if asked.waived:
        words.append("--waive=" + of.write(of.path + ".waived", "".join(
            name + " why\n" for name in asked.waived).encode("utf-8", "surrogateescape")))
    words = of.placed(words, [of.path, path, *asked.names])
    if os.path.exists(page):
        os.unlink(page)
    said = run("diff", words)
    has_unit = unit not in (None, "tick") or any(word[-1] == "s" for word in asked.window.words)
    is_refused = (has_unit and not other.scale or sides.window[0] > min(of.dump.end * factors[0], other.end * factors[1])
                  or counts == [0, 0] and bool(sides.pairs)
                  or asked.is_common and not sides.pairs and not sides.sizes or not sides.is_known)
    if is_refused:
        of.same("diff, refused", words, (said.status, bool(said.message)), (2, True))
        return
    found = differences(sides, looks, 1 if clock else factors[0])
    names = {shown_name: asked.renamed(mine.path) for shown_name, mine, _ in sides.pairs}
    waived = {name for line in asked.waived for name in sides.waived(line)}
    left_out = {names[one.name] for one in found} & waived
    found = [one for one in found if names[one.name] not in waived]
    pairs = [pair for pair in sides.pairs if names[pair[0]] not in waived]
    is_idle = not found and pairs and not any(one.is_event or one.code in look.values
                                              for _, one, _ in pairs for look, _ in looks)
    notes = ["warning: %s: changes nothing" % one for one in sides.idle] + (
        [] if found and not asked.every else sides.notes(left_out))
    notes.append("compared %d signal%s%s (A has %d, B has %d)%s" % (
        len(pairs), "s" * (len(pairs) != 1), ", %d waived" % (len(sides.pairs) - len(pairs)) if len(
            sides.pairs) > len(pairs) else "", len(of.dump.variables), len(other.variables),
        " at %d edge%s (A has %d, B has %d)" % (
            min(counts), "s" * (min(counts) != 1), *counts) if clock else ""))
    same_lines(of, words, said, sides, found, counts if clock else None, (form, unit, is_json),
               bool(pairs and not is_idle), notes)
    if "--junit" in words:
        root = xml.parse(report).getroot()
        of.same("diff, the report", words, int(root.get("failures", "0")), len(
            {line.split(" ")[0] if not is_json else from_json(line)["kind"]
             for line in said.lines} - {"more", "page", "and"}))
    if found and "--html=" + page in words:
        least = min(one.mark for one in found)
        shown_names = {one.name for one in found if asked.every or one.mark == least}
        same_page_of_two(of, words, page, sides.pairs, (of.dump, other), shown_names,
                         asked.are_alike)


def same_lines(of: Asker, words: List[str], said: Said, sides: Sides, found: List[Difference],
               counts: Optional[List[int]], how: Tuple[Optional[str], Optional[str], bool],
               is_compared: bool, notes: List[str]) -> None:
    """Compares the lines of a difference, and the messages, of which the last one has what was
    compared."""
    form, unit, is_json = how
    one, other, asked = *sides.dumps, sides.asked
    wanted: List[List[Any]] = []
    if not asked.is_common:
        scales = ["%d%s" % dump.scale if dump.scale else None for dump in (one, other)]
        wanted += [["timescale", *scales]] * (scales[0] != scales[1])
        wanted += [["alone", *each] for each in sides.alone()]
        is_all = asked.window.words in ([], ["--from", "0"])  # then a dump may lack a timestamp
        lasts = [dump.last if is_all else dump.end_of(*window)
                 for dump, window in zip((one, other), sides.windows(bool(counts)))]
        moments = [min((last or 0) * factor, sides.window[1])
                   for last, factor in zip(lasts, sides.factors)]
        if counts and 0 not in counts:
            wanted += [["edges", *counts]] * (counts[0] != counts[1] and not found)
        elif not counts and moments[0] != moments[1]:
            wanted.append(["ends", *(last if is_json else None if last is None else
                                     dump.time_text(last, unit)
                                     for dump, last in zip((one, other), lasts))])
    if counts and 0 in counts and sides.pairs:  # nothing is compared
        wanted += [["edges", *counts]] * (counts[0] != counts[1])
    wanted += [["size", name] for name in sides.sizes]
    least = min((each.mark for each in found), default=0)
    for each in found:
        if asked.every or each.mark == least:
            time = each.time if is_json else one.time_text(each.time, unit)
            is_alike = not each.is_event and len({shown(value, form) for value in each.values}) < 2
            wanted.append(["differs", time, each.name, *([] if each.is_event else [
                (in_json if is_json else shown)(value, "--binary" if is_alike else form)
                for value in each.values])])
    got = [list(row.values()) for row in all_from_json(said.text)] if is_json else [
        line.split(" ") for line in said.lines]
    got = [row for row in got if row[0] not in ("page", "more") and "more" not in row]
    events = {each.name for each in found if each.is_event}
    got = [row[:2] if row[0] == "size" else row[:3] if row[0] == "differs" and row[2] in events
           else row for row in got]
    if not is_json:
        wanted = [" ".join("-" if cell is None else str(cell) for cell in row).split(" ")
                  for row in wanted]
    key = lambda row: json.dumps(row, default=str)  # noqa: E731
    kinds = [row[0] for row in wanted]
    if not asked.every and any(kinds.count(kind) > MAX_LINES for kind in kinds):
        wanted = [row for row in wanted if row in got]
    is_refused = not is_compared and not wanted
    of.same("diff, the order", words, *([row for row in rows if row[0] == "differs"]
                                        for rows in (got, wanted)))
    if wanted or not (asked.is_common or counts) or is_refused:
        notes.pop()
    messages = said.message.replace(of.path + ".waived:", "").replace("vcdkit-diff: ", "")
    of.same("diff", words, (said.status, sorted(got, key=key),
                            messages.split("\n")[:-1 - is_refused]),
            (2 if is_refused else int(bool(wanted)), sorted(wanted, key=key), notes))


# ---- The windows around the first difference.

def ask_context(of: Asker) -> None:
    """Asks for the parts of both dumps around the first difference."""
    of.need_whole()
    path, other = another(of, Changed(2, end=of.random.choice([0, 0, -1])))
    folder, count = of.path + ".parts", of.random.choice([0, 1, 5, 100, 3000])
    shutil.rmtree(folder, ignore_errors=True)
    unit = of.dump.scale[1] if of.dump.scale and other.scale and of.happens(.5) else ""
    text = of.dump.time_in(count, unit) + unit if unit else str(count)
    words = of.placed(["--context", text, "--into", folder, "--json"], [of.path, path])
    said = run("diff", words)
    times = [one["time"] for one in all_from_json(said.text) if one["kind"] == "differs"]
    if not times:
        of.same("context, no files", words, os.path.exists(folder), False)
        return
    begin, end = max(0, times[0] - count), min(LAST, times[0] + count)
    both = (of.dump, "diff.a.vcd"), (other, "diff.b.vcd")
    # The ticks of the line are those of the first dump, rounded down.
    for dump, name in both if other.scale == of.dump.scale else both[:1]:
        with open(os.path.join(folder, name), "rb") as file:
            part = Dump(file.read())
        codes = {one.code for one in dump.variables if not one.is_event}
        same_rows = [(step.time, [step.end.get(code) for code in sorted(codes)])
                     for step in dump.steps_in(begin, end)]
        of.same("context", [*words, name], (part.times[:1], part.last, [
            (time, [part.at(time).get(code) for code in sorted(codes)]) for time, _ in same_rows]),
            ([begin], dump.end_of(begin, end), same_rows))
