"""Asks the Python package, about a dump and its parts."""
import pickle
import re
from fractions import Fraction
from typing import Any, Callable, Dict, Iterator, List, NamedTuple, Optional, Tuple, Union

from asker import Asker, Skip
from dumps import FEMTOSECONDS, LAST, Dump, Value, Variable, is_inside
from faulty_dumps import read
from looks import Look, looks_at_changes, looks_at_edges, rows_at_changes, starts, waits
from of_conditions import condition, span_of
from of_pages import plain
from of_values import with_values
from shown import cell, integer, is_known, same, shown
from vcdkit import Dump as Package
from vcdkit import DumpFault
from vcdkit import Value as Digits
from vcdkit import merge

try:
    import numpy
except ImportError:
    numpy = None  # type: ignore[assignment]


class Part(NamedTuple):
    """A part of a dump in the package, and its first and last tick; a part of a window has the
    state before it."""

    dump: Any
    begin: int
    end: int
    is_window: bool


def part_of(of: Asker) -> Part:
    """Returns the dump or a window of it."""
    source: Any = of.path if of.happens(.6) else of.text
    whole, how = Package(source), of.random.random()
    if how < .5:
        return Part(whole, 0, LAST, False)
    if how < .8:
        begin = of.tick()
        end = min(LAST, begin + of.random.choice([0, 1, 5, 20, 1000, 10**6, 2**40]))
        return Part(whole.cut(begin, end), begin, end, True)
    time = of.tick()
    before, after = (of.random.choice(["0", "1", "7", "100", *["0.5", "4.9"] * bool(of.dump.scale)])
                     for _ in range(2))
    ends = max(0, min(time, -int((Fraction(before) - time) // 1))), min(
        LAST, int((time + Fraction(after)) // 1))
    asked = (time, span_text(of, before), None if before == after else span_text(of, after))
    of.same("package, window", asked, whole.window(*asked), ends)
    return Part(whole.around(*asked), *ends, True)


def span_text(of: Asker, ticks: str) -> Union[int, str]:
    """Returns a number of ticks as the package takes it: one that is not whole has a unit."""
    if "." not in ticks:
        return int(ticks)
    return "%dfs" % int(Fraction(ticks) * (of.dump.tick or 0))


def same_answer(of: Asker, kind: str, what: Any, ask: Callable[[], Any], wanted: Any,
                fault: str) -> None:
    """Compares an answer of the package, as far as it goes, and the fault with which it ends. What
    is no iterator has no answer before a fault."""
    got: Any = []
    try:
        found = ask()
        if not isinstance(found, Iterator):
            got = found
        else:
            for one in found:
                got.append(one)
    except DumpFault as error:
        of.same(kind, what, (got, "%d: %s" % (error.line, error.fault)), (wanted, fault))
        return
    of.same(kind, what, (got, ""), (wanted, fault))


def fault_by(of: Asker, part: Part, time: int) -> str:
    """Returns the fault that values up to a time of a part meet. A window has no timestamps without
    a change, so more of it may be read: then it is open whether there is a fault."""
    fault = of.dump.fault_by(min(time, part.end))
    if part.is_window and fault != of.dump.fault_by(part.end):
        raise Skip
    return fault


def plain_cell(value: Any) -> Any:
    """Returns a value so that it can be compared: a Value as its digits."""
    return str(value) if isinstance(value, Digits) else plain(value)


def wanted_cell(value: Optional[Value]) -> Any:
    """Returns what a value is in the package, so that it can be compared."""
    return plain(cell(value))


def variable_of(of: Asker) -> Variable:
    """Returns a variable with a path of its own."""
    its = [one for one in of.dump.variables if of.dump.is_unique(one)]
    if not its:
        raise Skip
    return of.conditions.busiest(its)


# ---- Values.

def ask_value(of: Asker) -> None:
    """Asks for the value of a signal at a time, and what it is as a number."""
    part, one = part_of(of), variable_of(of)
    time, name = max(part.begin, of.tick()), of.conditions.name(one)
    value = None if one.is_event else of.dump.at(min(time, part.end)).get(one.code)
    fault = fault_by(of, part, time)
    got: Any = [] if fault else part.dump.value(name, time)
    same_answer(of, "package, value", (name, time, part[1:]), lambda: plain_cell(
        part.dump.value(name, time)), [] if fault else wanted_cell(value), fault)
    if not isinstance(got, Digits) or not isinstance(value, str):
        return
    whole = integer(value) if is_known(value) else 0
    if is_known(value):
        of.same("package, a number", value, (
            int(got), got == whole, got != whole, got > whole - 1, got < whole, got <= whole,
            got >= whole, got.signed(), got.hex(), "%s" % format(got, "x"), bool(got),
            got.is_known), (whole, True, False, True, False, True, True, integer(value, True),
                            shown(value, "--hex"), "%x" % whole, bool(whole), True))
    else:
        of.same("package, an unknown number", value, (
            got == 0, got != 0, got < 10**50, got > -1, got.hex(), bool(got), got.is_known),
            (False, True, False, False, shown(value, "--hex"), "1" in value, False))


def ask_sample(of: Asker) -> None:
    """Asks for the values of all signals at times."""
    part = part_of(of)
    times = [max(part.begin, of.tick()) for _ in range(3)]
    names = of.names() if of.happens(.5) else []
    its = of.dump.selected(names) if names else of.dump.variables
    its = [one for one in of.dump.variables if one in its and not one.is_event]
    fault = fault_by(of, part, max(times))
    wanted = {time: {of.dump.key(one): wanted_cell(of.dump.at(min(time, part.end)).get(one.code))
                     for one in its} for time in times}
    same_answer(of, "package, sample", (times, names, part[1:]), lambda: {
        time: {key: plain_cell(value) for key, value in found.items()}
        for time, found in part.dump.sample(times, names).items()}, [] if fault else wanted, fault)


def changes_of(of: Asker, part: Part, one: Variable) -> List[Tuple[int, Value]]:
    """Returns the values that a part gives a code; it begins with the last one before it."""
    if of.dump.fault and part.begin > of.dump.end:
        return []
    first = of.dump.at(part.begin - 1).get(one.code) if part.begin else None
    early: List[Tuple[int, Value]] = [] if first is None else [(part.begin, first)]
    return early + [
        (item.time, "1" if one.is_event else item.value) for item in of.dump.items
        if item.code == one.code and part.begin <= item.time <= part.end
        and not (one.is_event and item.section)]


def ask_changes(of: Asker) -> None:
    """Asks for all values of a signal, and how often it changes."""
    part, one = part_of(of), variable_of(of)
    wanted = changes_of(of, part, one)
    fault = of.dump.fault_by(part.end)
    same_answer(of, "package, changes", (one.path, part[1:]), lambda: (
        (time, plain_cell(value)) for time, value in part.dump.changes(one.path)),
        [(time, wanted_cell(value)) for time, value in wanted], fault)
    pairs = [(before, after) for (_, before), (_, after) in zip(wanted, wanted[1:])]
    ends = [before[-1] + after[-1] for before, after in pairs
            if isinstance(before, str) and isinstance(after, str)]
    counts = (len(wanted), 0, 0) if one.is_event else (
        sum(before != after for before, after in pairs), ends.count("01"), ends.count("10"))
    more = [variable_of(of).path for _ in range(2)] if of.happens(.3) else []
    same_answer(of, "package, edges", (one.path, more, part[1:]), lambda: tuple(
        part.dump.edges([one.path, *more])[one.path]), [] if fault else counts, fault)


def ask_arrays(of: Asker) -> None:
    """Asks for the values of a signal as arrays."""
    part, one = part_of(of), variable_of(of)
    if numpy is None or one.is_event:
        raise Skip
    masked: Any = numpy.ma

    def arrays() -> List[Tuple[int, Any]]:
        times, values = part.dump.arrays(one.path)
        return [(int(time), None if mask else plain(float(value)) if one.is_real else int(value))
                for time, mask, value in zip(times, masked.getmaskarray(values),
                                             masked.getdata(values))]
    fault, wanted = of.dump.fault_by(part.end), []  # type: str, List[Tuple[int, Any]]
    for time, value in changes_of(of, part, one):
        found = cell(value)
        if one.is_real:
            found = plain(found) if isinstance(found, float) else "nan"
        elif isinstance(found, str):
            found = integer(found) if is_known(found) else None
        wanted.append((time, found))
    same_answer(of, "package, arrays", (one.path, part[1:]), arrays, [] if fault else wanted, fault)


# ---- Rows and conditions.

def rows_of(of: Asker, part: Part, names: List[str]) -> Tuple[Dict[str, Any], List[Any], str]:
    """Returns what is asked besides the names, the rows, each a look and its values, and the fault
    with which they end."""
    columns = [one for one in of.dump.selected(names) if not one.is_event]
    if not columns:
        raise Skip
    asked, how = {}, of.random.choice(["change", "edge", "time"])  # type: Dict[str, Any], str
    fault = of.dump.fault_by(part.end)
    if how == "edge":
        words, edges = of.clocks()
        asked = {word[2:]: name for word, name in zip(words[::2], words[1::2])}
        rows = with_values(looks_at_edges(of.dump, edges, part.begin, part.end), columns)
    elif how == "time":
        asked["at"] = [max(part.begin, of.tick()) for _ in range(of.random.randint(1, 4))]
        fault = [fault_by(of, part, time) for time in sorted(asked["at"])][-1]
        rows = with_values([Look(time, of.dump.at(min(time, part.end)),
                                 of.dump.events_at(time) if time <= part.end else set())
                            for time in asked["at"]
                            if not of.dump.fault_by(min(time, part.end))], columns)
    else:
        rows = rows_at_changes(of.dump, columns, part.begin, part.end, part.is_window)
    chosen = of.conditions.make() if of.happens(.4) else None
    if chosen:
        asked["condition"] = chosen.text
        is_none = how == "time" and fault
        rows = [row for row in rows if chosen.test(row[0]) and not is_none]
    return asked, rows, fault


def ask_rows(of: Asker) -> None:
    """Asks for rows, or for a table of them."""
    part = part_of(of)
    names = list(dict.fromkeys(variable_of(of).path for _ in range(of.random.randint(1, 4))))
    names = of.names(4) if of.happens(.3) else names
    asked, rows, fault = rows_of(of, part, names)
    what = (names, asked, part[1:])
    if of.happens(.6):
        same_answer(of, "package, rows", what, lambda: (
            (row.time, [plain_cell(value) for value in row.values])
            for row in part.dump.rows(names, **asked)),
            [(look.time, [wanted_cell(value) for value in values]) for look, values in rows], fault)
        return
    columns = [one for one in of.dump.selected(names) if not one.is_event]
    wanted = {"time": [look.time for look, _ in rows]}
    for at, one in enumerate(columns):
        wanted[of.dump.key(one)] = [table_cell(values[at]) for _, values in rows]
    same_answer(of, "package, table", what, lambda: {
        key: list(map(plain, column)) for key, column in part.dump.table(names, **asked).items()},
        [] if fault else wanted, fault)


def table_cell(value: Optional[Value]) -> Any:
    """Returns a value in a table: a number, or None."""
    if isinstance(value, str):
        return integer(value) if is_known(value) else None
    return wanted_cell(value)


def ask_when(of: Asker) -> None:
    """Asks when a condition begins to hold, or is answered in time."""
    part, is_clocked = part_of(of), of.happens(.5)
    first, asked = condition(of, 2, is_clocked), {}  # type: Any, Dict[str, Any]
    text, after = first.text, condition(of, 1, is_clocked) if of.happens(.4) else None
    looks = looks_at_changes(of.dump, of.conditions.codes, part.begin, part.end,
                             of.conditions.ages)
    if is_clocked:
        words, edges = of.clocks()
        asked = {word[2:]: name for word, name in zip(words[::2], words[1::2])}
        asked["every"] = of.happens(.4)
        looks = looks_at_edges(of.dump, edges, part.begin, part.end)
    begins = starts(looks, first.test, bool(asked), asked.get("every", False))
    wanted = [look.time for look, is_one in zip(looks, begins) if is_one]
    if after:
        within, span = span_of(of, is_clocked)
        is_refusal, end = of.happens(.5), of.dump.end_of(part.begin, part.end)
        text = "(%s) -> (%s) within %s" % (text, after.text, within)
        text = "!(%s)" % text if is_refusal else text
        wanted = [one.time for one in waits(looks, begins, after.test, span, end)
                  if (one.answer is None) == is_refusal]
    same_answer(of, "package, when", (text, asked, part[1:]),
                lambda: part.dump.when(text, **asked), wanted, of.dump.fault_by(part.end))


# ---- Headers and parts.

def ask_header(of: Asker) -> None:
    """Asks what the header has."""
    dump, names = of.dump, of.names()
    whole: Any = Package(of.path)
    pattern = of.random.choice(["q", r"\.a$", "CLK", "^tb", r"\\"])
    flags = of.random.choice([0, re.I])
    scopes: Dict[str, List[str]] = {}
    for scope in whole.tree.walk():
        for signal in scope.signals:
            scopes.setdefault(scope.path, []).append(signal.path)
    own: Dict[str, List[str]] = {}
    for one in dump.variables:
        own.setdefault(one.scope, []).append(one.path)
    header = whole.header
    of.same("package, the header", (pattern, names), (
        [one.path for one in whole.find(pattern, flags)],
        [tuple(one) for one in whole.select(names)], scopes,
        header.date or None, header.version or None,
        str(header.timescale) if header.timescale else None,
        [list(column) for column in whole.signals.columns()]), (
            [one.path for one in dump.variables if re.search(pattern, one.path, flags)],
            [one.row for one in dump.selected(names)], own, dump.notes.get("date") or None,
            dump.notes.get("version") or None, "%d%s" % dump.scale if dump.scale else None,
            [[one.row[column] for one in dump.variables] for column in range(4)]))
    one = variable_of(of)
    of.same("package, a name", one.path, (
        one.path in whole.signals, "no.such" in whole.signals,
        tuple(whole[of.conditions.name(one)])), (True, False, one.row))


def ask_times(of: Asker) -> None:
    """Asks what times mean."""
    whole, text, unit, ticks = Package(of.path), of.time(.7), of.unit(.6), of.tick()
    of.same("package, ticks", text, whole.ticks(text), of.dump.ticks_down(text))
    of.same("package, a time", (ticks, unit), whole.time(ticks, unit or ""),
            of.dump.time_text(ticks, unit))


def ask_check(of: Asker) -> None:
    """Asks for the report of a dump, and for the end of a window; and whether a part that is
    pickled is still the same."""
    part, dump = part_of(of), of.dump
    fault, last = dump.fault_by(part.end), dump.end_of(part.begin, part.end)
    if not part.is_window:
        report = (dump.scopes, len(dump.variables), len(dump.of_code), len(dump.times),
                  dump.sections, len(dump.items), dump.last)
        same_answer(of, "package, check", [], lambda: tuple(part.dump.check()),
                    [] if fault else report, fault)
    elif dump.last is not None or fault:
        same_answer(of, "package, the end of a window", part[1:], lambda: part.dump.check().last,
                    [] if fault else last, fault)
    of.need_whole()
    cut = Package(of.path).cut(part.begin, part.end)
    of.same("package, pickle", part[1:], pickle.loads(pickle.dumps(cut)).read(), cut.read())


def ask_part(of: Asker) -> None:
    """Asks for what is in a window, or in the part with some variables."""
    of.need_whole()
    if of.happens(.4):
        names = of.names()
        each = [[one for one in of.dump.variables if is_inside(one.path, name)] for name in names]
        its = [one for one in of.dump.variables if any(one in some for some in each)]
        if all(each):  # a name of the command has its range
            codes = {one.code for one in its}
            picked = Dump(Package(of.path).pick(names).read())
            of.same("package, pick", names, (
                [one.row for one in picked.variables], picked.changes(), picked.end), (
                    [one.row for one in its],
                    [one for one in of.dump.changes() if one.code in codes], of.dump.end))
        return
    part = part_of(of)
    found = Dump(part.dump.read())
    wanted = [(time, one.code, value) for one in of.dump.of_code.values()
              for time, value in changes_of(of, part, one)]
    of.same("package, the part", part[1:], (
        [one.row for one in found.variables], found.end, sorted(
            (item.time, item.code, item.value) for item in found.changes())),
        ([one.row for one in of.dump.variables], of.dump.end_of(part.begin, part.end),
         sorted(wanted)))


class Side(NamedTuple):
    """A dump that is merged with another one: its window, and by what to multiply its ticks."""

    dump: Dump
    part: Part
    factor: int

    def at(self, code: str, time: int) -> Optional[Value]:
        """Returns the value at the end of a time of the merge."""
        own = time // self.factor
        return self.dump.at(min(own, self.part.end)).get(code) if own >= self.part.begin else None


def ask_merge(of: Asker) -> None:
    """Asks for rows of a dump or a window of it that is merged with another dump."""
    of.need_whole()
    part, text = part_of(of), of.other_text()
    dumps = of.dump, read(text)
    if dumps[1].fault:
        raise Skip
    ticks = [dump.tick or FEMTOSECONDS["s"] for dump in dumps]
    sides = [Side(dump, its, tick // min(ticks)) for dump, its, tick in zip(
        dumps, (part, Part(None, 0, LAST, False)), ticks)]
    if any(side.dump.end_of(side.part.begin, side.part.end) * side.factor > LAST
           for side in sides):
        raise Skip
    its = [(at, one) for at in of.random.choice([[0], [1, 0]])
           for one in of.random.sample(dumps[at].variables, 1)
           if not one.is_event and dumps[at].is_unique(one)]
    if not its:
        raise Skip
    times = {step.time * side.factor for side in sides
             for step in side.dump.steps_in(side.part.begin, side.part.end)}
    times |= {part.begin * sides[0].factor} if part.is_window else set()
    asked, wanted, last = {}, [], [None] * len(its)  # type: Dict[str, str], List[Any], List[Any]
    if of.happens(.5):
        clock, edge = of.clock(), of.random.choice([("rise", "0", "1"), ("fall", "1", "0")])
        asked = {edge[0]: "in1." + clock.path}
        # A merge has no sections, so no value is from before its time.
        wanted = [(look.time * sides[0].factor, [wanted_cell(sides[at].at(
            one.code, look.time * sides[0].factor - 1)) for at, one in its]) for look in
                  looks_at_edges(of.dump, {(clock.code, edge[1], edge[2])}, part.begin, part.end)]
    for time in sorted(times) if not asked else ():
        values = [sides[at].at(one.code, time) for at, one in its]
        if not all(map(same, last, values)):
            wanted.append((time, list(map(wanted_cell, values))))
        last = values
    names = ["in%d.%s" % (at + 1, one.path) for at, one in its]
    of.same("package, merge", (names, asked, part[1:]), [
        (row.time, [plain_cell(value) for value in row.values])
        for row in merge(part.dump, Package(text)).rows(names, **asked)], wanted)
