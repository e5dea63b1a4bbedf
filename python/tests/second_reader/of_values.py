"""Asks vcdkit-values, -table, -x, -find and -info."""
import csv
import io
import json
import re
from collections import Counter
from typing import Any, Dict, List, NamedTuple, Optional, Tuple

from asker import Asker, Said, Skip, Window, run
from conditions import Test
from dumps import Dump, State, Value, Variable
from looks import Edges, Look, holds, looks_at_edges, rows_at_changes, transfers
from shown import all_from_json, from_json, in_json, shown

Row = Tuple[Look, List[Optional[Value]]]
PATTERNS = ["q$", r"^tb\.", r"\[", "clk", "c|d", r"^[^.]*$", "", "(?i)CLK", r"\.a", r"\\",
            r"g\[0\]\.", "^(?!tb)", "e.s"]


def ask_values(of: Asker) -> None:
    """Asks for the values at times, or at the end."""
    dump, (words, form), unit = of.dump, of.form(), of.unit()
    names = of.names() if of.happens(.7) else []
    times = [of.time() for _ in range(of.random.choice([0, 1, 1, 2, 3]))]
    ticks = [dump.ticks_down(time) for time in times] or [dump.end]
    is_json = of.happens(.3)
    words = words + ["--at", ",".join(times)] * bool(times) + ["--json"] * is_json
    words = of.placed(words + (["--unit", unit] if unit else []), [of.path, *names])
    its = [one for one in (dump.selected(names) if names else dump.variables) if not one.is_event]
    fault = dump.fault_by(max(ticks))
    if fault and times and not its:
        raise Skip  # nothing is read for events
    wanted: List[Any] = []
    for time in ticks:
        if dump.fault_by(time):
            continue
        for one in its:
            value = dump.at(time).get(one.code)
            front = dump.time_text(time, unit) + " " if len(ticks) > 1 else ""
            wanted.append({"time": time, "path": one.path, "value": in_json(value, form)} if is_json
                          else front + "%s %s" % (one.path, shown(value, form)))
    said = run("values", words)
    got = all_from_json(said.text) if is_json else said.lines
    of.same("values", words, (said.status, got, said.about),
            (int(bool(fault)), wanted, fault or any(time > dump.end for time in ticks)))


# ---- vcdkit-table.

def columns_of(of: Asker, most: int) -> Tuple[List[str], List[Variable]]:
    """Returns names and their columns, which are there at least once."""
    names = of.names(most)
    columns = [one for one in of.dump.selected(names) if not one.is_event]
    if not columns:
        raise Skip
    return names, columns


def table_rows(of: Asker, columns: List[Variable], words: List[str]) -> Tuple[List[Row], Window]:
    """Returns the rows of a random kind, adds their options to the words, and returns the
    window."""
    dump, how = of.dump, of.random.choice(["change", "time"] + ["edge"] * (columns[-1].place >= 0))
    if how == "time":
        times = [of.time() for _ in range(of.random.randint(1, 4))]
        words += ["--at", ",".join(times)]
        ticks = [dump.ticks_down(time) for time in times]
        looks = [Look(time, dump.at(time), dump.events_at(time)) for time in ticks
                 if not dump.fault_by(time)]
        return with_values(looks, columns), Window([], 0, max(ticks), False)
    window = of.window()
    words += window.words
    if how == "change":
        return rows_at_changes(dump, columns, window.begin, window.end, window.is_given), window
    options, edges = of.clocks()
    words += options
    return with_values(looks_at_edges(dump, edges, window.begin, window.end), columns), window


def with_values(looks: List[Look], columns: List[Variable]) -> List[Row]:
    """Returns looks with the values of columns."""
    return [(look, [look.values.get(one.code) for one in columns]) for look in looks]


def ask_table(of: Asker) -> None:
    """Asks for rows at changes, at edges or at times, half of them with a condition."""
    dump, (words, form), unit = of.dump, of.form(), of.unit()
    names, columns = columns_of(of, 4)
    if of.happens(.3):
        word, one = of.derived()
        names, columns = [*names, word], [*columns, one]
    is_json = of.happens(.25)
    rows_words, named = [], (states_of(of, columns) if of.happens(.2) else {})  # type: Any, Any
    rows, window = table_rows(of, columns, rows_words)
    fault = of.fault(window)
    condition = of.conditions.make() if of.happens(.5) else None
    if condition:
        is_none = fault and "--at" in rows_words  # it needs all values up to the last time
        rows_words += ["--if=" + condition.text]  # it may begin with -
        rows = [row for row in rows if condition.test(row[0]) and not is_none]
    words += ["--states=%s=%s" % (named["path"], of.path + ".states")] if named else []
    words = of.placed([*words, *(["--unit", unit] if unit else []), *["--json"] * is_json,
                       *rows_words], [of.path, *names])
    said = run("table", words)
    if of.is_late(window, "table", words, said):
        return
    unit = unit or (dump.scale[1] if dump.scale else "tick")
    wanted: List[Any] = [["time (%s)" % unit] + [one.path for one in columns]] + [
        [dump.time_in(look.time, unit)] + [
            named.get((one.path, value)) or shown(value, form)
            for one, value in zip(columns, values)] for look, values in rows]
    if is_json:
        keys = keys_of(columns)
        wanted = [{"time": look.time, **dict(zip(keys, (
            named.get((one.path, value)) or in_json(value, form)
            for one, value in zip(columns, values))))} for look, values in rows]
    got = all_from_json(said.text) if is_json else list(
        csv.reader(io.StringIO(said.text, newline="")))
    is_warned = "--at" in rows_words and window.end > dump.end
    of.same("table", words, (said.status, got, said.about), (
        int(bool(fault)), wanted, fault or is_warned))


def states_of(of: Asker, columns: List[Variable]) -> Dict[Any, str]:
    """Writes a file of names for some values of a column; returns the names, and the path."""
    one = of.random.choice(columns)
    values = {step.end.get(one.code) for step in of.dump.steps}
    some = sorted(value for value in values if isinstance(value, str))[:3]
    if not some or one.place < 0 or one.is_real or not of.dump.is_unique(one):
        return {}
    lines = ["%s %s NAME %d\n" % ("0b" + value if value.strip("01") else "%X" % int(value, 2),
                                  of.random.choice(["", "?red?"]), at)
             for at, value in enumerate(some)]
    of.write(of.path + ".states", "".join(["# names\n", *lines]).encode())
    return {"path": one.path, **{(one.path, value): "NAME %d" % at
                                 for at, value in enumerate(some)}}


class Channel(NamedTuple):
    """A channel: its option, the condition of a transfer, its columns, and the edges of its own
    clock."""

    name: str
    word: str
    test: Test
    columns: List[Variable]
    edges: Edges

    def head(self, is_json: bool, unit: str) -> List[str]:
        """Returns what its cells are called."""
        if is_json:
            return [self.name, *(self.name + " " + key for key in keys_of(self.columns))]
        return ["%s (%s)" % (self.name, unit), *(one.path for one in self.columns)]


def channel_of(of: Asker, name: str) -> Channel:
    """Returns a random channel."""
    condition, names = of.conditions.make(1, True), of.names(2) if of.happens(.7) else []
    if not condition or re.search("[^ ]: ", condition.text):
        raise Skip
    columns, (clock, edges) = of.dump.selected(names) if names else [], ("", set())
    if of.happens(.3):
        clock, edges = of.own_clock()
    words = [name + clock, condition.text] + [" ".join(names)] * bool(names)
    return Channel(name, ": ".join(words), condition.test,
                   [one for one in columns if not one.is_event], edges)


def ask_channels(of: Asker) -> None:
    """Asks for the transfers of channels, joined in order, or for how often there is each number of
    edges between them."""
    dump, (words, form), unit, window = of.dump, of.form(), of.unit(), of.window()
    options, edges = of.clocks()
    names = of.random.sample(["ar", "r", "a channel", "b,c", "\u00e9"], of.random.randint(1, 3))
    its, pairs = [channel_of(of, name) for name in names], list(zip(names, names[1:]))
    mode = of.random.choice(["", "", "--json", "--histogram"])
    flush = of.conditions.make(1, True) if of.happens(.4) else None
    if all(one.edges for one in its) and of.happens(.5):
        options = []
    options += ["--flush=" + flush.text] if flush else []
    failing = of.maybe(.3, "--open-fails")
    words += [*options, *window.words, *[mode] * bool(mode), *(["--unit", unit] if unit else []),
              *failing]
    words = [*("--channel=" + one.word for one in its), *of.placed(words, [of.path])]
    said, is_json = run("table", words), mode == "--json"
    if of.is_late(window, "channels", words, said):
        return
    unit, counts = unit or (dump.scale[1] if dump.scale else "tick"), Counter()  # type: str, Any
    head = [cell for one in its for cell in one.head(is_json, unit)]
    wanted: List[List[Any]] = []
    among = {edge for one in its for edge in one.edges or edges}
    each = [looks_at_edges(dump, one.edges or edges, window.begin, window.end, among)
            for one in its]
    flushes = [look.time for look in each[0] if flush and holds(flush.test, look)]
    lines = transfers(each, [one.test for one in its], flushes)
    lacking = early = 0
    for line in lines:
        wanted.append([])
        lacking += None in line
        for found, channel in zip(line, its):
            look = found[1] if found else None
            values = [look.values.get(one.code) if look else None for one in channel.columns]
            wanted[-1] += ([None] * (1 + len(values)) if look is None else
                           [look.time, *(in_json(one, form) for one in values)] if is_json else
                           [dump.time_in(look.time, unit), *(shown(one, form) for one in values)])
        for pair, one, other, looks in zip(pairs, line, line[1:], each[1:]):
            wanted[-1].append(other[0] + 1 - sum(look.time <= one[1].time for look in looks)
                              if one and other else None)
            counts[pair, wanted[-1][-1]] += 1
        early += any((edge or 0) < 0 for edge in wanted[-1][len(wanted[-1]) - len(pairs):])
    note = "vcdkit-table: %stransactions: %d; that lack a transfer: %d; with a number of edges " \
        "below 0: %d\n" % ("" if lines else "warning: ", len(lines), lacking, early)
    fault = of.fault(window)
    head += ["%s to %s" % pair for pair in pairs]
    if mode == "--histogram":
        head = ["edges", *head[len(head) - len(pairs):]]
        wanted = [[edge, *(counts[pair, edge] for pair in pairs)]
                  for edge in sorted({edge for _, edge in counts if edge is not None})]
    got = all_from_json(said.text) if is_json else list(
        csv.reader(io.StringIO(said.text, newline="")))
    rows = [["" if cell is None else str(cell) for cell in row] for row in [head, *wanted]]
    of.same("channels", words, (said.status, got, said.about if fault else said.message), (
        int(bool(fault or failing and (lacking or not lines))),
        [dict(zip(head, row)) for row in wanted] if is_json else
        rows * (not fault or mode != "--histogram"), fault or note))


def keys_of(columns: List[Variable]) -> List[str]:
    """Returns the keys of columns in JSON; they have to differ."""
    counts = Counter(one.path for one in columns)
    keys = [one.path if counts[one.path] == 1 else one.path + " " + one.code for one in columns]
    if len(set(keys)) < len(keys):
        raise Skip
    return keys


# ---- vcdkit-x.

def unknown(dump: Dump, its: List[Variable], letters: str, begin: int, end: int, becomes: bool
            ) -> List[Tuple[int, str, str]]:
    """Returns the times at whose end a value is another one than before, or the window begins, and
    has one of the letters; with `becomes`, if the value before has none of them. Within a time,
    they come in the order of their last changes; what the window begins with comes first, in the
    order of declaration."""
    found: List[Tuple[int, str, str]] = []
    before: State = dump.at(begin - 1) if becomes and begin else {}
    changes = {step.time: step.changes for step in dump.steps}
    for time in sorted({begin} | {step.time for step in dump.steps_in(begin, end)}):
        if time > dump.finished:
            break
        state, codes = dump.at(time), [*dump.of_code]
        codes += [one.code for one in changes.get(time, ())]
        order = {code: at for at, code in enumerate(codes)}
        for code in sorted(order, key=lambda one: order[one]):
            value = state.get(code)
            if isinstance(value, str) and set(letters) & set(value) and (
                    not set(letters) & set(str(before.get(code, letters))) if becomes else
                    time == begin or value != before.get(code)):
                found += [(time, one.path, value) for one in its if one.code == code]
        before = state
    return found


def ask_x(of: Asker) -> None:
    """Asks for unknown values."""
    dump, (words, form), unit, window = of.dump, of.form(), of.unit(), of.window()
    names = of.names() if of.happens(.6) else []
    letters, is_once, becomes = of.random.choice(["x", "xz"]), of.happens(.4), of.happens(.3)
    mode = of.random.choice(["", "", "--first", "--count", "--json"])
    its = [one for one in (dump.selected(names) if names else dump.variables)
           if not one.is_event and not one.is_real]
    words += [*window.words, *["--z"] * (letters == "xz"), *[mode] * bool(mode),
              *["--trace"] * is_once, *["--becomes"] * becomes, *(["--unit", unit] if unit else [])]
    waived = of.names() if of.happens(.25) else []
    file = of.write(of.path + ".waived", "".join(
        "%s\t it is known\n" % name for name in waived).encode("utf-8", "surrogateescape"))
    words = of.placed([*words, *["--waive", file] * bool(waived)], [of.path, *names])
    said, fault = run("x", words), of.fault(window)
    paths = {one.path for one in (dump.selected(waived) if waived else ())}
    if its and paths.issuperset(one.path for one in its):
        of.same("x, all are waived", words, (said.status, said.lines), (2, []))
        return
    if of.is_late(window, "x", words, said, 2):
        return
    rows = unknown(dump, its, letters, window.begin, window.end, becomes)
    notes, left = [], {row[1] for row in rows}
    for at, name in enumerate(waived, 1):
        mine = {one.path for one in dump.selected([name])}
        notes.append("%d: %s: leaves out %d of %d signals" % (
            at, name, len(mine & left), len(mine)) if mine & left else
            "warning: %d: %s: is not needed" % (at, name))
        left -= mine
    rows = [row for row in rows if row[1] not in paths]
    if is_once:
        rows = [row for at, row in enumerate(rows) if row[1] not in [one[1] for one in rows[:at]]]
    if mode == "--first":
        rows, fault = rows[:1], fault and not rows and fault
    wanted: List[Any] = ["%s %s %s" % (dump.time_text(time, unit), path, shown(value, form))
                         for time, path, value in rows]
    if mode == "--count":
        wanted = ["%d" % len(rows)] * (not fault)
    elif mode == "--json":
        wanted = [(time, path, shown(value, form)) for time, path, value in rows]
    got = [tuple(one.values()) for one in all_from_json(said.text)] if mode == "--json" else (
        said.lines)
    codes, end = {one.code for one in its}, min(window.end, dump.finished)
    is_idle = not rows and not any(codes & {*state} for state in (dump.at(window.begin), *(
        step.end for step in dump.steps_in(window.begin, end))))
    if is_idle and not fault:
        of.same("x, of nothing", words, (said.status, said.output, bool(said.message)),
                (2, b"", True))
        return
    if mode == "--first" and rows:
        notes = []
    if not rows and "VerilatedVcd" in dump.notes.get("version", ""):
        notes.append("Verilator wrote this dump: it simulates two states, so it has no x")
    messages = said.message.replace(file + ":", "").replace("vcdkit-x: ", "").splitlines()
    of.same("x", words, (said.status, got, said.about if fault else messages),
            (2 if fault else int(bool(rows)), wanted, fault or notes))


# ---- vcdkit-find and vcdkit-info.

def ask_find(of: Asker) -> None:
    """Asks for the variables that match, or that a file names."""
    dump, names, words = of.dump, [], []  # type: Any, List[str], List[str]
    patterns = of.random.sample(PATTERNS, of.random.choice([0, 1, 1, 2]))
    if of.happens(.35):
        names = of.names(3)
        ends = of.random.choices(["", " wire 1 !", "\t# x"], k=len(names))
        text = "".join(name + end + "\n" for name, end in zip(names, ends))
        words = ["--names", of.write(of.path + ".names", text.encode("utf-8", "surrogateescape"))]
    found = [one for one in dump.variables if one in (dump.selected(names) if names else ())
             or any(re.search(pattern, one.path) for pattern in patterns)
             or not names and not patterns]
    mode: List[str] = of.random.choice([[], ["--tree"], ["--json"], ["--pick"]])
    if dump.fault and mode == ["--pick"]:
        raise Skip
    words = of.placed(words + mode, [of.path, *patterns])
    said = run("find", words)
    if not found:
        of.same("find", words, (said.status, said.output, bool(said.message)), (1, b"", True))
    elif not of.same("find", words, (said.status, said.message), (0, "")):
        return
    elif mode == ["--tree"]:
        of.same("find --tree", words, said.lines, tree_of(dump, found))
    elif mode == ["--pick"]:
        same_part(of, words, Dump(said.output), found)
    else:
        got = [tuple(one.values()) for one in all_from_json(said.text)] if mode else said.lines
        of.same("find", words, got, [one.row if mode else "%s %s %d %s" % one.row for one in found])


def same_part(of: Asker, words: List[str], part: Dump, wanted: List[Variable]) -> None:
    """Compares the dump that --pick writes."""
    codes = {one.code for one in wanted}
    of.same("find --pick", words, ([one.row for one in part.variables], part.changes(), part.end), (
        [one.row for one in wanted], [one for one in of.dump.changes() if one.code in codes],
        of.dump.end))


def tree_of(dump: Dump, found: List[Variable]) -> List[str]:
    """Returns the lines of scopes, each above those in it: each counts the variables in it and
    below it. The top counts only its own."""
    counts = [(chain, sum(one.chain[:len(chain)] == chain for one in found))
              for chain in dump.chains()]
    top = sum(not one.chain for one in found)
    return ["(top) %d" % top] * bool(top) + [
        "%s%s %d" % ("  " * (len(chain) - 1), chain[-1], count) for chain, count in counts if count]


def ask_info(of: Asker) -> None:
    """Asks what a dump is."""
    dump, most = of.dump, of.random.choice([0, 1, 2, 10])
    said = run("info", ["--json", "--scopes=%d" % most, of.path])
    if not of.same("info", [], (said.status, said.about), (
            int(bool(dump.fault)), dump.fault or False)) or dump.fault:
        of.same("info before a fault", [], said.output, b"" if dump.fault else said.output)
        return
    got = from_json(said.text)
    largest = got.pop("largest")
    own = Counter(one.scope for one in dump.variables)
    wanted = {
        "file": of.path, "date": dump.notes.get("date") or None,
        "version": dump.notes.get("version") or None,
        "timescale": "%d%s" % dump.scale if dump.scale else None,
        "types": dict(Counter(one.type for one in dump.variables)),
        "bits": sum(one.size for one in dump.of_code.values()), "scopes": dump.scopes,
        "variables": len(dump.variables), "codes": len(dump.of_code), "times": len(dump.times),
        "sections": dump.sections, "changes": len(dump.items),
        "first": dump.time_text(dump.times[0]) if dump.times else None,
        "first_tick": dump.times[0] if dump.times else None,
        "last": None if dump.last is None else dump.time_text(dump.last), "last_tick": dump.last}
    of.same("info", [], got, wanted)
    # A scope may be there twice, and a dot may be in a name: scopes with one path are one here.
    of.same("info, largest", most, list(largest.items()),
            sorted(own.items(), key=lambda one: -one[1])[:most])


def saved_by_gtkwave(its: List[Variable], asked: Asker) -> str:
    """Returns a save file of GTKWave with some variables."""
    lines = ["[*]", "[*] GTKWave Analyzer v3.3.118", '[dumpfile] "/tmp/x.vcd"', "[timestart] 0",
             "[size] 1000 600", "*-3.0 23 -1 -1", "[treeopen] tb.", "[sst_width] 200"]
    for one in its:
        is_ranged = one.size > 1 and one.is_numbered and one.name[-1] != "]"
        lines += ["@" + asked.random.choice(["28", "22", "24", "c00022", "420"]),
                  one.path + ("[%d:%d]" % (one.left, one.right) if is_ranged else "")]
        lines += asked.maybe(.2, "-group") + asked.maybe(.1, "@200", "-a comment")
    return "\n".join(lines) + "\n"


def ask_names(of: Asker) -> None:
    """Asks the same with --names and with the names themselves."""
    if of.dump.has_a_name_twice():
        raise Skip  # names may select either of two
    names, more = of.names(4), of.names(1) if of.happens(.3) else []
    if of.happens(.5):
        ends = of.random.choices(["\n", " wire 8 !\n", "\tfoo\r\n", "\n\n"], k=len(names))
        text = "".join(map("".join, zip(names, ends)))
    else:
        its = [one for one in of.random.choices(of.dump.variables, k=4)
               if not re.match(r"[@\[*#+-]|\d", one.path)]
        names = [one.path for one in its]
        text = saved_by_gtkwave(its, of)
    if not names or any(re.match(r"[@\[*#+.-]|\d", name) for name in names):
        raise Skip
    file = of.write(of.path + ".names", text.encode("utf-8", "surrogateescape"))
    script = of.random.choice(["values", "table", "x", "stats"])
    if script == "table" and more:
        raise Skip  # the order of the names of both kinds is not said
    words = of.placed(["--names", file], [of.path, *more])
    got, wanted = run(script, words), run(script, [of.path, "--", *more, *names])

    def plain(said: Said) -> Any:
        return said.status, sorted(said.lines), bool(said.message)
    of.same("names", [script, text[-300:], *words], plain(got), plain(wanted))
