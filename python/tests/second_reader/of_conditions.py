"""Asks vcdkit-when: conditions, answers, latencies and rules."""
import itertools
import json
import re
from fractions import Fraction
from typing import Any, Dict, List, NamedTuple, Optional, Tuple
import xml.etree.ElementTree as xml

from asker import NEVER, Asker, Said, Skip, Window, run, said_by
from conditions import Condition, Conditions, Operand, quoted
from dumps import UNITS, Dump
from expressions import (COUNTS, LEVEL, LEVELS, ORDERS, Expression, based, braces, chosen, counted,
                         fixed, inside, joined, past, read_as, unary)
from looks import (Edges, Look, Span, Wait, facts_of, in_order, looks_at_changes, looks_at_edges,
                   starts, waits)
from shown import all_from_json

MARKS = "!\"#$%&'()*+,-./:;<=>?@[\\]^_`{|}~0\u00e9\u2211"
PATHS = ["tb.a%sb", "tb.%sa", "tb.a%s", "%sa", "a%s", "a%s1", "1%sa", "%s", "a%s-1", "tb.\\a%s[3]",
         "tb.a%s(b)"]


class Question(NamedTuple):
    """A condition in a window: its options, and where it is looked at."""

    words: List[str]
    window: Window
    edges: Optional[Edges]
    every: bool

    def looks(self, dump: Dump, of: Conditions) -> List[Look]:
        """Returns the looks at conditions."""
        if self.edges:
            return looks_at_edges(dump, self.edges, self.window.begin, self.window.end)
        return looks_at_changes(dump, of.codes, self.window.begin, self.window.end, of.ages)

    def end(self, dump: Dump) -> int:
        """Returns the last time of the window."""
        return dump.end_of(self.window.begin, self.window.end)


def condition(of: Asker, depth: int = 2, is_clocked: bool = False) -> Condition:
    """Returns a condition."""
    found = of.conditions.make(depth, is_clocked)
    if not found:
        raise Skip
    if of.conditions.plain and of.happens(.1):
        return Condition(joined(of.random.choice(["&&", "||"]), of.conditions.age(is_clocked),
                                found.of))
    return found


def question(of: Asker, clocked: float = .5) -> Question:
    """Returns a random window, often with a clock."""
    window = of.window(.3)
    words, edges, every = list(window.words), None, False
    if of.happens(clocked):
        options, edges = of.clocks()
        every = of.happens(.4)
        words += options + ["--every"] * every
    return Question(words, window, edges, every)


def span_of(of: Asker, is_clocked: bool) -> Tuple[str, Span]:
    """Returns the N or the M..N of `within N`, and what it means."""
    dump, choice = of.dump, of.random.choice
    if is_clocked and of.happens(.6):
        count = choice([0, 1, 2, 3, 5, 50])
        least = of.random.randint(0, count) if of.happens(.3) else 0
        return "%d..%d" % (least, count) if least or of.happens(.1) else str(count), (
            True, least, count)
    gaps = [after - before for before, after in zip(dump.times, dump.times[1:])] or [1]
    count = max(0, choice(gaps) * choice([0, 1, 1, 2, 3]) + choice([-1, 0, 0, 1]))
    unit = choice(UNITS) if dump.scale and of.happens(.5) else ""
    text = dump.time_in(count, unit) + unit if unit else ""
    return text if 0 < len(text) < 20 else "%dtick" % count, (False, 0, count)


def ask_when(of: Asker) -> None:
    """Asks when a condition begins to hold, or is answered in time."""
    dump, asked, unit = of.dump, question(of), of.unit(.2)
    first = condition(of, 2, bool(asked.edges))
    text = first.text
    refused = after = None
    if of.happens(.3):
        after = condition(of, 1, bool(asked.edges))
        within, span = span_of(of, bool(asked.edges))
        text = "%s -> %s within %s" % (first.inside(0), after.inside(0), within)
        refused = of.happens(.5)
        text = "!(%s)" % text if refused else text
    looks = asked.looks(dump, of.conditions)
    begins = starts(looks, first.test, bool(asked.edges), asked.every)
    times = [look.time for look, is_one in zip(looks, begins) if is_one]
    note = ""
    is_idle, failing, fault = idle(of, looks, asked), of.maybe(.2, "--open-fails"), of.fault(
        asked.window)
    if after:
        is_closed = bool(failing) and not fault
        facts = facts_of(looks, begins, after.test, span, asked.end(dump), is_closed)
        note = note_of(facts, text_of(facts, span, of, unit))
        times = times_of(waits(looks, begins, after.test, span, asked.end(dump)), times, refused,
                         is_closed)
    mode = of.random.choice(["", "", "", "", "--count", "--first", "--json", "--never"])
    words = of.placed([*asked.words, *(["--unit", unit] if unit else []), *[mode] * bool(mode),
                       *failing], [of.path, text])
    said = run("when", words)
    if of.is_late(asked.window, "when", words, said, 2):
        return
    lines = [dump.time_text(time, unit) for time in times]
    wanted = {"--count": ["%d" % len(times)] * (not fault), "--first": lines[:1],
              "--json": [json.dumps({"time": time}) for time in times]}.get(mode, lines)
    if is_idle and not times and mode == "--never":
        of.same("when, never evaluated", words, (said.status, said.about), (2, fault or True))
        return
    status = 2 if fault else int((not times) != (mode == "--never"))
    if mode == "--first" and times:  # it stops there, so there may be a warning or not
        of.same("when", words, (said.status, said.lines), (0, wanted))
        return
    of.same("when", words, (said.status, said.lines, said.about if fault else said.message[-len(
        note):] if note else said.message), (status, wanted, fault or note))


def times_of(found: List[Wait], begins: List[int], refused: bool, is_closed: bool) -> List[int]:
    """Returns the times of requests that are answered in time, or of the others; if `is_closed`,
    the end leaves none open."""
    answered = {one.time: one.answer for one in found}
    return [time for time in begins if (answered.get(time) is None) == refused and (
        time in answered or is_closed)]


def idle(of: Asker, looks: List[Look], asked: Question, word: str = "never") -> bool:
    """Whether a condition was never evaluated: none of its signals had a value. An event is known
    at each edge, and if the dump has a time; but if it has to hold at each trigger, it needs one.
    """
    codes, events = of.conditions.codes, of.conditions.events
    if asked.edges or word == "always" or not events:
        return not any(codes & {*look.values} or look.events & codes or asked.edges and events
                       for look in looks)
    return not looks and not of.dump.times


def late_of(facts: Dict[str, int], span: Span, of: Asker, unit: Optional[str]) -> str:
    """Returns by how much requests are late."""
    by = facts["latest"]
    return "late by %s at most" % ("%d edge%s" % (by, "s" * (by != 1)) if span[0] else
                                   of.dump.time_text(by, unit)) if facts["late"] else "late"


def text_of(facts: Dict[str, int], span: Span, of: Asker, unit: Optional[str]) -> str:
    """Returns how many requests are late, and how many are without an answer."""
    return "%d %s, %d without an answer" % (
        facts["late"], late_of(facts, span, of, unit), facts["lost"])


def note_of(facts: Dict[str, int], late: str, name: str = "") -> str:
    """Returns what is said of requests."""
    count, tail = facts.get("overlaps", 0), "`each req -> ack within N`" if name else (
        "vcdkit-table --channel")
    front = name and ": %s: " % name
    return "%s%d request%s, %s, %d open at the end%s\n" % (
        front, facts["requests"], "s" * (facts["requests"] != 1), late, facts["open"],
        "; %d begin before the previous one is answered, and get the same answer: with %s, each "
        "gets its own" % (count, tail) if count else "")


# ---- Comparisons that never hold.

def side_of(of: Asker, one: Expression) -> Tuple[Expression, bool]:
    """Returns an expression of a name, and whether the script knows all that it can be."""
    random = of.random
    known = [lambda: one, lambda: one, lambda: read_as(random.choice(["signed", "unsigned"]), one),
             lambda: counted(random.choice(COUNTS[:1 if one.width < 2 else None]), one),
             lambda: braces([one]), lambda: unary(random.choice(["!", "+", "|", "^"]), one),
             lambda: past(one, random.choice([1, 2]))]
    others = [lambda: joined(random.choice(["&", "+", "-", "*", "|"]), one, random.choice(
        [one, based(random), fixed("3", 3)])), lambda: unary(random.choice("~-"), one),
              lambda: chosen(one, one, random.choice([one, fixed("9", 9)])),
              lambda: braces([one, one])]
    made = random.choice([known, known, others])
    return random.choice(made)(), made is known


def ask_refused(of: Asker) -> None:
    """Asks a comparison with a number, and whether it is refused because it never holds: whether it
    does is tried with all values of a few digits."""
    few = [one for one in of.conditions.plain if not one.is_real and one.size <= 4]
    if not few:
        raise Skip
    random, variable = of.random, of.random.choice(few)
    is_part = re.search(r"\[-?\d+:-?\d+\]$", variable.path)
    name = Operand(variable, quoted(variable.path), 0, variable.size,
                   variable.type == "integer" and not is_part)
    side, is_known = side_of(of, name.expression())
    value = random.choice([0, 1, 2, 3, 4, 7, 8, 9, 15, 16, 31, -1, -2, -8, -9])
    number = fixed(str(value), value) if of.happens(.4) else based(random)
    if side.text == name.text and number.text[:1] == "-":
        side = name.expression(True)  # a number below 0 makes it signed
    sign = random.choice([*LEVELS[LEVEL["=="]], *ORDERS, "inside"])
    sides = [side, number] if sign == "inside" or of.happens(.7) else [number, side]
    made = inside(side, [[number]]) if sign == "inside" else joined(sign, *sides)
    outcomes, known = set(), set()
    for its in itertools.product("01xz", repeat=variable.size):
        state = {variable.code: "".join(its)}
        look = Look(0, state, set(), Look(0, state, set(), Look(0, state, set())))
        outcomes.add(made.own(look))
        known |= {made.own(look)} if "x" not in its and "z" not in its else set()
    is_never = {"!=": known == {"1"}, "!==": "0" not in outcomes, "!=?": "0" not in outcomes}.get(
        sign, "1" not in outcomes)
    digits = number.own(None)
    is_known = is_known and not (side.is_signed and number.is_signed and digits.strip("01")) and (
        sides[0] is side or sign[-1] != "?") and not (  # x and z of the right side match any
            "z" in digits and side.width == 1 and side.text != name.text)  # what is x, is never z
    ordered = sign if sides[0] is side else sign.translate(str.maketrans("<>", "><"))
    if side.text == name.text and not name.is_signed and "1" not in digits and ordered in (
            "<", ">="):
        is_never = True
    said = said_by("when", [*of.clocks()[0], of.path, "--", made.text])
    is_refused = bool(re.search(NEVER, said.message))
    if is_known or is_refused:
        of.same("refused", made.text, is_refused, is_never)


# ---- Latencies.

def ask_latency(of: Asker) -> None:
    """Asks how long answers take."""
    dump, asked, unit = of.dump, question(of, .7), of.unit(.2)
    before, after = (condition(of, depth, bool(asked.edges)) for depth in (2, 1))
    within, span = span_of(of, bool(asked.edges))
    is_json = of.happens(.25)
    looks, end = asked.looks(dump, of.conditions), asked.end(dump)
    begins = starts(looks, before.test, bool(asked.edges), asked.every)
    found = waits(looks, begins, after.test, span, end)
    words = of.placed([*asked.words, "--latency", *["--json"] * is_json,
                       *(["--unit", unit] if unit else [])],
                      [of.path, "%s -> %s within %s" % (before.inside(0), after.inside(0), within)])
    said, fault = run("when", words), of.fault(asked.window)
    if of.is_late(asked.window, "latency", words, said, 2):
        return
    its = [one for one in found if one.answer is not None]
    its.sort(key=lambda one: (one.answer, one.time))  # in the order of the answers
    facts = facts_of(looks, begins, after.test, span, end)
    late = text_of(facts, span, of, unit)
    wanted: List[Any] = [one._asdict() for one in its]
    got: List[Any] = said.lines
    if is_json:
        got = all_from_json(said.text)
    else:
        def length(of_one: int) -> str:
            return str(of_one) if span[0] else dump.time_text(of_one, unit)

        def mean(of_all: Fraction) -> str:
            return "%.6g" % float(of_all) if span[0] else dump.mean_text(of_all, unit)
        wanted = ["%s %s %s" % (dump.time_text(one.time, unit), dump.time_text(
            one.answer or 0, unit), length(one.length)) for one in its]
        wanted += [] if fault or not found else summary([one.length for one in its], late, length,
                                                        mean)
    of.same("latency", words, (said.status, got, said.about if fault else said.message.endswith(
        note_of(facts, late))), (2 if fault else int(not its), wanted, fault or True))


def summary(lengths: List[int], late: str, length: Any, mean: Any) -> List[str]:
    """Returns the last line of --latency."""
    if not lengths:
        return ["0 in time, %s" % late]
    return ["least %s, mean %s, greatest %s, %d in time, %s" % (
        length(min(lengths)), mean(Fraction(sum(lengths), len(lengths))), length(max(lengths)),
        len(lengths), late)]


# ---- Rules.

class Rule(NamedTuple):
    """A rule: its name, clock and text, the times of its list, what its line says after them, the
    facts of its requests with the note about them, and whether it was never evaluated."""

    name: str
    clock: str
    text: str
    times: List[int]
    line: str
    facts: Dict[str, int]
    note: str
    is_idle: bool

    @property
    def has_word(self) -> bool:
        """Whether it may hold at no time."""
        return self.text.split(" ")[0] in ("never", "always", "each")


def rule_of(of: Asker, name: str, asked: Question, unit: Optional[str], is_closed: bool) -> Rule:
    """Returns a rule."""
    of.conditions.reset()
    has_clock, dump, clock = bool(asked.edges), of.dump, ""
    one = condition(of, 2, has_clock)
    if has_clock and of.happens(.3):
        clock, edges = of.own_clock()
        asked = asked._replace(edges=edges)
    word, text = of.random.choice(["", "never", "always"]), one.text
    after = condition(of, 1, has_clock) if of.happens(.4) else None
    word = "each" if after and has_clock and of.happens(.5) else word
    looks = asked.looks(dump, of.conditions)
    begins = starts(looks, lambda look: one.test(look) != (word == "always" and not after),
                    has_clock, asked.every)
    times = [look.time for look, is_one in zip(looks, begins) if is_one]
    line, facts, note = "", {}, ""  # type: str, Dict[str, int], str
    if after:
        within, span = span_of(of, has_clock)
        text = "%s -> %s within %s" % (one.inside(0), after.inside(0), within)
        refused = word == "always" or of.happens(.5)
        text = "!(%s)" % text if refused and word in ("", "never") else text
        if word == "each":
            its, facts = in_order(looks, one.test, after.test, span, asked.end(dump), is_closed)
            times = [*its["late"], *its["lost"], *its["surplus"]]
            line = ":" + ",".join(" %d %s" % (len(its[what]), words) + (" (%s%s)" % (
                dump.time_text(its[what][0], unit), ", .." * (len(its[what]) > 1))
                if its[what] else "") for what, words in (
                    ("lost", "without an answer"), ("surplus", "without a request"),
                    ("late", late_of(facts, span, of, unit))) if its[what] or what != "late")
        else:
            facts = facts_of(looks, begins, after.test, span, asked.end(dump), is_closed)
            times = times_of(waits(looks, begins, after.test, span, asked.end(dump)), times,
                             refused, is_closed)
        note = note_of(facts, text_of(facts, span, of, unit), name)
    return Rule(name, clock, (word + " " + text).strip(), times, line, facts, note,
                idle(of, looks, asked, word))


def ask_rules(of: Asker) -> None:
    """Asks for many conditions in one pass."""
    dump, asked, unit, is_never = of.dump, question(of), of.unit(.2), of.happens(.4)
    failing, fault = of.maybe(.2, "--open-fails"), of.fault(asked.window)
    rules = [rule_of(of, "rule %d" % number, asked, unit, bool(failing) and not fault)
             for number in range(of.random.randint(1, 6))]
    text = "".join(of.random.choice(["", "# a note\n", "\n"]) + "%s%s: %s\n" % (
        one.name, one.clock, one.text) for one in rules)
    file = of.write(of.path + ".rules", text.encode("utf-8", "surrogateescape"))
    is_json, junit = of.happens(.3), of.path + ".xml"
    words = of.placed([*asked.words, "--rules", file, *["--never"] * is_never, *failing,
                       *["--json"] * is_json, *of.maybe(.3, "--junit", junit),
                       *(["--unit", unit] if unit else [])], [of.path])
    said = run("when", words)
    if of.is_late(asked.window, "rules", words, said, 2):
        return
    held = [one for one in rules if one.times or is_json and one.facts]
    got = all_from_json(said.text) if is_json else said.lines
    # Of the times of requests it is not said which is known first.
    first = {one.name: line.split(": ", 1)[1].partition(",")[0] if not is_json else line["first"]
             for one, line in zip(held, got)}
    wanted: List[Any] = []
    for one in held:
        begin = next((time for time in one.times if one.line and first.get(one.name) == (
            time if is_json else dump.time_text(time, unit))), (one.times or [None])[0])
        wanted.append({"rule": one.name, "first": begin, "count": len(one.times), **one.facts}
                      if is_json else "%s: %s, %d time%s%s" % (
                          one.name, dump.time_text(begin or 0, unit), len(one.times),
                          "s" * (len(one.times) != 1), one.line))
    bad = [one.name for one in rules if bool(one.times) == (is_never or one.has_word)]
    root = xml.parse(junit).getroot() if "--junit" in words else []
    of_kind = {kind: [one.get("name") for one in root if one.find(kind) is not None]
               for kind in ("failure", "skipped", "error")}
    if fault:
        of.same("rules", [*words, text], (said.status, got, said.about), (2, wanted, fault))
        passed = {one.get("name") for one in root} - {*sum(of_kind.values(), [])}
        of.same("rules, the report of a fault", words, passed, set())
        return
    idle_ones = [one.name for one in rules if one.is_idle and not one.times and (
        is_never or one.has_word)]
    warnings, _, end = said.message.partition("vcdkit-when: %d rule%s, " % (
        len(rules), "s" * (len(rules) > 1)))
    odd = [one.note for one in rules if one.facts and (
        one.facts["open"] or not one.facts["requests"] or one.facts.get("overlaps"))]
    of.same("rules", [*words, text], (
        said.status, got, warnings.count("\n"), [one for one in odd if one not in warnings], end), (
            2 if idle_ones else int(bool(bad)), wanted,
            len(odd) + bool(idle_ones), [],
            "" if idle_ones else "not met: %s%s\n" % (
                ", ".join(bad[:3]), ", .." * (len(bad) > 3)) if bad else "all met\n"))
    if "--junit" in words:
        skipped = [one.name for one in rules if one.name not in bad and (
            one.name in idle_ones or one.facts and not one.facts["requests"])]
        of.same("rules, the report", words, of_kind, {
            "failure": bad, "skipped": skipped, "error": ["fault"] * bool(idle_ones)})


# ---- Marks in names.

def ask_marks(of: Asker) -> None:
    """Asks conditions on a name with a mark: unquoted if the pages let it be, else quoted."""
    mark, pattern = of.random.choice(MARKS), of.random.choice(PATHS)
    scope, _, name = (pattern % mark).rpartition(".")
    if mark == '"' or not name or scope not in ("", "tb") or pattern % mark == "." + name:
        raise Skip
    text = "$timescale 1ns $end\n%s$var wire 4 ! %s [3:0] $end\n$enddefinitions $end\n" % (
        "$scope module tb $end\n" * bool(scope), name)
    file = of.write(of.path + ".marks", (text + "#0\nb101 !\n#5\nb1010 !\n#9\n").encode())
    path = quoted(pattern % mark)
    bit = '%s[1]"' % path[:-1] if path[0] == '"' else path + "[1]"
    questions = [(path + " == 5", "0ns"), (path + "==0xa", "5ns"), ("5 <" + path, "5ns"),
                 (bit, "5ns"), ("!(%s & %s==10)" % (path, path), "0ns"),
                 ("signed(%s) < 0" % path, "5ns"), (path + " is not x", "0ns")]
    text, time = of.random.choice(questions)
    of.same("marks", [file, text], run("when", ["--", file, text]), Said(
        0, time.encode() + b"\n", ""))

