"""Asks vcdkit-stats: how signals change, how bits toggle, and SAIF."""
import math
import re
from fractions import Fraction
from typing import Any, Dict, List, NamedTuple, Optional, Sequence, Tuple

from asker import Asker, run
from dumps import Dump, Real, Value, Variable, bare, number
from shown import all_from_json, real_text, same, shown, unsigned


class Pulse(NamedTuple):
    """How long a value stays, and whether it begins and ends in the window."""

    value: Value
    ticks: int
    is_whole: bool


class Facts(NamedTuple):
    """How a signal changes: how often, the pulses, and the periods of a bit or an event, each with
    the ticks for which the bit is 1."""

    changes: int
    pulses: List[Pulse]
    periods: List[Tuple[int, int]]


def states_of(dump: Dump, of: Variable, begin: int, end: int) -> List[Tuple[int, Value]]:
    """Returns the values that are other ones than before, each with its time; the first may be from
    before the window, and has its begin."""
    first = dump.at(begin - 1).get(of.code) if begin else None
    found = [] if first is None else [(begin, first)]
    for step in dump.steps_in(begin, end):
        value = step.end.get(of.code)
        if value is not None and (not found or not same(value, found[-1][1])):
            found.append((step.time, value))
    return found


def facts_of(dump: Dump, of: Variable, begin: int, end: int) -> Facts:
    """Returns how a signal changes in a window."""
    last = dump.end_of(begin, end)
    if of.is_event:
        times = [step.time for step in dump.steps_in(begin, end) if of.code in step.triggers]
        return Facts(len(times), [], [(after - before, 0)
                                      for before, after in zip(times, times[1:])])
    states = states_of(dump, of, begin, end)
    ends = [time for time, _ in states[1:]] + [last]
    pulses = [Pulse(value, until - time, 0 < at < len(states) - 1)
              for at, ((time, value), until) in enumerate(zip(states, ends))]
    return Facts(max(0, len(states) - 1), [one for one in pulses if one.ticks],
                 periods_of(states) if of.size == 1 else [])


def periods_of(states: Sequence[Tuple[int, Value]]) -> List[Tuple[int, int]]:
    """Returns the times from one rise of a bit to the next, without an x or a z in between."""
    found: List[Tuple[int, int]] = []
    rise, high = None, 0
    for (time, value), (after, other) in zip(states, states[1:]):
        high += (after - time) * (value == "1")
        if other not in ("0", "1"):
            rise = None
        elif value == "0" and other == "1":
            if rise is not None:
                found.append((after - rise, high))
            rise, high = after, 0
    return found


def values_of(pulses: Sequence[Pulse], form: Optional[str]) -> List[Tuple[Any, ...]]:
    """Returns each value with its ticks, how often it is there, and its shortest and longest
    pulse: those with most time first, and of equal ones the first."""
    groups: List[List[Pulse]] = []
    for pulse in pulses:
        group = next((one for one in groups if same(one[0].value, pulse.value)), None)
        if group is None:
            groups.append([pulse])
        else:
            group.append(pulse)
    found = []
    for group in groups:
        whole = [one.ticks for one in group if one.is_whole]
        found.append((unsigned(shown(group[0].value, form)), sum(one.ticks for one in group),
                      len(group), min(whole, default=None), max(whole, default=None)))
    return sorted(found, key=lambda one: -int(one[1]))


def range_of(pulses: Sequence[Pulse]) -> Optional[Tuple[float, float, Any]]:
    """Returns the least and the greatest real number, and the exact mean over time."""
    found = [(number(one.value.text), one.ticks) for one in pulses if isinstance(one.value, Real)]
    its = [(real, ticks) for real, ticks in found if real is not None and not math.isnan(real)]
    if not its:
        return None
    infinite = {real for real, _ in its if math.isinf(real)}
    mean: Any = math.nan if len(infinite) > 1 else infinite.pop() if infinite else sum(
        Fraction(real) * ticks for real, ticks in its) / sum(ticks for _, ticks in its)
    return min(its)[0], max(its)[0], mean


def is_near(got: Any, wanted: Any) -> bool:
    """Whether a number is rounded from an exact one. JSON has a text for one that is not finite."""
    if isinstance(got, str) or isinstance(wanted, float):
        return isinstance(got, str) and repr(float(got)) == repr(wanted)
    return got is not None and abs(Fraction(got) - wanted) <= abs(wanted) / 10**9


def ask_glitch(of: Asker) -> None:
    """Asks which signals have short pulses."""
    dump, names, window, unit = of.dump, of.names(2), of.window(), of.unit(.2)
    gaps = [after - before for before, after in zip(dump.times, dump.times[1:])] or [1]
    short = of.random.choice(gaps) * of.random.choice([1, 1, 2, 5]) + of.random.choice([0, 1])
    words = of.placed([*window.words, "--glitch=%d" % short, *(["--unit", unit] if unit else [])],
                      [of.path, *names])
    said = run("stats", words)
    if of.is_late(window, "glitch", words, said) or of.has_fault(window, "glitch", words, said):
        return
    its, found = [one for one in dump.selected(names) if not one.is_event], []
    for one in its:
        states = states_of(dump, one, window.begin, window.end)
        pulses = [(after - time, time) for (time, _), (after, _) in zip(states[1:], states[2:])
                  if after - time < short]
        if pulses:
            found.append((-len(pulses), "%s %d %s %s" % (one.path, len(pulses), *(
                dump.time_text(ticks, unit) for ticks in (min(pulses)[0], pulses[0][1])))))
    of.same("glitch", words, (said.status, said.message, said.lines), (0, "", [
        line for _, line in sorted(found, key=lambda pair: pair[0])] + [
            "%d signal%s, %d with a glitch" % (len(its), "s" * (len(its) != 1), len(found))]))


def ask_stats(of: Asker) -> None:
    """Asks how signals change, in JSON."""
    dump, names, window, (words, form) = of.dump, of.names(2), of.window(), of.form()
    words = of.placed([*words, *window.words, "--json"], [of.path, *names])
    said = run("stats", words)
    if of.is_late(window, "stats", words, said) or of.has_fault(window, "stats", words, said):
        return
    its = dump.selected(names)
    got = all_from_json(said.text)
    if of.same("stats", words, (said.status, said.message, [one["path"] for one in got]),
               (0, "", [one.path for one in its])):
        for one, variable in zip(got, its):
            facts = facts_of(dump, variable, window.begin, window.end)
            same_facts(of, words, one, (variable, facts), form)


def same_facts(of: Asker, words: List[str], got: Dict[str, Any], wanted: Tuple[Variable, Facts],
               form: Optional[str]) -> None:
    """Compares what JSON has of one signal."""
    variable, facts = wanted
    values = [(unsigned(one["value"]), one["ticks"], one["times"], one["shortest"], one["longest"])
              for one in got["values"]]
    of.same("stats", [*words, variable.path], (
        got["type"], got["size"], got["changes"], values), (
            variable.type, variable.size, facts.changes, values_of(facts.pulses, form)))
    total = sum(one.ticks for one in facts.pulses)
    of.same("stats, the shares", [*words, variable.path], [one for one in got["values"] if not
            is_near(one["share"], Fraction(one["ticks"], total or 1))], [])
    lengths, period = [length for length, _ in facts.periods], got["period"]
    wanted_period, duty = None, None
    if lengths:
        wanted_period = {"times": len(lengths), "shortest": min(lengths), "longest": max(lengths),
                         "mean": float(Fraction(sum(lengths), len(lengths)))}
        duty = Fraction(sum(high for _, high in facts.periods), sum(lengths) or 1)
    of.same("stats, the period", [*words, variable.path], period, wanted_period)
    of.same("stats, the duty", [*words, variable.path], got["duty"] is not None and is_near(
        got["duty"], duty), bool(lengths) and not variable.is_event)
    span = range_of(facts.pulses)
    of.same("stats, the range", [*words, variable.path], got["range"] and (
        float(got["range"]["least"]), float(got["range"]["largest"]),
        is_near(got["range"]["mean"], span[2] if span else None)),
        span and (span[0], span[1], True))


# ---- Toggles.

class Toggles(NamedTuple):
    """What a bit does: how often it rises, falls and becomes x, and its ticks at 0, 1, x and z."""

    rises: int
    falls: int
    unknowns: int
    ticks: List[int]


def toggles_of(dump: Dump, of: Variable, begin: int, end: int) -> List[Toggles]:
    """Returns what each bit does in a window, from the left. A bit without a value is x."""
    first = dump.at(begin - 1).get(of.code) if begin else None
    states = [(begin, first or "x" * of.size)] + [
        (step.time, step.end[of.code]) for step in dump.steps_in(begin, end)
        if of.code in step.end]
    ends = [time for time, _ in states[1:]] + [dump.end_of(begin, end)]
    found = []
    for at in range(of.size):
        digits = [str(value[at]) for _, value in states]
        pairs = list(zip(digits, digits[1:]))
        ticks = dict.fromkeys("01xz", 0)
        for digit, (time, _), until in zip(digits, states, ends):
            ticks[digit] += until - time
        found.append(Toggles(pairs.count(("0", "1")), pairs.count(("1", "0")),
                             sum(one != "x" == other for one, other in pairs),
                             list(ticks.values())))
    return found


def all_toggles(dump: Dump, names: Sequence[str], begin: int, end: int
                ) -> List[Tuple[Variable, int, Toggles]]:
    """Returns all bits, each with its variable and its number."""
    return [(one, place, toggles) for one in dump.selected(names)
            if not one.is_event and not one.is_real
            for place, toggles in zip(one.bits, toggles_of(dump, one, begin, end))]


def bit_name(name: str, of: Variable, place: int) -> str:
    """Returns the name of a bit: it has a number if the declaration has some, or it is one of
    several."""
    return "%s[%d]" % (bare(name), place) if of.size > 1 or of.is_numbered else name


def ask_toggle(of: Asker) -> None:
    """Asks how often bits toggle."""
    dump, names, window, is_json = of.dump, of.names(3), of.window(), of.happens(.5)
    is_never = of.happens(.4)
    words = of.placed([*window.words, "--never-toggled" if is_never else "--toggle",
                       *["--json"] * is_json], [of.path, *names])
    said = run("stats", words)
    if is_never and (window.begin > dump.end or of.fault(window)):
        of.same("toggle, a fault", words, (said.status, said.output), (2, b""))
        return
    if of.is_late(window, "toggle", words, said) or of.has_fault(window, "toggle", words, said):
        return
    every = all_toggles(dump, names, window.begin, window.end)
    bits = [one for one in every if not is_never or one[2].rises + one[2].falls == 0]
    if is_never and not every:
        of.same("toggle, no bit", words, (said.status, said.output), (2, b""))
        return
    wanted: List[Any] = [(bit_name(one.path, one, place), *toggles[:3])
                         for one, place, toggles in bits]
    if is_json:
        got: List[Any] = [tuple(row.values()) for row in all_from_json(said.text)]
        wanted = [(one.path, place if one.size > 1 or one.is_numbered else None, *toggles[:3])
                  for one, place, toggles in bits]
    else:
        got = [(name, *map(int, counts)) for *parts, rises, falls, unknowns in
               (line.split(" ") for line in said.lines[:-1])
               for name, counts in [(" ".join(parts), (rises, falls, unknowns))]]
        both = sum(one.rises > 0 and one.falls > 0 for _, _, one in every)
        never = sum(one.rises + one.falls == 0 for _, _, one in every)
        of.same("toggle, the sum", words, said.lines[-1:], [
            "%d bit%s: %d rise and fall, %d do one of these, %d do neither" % (
                len(every), "s" * (len(every) != 1), both, len(every) - both - never, never)])
    wanted.sort(key=lambda row: -(row[-3] + row[-2]))  # those that toggle most come first
    of.same("toggle", words, (said.status, said.message, got), (
        int(is_never and bool(bits)), "", wanted))


# ---- SAIF.

def saif_of(text: str) -> Tuple[Dict[str, List[str]], List[Tuple[Any, ...]]]:
    """Returns the head of a SAIF file, and its nets, each with the names of its instances."""
    words = iter(re.findall(r'"(?:\\.|[^"\\])*"|[()]|(?:\\.|[^\s()"\\])+', text))

    def node() -> List[Any]:
        found: List[Any] = []
        for word in words:
            if word == ")":
                return found
            found.append(node() if word == "(" else word)
        return found

    def plain_name(name: str) -> str:
        return re.sub(r"\\(.)", r"\1", name)

    def nets_of(instance: List[Any], chain: Tuple[str, ...]) -> List[Tuple[Any, ...]]:
        found = []
        for one in instance:
            if one[0] == "INSTANCE":
                found += nets_of(one[2:], (*chain, plain_name(one[1])))
            elif one[0] == "NET":
                found += [(chain, plain_name(name), *(int(count) for _, count in counts))
                          for name, *counts in one[1:]]
        return found
    top, = node()
    return {one[0]: one[1:] for one in top[1:] if one[0] not in ("INSTANCE", "NET")}, nets_of(
        top[1:], ())


def unescaped(name: str) -> str:
    """Returns a name without the backslash that begins an escaped one."""
    return name[name.startswith("\\"):]


def ask_saif(of: Asker) -> None:
    """Asks for a SAIF file."""
    dump, names, window = of.dump, of.names(3), of.window()
    words = of.placed([*window.words, "--saif", "-"], [of.path, *names])
    said = run("stats", words)
    if of.is_late(window, "saif", words, said) or of.has_fault(
            window, "saif", words, said) or not of.same(
                "saif", words, (said.status, said.message), (0, "")):
        return
    head, nets = saif_of(said.text)
    order = {chain: at for at, chain in enumerate([(), *dump.chains()])}
    bits = sorted(all_toggles(dump, names, window.begin, window.end),
                  key=lambda bit: (order[bit[0].chain], bit[0].place))
    of.same("saif, the nets", words, nets, [
        (tuple(map(unescaped, one.chain)), unescaped(bit_name(one.name, one, place)),
         *toggles.ticks, toggles.rises + toggles.falls, 0) for one, place, toggles in bits])
    scale = dump.scale or (1, "s")
    of.same("saif, the head", words, (head["TIMESCALE"], head["DURATION"]),
            ([str(scale[0]), scale[1]], [str(dump.end_of(window.begin, window.end)
                                             - window.begin)]))


# ---- The text.

def ask_text(of: Asker) -> None:
    """Asks whether the text says what JSON says."""
    dump, names, window = of.dump, of.names(2), of.window(.3)
    words, unit, most = of.form()[0] + window.words, of.unit(.2), of.random.choice([0, 1, 3, 10])
    if window.begin > dump.end or of.fault(window):
        return
    wanted = []
    for one in all_from_json(run("stats", [*words, "--json", of.path, "--", *names]).text):
        wanted += lines_of(one, lambda time: dump.time_text(time, unit), most, dump.mean_text(
            Fraction(one["period"]["mean"]), unit) if one["period"] else "")
    words = of.placed([*words, *(["--unit", unit] if unit else []), *(
        ["--values", str(most)] if most != 10 else [])], [of.path, *names])
    said = run("stats", words)
    of.same("stats, the text", words, (said.status, said.lines), (0, wanted))


def lines_of(facts: Dict[str, Any], time: Any, most: int, mean: str) -> List[str]:
    """Returns the lines of a signal."""
    found = ["%s %s %d" % (facts["path"], facts["type"], facts["size"]),
             "  changes %d" % facts["changes"]]
    period, span, values = facts["period"], facts["range"], facts["values"]
    if period:
        found.append("  period %s to %s, mean %s, %d time%s" % (
            time(period["shortest"]), time(period["longest"]), mean, period["times"],
            "s" * (period["times"] != 1)))
    if facts["duty"] is not None:
        found.append("  duty %.4g%%" % (facts["duty"] * 100))
    if span:
        found.append("  range %s to %s, mean %g" % (
            *(real_text(float(span[one])) for one in ("least", "largest")), float(span["mean"])))
    for one in values[:most]:
        found.append("  value %s %s %.4g%%, %d time%s" % (
            one["value"], time(one["ticks"]), one["share"] * 100, one["times"],
            "s" * (one["times"] != 1)))
        if one["shortest"] is not None:
            found[-1] += ", %s to %s" % (time(one["shortest"]), time(one["longest"]))
    rest = len(values) - most
    return found + ["  and %d other value%s" % (rest, "s" * (rest != 1))] * (rest > 0)
