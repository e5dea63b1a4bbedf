"""When a condition is evaluated, when it holds, which answer a request gets, and which transfers
are a transaction."""
from typing import Dict, Iterable, List, NamedTuple, Optional, Sequence, Set, Tuple

from conditions import Test, dates
from dumps import LAST, Dump, State, Step, Value, Variable
from shown import same

Edges = Set[Tuple[str, str, str]]  # a code, and the digits from which and to which it goes
Span = Tuple[bool, int, int]  # of edges (True) or ticks (False) the least and the greatest number


class Look(NamedTuple):
    """A time at which values are looked at: the values, the events that count then, and the look at
    the edge before."""

    time: int
    values: State
    events: Set[str]
    before: Optional["Look"] = None


class Wait(NamedTuple):
    """A request, the time of its answer (None if it is late), and how long that takes."""

    time: int
    answer: Optional[int]
    length: int


def state_before(step: Step, edges: Edges) -> Optional[State]:
    """Returns the values just before the first edge of a time, if it has one: an edge is two values
    in a row that a code is given. First values in a `$dumpvars` count if they come before it."""
    last = {code: step.before[code] for code in step.known}
    found = dict(last)
    for one in step.changes:
        if (one.code, last.get(one.code), one.value) in edges:
            return found
        if one.code not in last and one.section == "$dumpvars":
            found[one.code] = one.value
        last[one.code] = one.value
    return None


def looks_at_edges(dump: Dump, edges: Edges, begin: int = 0, end: int = LAST,
                   among: Optional[Edges] = None) -> List[Look]:
    """Returns the edges of a window up to a fault, with the values just before them, or before the
    first one among these of their time. An event counts if it was triggered since the last edge,
    and in the window. The first edge of the window has the edge before it, if the dump has one."""
    found: List[Look] = []
    events: Set[str] = set()
    is_inside = False
    for step in dump.steps_in(0, end):
        if step.time >= begin and not is_inside:
            is_inside, events = True, set()
        before = state_before(step, edges)
        if before is not None:
            before = state_before(step, among or edges)
            found.append(Look(step.time, before or {}, events, found[-1] if found else None))
            events = set()
        events = events | step.events
    return [one for one in found if one.time >= begin]


def looks_at_changes(dump: Dump, codes: Set[str], begin: int = 0, end: int = LAST,
                     ages: Iterable[Tuple[str, int]] = ()) -> List[Look]:
    """Returns the begin of a window that does not begin at 0, if one of the codes has a value
    there, and each time in it of which the codes have a value or a trigger, with the values at its
    end; also those at which codes have certain ages."""
    end = min(end, dump.finished)
    last = min(end, dump.end)
    has_begin = 0 < begin <= end and not codes.isdisjoint(dump.at(begin))
    first = [Look(begin, dump.at(begin), dump.events_at(begin))] if has_begin else []
    found = first + [Look(step.time, step.end, step.events) for step in dump.steps_in(begin, end)
                     if codes & step.codes and (step.time > begin or not has_begin)]
    known = {look.time for look in found}
    dues = {time + age for code, age in ages for time in dates(dump, code, end)} - known
    return sorted(found + [Look(due, dump.at(due), set()) for due in dues
                           if begin < due <= last], key=lambda look: look.time)


def rows_at_changes(dump: Dump, columns: Sequence[Variable], begin: int, end: int,
                    is_window: bool) -> List[Tuple[Look, List[Optional[Value]]]]:
    """Returns a row for each time at whose end a value is another one than at the end of the time
    before, and for the begin of a window."""
    found = []
    last: List[Optional[Value]] = [None] * len(columns)
    times = {step.time for step in dump.steps_in(begin, end)} | ({begin} if is_window else set())
    for time in sorted(time for time in times if time <= dump.finished):
        look = Look(time, dump.at(time), dump.events_at(time))
        values = [look.values.get(one.code) for one in columns]
        if not all(map(same, last, values)):
            found.append((look, values))
        last = values
    return found


def holds(test: Test, look: Look) -> bool:
    """Whether a condition holds."""
    return test(look)


def starts(looks: Sequence[Look], test: Test, is_clocked: bool, every: bool = False
           ) -> List[bool]:
    """Returns at which looks a condition begins to hold; with `every`, at which it holds. Between
    two looks without a clock, no event is triggered."""
    found, held = [], False
    for look in looks:
        now = holds(test, look)
        found.append(now and (every or not held))
        held = now if is_clocked else holds(test, look._replace(events=set()))
    return found


def waits(looks: Sequence[Look], begins: Sequence[bool], answer: Test, span: Span, end: int
          ) -> List[Wait]:
    """Returns the requests that get an answer in time, and those that are late; not those that the
    end leaves open."""
    is_edges, least, most = span
    found = []
    for at, look in enumerate(looks):
        if not begins[at]:
            continue
        lengths = [(other - at if is_edges else its.time - look.time, its)
                   for other, its in enumerate(looks) if other >= at]
        answers = [one for one in lengths if least <= one[0] <= most and holds(answer, one[1])]
        if answers:
            found.append(Wait(look.time, answers[0][1].time, answers[0][0]))
        elif at + most < len(looks) if is_edges else look.time + most <= end:
            found.append(Wait(look.time, None, 0))
    return found


def facts_of(looks: Sequence[Look], begins: Sequence[bool], answer: Test, span: Span, end: int,
             is_closed: bool = False) -> Dict[str, int]:
    """Returns how many requests there are, and how many of them get an answer that is late, or
    none, or are open at the end (none if `is_closed`: these have none); then by how much the latest
    answer is late."""
    places = {look.time: at for at, look in enumerate(looks)}
    found = waits(looks, begins, answer, span, end)
    lengths = [[at - places[one.time] if span[0] else look.time - one.time
                for at, look in enumerate(looks) if look.time > one.time and holds(answer, look)]
               for one in found if one.answer is None]
    late = [min(one for one in its if one > span[2]) - span[2]
            for its in lengths if its and its[-1] > span[2]]
    left = sum(begins) - len(found)
    return {"requests": sum(begins), "overlaps": overlaps(looks, begins, answer, span),
            "late": len(late),
            "lost": len(lengths) - len(late) + left * is_closed, "open": left * (not is_closed),
            "latest": max(late, default=0)}


def in_order(looks: Sequence[Look], before: Test, after: Test, span: Span, end: int,
             is_closed: bool = False) -> Tuple[Dict[str, List[int]], Dict[str, int]]:
    """Returns the times of requests without an answer, and with one that is late, and of answers
    without a request, if each answer belongs to the first request that still waits, if it is not
    too early for that, else to the first one that waited too long; then the facts of requests. If
    `is_closed`, those open at the end are without an answer."""
    of: Dict[str, List[int]] = {"late": [], "lost": [], "surplus": []}
    waiting, over = [], []  # type: List[Tuple[int, int]], List[Tuple[int, int]]
    is_edges, least, most = span
    count = latest = 0
    for at, look in enumerate([*looks, Look(end + 1, {}, set())]):
        now = at if is_edges else look.time
        while waiting and waiting[0][0] + most < now:
            over.append(waiting.pop(0))
        if at < len(looks) and holds(before, look):
            count += 1
            waiting.append((now, look.time))
        if at < len(looks) and holds(after, look):
            if waiting and waiting[0][0] + least <= now:
                waiting.pop(0)
            elif over:
                latest = max(latest, now - over[0][0] - most)
                of["late"].append(over.pop(0)[1])
            else:
                of["surplus"].append(look.time)
    of["lost"] = [time for _, time in [*over, *waiting * is_closed]]
    return of, {"requests": count, "open": len(waiting) * (not is_closed), "latest": latest,
                **{what: len(times) for what, times in of.items()}}


def transfers(each: Sequence[Sequence[Look]], tests: Sequence[Test], flushes: Sequence[int] = ()
              ) -> List[List[Optional[Tuple[int, Look]]]]:
    """Returns the lines of transactions: in the n-th are the n-th looks at which the tests hold,
    each with the number of the look; each test has its own looks. At each flush, they begin
    anew."""
    lines: List[List[Optional[Tuple[int, Look]]]] = []
    for begin, end in zip([-1, *flushes], [*flushes, LAST + 1]):
        first = len(lines)
        for column, (looks, test) in enumerate(zip(each, tests)):
            line = first
            for number, look in enumerate(looks):
                if begin < look.time < end and holds(test, look):
                    if line == len(lines):
                        lines.append([None] * len(tests))
                    lines[line][column] = number, look
                    line += 1
    return lines


def overlaps(looks: Sequence[Look], begins: Sequence[bool], answer: Test, span: Span) -> int:
    """Returns how many requests begin while another one still waits for its answer."""
    places = [at for at, is_one in enumerate(begins) if is_one]
    return sum((other - one if span[0] else looks[other].time - looks[one].time) <= span[2]
               and not any(holds(answer, look) for look in looks[one + span[1]:other])
               for one, other in zip(places, places[1:]))
