"""The times at which a condition holds, and how long answers take."""
import collections
import functools
import math
import re
from typing import (Any, Deque, Dict, Iterator, List, NamedTuple, Optional,
                    Sequence, Tuple)

from ..errors import DumpFault, UnknownName, UsageError
from ..model.signals import Signal
from ..model.values import Row
from ..reading.source import Edge, Source
from ..reading.strobes import at_clocks
from .condition import NAME_A_CLOCK, Condition, Conditions
from .expression import Span
from .rows import Cells, edges_of, first_ones

MAX_WAITING = 1_000_000  # starts without an answer, or open transactions
Numbers = Tuple[int, ...]  # of conditions
# When a request begins, when its answer comes, `None` if none comes in time, and how long that is:
# in edges if the condition counts them, else in ticks.
Outcome = Tuple[int, Optional[int], int]
# A time at which a condition holds: how many edges its clock and that of the next condition had up
# to there, and the values.
Transfer = Tuple[int, int, Row]
Transaction = List[Optional[Transfer]]  # of each condition one; `None` for none
SEVERAL = "bad condition: -> is of several times, and a row has one"


class Asked(NamedTuple):
    """A condition that is asked: its name, and its place in a file, with which messages begin; its
    clock, a path, behind a ! if it is looked at where that falls, or empty for that of all; and the
    word before it as a rule: it may hold at no time (never), or has to at each (always), else at
    some time. With each, the n-th answer belongs to the n-th request; those alone are listed."""

    name: str
    condition: str
    clock: str = ""
    word: str = ""
    place: str = ""

    @property
    def text(self) -> str:
        """The condition whose times are listed: with always, that it does not hold."""
        if self.word != "always":
            return self.condition
        has_answer = "->" in re.sub('"[^"]*"', "", self.condition)
        return ("!(%s)" if has_answer else "!(%s) !== 1'b0") % self.condition

    @property
    def front(self) -> str:
        """The begin of messages."""
        return self.name and self.place + self.name + ": "

    def is_met(self, found: bool, is_never: bool) -> bool:
        """Whether the rule is met, if its list has times."""
        return found != (is_never or bool(self.word))


def named(text: str, place: str = "") -> Tuple[str, str]:
    """Reads NAME, or NAME@CLOCK, of a rule or a channel, which is at a place."""
    name, sign, clock = text.partition("@")
    if sign and not clock.strip("!"):
        raise UsageError("%s%s: write a clock behind @, as %s@tb.clk" % (place, text, name))
    return name, clock


class Question:
    """A condition that is asked, and its requests that wait for an answer."""

    def __init__(self, asked: Asked, condition: Condition, ticks: int, clock: int):
        self.asked, self.condition, self.ticks, self.clock = asked, condition, ticks, clock
        self.has_time = bool(condition.span and condition.span.unit)  # and counts no edges
        self.least = condition.span.least if condition.span else 0
        self.in_order = asked.word == "each"
        # All requests, those that began before the answer of the one before, and by how much the
        # latest answer was late.
        self.requests = self.overlaps = self.latest = self._looks = 0
        self.is_refusal = condition.is_refusal or self.in_order
        # When requests began that wait, and until when they wait: a time, or a count of edges; then
        # those that waited too long, and have no answer so far.
        self.waiting: Deque[Tuple[int, int]] = collections.deque()
        self.lost: Deque[Tuple[int, int]] = collections.deque()
        # The times of requests whose answer was late, and of answers without a request.
        self.late, self.surplus = [], []  # type: List[int], List[int]

    def look(self, time: int, starts: int, holding: int) -> List[Outcome]:
        """Returns the requests that get their answer at a time, and those that get none. Of all
        conditions, some begin to hold there, and some hold."""
        waiting, bits = self.waiting, self.condition
        now = time if self.has_time else self._looks
        self._looks += 1
        found = self.over(now)
        if starts & bits.bit:
            self.requests += 1
            self.overlaps += bool(waiting)
            waiting.append((time, now + self.ticks))
        answers = holding & bits.answer
        while answers and waiting and waiting[0][1] <= now + self.ticks - self.least:
            begin, until = waiting.popleft()
            found.append((begin, time, now - until + self.ticks))
            answers &= -(not self.in_order)
        if answers and self.lost:
            self.latest = max(self.latest, now - self.lost[0][1])
            for _ in range(1 if self.in_order else len(self.lost)):
                self.late.append(self.lost.popleft()[0])
        elif answers and self.in_order:
            self.surplus.append(time)
            found.append((time, None, 0))
        if not self.has_time:  # each edge is looked at once
            found += self.over(now + 1)
        if len(waiting) > MAX_WAITING:
            raise UsageError("more than %d times wait for an answer: give a shorter time"
                             % MAX_WAITING)
        return found

    def over(self, now: float) -> List[Outcome]:
        """Returns the requests that waited until a time before this one."""
        found: List[Outcome] = []
        while self.waiting and self.waiting[0][1] < now:
            self.lost.append(self.waiting.popleft())
            found.append((self.lost[-1][0], None, 0))
        return found

    def facts(self) -> Dict[str, int]:
        """Returns how many requests there are, and what became of those not answered in time."""
        if not self.condition.answer:
            return {}
        of_one = {"surplus": len(self.surplus)} if self.in_order else {"overlaps": self.overlaps}
        return {"requests": self.requests, "late": len(self.late), "lost": len(self.lost), **of_one,
                "open": len(self.waiting), "latest": self.latest}


class Questions:
    """Conditions that are asked in one pass over a dump."""

    def __init__(self, dump: Source, rules: Sequence[Sequence[Any]], rise: Optional[str],
                 fall: Optional[str], every: bool, columns: Sequence[List[Signal]] = (),
                 open_fails: bool = False):
        """Rules are as Asked. The first ones may have columns, whose values are asked for. Requests
        that are open at the end may count as without an answer."""
        self.dump, self.clocks = dump, []  # type: Source, List[str]
        self._open_fails, self._evaluated = open_fails, 0  # conditions with a known value
        its = [Asked(*rule) for rule in rules]
        # The bits of the clocks: the first is that of the rules without an own one.
        bits = {name: 1 << at for at, name in enumerate(dict.fromkeys(
            ["", *(one.clock for one in its)]))}
        if every and (rise, fall) == (None, None) and not all(one.clock for one in its):
            raise UsageError("to list every edge, " + NAME_A_CLOCK)
        self.columns, self.cells = columns, [Cells(its) for its in columns]
        self.conditions, self.again = Conditions(dump), -1 if every else 0
        self.each: List[Question] = []
        self.edges: Dict[Edge, int] = {}
        has_clock = (rise, fall) != (None, None)
        self._of_clock = dict.fromkeys(bits.values(), 0)  # the conditions at its edges
        self.counts = dict.fromkeys(bits.values(), 0)  # how many edges each clock had
        for asked in its:
            try:
                clock = bits[asked.clock] if asked.clock or has_clock else 0
                if asked.clock:
                    name, is_fall = asked.clock.lstrip("!"), asked.clock[:1] == "!"
                    self._add_edges(clock, *((None, name) if is_fall else (name, None)))
                elif not has_clock and (len(bits) > 1 or asked.word == "each"):
                    raise UsageError("it has no clock: %s, or write NAME@CLOCK" % NAME_A_CLOCK)
                one = self.conditions.add(asked.text, clock)
                if columns and one.answer:
                    raise UsageError(SEVERAL)
                if asked.word == "each" and (not one.answer or one.is_refusal):
                    raise UsageError("bad condition: each is as in each req -> ack within 5")
                ticks = _ticks_of(one.span, dump, bool(clock))
            except (UsageError, UnknownName) as error:
                error.args = ("%s%s" % (asked.front, error),)
                raise
            self.each.append(Question(asked, one, ticks, clock))
            self._of_clock[clock or 1] |= one.bit | one.answer
            self.again |= one.bit if asked.word == "each" else 0
        self._add_edges(1, rise, fall)
        self._answering = sum(one.condition.bit for one in self.each if one.condition.answer)

    def _add_edges(self, clock: int, rise: Optional[str], fall: Optional[str]) -> None:
        """Adds the edges of a clock."""
        for edge in edges_of(self.dump, rise, fall):
            self.clocks.append(edge[0])
            self.edges[edge] = self.edges.get(edge, 0) | clock

    def outcomes(self) -> Iterator[Tuple[Numbers, Outcome]]:
        """Returns what becomes of each condition, with its number, as soon as that is known. Those
        without an answer that begin to hold at a time come as one. Of requests that wait at the
        end, those are late whose time is over there."""
        try:
            yield from self._known()
            fault = None
        except DumpFault as error:
            fault = error
        for number, its in enumerate(self.each):
            untils = [until for _, until in its.waiting if its.has_time]
            late = first_ones(untils, self.dump.is_over(fault)) if untils else []
            end = math.inf if self._open_fails and not fault else late[-1] + 1 if late else 0
            yield from (((number,), one) for one in its.over(end))
        if fault:
            raise fault

    def idle(self, number: int) -> str:
        """Returns why a condition was never evaluated; an empty text if it was. That an event is
        not triggered is known at each time, but what has to hold `always` needs a trigger."""
        one = self.each[number]
        is_found = self._evaluated & one.condition.bit or one.surplus  # an answer may hold of x
        is_known = is_found or one.asked.word != "always" and (
            self.conditions.with_events & one.condition.bit and self.dump.check().last is not None)
        why = ("its clock has no edge" if one.clock and not self.counts[one.clock] else
               "" if is_known else "none of its signals has a value or a trigger")
        return why and why + " in this window, so it was never evaluated"

    def times(self) -> Iterator[Tuple[int, Numbers]]:
        """Returns the times at which conditions hold, with their numbers: a request has its answer
        in time, or has none, as is asked for."""
        refusals = [one.is_refusal for one in self.each]
        for numbers, (begin, answer, _) in self.outcomes():
            if (answer is None) == refusals[numbers[0]]:
                yield begin, numbers

    def transactions(self) -> Iterator[Transaction]:
        """Returns the n-th edges of all conditions that have columns, for each n, as soon as they
        are there; at the end or at a fault, those that are left. Where one without columns holds,
        the edge does not count, and none is left."""
        waiting: List[Deque[Transfer]] = [collections.deque() for _ in self.columns]
        clocks = [one.clock for one in self.each]
        pairs = list(zip(clocks, [*clocks[1:], clocks[-1]]))
        fault: Optional[DumpFault] = None
        try:
            for time, numbers in self.times():
                is_flush = numbers[-1] >= len(waiting)
                while is_flush and any(waiting):
                    yield [its.popleft() if its else None for its in waiting]
                for at in () if is_flush else numbers:
                    counts = [self.counts[one] for one in pairs[at]]
                    waiting[at].append((counts[0], counts[1], Row(time, self.cells[at].row[:])))
                    if len(waiting[at]) > MAX_WAITING:
                        raise UsageError("more than %d transactions are open" % MAX_WAITING)
                if all(waiting):
                    yield [its.popleft() for its in waiting]
        except DumpFault as error:
            fault = error
        while any(waiting):
            yield [its.popleft() if its else None for its in waiting]
        if fault:
            raise fault

    def _known(self) -> Iterator[Tuple[Numbers, Outcome]]:
        """Returns the outcomes that are known before the end of the dump."""
        conditions, holding, held = self.conditions, self.conditions.compiled(), 0
        plain = sum(one.condition.bit for one in self.each if not one.condition.answer)
        numbers_of = functools.lru_cache(maxsize=1 << 12)(lambda bits: tuple(
            at for at, one in enumerate(self.each) if bits & one.condition.bit))
        for time, due, clocks in self._looks():
            now = holding(due)
            self._evaluated |= now
            starts = now & (~held | self.again)
            held = held & ~due | now
            if starts & plain:
                yield numbers_of(starts & plain), (time, time, 0)
            for number in numbers_of(due & self._answering):
                for outcome in self.each[number].look(time, starts, now):
                    yield (number,), outcome
            over = conditions.with_more and conditions.end(clocks)
            if over and not self.edges:  # the events are over
                held = held & ~over | holding(over)

    def _looks(self) -> Iterator[Tuple[int, int, int]]:
        """Returns each time at which conditions are looked at, those of which a value is another
        one there, or that may say something at each edge, and the clocks of which they are; they
        have the values there."""
        conditions = self.conditions
        columns = [one for its in self.columns for one in its]
        names = [*dict.fromkeys([*conditions.paths, *self.clocks, *(one.path for one in columns)])]
        codes = {*conditions.over, *(one.code.encode() for one in columns)}
        always = self.again | conditions.with_more if self.edges else 0
        due = -1 if self.edges else 0
        known = conditions.with_events if self.edges else 0
        conditions.look_back(self.edges)
        looks = at_clocks(self.dump, names, codes, self.edges)
        for time, changes, clocks in conditions.woken(looks) if conditions.ages and (
                not self.edges) else looks:
            for cells in self.cells:
                cells.take(changes)
            found = conditions.take(changes, time)
            known, due = known | found, due | found | always
            some = 0 if clocks else -1
            for bit, its in self._of_clock.items():
                if bit & clocks:
                    some |= its
                    self.counts[bit] += 1
            self._evaluated |= known & some
            yield time, due & some, clocks
            due &= ~some


def state(dump: Source, text: str, has_clock: bool) -> Conditions:
    """Returns a condition that holds at a time or does not."""
    found = Conditions(dump)
    if found.add(text, int(has_clock)).answer:
        raise UsageError(SEVERAL)
    return found


def _ticks_of(span: Optional[Span], dump: Source, has_clock: bool) -> int:
    """Returns how many ticks a wait is long; of edges how many there are."""
    if span is None:
        return 0
    if not span.unit and not has_clock:
        raise UsageError("within %s counts edges: %s, or give a time, such as %sns" % (
            span.text, NAME_A_CLOCK, span.number))
    return dump.span(span.number + span.unit.replace("tick", ""))
