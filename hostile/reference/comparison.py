"""What vcdkit-compare has to write, by the definitions of a comparison (docs/DEFINITIONS.md), over
whole dumps. Like evaluator.py, with which it reads dumps, it is plain and slow, looks back in
lists, and shares nothing with the program.

within(asked, names, name, text) is the outcome of two parts of one dump, and
compared(asked, names, texts) that of two dumps: output, message and status. A text is the bytes of
an input, and its name is for messages. answered(asked, names, name, text) is what the program
leaves, which refuses some of what is asked for."""
from collections import Counter

from .evaluator import (MOST_DECLARATIONS, Fault, Tokens, marks, placed, read_head, read_items,
                       read_items_of, scale_text, selects, told, value_of)

FIRST, EACH_PAIR, ALWAYS = "first", "each pair", "always"


class Asked:
    """What is compared: the names of two dumps (none: all) and the exceptions; the first and the
    last time, in ticks of the first dump; which lines are due; and in which of the two an x, or a
    value that is not there yet, matches everything."""

    def __init__(self, names=(), exceptions=(), begin=0, end=2**64 - 1, extent=EACH_PAIR,
                 loose=(False, False)):
        self.names, self.exceptions = list(names), list(exceptions)
        self.begin, self.end, self.extent, self.loose = begin, end, extent, loose

    def leaves_in(self, path):
        return not any(selects(path, one) for one in self.exceptions)

    def is_for(self, path):
        return self.leaves_in(path) and (
            not self.names or any(selects(path, one) for one in self.names))


# ---- which variables are compared

class Named:
    """A variable: its path, its range, how many before it have both, how lines name it, and what
    two variables must have in common to be compared."""

    def __init__(self, path, row):
        _, type_, size, self.code, reference = row
        self.path, self.event = path, type_ == b"event"
        self.range = b"".join(reference[1:])
        self.nth, self.name, self.is_only = 0, path, True
        self.kind = (b"event" if self.event else b"real" if type_.startswith(b"real")
                     or type_ == b"shortreal" else b"%d" % size)


def all_named(head):
    """All variables of a header, in order."""
    found = [Named(path, head.rows[row]) for row, path, _ in head.variables()]
    paths, both = Counter(one.path for one in found), Counter()
    for one in found:
        one.nth = both[one.path, one.range]
        both[one.path, one.range] += 1
        one.is_only = paths[one.path] == 1
        if not one.is_only:
            one.name = one.path + one.range
    return found


def counterpart(others, one, path):
    """The variable at a path with the same range, and as many of both before it; else the only one
    there, if this is the only one of its path, and one of the two has no range."""
    there = others.get(path, [])
    for other in there:
        if (other.range, other.nth) == (one.range, one.nth):
            return other
    if one.is_only and len(there) == 1 and not (one.range and there[0].range):
        return there[0]
    return None


def by_path(variables):
    """Variables by their paths."""
    found = {}
    for one in variables:
        found.setdefault(one.path, []).append(one)
    return found


def places_of(asked, head, name, other):
    """Of each variable that the name selects what the other name has in its place, or None."""
    variables = all_named(head)
    at = by_path(variables)
    return [(one, counterpart(at, one, other + one.path[len(name):]))
            for one in variables if selects(one.path, name) and asked.leaves_in(one.path)]


def partners(asked, head, other):
    """Of each variable of a header that is asked for its partner in the other one, or None."""
    its = by_path(all_named(other))
    return [(one, counterpart(its, one, one.path))
            for one in all_named(head) if asked.is_for(one.path)]


def lines_alone(letter, places):
    return b"".join(b"alone %s %s\n" % (letter, one.path + one.range) for one, other in places if not other)


def lines_size(places):
    return b"".join(b"size %s %s %s\n" % (one.name, one.kind, other.kind)
                    for one, other in places if other and one.kind != other.kind)


def fit(places):
    """The pairs whose values are compared."""
    return [(one, other) for one, other in places if other and one.kind == other.kind]


# ---- the state of a variable at a time

class Side:
    """A dump, or what of it comes before a fault: so many ticks of both are one of its own."""

    def __init__(self, head, items, scale=1, is_whole=True):
        self.scale, self.is_whole = scale, is_whole
        self.marks = [scale * time for time in marks(items)]
        self.end = max(self.marks, default=0)
        self.changes = {code: [] for code in head.codes}
        for item, time, inside in placed(items):
            if item.kind == "change":
                self.changes[item.code].append(
                    (scale * time, inside, value_of(item, head.codes)))

    def is_past(self, time):
        """Whether the dump has come past a time: it has a later timestamp, or ends there."""
        return any(time < mark for mark in self.marks) or (self.is_whole and time <= self.end)

    def state(self, variable, time):
        """The value after all changes up to a time; of an event whether it is triggered then."""
        changes = self.changes[variable.code]
        if variable.event:
            triggered = any(at == time and not inside for at, inside, _ in changes)
            return ("digits", b"1") if triggered else None
        return next((value for at, _, value in reversed(changes) if at <= time), None)

    def changes_at(self, variable, time):
        return any(at == time for at, _, _ in self.changes[variable.code])


def digits_match(one, other, loose):
    return one == other or (loose[0] and one == ord("x")) or (loose[1] and other == ord("x"))


def match(one, other, loose):
    """Whether two values match. A value that is not there yet is like one of x only."""
    if one is None or other is None:
        return one is other or loose[0 if one is None else 1]
    if one[0] != other[0] or one[0] == "real":
        return one == other
    return len(one[1]) == len(other[1]) and all(
        digits_match(a, b, loose) for a, b in zip(one[1], other[1]))


def shown(value):
    return b"-" if value is None else b"r" + value[1] if value[0] == "real" else value[1]


# ---- the lines of values

def differing(asked, sides, pairs, time):
    """The pairs whose states do not match at a time."""
    return [(one, other) for one, other in pairs
            if not match(sides[0].state(one, time), sides[1].state(other, time),
                         (False, False) if one.event else asked.loose)]


def times_of(asked, sides):
    """The first time that is asked for, and each timestamp, in the window."""
    scale = sides[0].scale
    every = {scale * asked.begin, *sides[0].marks, *sides[1].marks}
    return sorted(time for time in every if scale * asked.begin <= time <= scale * asked.end)


def value_lines(asked, sides, pairs, times):
    """The lines of values at these times, each with its time."""
    scale, found, had = sides[0].scale, [], set()
    for time in times:
        if asked.extent == FIRST and found:
            break
        for one, other in differing(asked, sides, pairs, time):
            if asked.extent == EACH_PAIR and (one, other) in had:
                continue
            if asked.extent == ALWAYS and not (
                    time == scale * asked.begin or sides[0].changes_at(one, time)
                    or sides[1].changes_at(other, time)):
                continue
            had.add((one, other))
            found.append((time, b"differs %d %s %s %s\n" % (
                time // scale, one.name, shown(sides[0].state(one, time)),
                shown(sides[1].state(other, time)))))
    return found


def joined(lines):
    return b"".join(line for _, line in lines)


# ---- outcomes

def answer(pairs, lines):
    """All lines. Nothing that was compared is no answer "no difference"."""
    return lines + b"compared %d\n" % len(pairs), b"", 0 if pairs and not lines else 1


def failed(output, name, fault):
    """A fault: status 2, or 3 if a read failed."""
    output, message, status = told(output, name, fault)
    return output, message, 2 if status == 1 else status


def within(asked, names, name, text, limit=1_048_576):
    """The outcome of two parts of one dump, whose names come in pairs."""
    tokens = Tokens(text, limit)
    try:
        head = read_head(tokens, MOST_DECLARATIONS)
    except Fault as fault:
        return failed(b"", name, fault)
    items, fault = read_items(tokens, head.codes)
    side = Side(head, items)
    places = [places_of(asked, head, *one) for one in names]
    front = (b"".join(lines_alone(b"A", of) for of in places)
             + b"".join(lines_alone(b"B", places_of(asked, head, other, one))
                        for one, other in names)
             + b"".join(map(lines_size, places)))
    pairs = [pair for of in places for pair in fit(of)]
    lines = value_lines(asked, (side, side), pairs, times_of(asked, (side, side)))
    settled = [line for line in lines if any(line[0] < mark for mark in side.marks)]
    if any(asked.end < mark for mark in side.marks) or (asked.extent == FIRST and settled):
        return answer(pairs, front + joined(settled))
    if fault:
        return failed(front + joined(settled), name, fault)
    return answer(pairs, front + joined(lines))


def is_somewhere(head, name):
    """Whether a name selects a variable."""
    return any(selects(one.path, name) for one in all_named(head))


def refused(name, what):
    """What is wrong with a name."""
    return b"", b"vcdkit: %s: %s\n" % (name, what), 2


def covers(ones, others):
    """Whether all pairs that the other names select are pairs of these too."""
    rest = others[0][len(ones[0]):]
    return selects(others[0], ones[0]) and others[1] == ones[1] + rest


def outermost(names):
    """The names without those that others cover; of equal ones the first."""
    return [one for at, one in enumerate(names)
            if not any(covers(its, one) for its in names[:at])
            and not any(covers(its, one) and not covers(one, its) for its in names)]


def answered(asked, names, name, text, limit=1_048_576):
    """The outcome of two parts of one dump, each pair once, unless both are the same, a name
    selects nothing, or the dump ends before the window."""
    for one, other in names:
        if one == other:
            return refused(one, b"is compared with itself")
    tokens = Tokens(text, limit)
    try:
        head = read_head(tokens, MOST_DECLARATIONS)
    except Fault as fault:
        return failed(b"", name, fault)
    for one in [*(one for both in names for one in both), *asked.exceptions]:
        if not is_somewhere(head, one):
            return refused(one, b"selects nothing")
    items, fault = read_items(tokens, head.codes)
    last = max(marks(items), default=0)
    output, message, status = within(asked, outermost(names), name, text, limit)
    if not fault and last < asked.begin:
        return (output[:output.rindex(b"compared ")], b"vcdkit: --from: %d is after the end of the "
                b"dump, %d\n" % (asked.begin, last), 2)
    return output, message, status


class Dump:
    """One of two dumps: its items up to its fault, each with its key among those of both, and that
    of what comes after them."""

    def __init__(self, number, head, tokens, scale):
        self.number, self.head, self.scale = number, head, scale
        self.items, self.fault = read_items_of(head, tokens, scale)
        self.keys = [(0, number, 0)]
        for place, item in enumerate(self.items):
            time = scale * item.time if item.kind == "time" else self.keys[-1][0]
            self.keys.append((max(self.keys[-1][0], time), number, place + 1))

    def up_to(self, key):
        """What of it comes before a fault with this key."""
        if key is None:
            return Side(self.head, self.items, self.scale)
        its = [item for item, own in zip(self.items, self.keys) if own < key]
        return Side(self.head, its, self.scale, self.fault is None and self.keys[-1] < key)


def factors_of(heads):
    """How many ticks of both a tick of each is. Without a scale in both, ticks are compared."""
    scales = [head.scale for head in heads]
    if None in scales:
        return [1, 1]
    return [10 ** (scale - min(scales)) for scale in scales]


def lines_ends(one, other, sides):
    """The line about the last timestamps, each in ticks of its dump."""
    if sides[0].marks[-1:] == sides[1].marks[-1:]:
        return b""
    ends = [marks(dump.items)[-1:] for dump in (one, other)]
    return b"ends %s %s\n" % tuple(b"%d" % end[0] if end else b"-" for end in ends)


def compared(asked, names, texts, limit=1_048_576):
    """The outcome of two dumps."""
    heads, streams, left = [], [], MOST_DECLARATIONS
    for name, text in zip(names, texts):
        streams.append(Tokens(text, limit))
        try:
            heads.append(read_head(streams[-1], left))
        except Fault as fault:
            return failed(b"", name, fault)
        left -= len(heads[-1].rows)
    dumps = [Dump(number, head, tokens, scale) for number, (head, tokens, scale)
             in enumerate(zip(heads, streams, factors_of(heads)))]
    faults = [(dump.keys[-1], dump) for dump in dumps if dump.fault]
    key, faulty = min(faults, key=lambda one: one[0]) if faults else (None, None)
    sides = [dump.up_to(key) for dump in dumps]
    places = partners(asked, *heads)
    scales = [b"-" if head.scale is None else scale_text(head.scale) for head in heads]
    front = (b"" if scales[0] == scales[1] else b"timescale %s %s\n" % tuple(scales))
    front += (lines_alone(b"A", places) + lines_alone(b"B", partners(asked, *heads[::-1]))
              + lines_size(places))
    times = [time for time in times_of(asked, sides) if all(side.is_past(time) for side in sides)]
    pairs = fit(places)
    lines = value_lines(asked, sides, pairs, times)
    if asked.extent == FIRST and lines:
        return answer(pairs, front + joined(lines))
    if faulty:
        return failed(front + joined(lines), names[faulty.number], faulty.fault)
    return answer(pairs, front + joined(lines) + lines_ends(*dumps, sides))
