"""What vcdkit-strobe has to write, by the definition of a strobe (docs/DEFINITIONS.md), over a
whole dump. Like evaluator.py, with which it reads the dump, it is plain and slow, looks back in
lists, and shares nothing with the program.

answered(clocks, names, name, text) is output, message and status. Of each clock there is the
argument that names it, and whether it falls."""
from .comparison import failed
from .evaluator import (MOST_DECLARATIONS, Fault, Tokens, change_line, chosen, head_text, placed,
                        read_head, read_items, selects, value_of)


class NoClock(Exception):
    """Why an argument names no clock."""


def declared_at(head, path):
    """Of the variables with this path the type, the size and the code."""
    return [(head.rows[row][1], head.codes[code][0], code)
            for row, one, code in head.variables() if one == path]


def clock_of(head, clock):
    """The code, the place, and the digits before and after an edge."""
    word, falls = clock
    found, place = declared_at(head, word), None
    path, at, digits = word.rpartition(b"@")
    if not found and at and 0 < len(digits) <= 20 and digits.isdigit() and int(digits) < 2**64:
        found, place = declared_at(head, path), int(digits)
    if not found:
        raise NoClock(b"no such variable")
    kind, size, code = found[0]
    if any(other != code for _, _, other in found):
        raise NoClock(b"several variables have this path")
    if kind == b"event":
        raise NoClock(b"it is an event")
    if kind.startswith(b"real") or kind == b"shortreal":
        raise NoClock(b"it is a real number")
    if place is None and size != 1:
        raise NoClock(b"it has %d bits: write PATH@PLACE" % size)
    if place is not None and place >= size:
        raise NoClock(b"the highest place is %d" % (size - 1))
    return (code, place or 0, *([b"1", b"0"] if falls else [b"0", b"1"]))


class Strobe:
    """The changes of a dump, in order: code, value, time, the section around it, and whether that
    is a `$dumpvars`."""

    def __init__(self, head, items):
        self.head, self.changes, section = head, [], None
        for item, time, inside in placed(items):
            if item.kind == "begin":
                section = item.section
            if item.kind == "change":
                self.changes.append((item.code, value_of(item, head.codes), time, inside,
                                     inside and section == b"$dumpvars"))

    def turns(self, at, clock):
        """Whether a change takes a clock from the one digit to the other."""
        code, place, *digits = clock
        values = [value for one, value, *_ in self.changes[:at + 1] if one == code][-2:]
        return self.changes[at][0] == code and digits == [
            text[::-1][place:place + 1] for kind, text in values if kind == "digits"]

    def edges(self, clocks):
        """The places of the first turn of each time."""
        turns = [at for at in range(len(self.changes))
                 if any(self.turns(at, one) for one in clocks)]
        times = [self.changes[at][2] for at in turns]
        return [at for n, at in enumerate(turns) if times[n] not in times[:n]]

    def sampled(self, at, code):
        """The value just before the time of an edge, None if there is none."""
        its = [one for one in self.changes[:at] if one[0] == code]
        earlier = [one for one in its if one[2] < self.changes[at][2]]
        first = [one for one in its[:1] if one[4]]
        return (earlier[-1:] or first or [(code, None)])[0][1]

    def line(self, before, at, code):
        """The line of a code at an edge, if there is one; the edges before it are given."""
        size, event = self.head.codes[code]
        if event:
            begin, end = self.changes[before[-1]][2] if before else 0, self.changes[at][2]
            is_triggered = any(one == code and begin <= time < end and not inside
                               for one, _, time, inside, _ in self.changes[:at])
            return b"1" + code + b"\n" if is_triggered else b""
        value = self.sampled(at, code)
        if value is None or before and value == self.sampled(before[-1], code):
            return b""
        return change_line(*value, size, False, code)


def answered(clocks, names, name, text, limit=1_048_576):
    """The outcome."""
    tokens = Tokens(text, limit)
    try:
        head = read_head(tokens, MOST_DECLARATIONS)
    except Fault as fault:
        return as_strobe(failed(b"", name, fault))
    found = []
    for clock in clocks:
        try:
            found.append(clock_of(head, clock))
        except NoClock as why:
            return b"", b"vcdkit-strobe: %s: %s\n" % (clock[0], *why.args), 2
    for one in names:
        if not any(selects(path, one) for _, path, _ in head.variables()):
            return b"", b"vcdkit-strobe: %s: selects nothing\n" % one, 2
    items, fault = read_items(tokens, head.codes)
    own = b"!" * (1 + max(map(len, head.codes)))
    variables = chosen(head, names)
    written = {code for _, _, code in variables}
    head.date = head.version = b""
    head.scale = None
    output = (b"$scope module strobe $end\n$var time 64 %s time $end\n$upscope $end\n" % own
              + head_text(head, variables))
    strobe = Strobe(head, items)
    edges = strobe.edges(found)
    for n, at in enumerate(edges):
        output += b"#%d\nb%s %s\n" % (n + 1, b"%b" % bin(strobe.changes[at][2])[2:].encode(), own)
        output += b"".join(strobe.line(edges[:n], at, code) for code in head.codes
                           if code in written)
    if fault:
        return as_strobe(failed(output, name, fault))
    return (output, b"", 0) if edges else (output, b"vcdkit-strobe: %s: no edge\n" % name, 1)


def as_strobe(outcome):
    """An outcome whose line begins with the name of this program."""
    output, message, status = outcome
    return output, message.replace(b"vcdkit:", b"vcdkit-strobe:", 1), status
