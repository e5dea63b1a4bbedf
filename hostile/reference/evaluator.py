"""What vcdkit has to write, by its definitions (docs/DEFINITIONS.md), over whole dumps. This
evaluator is plain and slow, and shares nothing with the program: it reads a dump as a list of
tokens and looks back in lists.

run(command, options, names, inputs, limit) returns (output, message, status). All of them except
the status are bytes, and an input is its bytes."""

WHITE = b" \t\n\v\f\r"
TEXTS = {
    1: "token too long", 2: "unexpected end of input", 3: "unknown command",
    4: "command out of place", 5: "bad timescale", 6: "bad scope", 7: "bad variable",
    8: "code declared with another size or kind", 9: "upscope without scope",
    10: "scopes too deep", 11: "too many declarations", 12: "no timescale", 13: "bad time",
    14: "time goes back", 15: "bad value", 16: "unknown code", 17: "value too wide",
    18: "real text too long", 19: "time inside a section", 20: "time too large",
    21: "input too long", 22: "time out of range",
}
MOST_DECLARATIONS = 16_777_216
SECTIONS = [b"$dumpall", b"$dumpoff", b"$dumpon", b"$dumpvars"]
OF_HEADERS = [b"$date", b"$enddefinitions", b"$scope", b"$timescale", b"$upscope", b"$var",
              b"$version"]
UNITS = {b"s": 0, b"ms": -3, b"us": -6, b"ns": -9, b"ps": -12, b"fs": -15}


class Fault(Exception):
    def __init__(self, number, line):
        self.number, self.line = number, line


class Failed(bytes):
    """What a reader gave before a read of it failed."""


class Tokens:
    """The tokens of a text with their lines, one after the other; at a fault or at the end it
    raises."""

    def __init__(self, text, limit):
        self.text, self.limit, self.at, self.line = text, limit, 0, 1
        self.failed = isinstance(text, Failed)

    def next(self):
        text = self.text
        while self.at < len(text) and text[self.at] in WHITE:
            if text[self.at] == 10:
                self.line += 1
            self.at += 1
        begin = self.at
        while self.at < len(text) and text[self.at] not in WHITE:
            self.at += 1
            if self.at - begin > self.limit:
                raise Fault(1, self.line)
        if self.failed and self.at == len(text):
            raise Fault(31, self.line)
        return text[begin:self.at] if self.at > begin else None

    def need(self):
        token = self.next()
        if token is None:
            raise Fault(2, self.line)
        return token


class Head:
    def __init__(self):
        self.date = self.version = b""
        self.scale = None
        self.rows = []      # ("scope", type, name) ("up",) ("var", type, size, code, reference)
        self.codes = {}     # code -> (size, event), in order of declaration

    def around(self):
        """For each row the rows of the scopes around it, outermost first; for an `$upscope` those
        around the scope it closes, and it."""
        opened, result = [], []
        for i, row in enumerate(self.rows):
            result.append(list(opened))
            if row[0] == "scope":
                opened.append(i)
            elif row[0] == "up":
                opened.pop()
        return result

    def variables(self):
        """Of each variable the row, the path, the code."""
        around = self.around()
        return [(i, b".".join([self.rows[k][2] for k in around[i]] + [row[4][0]]), row[3])
                for i, row in enumerate(self.rows) if row[0] == "var"]


def to_end(tokens):
    words = []
    while True:
        token = tokens.need()
        if token == b"$end":
            return words
        words.append(token)


def fits(token, test, fault, tokens):
    if not test:
        raise Fault(fault, tokens.line)


def read_scale(tokens):
    def number_of(text):
        return {b"1": 0, b"10": 1, b"100": 2}.get(text)
    first = tokens.need()
    digits = first[:len(first) - len(first.lstrip(b"0123456789"))]
    unit = first[len(digits):]
    fits(first, number_of(digits) is not None and (unit == b"" or unit in UNITS), 5, tokens)
    if unit == b"":
        unit = tokens.need()
        fits(unit, unit in UNITS, 5, tokens)
    end = tokens.need()
    fits(end, end == b"$end", 5, tokens)
    return number_of(digits) + UNITS[unit]


def read_head(tokens, most):
    head, depth = Head(), 0
    while True:
        token = tokens.need()
        if token == b"$comment":
            to_end(tokens)
        elif token == b"$date":
            head.date = b" ".join(to_end(tokens))
        elif token == b"$version":
            head.version = b" ".join(to_end(tokens))
        elif token == b"$timescale":
            head.scale = read_scale(tokens)
        elif token == b"$scope":
            fits(token, len(head.rows) < most, 11, tokens)
            fits(token, depth < 1000, 10, tokens)
            kind = tokens.need()
            fits(kind, kind != b"$end", 6, tokens)
            name = tokens.need()
            fits(name, name != b"$end", 6, tokens)
            end = tokens.need()
            fits(end, end == b"$end", 6, tokens)
            head.rows.append(("scope", kind, name))
            depth += 1
        elif token == b"$upscope":
            fits(token, len(head.rows) < most, 11, tokens)
            fits(token, depth > 0, 9, tokens)
            end = tokens.need()
            fits(end, end == b"$end", 6, tokens)
            head.rows.append(("up",))
            depth -= 1
        elif token == b"$var":
            fits(token, len(head.rows) < most, 11, tokens)
            kind = tokens.need()
            fits(kind, kind != b"$end", 7, tokens)
            size = tokens.need()
            fits(size, size.isdigit() and 1 <= int(size) <= 16_777_215, 7, tokens)
            code = tokens.need()
            fits(code, all(33 <= b <= 126 for b in code), 7, tokens)
            declared = (int(size), kind == b"event")
            fits(code, head.codes.get(code, declared) == declared, 8, tokens)
            first = tokens.need()
            fits(first, first != b"$end", 7, tokens)
            head.rows.append(("var", kind, int(size), code, [first] + to_end(tokens)))
            head.codes.setdefault(code, declared)
        elif token == b"$enddefinitions":
            end = tokens.need()
            fits(end, end == b"$end", 4, tokens)
            return head
        elif token in SECTIONS or token == b"$end" or token[:1] in b"#01xXzZbBrR":
            raise Fault(4, tokens.line)
        elif token[:1] == b"$" and len(token) >= 2:
            to_end(tokens)
        else:
            raise Fault(3, tokens.line)


class Item:
    """kind: time, begin, end, change; the time mark, the section, or code, form and text; the line
    of its last token."""

    def __init__(self, kind, line, **of):
        self.kind, self.line = kind, line
        self.__dict__.update(of)


def read_items(tokens, codes):
    """All items up to the end or the first fault, and that fault."""
    items, last, section = [], 0, None
    try:
        while True:
            token = tokens.next()
            if token is None:
                if section is not None:
                    raise Fault(2, tokens.line)
                return items, None
            first = token[:1]
            if token == b"$comment":
                to_end(tokens)
            elif token in SECTIONS:
                fits(token, section is None, 4, tokens)
                section = token
                items.append(Item("begin", tokens.line, section=token))
            elif token == b"$end":
                fits(token, section is not None, 4, tokens)
                section = None
                items.append(Item("end", tokens.line))
            elif token in OF_HEADERS:
                raise Fault(4, tokens.line)
            elif first == b"#":
                fits(token, token[1:].isdigit() and int(token[1:]) < 2**64, 13, tokens)
                fits(token, section is None, 19, tokens)
                fits(token, last <= int(token[1:]), 14, tokens)
                last = int(token[1:])
                items.append(Item("time", tokens.line, time=last))
            elif first in b"01xXzZ":
                fits(token, len(token) > 1, 15, tokens)
                fits(token, token[1:] in codes, 16, tokens)
                items.append(Item("change", tokens.line, code=token[1:], form="digits", text=first))
            elif first in b"bB":
                fits(token, len(token) > 1 and all(b in b"01xXzZ" for b in token[1:]), 15, tokens)
                code = tokens.need()
                fits(code, code in codes, 16, tokens)
                fits(code, codes[code][1] or len(token) - 1 <= codes[code][0], 17, tokens)
                items.append(Item("change", tokens.line, code=code, form="digits", text=token[1:]))
            elif first in b"rR":
                fits(token, len(token) > 1, 15, tokens)
                fits(token, len(token) - 1 <= 64, 18, tokens)
                code = tokens.need()
                fits(code, code in codes, 16, tokens)
                items.append(Item("change", tokens.line, code=code, form="real", text=token[1:]))
            else:
                raise Fault(3, tokens.line)
    except Fault as fault:
        return items, fault


def placed(items):
    """Each item with its time and whether it is inside a section, itself not counted."""
    time, inside = 0, False
    for item in items:
        if item.kind == "time":
            time = item.time
        yield item, time, inside
        inside = item.kind == "begin" or (inside and item.kind != "end")


# ---- values and lines

def extended(text, size):
    text = text.lower()
    with_ = text[:1] if text[:1] in b"xz" else b"0"
    return with_ * (size - len(text)) + text


def shortest(value):
    for n in range(1, len(value) + 1):
        if extended(value[-n:], len(value)) == value:
            return value[-n:]


def value_of(item, codes):
    if item.form == "real":
        return "real", item.text
    return "digits", extended(item.text, codes[item.code][0])


def change_line(form, text, size, event, code):
    if event:
        return b"1" + code + b"\n"
    if form == "real":
        return b"r" + text + b" " + code + b"\n"
    if size == 1:
        return text.lower() + code + b"\n"
    return b"b" + shortest(extended(text, size)) + b" " + code + b"\n"


def item_line(item, codes, rename=lambda c: c):
    if item.kind == "begin":
        return item.section + b"\n"
    if item.kind == "end":
        return b"$end\n"
    size, event = codes[item.code]
    return change_line(item.form, item.text, size, event, rename(item.code))


def kept_text(kept, lines_before):
    """Returns lines after the line of their time, unless an earlier one has that time."""
    text, times = b"", list(lines_before)
    for time, line in kept:
        if time not in times:
            text += b"#%d\n" % time
            times.append(time)
        text += line
    return text, times


def scale_text(exponent):
    for number, power in ((b"100", 2), (b"10", 1), (b"1", 0)):
        for unit, of_unit in UNITS.items():
            if of_unit + power == exponent:
                return number + unit


def rows_text(head, marked, rename):
    text, around = b"", head.around()
    for i, row in enumerate(head.rows):
        if row[0] == "scope" and i in marked:
            text += b"$scope %s %s $end\n" % (row[1], row[2])
        elif row[0] == "var" and i in marked:
            text += b"$var %s %d %s %s $end\n" % (row[1], row[2], rename(row[3]), b" ".join(row[4]))
        elif row[0] == "up" and around[i][-1] in marked:
            text += b"$upscope $end\n"
    still = []
    for i, row in enumerate(head.rows):
        if row[0] == "scope":
            still.append(i)
        elif row[0] == "up":
            still.pop()
    return text + b"".join(b"$upscope $end\n" for i in still if i in marked)


def marked_by(head, variables):
    around, marked = head.around(), set()
    for i, _, _ in variables:
        marked |= {i} | set(around[i])
    return marked


def head_text(head, variables):
    text = b""
    if head.date:
        text += b"$date\n\t" + head.date + b"\n$end\n"
    if head.version:
        text += b"$version\n\t" + head.version + b"\n$end\n"
    if head.scale is not None:
        text += b"$timescale\n\t" + scale_text(head.scale) + b"\n$end\n"
    rows = rows_text(head, marked_by(head, variables), lambda c: c)
    return text + rows + b"$enddefinitions $end\n"


def selects(path, name):
    return path == name or path.startswith(name + b".")


def marks(items):
    return [i.time for i in items if i.kind == "time"]


# ---- the commands: what is due once the items were read, and what follows at the end

def check(head, items, options, names):
    counts = [
        (b"scopes", sum(r[0] == "scope" for r in head.rows)),
        (b"variables", sum(r[0] == "var" for r in head.rows)),
        (b"codes", len(head.codes)),
        (b"times", len(marks(items))),
        (b"sections", sum(i.kind == "begin" for i in items)),
        (b"changes", sum(i.kind == "change" for i in items)),
    ]
    last = b"%d" % marks(items)[-1] if marks(items) else b"-"
    return b"", b"".join(b"%s %d\n" % c for c in counts) + b"last " + last + b"\n"


def list_(head, items, options, names):
    rows = [(path, head.rows[i][1], head.rows[i][2], code) for i, path, code in head.variables()]
    return b"", b"".join(b"%s %s %d %s\n" % row for row in rows)


def chosen(head, names):
    return [v for v in head.variables() if not names or any(selects(v[1], n) for n in names)]


def is_kept(item, inside, codes):
    if item.kind == "change":
        return not (inside and codes[item.code][1])
    return item.kind in ("begin", "end")


def changes_of(items, code):
    """The changes of a code, each with its time and whether it is inside a section."""
    return [p for p in placed(items) if p[0].kind == "change" and p[0].code == code]


def closing(items, times):
    last = marks(items)[-1:]
    return b"".join(b"#%d\n" % t for t in last if t not in times)


def pick(head, items, options, names):
    variables = chosen(head, names)
    codes = {code for _, _, code in variables}
    kept = [(t, item_line(i, head.codes)) for i, t, inside in placed(items)
            if is_kept(i, inside, head.codes) and (i.kind != "change" or i.code in codes)]
    text, times = kept_text(kept, [])
    return head_text(head, variables) + text, closing(items, times)


def cut(head, items, options, names):
    begin, end = options
    text = head_text(head, head.variables())
    section = b"#%d\n$dumpvars\n" % begin
    for code, (size, event) in head.codes.items():
        before = [i for i, t, _ in changes_of(items, code) if t < begin]
        if before and not event:
            section += change_line(before[-1].form, before[-1].text, size, event, code)
    section += b"$end\n"
    early = any(t > end for t in marks(items))
    kept = [(t, item_line(i, head.codes)) for i, t, inside in placed(items)
            if begin <= t <= end and is_kept(i, inside, head.codes)]
    body, times = kept_text(kept, [begin])
    started = begin == 0 or any(t >= begin for t in marks(items))
    stands = text + (section + body if started else b"")
    if early:
        return stands + (b"#%d\n" % end if end not in times else b""), b""
    last = [t for t in marks(items)[-1:] if t not in times and t > begin]
    return stands, (b"" if started else section) + b"".join(b"#%d\n" % t for t in last)


def sample(head, items, options, names):
    text = [b"", b""]
    for time in options:
        due = any(t > time for t in marks(items))
        for i, path, code in chosen(head, names):
            if head.codes[code][1]:
                continue
            set_ = [item for item, t, _ in changes_of(items, code) if t <= time]
            value = b"-"
            if set_:
                kind, digits = value_of(set_[-1], head.codes)
                value = b"r" + digits if kind == "real" else digits
            text[0 if due else 1] += b"%d %s %s\n" % (time, path, value)
    return text[0], text[1]


def edges(head, items, options, names):
    text = b""
    for i, path, code in chosen(head, names):
        changes = changes_of(items, code)
        if head.codes[code][1]:
            counts = (sum(not inside for _, _, inside in changes), 0, 0)
        else:
            values = [value_of(item, head.codes) for item, _, _ in changes]
            pairs = list(zip(values, values[1:]))
            digits = [(a[1][-1:], b[1][-1:]) for a, b in pairs if a[0] == b[0] == "digits"]
            rises, falls = digits.count((b"0", b"1")), digits.count((b"1", b"0"))
            counts = (sum(a != b for a, b in pairs), rises, falls)
        text += b"%s %d %d %d\n" % ((path,) + counts)
    return b"", text


def ends_early(command, options, time):
    return (command == "cut" and time > options[1]) or (command == "sample" and time > options[-1])


# ---- merge

def new_code(n):
    code = bytes([33 + n % 94])
    while n >= 94:
        n //= 94
        code += bytes([33 + n % 94])
    return code


def read_items_of(head, tokens, factor):
    """The items of an input whose times are multiplied by this factor, and the fault."""
    items, fault = read_items(tokens, head.codes)
    for place, item in enumerate(items):
        if item.kind == "time" and item.time * factor >= 2**64:
            return items[:place], Fault(20, item.line)
    return items, fault


def merge(heads, all_tokens, names):
    least = min(0 if h.scale is None else h.scale for h in heads)
    text = b"$timescale\n\t" + scale_text(least) + b"\n$end\n"
    keyed, faults, first = [], [], 0
    for k, (head, tokens) in enumerate(zip(heads, all_tokens)):
        number = {code: first + n for n, code in enumerate(head.codes)}
        first += len(number)
        rename = lambda c, number=number: new_code(number[c])
        rows = rows_text(head, marked_by(head, head.variables()), rename)
        text += b"$scope module in%d $end\n" % (k + 1) + rows + b"$upscope $end\n"
        factor = 10 ** ((0 if head.scale is None else head.scale) - least)
        items, fault = read_items_of(head, tokens, factor)
        before = 0
        for place, (item, time, inside) in enumerate(placed(items)):
            keyed.append(((before, k, place), item, time * factor, inside, head, rename))
            before = time * factor
        if fault is not None:
            faults.append(((before, k, len(items)), fault))
    text += b"$enddefinitions $end\n"
    keyed.sort(key=lambda e: e[0])
    fault = min(faults, key=lambda f: f[0]) if faults else None
    if fault:
        keyed = [e for e in keyed if e[0] < fault[0]]
    kept = [(time, item_line(item, head.codes, rename))
            for _, item, time, inside, head, rename in keyed
            if item.kind == "change" and is_kept(item, inside, head.codes)]
    body, times = kept_text(kept, [])
    if fault:
        return told(text + body, names[fault[0][1]], fault[1])
    all_marks = [time for _, item, time, _, _, _ in keyed if item.kind == "time"]
    if all_marks and max(all_marks) not in times:
        body += b"#%d\n" % max(all_marks)
    return text + body, b"", 0


# ---- a run

def told(output, name, fault):
    """The outcome of a fault of the input with this name, after this output."""
    if fault.number == 31:
        return output, b"vcdkit: " + name + b": read failed\n", 3
    return output, b"vcdkit: %s:%d: %s\n" % (name, fault.line, TEXTS[fault.number].encode()), 1


def in_ticks(moment, scale, up):
    """A moment is a number and an exponent or None; the ticks, or the number of the fault."""
    number, exponent = moment
    if exponent is None:
        return number
    if scale is None:
        return Fault(12, 0)
    power = exponent - scale
    if power >= 0:
        ticks = number * 10**power
    else:
        ticks = -(-number // 10**-power) if up else number // 10**-power
    return ticks if ticks < 2**64 else Fault(22, 0)


def refused(moments, ticks, name):
    """Returns line and status if some time has no ticks; a missing scale comes first."""
    numbers = [t.number for t in ticks if isinstance(t, Fault)]
    if 12 in numbers:
        return b"", b"vcdkit: " + name + b": no timescale\n", 1
    if 22 in numbers:
        return b"", b"vcdkit: time out of range\n", 2


def options_of(command, options, head, name):
    """Returns the times in ticks; or the result if they are refused."""
    units = any(m[1] is not None for m in options)
    ticks = [in_ticks(m, head.scale, command == "cut" and i == 0) for i, m in enumerate(options)]
    result = refused(options, ticks, name)
    if result:
        return None, result
    if units and command == "cut" and ticks[0] > ticks[1]:
        return None, (b"", b"vcdkit: --from is above --to\n", 2)
    if units and command == "sample" and any(a >= b for a, b in zip(ticks, ticks[1:])):
        return None, (b"", b"vcdkit: times must rise\n", 2)
    return ticks, None


COMMANDS = {"check": check, "list": list_, "pick": pick, "cut": cut, "sample": sample,
            "edges": edges}


def run(command, options, names, inputs, limit=1_048_576):
    """`options`: the moments of `cut` (two) and `sample`; `names`: the NAMEs; `inputs`: pairs of a
    name for messages and bytes."""
    heads, all_tokens, left = [], [], MOST_DECLARATIONS
    for name, text in inputs:
        tokens = Tokens(text, limit)
        try:
            heads.append(read_head(tokens, left))
        except Fault as fault:
            return told(b"", name, fault)
        left -= len(heads[-1].rows)
        all_tokens.append(tokens)
    if command == "merge":
        return merge(heads, all_tokens, [name for name, _ in inputs])
    head, tokens, name = heads[0], all_tokens[0], inputs[0][0]
    ticks, result = options_of(command, options, head, name)
    if result:
        return result
    for asked in names:
        if not any(selects(v[1], asked) for v in head.variables()):
            return b"", b"vcdkit: " + asked + b": selects nothing\n", 1
    if command == "list":
        return list_(head, [], [], [])[1], b"", 0
    items, fault = read_items(tokens, head.codes)
    for place, item in enumerate(items):
        if item.kind == "time" and ends_early(command, ticks, item.time):
            return COMMANDS[command](head, items[:place + 1], ticks, names)[0], b"", 0
    opened, closed = COMMANDS[command](head, items, ticks, names)
    if fault:
        return told(opened, name, fault)
    return opened + closed, b"", 0
