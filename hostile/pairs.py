"""Random pairs of small dumps of which one is like the other, and dumps with two such parts. Most
are good, and some have faults."""
from dumps import Dumps, NAMES

SIZES = [1, 1, 2, 4, 8, 33, 70]
TYPES = [b"wire", b"reg", b"integer"]
REALS = [b"real", b"real", b"realtime", b"shortreal", b"real_parameter"]
RANGES = [[b"[3:0]"], [b"[7:4]"], [b"[7", b":4]"], [b"[0]"], [b"[a.b]"]]
CODES = [bytes([33 + n]) for n in range(94)] + [b"ab", b"!!", b"$end", b"longer_code"]
UNITS = [(b"1 ns", 1), (b"100ps", 10), (b"10 ns", 1), (b"1us", 1), (None, 1)]
DIGITS = [b"01", b"01", b"01x", b"01xz", b"XZ01", b"x"]


class Variable:
    """A variable, in the scopes around it. Variables of one group have the same values."""

    def __init__(self, scopes, name, type_, size, group):
        self.scopes, self.name, self.type, self.size, self.group = scopes, name, type_, size, group

    @property
    def path(self):
        return b".".join([*self.scopes, self.name[0]])


class Pairs(Dumps):
    """Makes what is compared: variables, the steps of their values, and both for the other dump."""

    def __init__(self, seed, faulty=0.15):
        super().__init__(seed, faulty)

    def some(self, chance):
        return self.r.random() < chance

    # ---- what both have

    def variables(self):
        """Variables of some groups, of which some have several names, in scopes whose names may
        have dots, so that one path may be there twice."""
        r, found = self.r, []
        scopes = [[r.choice(NAMES) for _ in range(r.choice([0, 1, 1, 2, 3]))] for _ in range(3)]
        if self.some(0.01):
            scopes.append([b"d"] * r.choice([30, 300, 990]))
        for group in range(r.randrange(1, 7)):
            kind = r.random()
            type_, size = ((b"event", r.choice([1, 1, 8])) if kind < 0.15 else
                           (r.choice(REALS), r.choice([1, 64])) if kind < 0.3 else
                           (r.choice(TYPES), r.choice(SIZES)))
            for _ in range(r.choice([1, 1, 1, 2, 3])):
                name = [r.choice(NAMES)] + r.choice(
                    [[], [], [b"[%d:0]" % (size - 1)], r.choice(RANGES)])
                if self.some(0.2):
                    name = [name[0] + b"[%d:0]" % (size - 1)]
                found.append(Variable(r.choice(scopes), name, type_, size, group))
        r.shuffle(found)
        return found

    def text(self, one):
        """The words of a change of a variable but for its code, the code's place last."""
        r = self.r
        if one.type == b"event":
            return r.choice([b"1", b"1", b"x", b"b1 "])
        if one.type in REALS and self.some(0.9):
            return r.choice([b"r0 ", b"r1 ", b"r1.0 ", b"R1.5 ", b"r-2e3 ", b"rnan "])
        if self.some(0.02):
            return b"r1 "
        if one.size == 1 and self.some(0.8):
            return bytes([r.choice(b"0011xzXZ")])
        digits = r.choice(DIGITS)
        count = r.choice([1, 1, 2, one.size, one.size])
        return r.choice([b"b", b"b", b"B"]) + bytes(
            r.choice(digits) for _ in range(min(count, one.size))) + b" "

    def steps(self, variables):
        """Times, each with a section or none and the changes: groups and texts."""
        r, found = self.r, []
        now = r.choice([0, 0, 0, 3])
        by_group = {one.group: one for one in variables}
        for _ in range(r.choice([0, 1, 2, 4, 8])):
            groups = [r.choice(list(by_group)) for _ in range(r.randrange(6))]
            found.append((now, r.choice([None] * 5 + [b"$dumpvars", b"$dumpall", b"$dumpoff"]),
                          [(group, self.text(by_group[group])) for group in groups]))
            now += r.choice([0, 1, 1, 2, 10])
        return found

    # ---- the other dump

    def like(self, variables):
        """The same variables, or nearly."""
        r, found = self.r, []
        rare, ranges = r.choice([0, 0, 0.05]), r.choice([0, 0, 0.05, 0.5])
        for one in variables:
            scopes, name, type_, size = one.scopes, one.name, one.type, one.size
            if self.some(rare):
                size = r.choice(SIZES)
            if self.some(rare):
                type_ = r.choice(TYPES + [b"real", b"shortreal", b"event"])
            if self.some(rare):
                name = [r.choice(NAMES)]
            if self.some(ranges):
                name = name[:1] + r.choice([[], r.choice(RANGES)])
            if self.some(rare):
                scopes = scopes[:-1] if self.some(0.5) else [*scopes, r.choice(NAMES)]
            if self.some(0.3) and len(scopes) > 1:
                # The same path, from names with dots.
                at = r.randrange(len(scopes) - 1)
                scopes = [*scopes[:at], b".".join(scopes[at:at + 2]), *scopes[at + 2:]]
            if not self.some(rare):
                found.append(Variable(scopes, name, type_, size, one.group))
        if self.some(0.5):
            r.shuffle(found)
        return found

    def altered(self, steps, variables):
        """Nearly the same steps: changes in another order or twice, another value, an end."""
        r, found = self.r, []
        by_group = {one.group: one for one in variables}
        for now, section, changes in steps:
            changes = [change for change in changes for _ in range(r.choice([1, 1, 1, 2]))]
            if self.some(0.2):
                changes = list(dict(changes).items())
                r.shuffle(changes)
            if self.some(0.15) and by_group:
                group = r.choice(list(by_group))
                changes.insert(r.randrange(len(changes) + 1),
                               (group, self.text(by_group[group])))
            if self.some(0.1) and changes:
                changes.pop(r.randrange(len(changes)))
            found.append((now, None if self.some(0.2) else section, changes))
            if self.some(0.1):
                found.append((now, None, []))
        if self.some(0.2) and found:
            found.pop()
        if self.some(0.1):
            found.append(((found[-1][0] if found else 0) + 1, None, []))
        return found

    # ---- texts

    def codes_of(self, variables, spare):
        """A code for each variable: those of one group have the same one, if they may and want."""
        codes, of_kind = [], {}
        split = self.some(0.2)
        for one in variables:
            kind = one.group, one.size, one.type == b"event", self.some(0.5) if split else 0
            if kind not in of_kind:
                of_kind[kind] = spare.pop(self.r.randrange(len(spare)))
            codes.append(of_kind[kind])
        return codes

    def declared(self, variables, codes):
        """The words of declarations. A scope is often closed, and opened again."""
        words, opened = [], []
        for one, code in zip(variables, codes):
            same = 0
            while same < min(len(opened), len(one.scopes)) and opened[same] == one.scopes[same]:
                same += 1
            if self.some(0.3):
                same = 0
            words += [b"$upscope", b"$end"] * (len(opened) - same)
            for name in one.scopes[same:]:
                words += [b"$scope", b"module", name, b"$end"]
            opened = list(one.scopes)
            words += [b"$var", one.type, b"%d" % one.size, code, *one.name, b"$end"]
        return words + [b"$upscope", b"$end"] * (len(opened) if self.some(0.9) else 0)

    def changed(self, variables, codes, changes):
        """The words of changes, for each code of a group."""
        words, of_group = [], {}
        for one, code in zip(variables, codes):
            of_group.setdefault(one.group, {})[code] = one
        for group, text in changes:
            for code, one in of_group.get(group, {}).items():
                digits = text[1:].strip() if text[:1] in b"bB" else text
                if one.type != b"event" and len(digits) > one.size and text[:1] in b"bB":
                    text = text[:1] + digits[-one.size:] + b" "
                words += [part for part in (text + code).split(b" ") if part]
        return words

    def body(self, parts, factor=1):
        """The words of a body: of each part variables, codes and steps."""
        words, steps = [], []
        for variables, codes, its in parts:
            steps += [(now, variables, codes, section, changes) for now, section, changes in its]
        for now, variables, codes, section, changes in sorted(steps, key=lambda step: step[0]):
            if not (now == 0 and self.some(0.1)):
                words.append(b"#%d" % (now * factor))
            words += [section] if section else []
            words += self.changed(variables, codes, changes)
            words += [b"$end"] if section else []
        return words

    def whole(self, head, body):
        """The text of a dump, which may be damaged."""
        kind = self.r.random()
        if kind < self.faulty * 0.2:
            head = self.spoiled(head)
        elif kind < self.faulty:
            body = self.spoiled(body)
        text = self.joined(head) + (self.lined if self.some(0.5) else self.joined)(body)
        return text[:self.r.randrange(len(text) + 1)] if self.some(self.faulty * 0.1) else text

    def two(self):
        """Two dumps, and the variables of the first."""
        variables = self.variables()
        others = self.like(variables)
        steps = self.steps(variables)
        units = [self.r.choice(UNITS) if self.some(0.3) else UNITS[0] for _ in range(2)]
        texts = []
        for (unit, factor), its, of in zip(units, (variables, others),
                                           (steps, self.altered(steps, others))):
            codes = self.codes_of(its, list(CODES))
            scale = [b"$timescale", *unit.split(), b"$end"] if unit else []
            texts.append(self.whole(
                scale + self.declared(its, codes) + [b"$enddefinitions", b"$end"],
                self.body([(its, codes, of)], factor + (factor > 1 and self.some(0.2)))))
        return texts, variables

    def parts(self):
        """A dump with two scopes, and the paths in it. Some codes are in both."""
        variables = self.variables()
        others = self.like(variables)
        steps, spare = self.steps(variables), list(CODES)
        one = [Variable([b"p", *it.scopes], it.name, it.type, it.size, it.group)
               for it in variables]
        other = [Variable([b"q", *it.scopes], it.name, it.type, it.size, it.group)
                 for it in others]
        if self.some(0.3):
            its = one + other
            codes = self.codes_of(its, spare)
            parts = [(its, codes, steps)]
        else:
            codes = self.codes_of(one, spare) + self.codes_of(other, spare)
            parts = [(one, codes[:len(one)], steps),
                     (other, codes[len(one):], self.altered(steps, others))]
        order = list(zip(one + other, codes))
        if self.some(0.3):
            self.r.shuffle(order)
        its, codes = [it for it, _ in order], [code for _, code in order]
        head = self.declared(its, codes) + [b"$enddefinitions", b"$end"]
        return self.whole(head, self.body(parts)), [it.path for it in its]
