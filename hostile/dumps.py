"""Random small dumps with all kinds of texts: most are good, and some have faults."""
import random

CODES = [b"!", b'"', b"#", b"%", b"$end", b"!!", b"abcdefgh", b"0", b"~~"]
TYPES = [b"wire", b"reg", b"event", b"real", b"integer"]
NAMES = [b"a", b"b", b"ab", b"u.v", b"x[0]", b"\\c$d", b"tb"]
SIZES = [1, 1, 1, 2, 4, 5, 8, 33, 64, 65, 260]
SCALES = [b"1s", b"10 ns", b"100ps", b"1 fs", b"100 s", b"1us"]
WHITE = [b" ", b"\n", b"\n", b"\t", b"\r\n", b"  ", b"\v", b"\f"]


class Dumps:
    def __init__(self, seed, faulty=0.3):
        self.r, self.faulty = random.Random(seed), faulty

    def white(self):
        return self.r.choice(WHITE)

    def joined(self, words):
        return b"".join(word + self.white() for word in words)

    def lined(self, words):
        """The words as simulators write them: each item on a line of its own, with the same line
        end nearly everywhere."""
        end = self.r.choice([b"\n", b"\n", b"\r\n"])
        return b"".join(word + (b" " if word[:1] in b"bBrR" else
                                end if self.r.random() < 0.98 else self.white())
                        for word in words)

    def header(self):
        r, words, depth, codes = self.r, [], 0, {}
        if r.random() < 0.3:
            words += [b"$date", b"Mon", b"Nov", b"23", b"$end"]
        if r.random() < 0.2:
            words += [b"$version", b"$end"]
        if r.random() < 0.7:
            words += [b"$timescale"] + r.choice(SCALES).split() + [b"$end"]
        for _ in range(r.randrange(9)):
            kind = r.random()
            if kind < 0.25:
                words += [b"$scope", b"module", r.choice(NAMES), b"$end"]
                depth += 1
            elif kind < 0.4 and depth:
                words += [b"$upscope", b"$end"]
                depth -= 1
            elif kind < 0.45:
                words += [b"$comment", b"x$end", b"0!", b"$end"]
            elif kind < 0.5:
                words += [b"$attrbegin", b"misc", b"$end"]
            else:
                code = r.choice(CODES)
                size, type_ = codes.get(code) or (r.choice(SIZES), r.choice(TYPES))
                codes[code] = (size,
                               type_ if type_ == b"event"
                               else r.choice([t for t in TYPES if t != b"event"]))
                words += [b"$var", codes[code][1], b"%d" % size, code,
                          r.choice(NAMES)] + r.choice([[], [b"[3:0]"]]) + [b"$end"]
        words += [b"$enddefinitions", b"$end"]
        return words, codes

    def change(self, code, size, event):
        r = self.r
        if event:
            return r.choice([[b"1" + code], [b"x" + code], [b"b10101", code]])
        kind = r.random()
        if kind < 0.45:
            return [r.choice([b"0", b"1", b"x", b"z", b"X", b"Z"]) + code]
        if kind < 0.9:
            many = r.choice([1, 1, 2, 3, size, size, max(1, size - 1)])
            alphabet = r.choice([b"01", b"01", b"0", b"01xz", b"01xXzZ", b"x", b"Z"])
            return [r.choice([b"b", b"B"])
                    + bytes(r.choice(alphabet) for _ in range(min(many, size))), code]
        return [r.choice([b"r", b"R"]) + r.choice([b"1.5", b"nan", b"0", b"-1e9", b"x" * 64]), code]

    def body(self, codes):
        r, words, time, inside = self.r, [], 0, False
        for _ in range(r.randrange(r.choice([30, 30, 200]))):
            kind = r.random()
            if kind < 0.3 and not inside:
                time += r.choice([0, 1, 1, 2, 5, 10])
                words.append(b"#%d" % time if r.random() < 0.95 else b"#0%d" % time)
            elif kind < 0.36:
                words.append(b"$end" if inside
                             else r.choice([b"$dumpvars", b"$dumpoff", b"$dumpon", b"$dumpall"]))
                inside = not inside
            elif kind < 0.39:
                words += [b"$comment", b"#", b"$end"]
            elif codes:
                code = r.choice(list(codes))
                words += self.change(code, codes[code][0], codes[code][1] == b"event")
        if inside and r.random() < 0.8:
            words.append(b"$end")
        return words

    def spoiled(self, words):
        r = self.r
        at = r.randrange(len(words) + 1)
        bad = [b"#x", b"1", b"b12", b"r", b"$end", b"$var", b"?", b"#", b"#18446744073709551615",
               b"#18446744073709551616", b"#3", b"b" + b"1" * 300,
               b"q" * 70, b"$dumpvars", b"$scope", b"$timescale", b"0~", b"r" + b"1" * 65, b"$",
               b"$upscope", b"\xff", b"$date"]
        kind = r.random()
        if kind < 0.6:
            return words[:at] + [r.choice(bad)] + words[at:]
        if kind < 0.8:
            return words[:at]
        return words[:at] + words[at + 1:]

    def dump(self):
        head, codes = self.header()
        body = self.body(codes)
        spoil = self.r.random()
        if spoil < self.faulty * 0.3:
            head = self.spoiled(head)
        elif spoil < self.faulty:
            body = self.spoiled(body)
        text = self.joined(head) + (self.lined if self.r.random() < 0.5 else self.joined)(body)
        if self.r.random() < 0.1 * self.faulty:
            text = text[:self.r.randrange(len(text) + 1)]
        return text

    def names(self):
        r = self.r
        return [b".".join(r.choice(NAMES) for _ in range(r.choice([1, 1, 1, 2, 3])))
                for _ in range(r.choice([0, 0, 1, 1, 2, 3]))]

    def moment(self, most):
        number = self.r.randrange(most)
        unit = self.r.choice([None] * 6 + ["s", "ms", "us", "ns", "ps", "fs"])
        return number, unit
