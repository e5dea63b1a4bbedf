"""Makes dumps that look like those of real designs: equal names in many scopes, escaped names,
ranges in and beside names, bits declared one by one, 1 to 130 bits, real numbers, events, aliases
of other types, glitches, sections, repeated and empty times, times up to 2^64 - 1, all time
scales."""
import random
from typing import Dict, List, NamedTuple, Tuple

NAMES = ["clk", "rst_n", "q", "q", "d", "data", "valid", "ready", "state", "cnt", "a", "a", "b",
         "x", "is", "signed", "within", "mem[0]", "mem[1]", "q[0]", "q[1]", "\\a&b", "\\e.s",
         "\\u1/q[3]", "\\d+e", "n,m", "r$1", "s-1", "\\a->b", "_0", "\\(p)", "\u00e9", "inf",
         "nan", "e1", "\\q<0>", "within_", "tb", "a.q", "u0.d", "u0.q", "q.a", "core.d.q"]
SCOPES = ["tb", "dut", "u0", "u1", "g[0]", "g[1]", "\\gen.x", "core", "q", "a", "$unit", "tb"]
REALS = ["0", "1", "1.0", "1.50", "1.5", "-2.25", "1e3", "-1e-3", "0.1", "1000", "-0", "-0.0", "3",
         "1e22", "1e16", "1e15", "123456789012345680", "1e-5", "0.0001", "1e308", "-1e308",
         "2.5e-310", "nan", "inf", "-inf", "NaN", "INF", "0.30000000000000004", "0.3", "1e400",
         "+1.5", "1_000"]
REAL_TYPES = ("real", "realtime", "shortreal")
TYPES = ["wire"] * 8 + ["reg"] * 7 + ["integer", "real", "real", "realtime", "shortreal", "event",
                                      "event", "parameter", "time", "supply0", "tri", "wand",
                                      "trireg"]
SIZES = [1] * 9 + [2, 3, 4, 4, 7, 8, 8, 9, 12, 16, 31, 32, 33, 63, 64, 65, 80, 127, 128, 130]
STARTS = [0] * 8 + [1, 5, 10**6, 2**31 - 3, 2**32, 2**53 - 5, 2**53, 10**15, 2**63 - 20, 2**63,
                    2**64 - 90, 2**64 - 1000]
ODD_CODES = ["!", '"', "#", "$", "%", "0", "1", "x", "z", "b", "r", "B", "R", "-", "<", ">", "&",
             "#0", "#10", "0!", "b1", "x!", "$x", "end", "r1"]
MOST = 2**64 - 1


class Net(NamedTuple):
    """A code that is declared, and the type and size of its first variable."""

    code: str
    type: str
    size: int

    @property
    def is_real(self) -> bool:
        """Whether its values are real numbers."""
        return self.type in REAL_TYPES


class Made:
    """A dump of a seed: its text, and the codes of its clocks."""

    def __init__(self, seed: int):
        self.random = random.Random("a made dump %d" % seed)
        self.lines: List[str] = []
        self.nets: List[Net] = []
        self.clocks: List[str] = []
        self._last: Dict[str, str] = {}  # the last digits of a code
        self.style = self.random.choice(["mixed", "mixed", "modelsim", "ghdl", "netlist"])
        self._count = self.random.choice([2, 3, 5, 8, 12, 20, 40, 40])
        self._codes = self._all_codes()
        self._front()
        self._declarations()
        self._body()

    def happens(self, share: float) -> bool:
        """Whether something happens that does in this share of all cases."""
        return self.random.random() < share

    @property
    def text(self) -> bytes:
        """The text, with one line end or another, or with several items on a line."""
        how = self.random.random()
        if how < .2:
            return ("\r\n".join(self.lines).replace("\n\t", "\r\n\t") + "\r\n").encode()
        if how < .28:
            ends = [self.random.choice([" ", "\n", "\t", "\n\n", " \r\n"]) for _ in self.lines]
            return "".join(map("".join, zip(self.lines, ends))).encode()
        return ("\n".join(self.lines) + "\n" * self.happens(.9)).encode()

    # ---- The header.

    def _all_codes(self) -> List[str]:
        """Returns codes, of which the last is the first to be used."""
        count = self._count * 6 + 20
        how = self.random.random()
        if how < .4:
            marks = [chr(one) for one in range(33, 127)]
            found = marks + [one + other for one in marks[:8] for other in marks]
        elif how < .7:
            found = ["n%d" % at for at in range(count)] + ["0", "1", "x", "b", "r", "#1", "$end1"]
        else:
            found = ODD_CODES + ["<%d" % at for at in range(count)]
        if self.happens(.4):
            self.random.shuffle(found)
        return found[::-1]

    def _front(self) -> None:
        """Writes what is before the declarations."""
        if self.happens(.3):
            self.lines.append("$date\n\tSun Nov 29 2026\n$end")
        if self.happens(.3):
            self.lines.append("$version A simulator v1.0 $end")
        if self.happens(.2):
            self.lines.append("$comment " + "long text #5 0! b1 ! " * self.random.choice(
                [1, 30, 400]) + "$end")
        if self.happens(.88):
            unit = self.random.choice(["s", "ms", "us", "ns", "ns", "ps", "ps", "ps", "fs", "fs"])
            self.lines.append(self.random.choice(
                ["$timescale %d%s $end", "$timescale\n\t%d %s\n$end"]) % (
                    self.random.choice([1, 1, 10, 100]), unit))

    def _declarations(self) -> None:
        """Writes scopes and declarations."""
        depth = 0
        if self.happens(.9):
            depth += self._open("tb" if self.happens(.6) else self.random.choice(SCOPES))
        while len(self.nets) < self._count:
            which = self.random.random()
            if which < .16 and depth < 6:
                depth += self._open(self.random.choice(SCOPES))
            elif which < .3 and depth and (depth > 1 or self.happens(.1)):
                self.lines.append("$upscope $end")
                depth -= 1
            else:
                self._declare_some()
        self.lines += ["$upscope $end"] * (depth if self.happens(.9) else 0)
        self.lines.append("$enddefinitions $end")

    def _open(self, name: str) -> int:
        """Opens a scope."""
        self.lines.append("$scope %s %s $end" % (self.random.choice(
            ["module", "module", "begin", "task", "function", "fork"]), name))
        return 1

    def _declare_some(self) -> None:
        """Declares a variable of a new code or of an old one, or a vector bit by bit."""
        if self.nets and self.happens(.22):
            old = self.random.choice(self.nets)
            kind = old.type
            if old.is_real or kind == "event":
                kind = "realtime" if kind == "real" and self.happens(.3) else kind
            elif self.happens(.4):
                kind = self.random.choice(["wire", "reg", "tri", *["integer"] * (old.size == 32),
                                           *["time"] * (old.size == 64)])
            self._declare(old.code, kind, old.size)
        elif self.style == "modelsim" and self.happens(.3):
            name, low = self.random.choice(["bus", "q", "w", "a"]), self.random.choice([0, 0, 2])
            places = list(range(low, low + self.random.randint(2, 5)))
            for place in places if self.happens(.3) else places[::-1]:
                self._put(self._codes.pop(), "wire", 1, "%s [%d]" % (name, place))
        else:
            kind = self.random.choice(TYPES)
            sizes = {"event": [1], "real": [64, 64, 1], "realtime": [64], "shortreal": [32],
                     "integer": [32], "time": [64]}.get(kind, SIZES)
            self._declare(self._codes.pop(), kind, self.random.choice(sizes))

    def _declare(self, code: str, kind: str, size: int) -> None:
        """Declares a variable with a name, and often with a range."""
        name, choice = self.random.choice(NAMES), self.random.choice
        if self.style == "netlist" and self.happens(.4):
            name = "\\" + choice(["u1/", "u2/", "core/u1."]) + choice(["q", "d", "n1", "q[3]"])
        if kind != "event" and kind not in REAL_TYPES:
            if size > 1 and self.happens(.8):
                low = choice([0, 0, 0, 0, 1, 4, 32, -2, -size])
                ends = (low + size - 1, low) if self.happens(.75) else (low, low + size - 1)
                is_inside = (self.style == "ghdl" or self.happens(.12)) and name[-1] != "]"
                name += "%s[%d:%d]" % ("" if is_inside else " ", *ends)
            elif size == 1 and self.happens(.1):
                name += choice([" [0]", " [3]", " [0:0]", " [7:7]"])
        self._put(code, kind, size, name)

    def _put(self, code: str, kind: str, size: int, reference: str) -> None:
        """Writes a declaration."""
        self.nets.append(Net(code, kind, size))
        self.lines.append("$var %s %d %s %s $end" % (kind, size, code, reference))

    # ---- The body.

    def _change(self, of: Net) -> str:
        """Returns a value change."""
        if of.type == "event":
            return self.random.choice("1101xz") + of.code
        if of.is_real:
            text = self.random.choice(REALS[:12] if self.happens(.6) else REALS)
            if self.happens(.15):
                text = repr(self.random.uniform(-10, 10))
            return "%s%s %s" % (self.random.choice("rrrR"), text, of.code)
        if of.size == 1:
            digit = self.random.choice("01" if self._is_calm else "01010101xzXZ")
            return digit + of.code if self.happens(.9) else "%s%s %s" % (
                self.random.choice("bB"), digit, of.code)
        if self.happens(.06) and not self._is_calm:
            return self.random.choice("01xz") + of.code
        digits = self._digits(of)
        self._last[of.code] = digits.lower()
        if self.happens(.5) and digits[0] == "0":  # the shortest form
            rest = digits.lstrip("0")
            digits = rest if rest[:1] == "1" else digits if rest else "0"
        return "%s%s %s" % (self.random.choice("bbbbbB"), digits, of.code)

    def _digits(self, of: Net) -> str:
        """Returns digits: often a small step from the last ones, as in a counter."""
        choice, size = self.random.choice, of.size
        old, how = self._last.get(of.code), self.random.random()
        if old and how < .4:
            digits = list(old.rjust(size, old[0] if old[0] in "xz" else "0"))
            digits[self.random.randrange(size)] = choice(
                "01" if self._is_calm or self.happens(.8) else "xz")
            return "".join(digits)
        if how < .5:
            return choice("01" if self._is_calm else "01xz") * choice([1, size])
        if how < .75:
            return bin(choice([0, 1, 2, 3, 2**(size - 1), 2**size - 1, self.random.randrange(
                2**size), self.random.randrange(min(2**size, 16))]))[2:][-size:]
        letters = "01" if self._is_calm or self.happens(.6) else "01xzXZ"
        return "".join(choice(letters) for _ in range(choice([size, size,
                                                               self.random.randint(1, size)])))

    def _section(self, command: str, share: float = .95) -> None:
        """Writes a section with most of the codes."""
        self.lines.append(command)
        for one in self._order:
            is_off = command == "$dumpoff" and not one.is_real
            if not self.happens(share) or one.type == "event" and self.happens(.7):
                continue
            if is_off and one.type != "event":
                self.lines.append("x" + one.code if one.size == 1 else "bx " + one.code)
                self._last.pop(one.code, None)
            else:
                self.lines.append(self._change(one))
        self.lines.append("$end")

    def _body(self) -> None:
        """Writes the body."""
        choice = self.random.choice
        self._order = list({one.code: one for one in reversed(self.nets)}.values())
        self.random.shuffle(self._order)
        self._is_calm = self.happens(.35)
        self.clocks = [one.code for one in self._order if one.size == 1 and not one.is_real
                       and one.type != "event"][:choice([1, 2, 2, 3])]
        self._levels = {code: choice("01") for code in self.clocks}
        start, step = choice(STARTS), choice([1, 1, 2, 5, 10, 500, 1000])
        time, is_written = self._first(start)
        for _ in range(choice([0, 1, 3, 6, 10, 15, 25, 40])):
            is_same = is_written and self.happens(.08)
            if time < start and self.happens(.8):
                time = start
            time += 0 if is_same else self.random.randint(1, 3 if self.happens(.9) else 100) * step
            time, is_written = min(time, MOST), True
            self.lines.append("#%s%d" % ("0" * choice([0] * 30 + [1, 3]), time))
            if self.happens(.9):
                self._time()
        if self.happens(.4):
            self.lines.append("#%d" % min(time + self.random.randint(0, 40) * step, MOST))

    def _first(self, start: int) -> Tuple[int, bool]:
        """Writes first values before, at or without a timestamp; returns its time, and whether
        there is one."""
        how = self.random.random()
        if how < .12:
            self._section("$dumpvars")
        elif how < .2:
            self._some(self.random.randint(1, 5))
        elif how < .8:
            time = start if self.happens(.5) else 0
            self.lines.append("#%d" % time)
            self._some(2 if self.happens(.15) else 0)
            self._section("$dumpvars", self.random.choice([1, .95, .6]))
            return time, True
        return 0, False

    def _some(self, count: int) -> None:
        """Writes some changes, now and then several of one code."""
        for _ in range(count):
            of = self.random.choice(self._order)
            self.lines += [self._change(of) for _ in range(
                self.random.randint(2, 4) if self.happens(.12) else 1)]

    def _time(self) -> None:
        """Writes what is behind a timestamp."""
        for code in self.clocks:
            if self.happens(.6):
                self._levels[code] = "10"[int(self._levels[code])]
                self.lines.append(self._levels[code] + code)
            if self.happens(.05):
                self.lines += [self.random.choice("01") + code
                               for _ in range(self.random.randint(1, 3))]
        self._some(self.random.choice([0, 1, 1, 2, 2, 3, 5, 8]))
        for command, share, part in (("$dumpoff", .04, .95), ("$dumpon", .04, .98),
                                     ("$dumpall", .03, .7), ("$dumpvars", .02, .5)):
            if self.happens(share):
                self._section(command, part)
        if self.happens(.05):
            self.lines.append("$comment hi #5 1! $dumpoff there $end")
        if self.happens(.01):
            self.lines.append("$comment " + "0! b01 # x " * 500 + "$end")
