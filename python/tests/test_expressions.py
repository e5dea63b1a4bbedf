#!/usr/bin/env python3
"""Compares what expressions mean in conditions with what simulators make of them.

test_expressions.py [--count N] [--seed N] [--verilator]: random expressions over variables that get
random values. Icarus Verilog evaluates each one in a wire of a test bench, of the width that the
expression has by itself, and dumps it. In each dump, `$unsigned(expression) === wire` has to hold
at all times, and second_reader/expressions.py has to find the digits of the wire. As Icarus has no
$past, registers stand for it there, which keep what an expression was at earlier edges; before the
first one, what it is of variables that are x. A test bench at which Icarus crashes is left out, and
the next seed stands for it. More than one crash, and more than one in a hundred, are an error.

Verilator has $past, $rose, $fell, $stable and $changed, and no x. There each expression has one of
them, a register takes it at the edges of a clock, and the first edges, whose past is before all
values, are left out."""
import argparse
import functools
import itertools
import os
import random
import re
import shutil
import subprocess
import sys
import tempfile
from typing import Any, Dict, Iterator, List, NamedTuple, Optional, Tuple

import cases  # finds what follows
import expressions
from asker import NEVER
from expressions import Expression, leaf
from vcdkit import Dump
from vcdkit.errors import UsageError
from vcdkit.questions.when import Questions, state

TIMES = 10  # of a test bench
EARLY = 14  # edges after which Verilator's past() is of values
WIDTHS = [1, 1, 2, 3, 4, 5, 8, 8, 13, 31, 32, 33, 64]


class Crash(Exception):
    """A signal ended a simulator."""


class Look(NamedTuple):
    """The values of a time, and the look at the edge before."""

    values: Dict[str, Any]
    before: Optional["Look"]


def constant(text: str, digits: str) -> Expression:
    """Returns a number."""
    return leaf(text, len(digits), False, lambda _: digits)


class Bench(expressions.Random):
    """A test bench for Icarus: variables, and the registers that stand for past()."""

    scope, each = "t", 400  # its name in the dump, and how many expressions it has
    begin = 0  # the time from which values are compared
    has_inside = False  # Icarus 11 lacks it, and Verilator 5.006 takes it only of some constants
    is_late = False  # a value of an expression is there at the next edge

    def __init__(self, seed: int, is_clocked: bool = False):
        self.random = random.Random("a bench %d" % seed)
        self.is_clocked = is_clocked or seed % 4 == 3
        self.lines: List[str] = []
        self.widths: Dict[str, int] = {}
        self.meanings: Dict[str, str] = {}  # of a register: what it stands for
        self.is_wide = seed % 5 == 2
        # No register stands for stable() and changed() of a real number.
        reals = [] if self.is_clocked or seed % 3 else self._reals()
        super().__init__(self.random, self._leaves(), reals,
                         self.is_clocked, *((200, "/ % **") if self.is_wide else (64, "")),
                         has_inside=self.has_inside)

    def _leaves(self) -> List[Expression]:
        """Returns variables, and bits of them."""
        found = []
        for number in range(9):
            name = "t.v%d" % number
            width = self.random.choice(WIDTHS + [64, 65, 100, 128] * self.is_wide)
            low = self.random.choice([0, 0, 0, 3])
            bits = list(range(low + width - 1, low - 1, -1))
            if self.random.random() < .25:
                bits.reverse()
            is_integer = number > 6
            if is_integer:
                width, bits = 32, list(range(31, -1, -1))
                self.lines.append("integer %s;" % name)
            else:
                self.lines.append("reg [%d:%d] %s;" % (bits[0], bits[-1], name))
            self.widths[name] = width
            found.append(leaf(name, width, is_integer, functools.partial(self._read, name)))
            if width > 1 and self.random.random() < .6:
                found.append(self._part(name, bits))
        return found

    def _part(self, name: str, bits: List[int]) -> Expression:
        """Returns some bits of a variable."""
        first = self.random.randrange(len(bits))
        last = self.random.randint(first, min(len(bits) - 1, first + 9))
        text = "%s[%d:%d]" % (name, bits[first], bits[last])
        if first == last and self.random.random() < .8:
            text = "%s[%d]" % (name, bits[first])
        return leaf(text, last - first + 1, False,
                    lambda look: self._read(name, look)[first:last + 1])

    def _read(self, name: str, look: Optional[Look], *_: Any) -> Any:
        """Returns what a variable is. Before the first edge digits are x, and a real number 0."""
        return look.values[name] if look else "x" * self.widths[name] or 0.0

    def _reals(self) -> List[Expression]:
        """Returns variables of real numbers."""
        self.lines += ["real t.r0;", "real t.r1;"]
        self.widths.update({"t.r0": 0, "t.r1": 0})
        return [Expression(name, expressions.OPERAND, 0, True, functools.partial(self._read, name))
                for name in ("t.r0", "t.r1")] + [expressions.real("1.5")]

    def _chosen(self, *of: Expression) -> Expression:
        """Returns ?:, of which one value has no z: Icarus makes z of two z."""
        test, one, other = of
        return super()._chosen(test, expressions.unary("~", one), other)

    def _power(self, one: Expression, other: Expression) -> Expression:
        """Returns ** with an unsigned exponent: Icarus does not follow table 5-6 for others."""
        return super()._power(one, expressions.read_as("$unsigned", other))

    def _beside_real(self, one: Expression) -> Expression:
        """Returns 0 for what has an x: to Icarus, as to clause 4.8.2, x is 0 in a real number."""
        has_x = expressions.joined("===", expressions.unary("^", one), constant("1'bx", "x"))
        return super()._chosen(has_x, constant("%d'd0" % one.width, "0" * one.width), one)

    def _past(self, one: Expression) -> Expression:
        """Returns past(), rose() or the like, for which a register or a wire stands."""
        found = super()._past(one)
        number, of = len(self.meanings), (one.width, "signed " * one.is_signed)
        name = "t.p%d" % number
        self.meanings[name] = found.text
        kept = [name + "_%d" % at for at in range(3)]
        self.lines.append("wire %s[%d:0] %s_w = %s;" % (of[1], of[0] - 1, name, one.text))
        self.lines.append("reg %s[%d:0] %s;" % (of[1], of[0] - 1, ", ".join(kept)))
        self.lines.append("always @(posedge t.clk) begin %s end" % " ".join(
            "%s <= %s;" % pair for pair in zip(kept, [name + "_w", *kept])))
        kind, is_name = found.text.partition("(")[0], {"w": name + "_w", "p": kept[0]}
        meaning = {"rose": "{w}[0] === 1'b1 && {p}[0] !== 1'b1",
                   "fell": "{w}[0] === 1'b0 && {p}[0] !== 1'b0", "stable": "{w} === {p}",
                   "changed": "{w} !== {p}"}.get(kind, kept[int(found.text[-2]) - 1]
                                                 if kind == "past" else "").format(**is_name)
        self.lines.append("wire %s[%d:0] %s = %s;" % (
            "signed " * found.is_signed, found.width - 1, name, meaning))
        return found._replace(text=name)

    def asked(self, text: str) -> str:
        """Returns an expression with what its registers stand for."""
        while re.search(r"t\.p\d", text):
            text = re.sub(r"t\.p\d+", lambda found: self.meanings[found.group()], text)
        return text

    def value(self, width: int) -> str:
        """Returns a random value, as Verilog writes it."""
        chance = self.random.random()
        if width == 0:
            return self.random.choice(["0.0", "1.0", "-1.0", "2.5", "-0.5", "3.0", "100.25"])
        if chance < .3:
            return "%d'd%d" % (width, self.random.choice(
                [0, 1, 2**width - 1, 2**width // 2, 3]) % 2**width)
        digits = "01" if chance < .7 else "0011xz" if chance < .95 else "01xz"
        return "%d'b%s" % (width, "".join(self.random.choice(digits) for _ in range(width)))

    def verilog(self, of: List[Expression]) -> str:
        """Returns the test bench."""
        lines = ["`timescale 1ns/1ns", "module t;", "reg clk;", *self.lines]
        lines += ["wire [%d:0] t.y%d = %s;" % (one.width - 1, at, one.text)
                  for at, one in enumerate(of)]
        lines += ["initial begin", '$dumpfile("dump.vcd");', "$dumpvars(0, t);"]
        lines += ["#1 t.p%d_0 = t.p%d_w; t.p%d_1 = t.p%d_0; t.p%d_2 = t.p%d_0;" % ((at,) * 6)
                  for at in range(len(self.meanings))]  # the inner ones first
        lines.append("clk = 0;")
        for _ in range(TIMES):
            lines += ["%s = %s;" % (name, self.value(width))
                      for name, width in self.widths.items() if self.random.random() < .7 or not _]
            lines.append("#1 clk = 1; #1 clk = 0;" if self.is_clocked else "#1;")
        return "\n".join([*lines, "end", "endmodule", ""]).replace("t.", "")

    def run(self, folder: str) -> None:
        """Simulates the test bench."""
        for words in (["iverilog", "-g2012", "-gstrict-expr-width", "-o", "bench", "bench.v"],
                      ["vvp", "-n", "bench"]):
            done = subprocess.run(words, cwd=folder, stdout=subprocess.DEVNULL,
                                  stderr=subprocess.DEVNULL)
            if done.returncode < 0 or done.returncode > 128:  # iverilog shows its own as a shell
                raise Crash("%s: status %d" % (words[0], done.returncode))
            done.check_returncode()

    def is_asked(self, one: Expression) -> bool:
        """Whether an expression is compared."""
        return "t." in one.text


class TwoStates(Bench):
    """A test bench for Verilator. Its values have no x, nor has what is made of them."""

    scope, each, begin, is_late = "TOP.t", 400, 2 * EARLY, True

    def __init__(self, seed: int):
        super().__init__(seed, True)
        self.signs = [one for one in self.signs if one not in ("/", "%", "**", "==?", "!=?")]

    def _operand(self) -> Expression:
        """Returns a variable, or a number without x and z."""
        made = iter(super()._operand, None)
        return next(one for one in made if not re.search(r"'.*[xz?]", one.text))

    def _count(self, one: Expression) -> Expression:
        """Returns the number of bits of a shift: Verilator rejects constants of more than 32 bits,
        also those that it finds itself."""
        return self.random.choice([self._past, lambda its: its])(self.random.choice(self.leaves))

    def _parts(self) -> List[Expression]:
        """Returns the ends of a range: Verilator takes no value there that it has to extend."""
        made = iter(super()._parts, None)
        return next(its for its in made if len(its) == 2)

    def _past(self, one: Expression) -> Expression:
        """Returns past(), rose() or the like, as Verilog writes it."""
        found = expressions.Random._past(self, one)
        return found._replace(text="$" + found.text)

    def asked(self, text: str) -> str:
        """Returns an expression in which integers are signed: Verilator dumps them as wires."""
        return re.sub(r"t\.v[78]\b(?!\[)", r"$signed(\g<0>)", text)

    def value(self, width: int) -> str:
        """Returns a random value, of which all digits are known."""
        made = iter(lambda: Bench.value(self, width), None)
        return next(one for one in made if not re.search("[xz]", one))

    def verilog(self, of: List[Expression]) -> str:
        """Returns the test bench."""
        lines = ["`timescale 1ns/1ns", "module t;", "reg clk;", *self.lines]
        for at, one in enumerate(of):
            lines += ["reg [%d:0] t.y%d;" % (one.width - 1, at),
                      # Without ~~, Verilator 5.006 fails at a $stable that is the whole value.
                      "always @(posedge t.clk) t.y%d <= ~~(%s);" % (at, one.text)]
        lines += ["initial begin", '$dumpfile("dump.vcd");', "$dumpvars(0, t);", "t.clk = 0;"]
        for _ in range(EARLY + TIMES + 1):
            lines += ["%s = %s;" % (name, self.value(width))
                      for name, width in self.widths.items() if self.random.random() < .7 or not _]
            lines.append("#1 t.clk = 1; #1 t.clk = 0;")
        return "\n".join([*lines, "$finish;", "end", "endmodule", ""]).replace("t.", "")

    def run(self, folder: str) -> None:
        """Simulates the test bench."""
        fast = ["OPT_FAST=-O0", "OPT_SLOW=-O0", "OPT_GLOBAL=-O0"]
        subprocess.run(["verilator", "--binary", "--trace", "-Wno-lint", "-Wno-style",
                        "-Wno-WIDTHCONCAT", "--top-module", "t", "-MAKEFLAGS", " ".join(fast),
                        "bench.v"],
                       cwd=folder, check=True, stdout=subprocess.DEVNULL)
        subprocess.run(["obj_dir/Vt"], cwd=folder, check=True, stdout=subprocess.DEVNULL)

    def is_asked(self, one: Expression) -> bool:
        """Whether an expression asks for an earlier edge."""
        return bool(re.search(r"\$([prfc]|st)", one.text)) and "t." in one.text


def is_refused(dump: Dump, text: str) -> bool:
    """Whether an expression has a comparison that never holds."""
    try:
        state(dump, text, True)
    except UsageError as error:
        return bool(re.search(NEVER, str(error)))
    return False


def wrong_of(bench: Bench, folder: str, count: int) -> Iterator[Tuple[str, str]]:
    """Returns the expressions of a test bench whose values are others than those of its
    simulator."""
    made = iter(lambda: bench.make(bench.random.choice([1, 2, 2, 3, 3, 4])), None)
    asked = list(itertools.islice(filter(bench.is_asked, made), count))
    with open(os.path.join(folder, "bench.v"), "w", encoding="ascii") as file:
        file.write(bench.verilog(asked))
    bench.run(folder)
    dump = Dump(os.path.join(folder, "dump.vcd"))
    clock = bench.scope + ".clk" if bench.is_clocked else None
    paths = {one.path.partition("[")[0] for one in dump.select([bench.scope])}
    # Icarus does not dump a wire that is always z.
    of = {at: one for at, one in enumerate(asked) if "%s.y%d" % (bench.scope, at) in paths}
    texts = {at: bench.asked(one.text).replace("t.", bench.scope + ".") for at, one in of.items()}
    texts = {at: text for at, text in texts.items() if not is_refused(
        dump, "%s === %s.y%d" % (text, bench.scope, at))}
    rules = [("", "%s($unsigned(%s) === %s.y%d)" % (
        "!" * (at % 50 > 0), "$past(%s)" % text if bench.is_late else text, bench.scope, at))
             for at, text in texts.items()]
    asking = Questions(dump, rules, clock, None, bool(clock))
    held = {number for time, numbers in asking.times() if time >= bench.begin for number in numbers}
    # Each 50th has to hold, so that it is known that they can.
    for number, (at, text) in enumerate(texts.items()):
        if (number in held) == (at % 50 > 0):
            yield "vcdkit", "%s of y%d" % (text, at)
    names = [*bench.widths, *("t.y%d" % at for at in of)]
    look = None
    for time, values in dump.rows([name.replace("t.", bench.scope + ".") for name in names],
                                  rise=clock):
        row = dict(zip(names, (value if isinstance(value, float) else str(value)
                               for value in values)))
        before, look = look, Look(row, look)
        for at in texts if time >= bench.begin else ():
            one = of[at]
            wanted = one.own(before if bench.is_late else look)
            if wanted != row["t.y%d" % at]:
                yield "the definition", "%s of y%d: %s, by the simulator %s, of %s" % (
                    texts[at], at, wanted, row["t.y%d" % at], {
                        name: row[name] for name in bench.widths if name in one.text})


def main() -> int:
    """Asks, and says what differs."""
    options = argparse.ArgumentParser(description=__doc__.partition("\n")[0])
    options.add_argument("--count", type=int, default=1600)
    options.add_argument("--seed", type=int, default=0)
    options.add_argument("--verilator", action="store_true")
    asked = options.parse_args()
    kind, program = (TwoStates, "verilator") if asked.verilator else (Bench, "iverilog")
    if not shutil.which(program):
        print("expressions are not compared: there is no %s" % program)
        return 0
    seen: Dict[str, int] = {"vcdkit": 0, "the definition": 0}
    done = crashes = 0
    seeds, most = itertools.count(asked.seed), max(asked.count // kind.each // 100, 1)
    with tempfile.TemporaryDirectory() as folder:
        while done < asked.count and crashes <= most:
            seed, count = next(seeds), min(kind.each, asked.count - done)
            try:
                for who, what in wrong_of(kind(seed), folder, count):
                    seen[who] += 1
                    if seen[who] <= 5:
                        print("seed %d, %s: %s" % (seed, who, what))
                done += count
            except Crash as error:
                print("seed %d: %s" % (seed, error))
                crashes += 1
    print("%d expressions; %d values of vcdkit differ, and %d of the definition; %s crashed at %d "
          "test benches" % (done, *seen.values(), program, crashes))
    return int(any(seen.values()) or crashes > most)


if __name__ == "__main__":
    sys.exit(main())
