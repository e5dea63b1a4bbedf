"""Small dumps, each with a command. Together they use every part of the programs."""
from reference import comparison
from reference import evaluator
from reference import strobe

A = (b"$timescale 1ns $end\n$scope module tb $end\n$var wire 1 ! clk $end\n"
     b"$var reg 4 \" q [3:0] $end\n$upscope $end\n$enddefinitions $end\n")
B = b"$var wire 4 ! v $end\n$var wire 8 \" w $end\n$enddefinitions $end\n"
C = (b"$var wire 1 ! a $end\n$var real 1 \" r $end\n$var event 1 # e $end\n$var wire 2 % u $end\n"
     b"$enddefinitions $end\n")
D = (b"$date\n\tTue Mar  5 10:00:00 2024\n$end\n$version\n\tIcarus Verilog\n$end\n"
     b"$comment x$end $end\n$timescale\n\t10 ps\n$end\n$scope module top $end\n"
     b"$var wire 8 ! data [7:0] $end\n$scope begin inner $end\n$var wire 8 ! alias $end\n"
     b"$var wire 70 ~~ wide $end\n$upscope $end\n$enddefinitions\n$end\n")

ON_A = A + (b"#0\n$dumpvars\n0!\nb0 \"\n$end\n#1\nx!\n#2\n1!\n#3\n0!\n#4\n1!\n1!\nb1 \"\n"
            b"#5\n$dumpoff\nx!\nbx \"\n$end\n")
ON_B = B + b"#1\nb10 !\nb1 \"\n#2\nbX10 !\n#3\nbZx0 !\n#4\nb0x10 !\n"
ON_C = C + b"#9\n0!\nr1.5 \"\n1#\n#10\n1!\n1#\n#20\nr2 \"\n#21\n0!\n"
ON_D = D + b"#7 b1010 ! b" + b"1" * 70 + b" ~~ $comment #8 $end #20 bz ~~ #400 0!"
BAD = A + b"#0\n0!\n#5\nb10"
WIDE = B + b"#1\nb1 !\n#2\n?\n"
ICARUS = (b"$date\n\tTue Mar  5 10:00:00 2024\n$end\n$version\n\tIcarus Verilog\n$end\n"
          b"$timescale\n\t1ns\n$end\n$scope module tb $end\n$var wire 8 ! data [7:0] $end\n"
          b"$var reg 1 \" clk $end\n$upscope $end\n$enddefinitions $end\n"
          b"#0\n$dumpvars\n0\"\nbx !\n$end\n#5\n1\"\nb101 !\n#10\n")
NESTED = (b"$var event 1 % go $end\n$scope module tb $end\n$var wire 1 ! clk $end\n"
          b"$scope module u $end\n$var reg 4 \" q [3:0] $end\n$upscope $end\n"
          b"$var real 1 # r $end\n$enddefinitions $end\n")
CLOCK = A + b"#0\n0!\n#5\n1!\n"
OTHER_SIZE = (b"$var wire 1 abcdefgh a $end\n$var wire 2 abcdefgh b $end\n$enddefinitions $end\n"
              b"#0\n" + 5 * b"$comment x $end\n")
TENS = (b"$timescale 10ns $end\n$var wire 1 ! a $end\n$enddefinitions $end\n"
        b"#0\n0!\n#1\n1!\n#2\n0!\n#3\n1!\n")


class Case:
    program = b"vcdkit"

    def __init__(self, name, command, inputs, options=(), names=(), known_code=False):
        self.name, self.command = name, command
        # Whether the fault is that of a long code which was declared before.
        self.known_code = known_code
        self.inputs, self.options, self.names = list(inputs), list(options), list(names)

    def words(self, files):
        """The words of the command line; `files` are the names of the inputs."""
        words = [self.command]
        if self.command == "merge":
            return words + files
        words += ["-i", files[0]]
        spelled = ["%d%s" % (n, u or "") for n, u in self.options]
        if self.command == "cut":
            words += ["--from", spelled[0], "--to", spelled[1]]
        if self.command == "sample":
            words += ["--at", ",".join(spelled)]
        return words + [n.decode() for n in self.names]

    def line(self, text):
        """A line on the error stream of its program."""
        return b"%s: %s\n" % (self.program, text)

    def outcome(self, files, inputs):
        """What the evaluator gives for inputs with these names."""
        options = [(n, None if u is None else evaluator.UNITS[u.encode()]) for n, u in self.options]
        return evaluator.run(self.command, options, self.names, list(zip(files, inputs)))


class Comparison(Case):
    """A case of vcdkit-compare. Its names come in pairs."""
    program = b"vcdkit-compare"

    def __init__(self, name, text, names, asked=comparison.Asked()):
        super().__init__(name, "compare", [text], names=names)
        self.asked = asked

    def words(self, files):
        asked = self.asked
        words = {comparison.FIRST: ["--first"], comparison.ALWAYS: ["--always"]}.get(
            asked.extent, [])
        words = words + ["--from", str(asked.begin), "--to", str(asked.end)]
        words += [word for word, one in zip(("--x-of-a", "--x-of-b"), asked.loose) if one]
        words += ["--except=" + name.decode() for name in asked.exceptions]
        words += ["-i", *files] if files else []
        return words + ["--"] + ["%s=%s" % (one.decode(), other.decode())
                                 for one, other in self.names]

    def outcome(self, files, inputs):
        output, message, status = comparison.answered(
            self.asked, self.names, files[0], inputs[0])
        # The definitions begin each line with the name of the other program.
        return output, message.replace(Case.program, self.program, 1), status


class Strobing(Case):
    """A case of vcdkit-strobe. Each clock is an argument, and whether it falls."""
    program = b"vcdkit-strobe"

    def __init__(self, name, text, clocks, names=()):
        super().__init__(name, "strobe", [text], names=names)
        self.clocks = clocks

    def words(self, files):
        return ["--%s=%s" % ("fall" if falls else "rise", word.decode())
                for word, falls in self.clocks] + ["-i", files[0], "--"] + [
                    name.decode() for name in self.names]

    def outcome(self, files, inputs):
        name = files[0] if isinstance(files[0], bytes) else files[0].encode()
        return strobe.answered(self.clocks, self.names, name, inputs[0])


CASES = [
    Case("check", "check", [ON_D]),
    Case("check_cut_off", "check", [BAD]),
    Case("check_other_size", "check", [OTHER_SIZE], known_code=True),
    Case("list", "list", [ON_D]),
    Case("pick_scope", "pick", [ON_A], names=[b"tb"]),
    Case("pick_alias", "pick", [ON_D], names=[b"top.inner.alias", b"top.inner.wide"]),
    Case("pick_nothing", "pick", [ON_A], names=[b"tb", b"tc"]),
    Case("cut_inside", "cut", [ON_C], options=[(10, None), (15, None)]),
    Case("cut_behind", "cut", [ON_C], options=[(30, None), (40, None)]),
    Case("cut_units", "cut", [ON_A], options=[(1500, "ps"), (4, "ns")]),
    Case("cut_without_scale", "cut", [ON_C], options=[(1, "ns"), (2, "ns")]),
    Case("sample_times", "sample", [ON_B], options=[(t, None) for t in range(5)]),
    Case("sample_fault", "sample", [WIDE], options=[(1, None), (2, None)]),
    Case("sample_units", "sample", [ON_D], options=[(70, "ps"), (4, "ns")], names=[b"top.inner"]),
    Case("edges", "edges", [ON_A]),
    Case("edges_names", "edges", [ON_C], names=[b"a", b"e"]),
    Case("check_icarus", "check", [ICARUS]),
    Case("list_nested", "list", [NESTED]),
    Case("pick_vectors", "pick", [A + b"#0\nb0010 \"\nb1 !\n"], names=[b"tb"]),
    Case("cut_to_a_mark", "cut", [ON_C], options=[(10, None), (20, None)]),
    Case("cut_ns", "cut", [TENS], options=[(5, "ns"), (29, "ns")]),
    Case("cut_tick_and_ns", "cut", [TENS], options=[(1, None), (29, "ns")]),
    Case("sample_early", "sample", [WIDE], options=[(1, None)]),
    Case("sample_ns", "sample", [TENS], options=[(5, "ns"), (15, "ns"), (25, "ns")]),
    Case("merge_clock_twice", "merge", [CLOCK, CLOCK]),
    Case("merge_one", "merge", [CLOCK]),
    Case("merge_two", "merge", [ON_A, ON_C]),
    Case("merge_same", "merge", [ON_D, ON_D]),
    Case("merge_fault", "merge", [ON_B, BAD, WIDE]),
]

PARTS = (b"$timescale 1ns $end\n$scope module a $end\n$var wire 1 ! c $end\n"
         b"$var reg 8 \" q [7:0] $end\n$var event 1 # e $end\n$var real 64 % r $end\n"
         b"$var wire 1 & n $end\n$upscope $end\n$scope module b $end\n$var event 1 ' e $end\n"
         b"$var reg 8 ( q $end\n$var wire 1 ) c $end\n$var real 1 * r $end\n$var reg 1 + n $end\n"
         b"$var reg 4 , q $end\n$upscope $end\n$enddefinitions $end\n")
ON_PARTS = PARTS + (
    b"#0\n$dumpvars\n0!\n0)\nb0 \"\nbx (\nr0 %\nr0 *\n1#\n$end\n#2\n1!\n1#\n1'\n#3\n1)\n"
    b"b1 \"\nb1 (\n1&\n#5\nr1.5 %\nr1.50 *\n1'\n#9\nbx1 \"\n0+\n#12\n")
WHOLE = [(b"a", b"b")]

# A comparison of what a merge wrote.
OF_MERGE = Case("", "merge", [ON_A, CLOCK]).outcome([b"a", b"b"], [ON_A, CLOCK])[0]

COMPARISONS = [
    Comparison("each_pair", ON_PARTS, WHOLE),
    Comparison("first", ON_PARTS, WHOLE, comparison.Asked(extent=comparison.FIRST)),
    Comparison("always", ON_PARTS, WHOLE, comparison.Asked(extent=comparison.ALWAYS)),
    Comparison("window", ON_PARTS, WHOLE, comparison.Asked(begin=1, end=5)),
    Comparison("a_late_window", ON_PARTS, WHOLE, comparison.Asked(begin=13)),
    Comparison("x_of_both", ON_PARTS, WHOLE,
               comparison.Asked(exceptions=[b"a.e", b"b.n"], loose=(True, True))),
    Comparison("aliases", ON_PARTS, [(b"a.c", b"a.n"), (b"a.n", b"a.c")]),
    Comparison("several", ON_PARTS, [(b"a.c", b"b.n"), (b"b.q", b"a.q"), (b"a", b"b")]),
    Comparison("nothing", ON_PARTS, [(b"a", b"b"), (b"a.c", b"d")]),
    Comparison("no_exception", ON_PARTS, WHOLE, comparison.Asked(exceptions=[b"b.n", b"a.o"])),
    Comparison("all_left_out", ON_PARTS, WHOLE, comparison.Asked(exceptions=[b"a", b"b"])),
    Comparison("damaged", ON_PARTS + b"1!\n#10\n", WHOLE),
    Comparison("damaged_header", PARTS[:-25], WHOLE),
    Comparison("of_merge", OF_MERGE, [(b"in1", b"in2")]),
]

OF_CLOCKS = C[:-21] + b"$var wire 1 ' c $end\n$enddefinitions $end\n" + (
    b"#0\n$dumpvars\n0!\n0'\nb10 %\nr1 \"\n1#\n$end\n#3\n1#\n1!\nbx %\n0!\n1!\n#4\n1'\nr2 \"\n"
    b"#5\n0!\n0'\n1#\n#6\n1!\n#7\nx!\n1!\n0!\n#8\n1!\nb0 %\n#9\n0!\n")

STROBES = [
    Strobing("rise", ON_A, [(b"tb.clk", False)]),
    Strobing("fall", ON_A, [(b"tb.clk@0", True)], [b"tb.q"]),
    Strobing("both", OF_CLOCKS, [(b"a", False), (b"a", True)]),
    Strobing("two", OF_CLOCKS, [(b"a", False), (b"c", False)], [b"r", b"e", b"u"]),
    Strobing("a_bit", ON_D, [(b"top.data@1", False), (b"top.wide@69", True)]),
    Strobing("no_clock", ON_C, [(b"a", False), (b"u", False)]),
    Strobing("no_edge", C + b"#9\n0!\n#10\n", [(b"a", False)]),
    Strobing("no_name", ON_C, [(b"a", False)], [b"a", b"v"]),
    Strobing("broken", OF_CLOCKS + b"1!\n?\n", [(b"a", False)]),
    Strobing("broken_header", A[:-25], [(b"tb.clk", False)]),
]


def base_94(n):
    """The code of a number, of one to three bytes."""
    code = bytes([33 + n % 94])
    while n >= 94:
        n //= 94
        code += bytes([33 + n % 94])
    return code


# 100,008 declarations: 8,334 times a scope, ten variables with a code each, and the scope's end.
MANY = b"".join(
    b"$scope module s%d $end\n" % k
                + b"".join(b"$var wire 4 %s v%d [3:0] $end\n" % (base_94(10 * k + n), n)
                           for n in range(10)) + b"$upscope $end\n"
    for k in range(8_334)) + b"$enddefinitions $end\n"

LARGE = [
    Case("check_many", "check", [MANY + b"#0\nb1010 !\n#5\nb1 \"\n"]),
    Case("pick_many", "pick", [MANY + b"#0\nb1010 !\n#5\nb1 \"\n"], names=[b"s0.v0", b"s8333"]),
    Case("merge_many", "merge", [MANY + b"#0\nb1010 !\n", CLOCK]),
]

LARGE_COMPARISONS = [Comparison("compare_many", b"".join(
    b"$scope module %s $end\n" % part + MANY[:-len(b"$enddefinitions $end\n")] + b"$upscope $end\n"
    for part in (b"a", b"b")) + b"$enddefinitions $end\n#0\nb1010 !\n#5\nb1 \"\n", WHOLE)]

LARGE_STROBES = [Strobing("strobe_many", MANY + b"#0\nb1010 !\nb0 \"\n#5\nb1 \"\n",
                          [(b"s0.v1@0", False)], [b"s0.v0", b"s8333"])]
