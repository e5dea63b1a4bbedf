"""All small dumps: the bodies of up to four lines of an alphabet (five of edges of a clock), over
each of some declarations, of which none has a line behind a fault; and all headers of up to three
lines."""
import itertools
from typing import Dict, Iterator, List, NamedTuple, Sequence, Tuple

FAR = 2**64 - 1
TIMES = ["#0", "#5", "#10"]
SECTION = ["$dumpvars", "$end"]
END = "$enddefinitions $end\n"
ROUNDS = {0: 8, 1: 8, 2: 8, 3: 3}  # of questions about a dump of so many lines; else one


class Declarations(NamedTuple):
    """A header, and the lines of bodies over it, of which a body has so many at most."""

    header: str
    lines: List[str]
    most: int = 4


BIT = "$timescale 10ns $end $scope module t $end $var wire 1 ! c $end $upscope $end "
VECTOR = "$scope module t $end $var wire 1 ! c $end $var reg 3 \" q[2:0] $end $upscope $end "
REAL = ("$timescale 10ns $end $scope module t $end $var real 64 @ r $end "
        "$var real_parameter 64 @ p $end $var event 1 $ e $end $var wire 1 ! c $end $upscope $end ")
DECLARATIONS: Dict[str, Declarations] = {
    "bit": Declarations(BIT, [*TIMES, "0!", "1!", "x!", "z!", *SECTION, "$dumpoff",
                              "$dumpvars 0! $end"]),
    "late": Declarations(BIT, ["#0", "#%d" % (FAR - 1), "#%d" % FAR, "0!", "1!", "x!", *SECTION]),
    "vector": Declarations(VECTOR, [*TIMES, "0!", "1!", 'b1 "', 'b01x "', 'bx "', 'b101 "',
                                    *SECTION, '$dumpvars 0! b0 " $end']),
    "edges": Declarations(VECTOR, ['0! b0 "', '#3 1! b11 "', '#4 0! bx "', '#5 1! b101 "',
                                   '#7 0! b1 "', "#7 z!", '#10 1! bz01 "', '#12 0! b10 "', "$end"],
                          5),
    "slices": Declarations(
        "$timescale 10ns $end $scope module t $end $var wire 2 ! q[1:0] $end "
        "$var wire 2 \" q[3:2] $end $var wire 2 ! p [1:0] $end $var wire 2 \" p [3:2] $end "
        "$upscope $end ", [*TIMES, "b0 !", "b1 !", "b1x !", 'b0 "', 'b1 "', *SECTION]),
    "index": Declarations(
        "$timescale 10ns $end $scope module t $end $var wire 1 ! s [3] $end "
        "$var wire 1 ! w [1] $end $var wire 1 \" w [0] $end $var wire 1 \" m[3] $end "
        "$upscope $end ",
        [*TIMES, "0!", "1!", "x!", '0"', '1"', *SECTION, "$dumpvars 0! 1\" $end"]),
    "alias": Declarations(
        "$timescale 1ns $end $scope module t $end $var wire 2 ! q[1:0] $end $var integer 2 ! k "
        "[0:1] $end $scope module u $end $var reg 2 ! b $end $upscope $end $upscope $end ",
        [*TIMES, "b0 !", "b1 !", "b01 !", "b10 !", "bx !", *SECTION]),
    "twice": Declarations(
        "$timescale 100ps $end $scope module t $end $var wire 1 ! b $end $scope module b $end "
        "$upscope $end $var wire 2 \" b $end $var wire 1 ! c $end $upscope $end ",
        [*TIMES, "0!", "1!", "x!", 'b0 "', 'b1 "', 'bx1 "', *SECTION]),
    "real": Declarations(REAL, [*TIMES, "r1 @", "r1.0 @", "r0 @", "r-0 @", "rNaN @", "rx @",
                                *SECTION]),
    "event": Declarations(REAL, [*TIMES, "1$", "0!", "1!", "r1 @", *SECTION, "$dumpvars 1! $end"])}
SCOPES = ["$scope module a $end", "$upscope $end"]
VARIABLES = ["1 a", "2 a[1:0]", "2 a[3:2]", "2 a [1:0]", "1 a[0]", "1 b", "1 \\a/b"]
CODES = "!\"%"


def bodies(lines: Sequence[str], most: int) -> Iterator[str]:
    """Returns all bodies of up to so many lines. As what is asked of times is the same for all, #10
    is only there behind #5."""
    whole: List[Tuple[str, ...]] = [()]
    yield ""
    for _ in range(most):
        longer = []
        for front in whole:
            for line in lines:
                if line == "#10" and "#5" not in front:
                    continue
                yield "".join(one + "\n" for one in (*front, line))
                if is_open(front, line):
                    longer.append((*front, line))
        whole = longer


def is_open(front: Sequence[str], line: str) -> bool:
    """Whether a line behind others is no fault."""
    commands = [one for one in " ".join(front).split() if one[0] == "$"]
    is_in_section = bool(commands) and commands[-1] != "$end"
    if line[0] == "#":
        times = [int(one.split()[0][1:]) for one in (*front, line) if one[0] == "#"]
        return not is_in_section and times[-1] == max(times)
    return line[0] != "$" or is_in_section == (line == "$end")


def headers() -> Iterator[str]:
    """Returns all headers, each with a body in which each variable gets a value at a time of its
    own."""
    for count in (1, 2, 3):
        for lines in itertools.product([*SCOPES, *VARIABLES], repeat=count):
            depths = list(itertools.accumulate(
                {SCOPES[0]: 1, SCOPES[1]: -1}.get(one, 0) for one in lines))
            if min(depths) < 0 or not set(lines) & set(VARIABLES):
                continue
            codes = iter(CODES)
            header = "\n".join([one if one in SCOPES else "$var wire %s %s %s $end" % (
                one[:1], next(codes), one[2:]) for one in lines])
            yield header + "\n" + END + "".join("#%d\nb%d %s\n" % (
                at, at % 2, code) for at, code in enumerate(CODES, 1) if " %s " % code in header)


def every() -> Iterator[str]:
    """Returns all of them, short ones several times, for as many rounds of questions."""
    for of in DECLARATIONS.values():
        for body in bodies(of.lines, of.most):
            for _ in range(ROUNDS.get(body.count("\n"), 1)):
                yield of.header + END + body
    yield from headers()


def some(stride: int, first: int) -> Iterator[Tuple[int, bytes, bytes]]:
    """Returns every so many-th of them from one on: its number, itself, and the one before it,
    which may have another tick."""
    before = ""
    for number, text in enumerate(every()):
        if number >= first and (number - first) % stride == 0:
            other = before.replace("10ns", "1ns") if number % 2 else before
            yield number, text.encode(), other.encode()
        before = text
