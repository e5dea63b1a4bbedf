#!/usr/bin/env python3
"""Tests of the scripts as a whole: none shows a traceback, whatever its arguments, files and
streams are, and none says anything if the reader of its output has gone. Then their messages, and
what they say of small dumps where the second reader asks nothing."""
import bz2
import gzip
import json
import lzma
import os
import random
import re
import shlex
import shutil
import signal
import stat
import subprocess
import unittest
import unittest.mock
import xml.etree.ElementTree as xml
from concurrent.futures import ThreadPoolExecutor

import cases
from cases import NESTED, PYTHON, TOP, text_of
import asker
from vcdkit import Dump
from vcdkit.forms import saif
from vcdkit.model.names import names_for
from vcdkit.model.times import Window
from vcdkit.questions import picked, toggles, when
from vcdkit.reading import bits, sections, states

os.environ.update(PYTHONDONTWRITEBYTECODE="1", COLUMNS="80")
EXTRAS = os.path.join(TOP, "extras")
SCRIPTS = sorted(name for name in os.listdir(EXTRAS) if name.startswith("vcdkit-"))
FILTERS = ("vcdkit-four-state", "vcdkit-close-sections", "vcdkit-join-bits")
# What a script takes after its options: each FILE is a file to be read.
ARGUMENTS = {"vcdkit-diff": ["FILE", NESTED], "vcdkit-explain": ["FILE"],
             "vcdkit-table": ["FILE", "bench.slow"],
             "vcdkit-wave": ["FILE", "bench.slow"], "vcdkit-stats": ["FILE", "bench.slow"],
             "vcdkit-when": ["FILE", "bench.clock"], "vcdkit-x": ["FILE", "bench.slow"],
             "vcdkit-values": ["FILE", "bench.slow"], "vcdkit-find": ["FILE", "slow"]}
HUGE = "9" * 100_000
SECONDS = 60
os.dup2(os.open(os.devnull, os.O_RDONLY), 0)


def arguments(name, file=NESTED):
    """Returns the words of a script after its options."""
    if name in FILTERS:
        return []
    return [file if word == "FILE" else word for word in ARGUMENTS.get(name, ["FILE"])]


def run(name, words, **streams):
    """Runs a script; returns its status, its output and its messages. It runs in this process,
    unless it gets streams of its own."""
    if streams:
        return run_apart(name, words, **streams)
    signal.signal(signal.SIGALRM, no_end)
    signal.alarm(SECONDS)
    try:
        status, out, messages = asker.said_by(name[7:], words)
    finally:
        signal.alarm(0)
    return status, out, messages.encode("utf-8", "surrogateescape")


def no_end(*_):
    """Ends a script that runs too long."""
    raise AssertionError("no end after %d seconds" % SECONDS)


def run_apart(name, words, **streams):
    """Runs a script in a process of its own."""
    given = dict(stdin=subprocess.DEVNULL, stdout=subprocess.PIPE, stderr=subprocess.PIPE)
    try:
        done = subprocess.run([os.path.join(EXTRAS, name), *words], timeout=SECONDS,
                              **{**given, **streams})
    except subprocess.TimeoutExpired:
        raise AssertionError("%s %s: no end after %d seconds" % (
            name, [word[:40] for word in words], SECONDS)) from None
    return done.returncode, done.stdout or b"", done.stderr or b""


def said(line, *words, **streams):
    """Returns the lines that a script writes, of which a line has the name and the first words;
    then its status."""
    name, *front = shlex.split(line)
    status, out, _ = run("vcdkit-" + name, [*front, *words], **streams)
    return out.decode().splitlines() + ["status %d" % status]


def options(name):
    """Returns the options of a script, and of each whether it takes a word, as its help says."""
    _, out, _ = run(name, ["--help"])
    found = re.findall(r"(?m)^  (?:-\w, )?(--[a-z-]+)( [A-Z])?", out.decode())
    return {option: bool(word) for option, word in found if option not in ("--help", "--version")}


def made(variables, body, scale="1ns"):
    """Returns a dump: of each variable its path, with > around scopes, its size, its code and maybe
    a range; in the body, a ; ends a line."""
    lines = ["$timescale %s $end" % scale] * bool(scale)
    for one in variables.split(", "):
        path, size, code, *bits = one.split()
        *scopes, name = path.split(">")
        lines += ["$scope module %s $end" % scope for scope in scopes]
        lines += ["$var wire %s %s %s $end" % (size, code, " ".join([name, *bits]))]
        lines += ["$upscope $end"] * len(scopes)
    return (" ".join(lines) + " $enddefinitions $end\n" + body.replace(";", "\n")).encode()


TORN = b"""$timescale 1ns $end
$var wire 1 ! a $end
$var wire 1 " b $end
$var wire 2 # c $end
$enddefinitions $end
#0
0!
1"
#10
1!
0"
#20
0!
1"
#30
1!
b11 #
0"
"""
EDGE = b"""$timescale 10ns $end $scope module t $end $var wire 1 ! clk $end
$var reg 4 \" q $end $var wire 1 # z $end $upscope $end $enddefinitions $end
#0 1# #5 $dumpvars 0! b111 \" $end 1! #10 0! #11 1! 0! #12 x#
"""
HEAD = (b"$timescale 1ns $end $var wire 1 ! req $end $var wire 1 \" ack $end "
        b"$var wire 1 # other $end $var wire 1 c clk $end $var event 1 e go $end "
        b"$enddefinitions $end\n")
# Requests at the edges of 1, 2, 3 and 7, and answers at those of 4, 5 and 9.
BUS = {1: b"1!", 4: b'0! 1"', 6: b'0"', 7: b"1!", 8: b"0!", 9: b'1"', 10: b'0"'}
FILES = {
    "whole": TORN, "torn": TORN[:-5], "edge": EDGE, "front": TORN[:60],
    "nine": TORN.replace(b"b11 #", b"bUH #"),
    "bus": HEAD + b'#0 0! 0" 0c\n' + b"".join(b"#%d 1c\n#%d 0c %s\n" % (
        10 * at, 10 * at + 5, BUS.get(at + 1, b"")) for at in range(12)),
    "bits": b"$var wire 4 ! q [3:0] $end $var integer 32 i i [31:0] $end $var real 64 r r $end "
            b"$var wire 1100 w w $end $enddefinitions $end "
            b"#0 b1111 ! b11111111111111111111111111111011 i r0 r b1%s w\n" % (b"0" * 1099)}


class Case(cases.Case):
    """A case in a directory that has these files."""

    def setUp(self):
        super().setUp()
        self.addCleanup(os.chdir, os.getcwd())
        os.chdir(self.folder)
        for name, data in FILES.items():
            self.file(name, data)


class Scripts(Case):
    """Each script at bad arguments, files and streams."""

    def no_traceback(self, asked):
        """Runs scripts with words, and looks at what they say."""
        for name, words in asked:
            with self.subTest(script=name, words=[word[:40] for word in words]):
                status, _, messages = run(name, words)
                self.assertNotIn(b"Traceback", messages)
                self.assertIn(status, (0, 1, 2, 3), messages[-300:])
                self.assertTrue(status < 2 or messages, "a status without a message")

    def test_files(self):
        asked = []
        for file in (self.file("missing"), self.folder, HUGE[:5000], self.file("empty", b""),
                     self.file("binary", bytes(range(256)) * 40),
                     self.file("packed", b"\x1f\x8b\x08\0torn")):
            for name in set(SCRIPTS) - set(FILTERS):
                asked.append((name, arguments(name, file)))
                asked.append((name, ["--four-state", *arguments(name, file)]))
            asked.append(("vcdkit-join-bits", [file]))
        self.no_traceback(asked)

    def test_options(self):
        words = ["", HUGE, "-1", "\udcff\x01", self.folder]
        asked = []
        for name in SCRIPTS:
            for option, has_word in options(name).items():
                for word in words if has_word else [None]:
                    given = [option] if word is None else [option + "=" + word]
                    asked.append((name, [*given, *arguments(name)]))
        self.no_traceback(asked)

    def test_names(self):
        words = ["", HUGE, "(" * 20_000, "x{9999999999}", "\udcff", "a[", "bench.slow.count[99:0]"]
        names = set(SCRIPTS) - set(FILTERS)
        self.no_traceback([(name, ["--", *arguments(name)[:1], *[word] * bool(arguments(name)[1:])])
                           for name in names for word in words])

    def test_streams(self):
        def messages_of(case):
            name, closed = case
            return subprocess.run(
                ["bash", "-c", '"$@" ' + closed, "-", os.path.join(EXTRAS, name), *arguments(name)],
                stdin=subprocess.DEVNULL, stdout=subprocess.PIPE, stderr=subprocess.PIPE,
                timeout=SECONDS).stderr

        asked = [(name, closed) for name in SCRIPTS for closed in (
            "<&-", "2>&-", "<&- >&- 2>&-", "2>/dev/full")]  # extras/tests has those of output
        with ThreadPoolExecutor(os.cpu_count()) as pool:
            for one, messages in zip(asked, pool.map(messages_of, asked)):
                with self.subTest(script=one[0], closed=one[1]):
                    self.assertNotIn(b"Traceback", messages)
                    self.assertNotIn(b"Exception ignored", messages)

    def test_a_reader_that_has_gone(self):
        whole = {"vcdkit-explain": [NESTED], "vcdkit-find": ["--pick", NESTED],
                 "vcdkit-diff": [NESTED, os.path.join(TOP, "samples", "counter.vcd")]}
        for name in SCRIPTS:
            for words, statuses in ((whole.get(name, arguments(name)), (141, -13, 2)),
                                    (["--help"], (141, -13, 0))):
                with self.subTest(script=name, words=words):
                    ends = os.pipe()
                    os.close(ends[0])
                    with open(NESTED, "rb") as dump:
                        status, _, messages = run(name, words, stdin=dump, stdout=ends[1])
                    os.close(ends[1])
                    self.assertEqual(messages, b"")
                    self.assertIn(status, statuses)

    def test_the_program_beside(self):
        for place in "", "extras":
            folder = os.path.join(self.folder, "tree" + place, place)
            os.makedirs(folder)
            for name in "launch", "vcdkit-find":
                os.symlink(os.path.join(EXTRAS, name), os.path.join(folder, name))
        program = self.file("vcdkit", b"#!/bin/sh\necho '$var wire 1 ! a $end'\n"
                            b"echo '$enddefinitions $end'\n")
        os.chmod(program, 0o755)
        for place in os.path.join("treeextras", "extras"), "tree":
            near = os.path.join(self.folder, place.split(os.sep)[0])
            os.replace(program, os.path.join(near, "vcdkit"))
            program = os.path.join(near, "vcdkit")
            copy = os.path.join(self.folder, place, "vcdkit-find")
            os.unlink(copy)
            shutil.copy(os.path.join(EXTRAS, "launch"), copy)  # as an installation has it
            words = {key: value for key, value in os.environ.items() if key != "VCDKIT"}
            done = subprocess.run([copy, NESTED], stdout=subprocess.PIPE, timeout=SECONDS,
                                  env={**words, "PYTHONPATH": PYTHON})
            self.assertEqual(done.stdout, b"a wire 1 !\n", place)


LATE = "--from: %s is after the end of the dump, 120ns"
NO_FILE = "No such file or directory"
FIRST = NO_FILE + " (the first argument is the dump; - is standard input)"
TWO = NO_FILE + " (the first two arguments are the dumps; - is standard input)"
NO_CLOCK = "name a clock with --rise or --fall (in Python: rise or fall)"
# A command, its status, and the begin of a line of its message: none for an empty one.
MESSAGES = [
    *(("%s --from %s edge %s" % (name, time, word), 2, LATE % time) for name, word in (
        ("x", ""), ("when", "t.clk"), ("table", "t"), ("stats", "t"), ("wave", "t"))
      for time in ("125ns", "13", "1us")),
    *(("%s --from 115ns edge t" % name, 0, "") for name in ("table", "stats", "wave")),
    ("when --from 50ns torn a", 2, "see: vcdkit-explain torn"),
    ("values --at 50ns whole a", 0, "warning: --at: 50ns is after the end of the dump, 30ns; its "
     "values are the last ones"),
    ("values --at 30ns whole a", 0, ""),
    ("values --at 184467440738s edge", 2, "bad time: 184467440738s: ticks"),
    ("table --to 18446744073709551616 edge t", 2, "bad time: 18446744073709551616"),
    ("table --to 18446744073709551.7ps edge t", 0, ""), ("table --at none edge t", 2, "bad time: "),
    *(("wave %s whole a" % words, 2, "see: vcdkit-wave --help") for words in (
        "--around=20 --context=5 --from=1", "--context=5", "--around=20 --context=5 --to=30")),
    ("wave --around=20 whole a", 2, "--around needs --context TIME, how much before and after it"),
    ("explain --salvage good whole", 0, "no fault: nothing written to good"),
    ("explain --salvage good front", 1, "nothing can be saved: the fault is in the header"),
    ("explain --salvage x whole torn", 2, "--salvage is for one dump"),
    ("explain empty", 2, "empty: there is no dump"),
    ("values nine", 1, "add --four-state"), ("table torn a", 1, "see: vcdkit-explain torn"),
    ("when tb.clk a", 3, "tb.clk: " + FIRST), ("diff whole tb.clk", 3, "tb.clk: " + TWO),
    ("when none.vcd a", 3, "none.vcd: " + NO_FILE), ("close-sections none", 3, "none: " + FIRST),
    ("four-state a.vcd", 3, "a.vcd: " + NO_FILE), ("join-bits a.vcd", 3, "a.vcd: " + NO_FILE),
    ("values edge t.clk t.zz", 1, "t.zz: selects nothing; there is t.z"),
    ("values edge t --no", 2, "unrecognized arguments: --no"),
    ("values edge -- --no", 1, "--no: selects nothing"),
    ("when whole '(a == 1'", 2, "bad condition: a ) is missing"),
    ("when whole 'a -> b within 5 us'", 2, "bad condition: write 5us"),
    ("when whole a == 1", 2, "see: vcdkit-when --help"),
    ("when whole 'c[1]is x'", 2, "bad condition: it cannot be read at x, after c[1]is"),
    ("when edge -q", 2, "unrecognized arguments: -q; write -- before what is no option"),
    ("table --channel 'a: req' bus", 2, "to list every edge, " + NO_CLOCK),
    ("table --channel 'a@clk: req' --channel 'b: ack' bus", 2, "to list every edge, " + NO_CLOCK),
    ("table --rise clk --channel 'a: req' --channel 'a: ack' bus", 2, "two channels have one name"),
    ("table --rise clk --channel 'a: req' bus clk", 2, "give NAMEs, --names or --channel"),
    ("table --rise clk --channel 'a: req' --if req bus", 2, "argument --if: not allowed with"),
    ("table --rise clk --channel a bus", 2, "a channel is 'NAME: CONDITION: SIGNAL ..', with"),
    ("table --rise clk --channel 'a: req -> ack within 3' bus", 2, "a: bad condition: -> is of"),
    ("table --rise clk --channel 'a: none' bus", 1, "a: none: selects nothing"),
    ("table --channel 'a@none: req' bus", 1, "a: none: selects nothing"),
    ("table --channel 'a@: req' bus", 2, "a@: write a clock behind @"),
    ("table --channel 'a@!: req' bus", 2, "a@!: write a clock behind @"),
    ("table --rise clk --histogram bus clk", 2, "--histogram goes with --channel"),
    ("table --flush req bus clk", 2, "--flush goes with --channel"),
    ("table --channel 'a@clk: req' --flush 'req &' bus", 2, "--flush: bad condition: it ends"),
    ("table --at - - req", 2, "--at: standard input has the dump")]
# A condition on the file bits, and its message.
CONDITIONS = [
    ("q === 16", "q is never 16: it has 4 bits"),
    ("q < -8", "is never < -8: it has 4 bits, signed"),
    ("q < 0", "bad condition: q is never < 0: a dump has no signs; write signed(q)"),
    ("past(q) == 1", NO_CLOCK), ("{q} == 16", "the other side is never 16: it is from 0 to 15"),
    ("q == 4'b1x0z", "nothing is == digits with x or z: write ==="), ("r[9:1] >= 0", "has no bits"),
    ("q != -0.5", "is a whole number"),
    ("q[1]is x", "bad condition: it cannot be read at x, after q[1]is"),
    # These hold; real numbers are as in C.
    *((text, "") for text in (
        "q >= 15", "q > 14.5", "q == 15.0", "signed(q) < 0", "i < -4", "q != 4'b0x0z",
        "i[31:0] > 5", "i[31:0] == 4294967291", "-0.5 > signed(q)", "-1<signed(q) + 1", "-(2)<q",
        "1.5 / r > 1e308", "-1.5 / r < -1e308", "r / r != r / r", "!(r / r < 1)", "r ** -1 > 1e308",
        "(r + 10) ** 1000000000 > 1e308", "(r - 10) ** 999999999 < -1e308",
        "(r - 1) ** 0.5 != (r - 1) ** 0.5", "(r + 1e308) * 10 > 1e308", "w * (r + 1.5) > 1e308",
        "(r + 0.5) ** w == r", "(1 / (w - w)) is x"))]


class Messages(Case):
    """What scripts say of words, files and conditions that do not fit."""

    def test_messages(self):
        os.mkdir("empty")
        for line, status, message in MESSAGES:
            with self.subTest(line=line):
                name, *words = shlex.split(line)
                got, _, messages = run("vcdkit-" + name, words)
                lines = messages.decode().replace("vcdkit-%s: " % name, "")
                self.assertEqual((got, bool(lines)), (status, bool(message)))
                self.assertIn("\n" + message, "\n" + lines)
        self.assertFalse(os.path.exists("good"))

    def test_conditions(self):
        for condition, message in CONDITIONS:
            with self.subTest(condition=condition):
                status, out, messages = run("vcdkit-when", ["--count", "bits", condition])
                self.assertIn(message, messages.decode())
                self.assertEqual((status, out, bool(messages)),
                                 (2, b"", True) if message else (0, b"1\n", False))

    def test_cut_off(self):
        with open("x.gz", "wb") as file:
            file.write(gzip.compress(TORN + os.urandom(9000).hex().encode())[:-4000])
        self.assertIn("help:  vcdkit-explain --salvage LEFT.vcd x.gz    (saves what is before the "
                      "break)", said("explain x.gz"))
        for added in b"#4", b"#":
            self.file("late", TORN + b"#40\n" + added)
            self.assertIn("cause: the dump is cut off", said("explain late"))


class Answers(Case):
    """What the scripts say of small dumps."""

    def test_stats_of_a_code_of_several_types(self):
        self.file("a.vcd", b"$timescale 1ns $end $var real 64 ! r $end $var wire 64 ! w $end "
                  b"$enddefinitions $end #0 r1.5 ! #5 b1 ! #10 r1_000 ! #20\n")
        values = ["  value 1_000 10ns 50%, 1 time", "  value 1.5 5ns 25%, 1 time",
                  "  value 1 5ns 25%, 1 time, 5ns to 5ns"]
        self.assertEqual(said("stats --decimal a.vcd r w"), [
            "r real 64", "  changes 2", "  range 1.5 to 1.5, mean 1.5", *values, "w wire 64",
            "  changes 2", *values, "status 0"])

    def test_stats_of_large_numbers(self):
        for body, least, largest, mean in (
                (b"#0 r1e308 ! #100", 1e308, 1e308, 1e308),
                (b"#0 r1e308 ! #50 r-1e308 ! #100", -1e308, 1e308, 0.0)):
            self.file("a.vcd", b"$var real 64 ! r $end $enddefinitions $end %s\n" % body)
            facts = json.loads(said("stats --json a.vcd r")[0])["range"]
            self.assertEqual(facts, {"least": least, "largest": largest, "mean": mean})

    def test_rows_at_times_without_an_event(self):
        self.file("a.vcd", b"$var wire 1 ! a $end $var event 1 $ e $end $enddefinitions $end\n"
                  b"#1 1! #5 1$ #7 0!\n")
        for condition, times in (("!e", "0147"), ("e", "5"), ("a", "145"), ("!e & !a", "7")):
            rows = said("table --at=0,1,4,5,7 a.vcd a --if", condition)
            self.assertEqual([row[0] for row in rows[1:-1]], list(times), condition)

    def test_two_ranges_of_one_path_and_code(self):
        self.file("a.vcd", b"$var wire 3 ! q [2:0] $end $var wire 3 ! q [6:4] $end "
                  b"$enddefinitions $end #0 b0 ! #1 b1 !\n")
        self.assertEqual([line.split()[0] for line in said("stats --toggle a.vcd q")],
                         ["q[0]", "q[4]", "q[2]", "q[1]", "q[6]", "q[5]", "6", "status"])

    def test_a_dot_in_a_name_of_a_picture(self):
        self.file("a.vcd", b"$scope module t $end $var wire 1 ! \\u.c $end $upscope $end "
                  b"$enddefinitions $end #0 0! #9\n")
        self.assertIn(b"</title>\\u.c</text>", run("vcdkit-wave", ["a.vcd", "t"])[1])

    def test_pick_without_room_for_names(self):
        dump, rnd = Dump(NESTED), random.Random(7)
        with unittest.mock.patch.object(picked, "MAX_NAMES", -1):
            for _ in range(20):
                places = sorted(rnd.sample(range(len(dump.signals)), rnd.choice([1, 3, 9, 23])))
                paths = {dump.signals[at].path for at in places}
                places = [at for at, one in enumerate(dump.signals) if one.path in paths]
                names = names_for(sorted(paths), dump.signals.columns()[0])
                self.assertEqual(b"".join(picked.picked(dump, places)), dump.pick(names).read())
        self.file("a.vcd", b"$enddefinitions $end #5\n")
        self.assertEqual(run("vcdkit-find", ["--pick", "a.vcd"])[1], Dump("a.vcd").cut().read())
        self.assertEqual(said("find a.vcd"), ["status 0"])

    def test_four_state(self):
        """The program stops early, long before the filter has written all."""
        self.file("long", b"$var wire 1 ! a $end\n$enddefinitions $end\n#0\nU!\n" +
                  b"".join(b"#%d\n%d!\n" % (at, at % 2) for at in range(1, 100000)))
        self.assertEqual(said("values --four-state --at=5 long a"), ["a 1", "status 0"])

    @unittest.skipUnless(shutil.which("vcd2fst") and shutil.which("fst2vcd"), "needs GTKWave")
    def test_fst(self):
        wanted = said("values --at=600", NESTED, "bench.slow")
        for option in "-4", "-c":  # packed by blocks, and as a whole
            subprocess.run(["vcd2fst", option, NESTED, "some.fst"], stdout=subprocess.DEVNULL,
                           stderr=subprocess.DEVNULL, check=True)
            self.assertEqual(said("values --at=600 some.fst bench.slow"), wanted, option)
            with subprocess.Popen(["cat", "some.fst"], stdout=subprocess.PIPE) as cat:
                self.assertEqual(said("values --at=600 - bench.slow", stdin=cat.stdout), wanted)

    def test_conditions_that_begin_with_a_minus(self):
        for line, wanted in (("'-1 < t.q'", "'t.q>-1'"), ("-1<t.q --count", "--count -- -1<t.q"),
                             ("-t.q", "-- -t.q")):
            self.assertEqual(said("when edge " + line), said("when edge " + wanted))

    def test_times_in_a_file(self):
        self.file("a.vcd", HEAD + b'#0 0! 0" #5 1! #9 0! #12 1! #20\n')
        self.file("times", b"5ns\n12ns 13ns 1\n\n9,0\n")
        self.file("empty", b"")
        table = ["time (ns),req", "5,1", "12,1", "9,0", "0,0", "status 0"]
        self.assertEqual(said("table --at times a.vcd req"), table)
        with open("times", "rb") as file:
            self.assertEqual(said("table --at - a.vcd req", stdin=file), table)
        self.assertEqual(said("values --at times a.vcd req"), [
            "5ns req 1", "12ns req 1", "9ns req 0", "0ns req 0", "status 0"])
        self.assertEqual(said("values --at empty a.vcd req"), ["status 0"])
        self.assertEqual(said("table --at empty a.vcd req"), ["time (ns),req", "status 0"])

    def test_verdicts(self):
        for name, data in (("many/one.vcd", TORN), ("many/bad.vcd.gz", gzip.compress(TORN[:-5])),
                           ("many/notes.txt", b"no dump")):
            os.makedirs("many", exist_ok=True)
            self.file(name, data)
        lines = ["many/bad.vcd.gz:17: unexpected end of input: the dump is cut off",
                 "many/one.vcd: ends 30ns"]
        self.assertEqual(said("explain --jobs 2 many"), [
            *lines, "2 dumps: 1 valid, 1 with a fault", "status 1"])
        self.assertEqual(said("explain many/one.vcd none many/one.vcd"), [
            lines[1], "none: " + NO_FILE, lines[1], "3 dumps: 2 valid, 1 cannot be read",
            "status 3"])
        self.assertEqual(said("explain --reach 30ns many/one.vcd"), [lines[1], "status 0"])
        self.assertEqual(said("explain --reach=31ns --junit=j.xml many/one.vcd"), [
            lines[1] + ", before 31ns", "status 1"])
        self.assertIn(b'tests="1" failures="1" errors="0"', text_of("j.xml"))

    def test_names_in_a_file(self):
        self.file("names", b"# of a list\nt.q reg 4\n\nt.clk\n")
        with open("names", "rb") as file:
            self.assertEqual(said("values --names - edge", stdin=file),
                             ["t.q 0111", "t.clk 0", "status 0"])
        self.file("saved", b"[*] GTKWave\n[pos] -1 -1\n@28\nt.clk\n@c00022\nt.q[3:0]\n@28\n"
                  b"(0)t.q[3:0]\n+{a b} t.z\n-\n")
        self.assertEqual(said("find --names saved edge"), [
            "t.clk wire 1 !", "t.q reg 4 \"", "t.z wire 1 #", "status 0"])
        self.file("a.vcd", made("\u00e9 4 ! [3:0], q 4 @ [3:0]", "#0;b1 !;b10 @;"))
        self.file("saved", "[*]\n@22\n\u00e9[3:0]\nq[3:0]\n".encode())
        self.assertEqual(said("values --names saved a.vcd"),
                         ["\u00e9 0001", "q 0010", "status 0"])

    def test_salvage(self):
        whole = "#0;$dumpvars;0!;b11111111 @;$end;#5;1!;#15;0!;b1 @;#18;1!;#30;"
        none = "but it has all values of no time"
        for body, until, last, value in (
                (whole[:whole.index("#18")] + "b1", "good until 14ns", 15, "00000001"),
                (whole + "x1!;", "good until 29ns", 30, "00000001"),  # no change is at 30
                (whole + "#20;1!;#40;", "good until 30ns", 30, "00000001"),
                (whole + "#3x;", "good until 30ns", 30, "00000001"),
                (whole + "$dumpall;0!;b1010 @;#31;1!;", "good until 30ns", 30, "00001010"),
                (whole + "$dumpall;0!;b1010 @;q", "good until 29ns", 30, "00001010"),
                (whole + "$comment;#50;$end;0!;$comment;#60;$end;x1!", "good until 29ns", 30,
                 "00000001"), ("#0;$dumpvars;0!;b11", none, 0, "-"), ("#1.5 #0 0!", none, 0, "-"),
                ("$dumpvars #0 0!", none, 0, "-"), ("0! #1.5", "good until 0ns", 0, "-"),
                ("#0 #1.5", "good until 0ns", 0, "-")):
            with self.subTest(body=body[-30:]):
                self.file("a.vcd", made("clk 1 !, sum 8 @", body))
                self.assertEqual(said("explain --salvage good a.vcd")[-2:],
                                 ["wrote: good, " + until, "status 1"])
                self.assertEqual(said("values good sum")[0], "sum " + value)
                if body[0] == "#" and "#1.5" not in body:
                    self.assertIn("last %d" % last, said("explain good"))


CLOCKED = "c 1 !, v 4 v"
EXCEPT = "--common --except c "
SLICES, BODY = "tb>q[3:0] 4 !, tb>q[7:4] 4 @", "#0 b1 ! b1 @ #10 b10 ! b10 @ "
LOOSE, FULL, BESIDE = "tb>q 4 !, tb>r 4 @", "tb>q[3:0] 4 !, tb>r 4 @", (
    "tb>q[3:0] 4 !, tb>q 4 @, tb>q>s 1 #")
OTHER, BOTH = BODY.replace("b10 !", "b11 !"), "alone A tb.rtl 2;alone B tb.gate 2"
FOUND = "differs 10ns tb.q[7:4] 0010 0011"
# Two dumps, as made() takes them; then words, and the lines that differ: None for a usage error.
DIFFS = [
    ((CLOCKED, "#0 0! b0 v #5 1! b1 v #10 0! b11 v #15 1! #20"),
     (CLOCKED, "#0 0! bx v #5 1! b1 v #10 0! b1x v #15 1! b100 v #20"), [
         ("", "differs 0ns v 0000 xxxx"), ("--from 1ns", "differs 1ns v 0000 xxxx"),
         ("--from 5ns", "differs 10ns v 0011 001x"), ("--from 5 --to 9ns", ""),
         ("--from 11ns", "differs 11ns v 0011 001x"), ("--from 21ns", None),
         ("--x-matches", "differs 15ns v 0011 0100"), ("--x-matches --to 14", ""),
         ("--rise c --from 12ns", "differs 15ns v 0011 001x"),
         ("--rise c --from 12ns --x-matches", "")]),
    # Windows between two ticks.
    ((CLOCKED, "#0 0! b0 v #40 1! #100 b1 v #200 b0 v #2000"), (CLOCKED, "#0 0! b0 v #2", "1us"), [
        (EXCEPT + "--to 99", ""), (EXCEPT + "--to 100", "differs 100ns v 0001 0000"),
        (EXCEPT + "--from 50", "differs 100ns v 0001 0000"), (EXCEPT + "--from 200", ""),
        (EXCEPT + "--from 150ns --to 180ns", "differs 150ns v 0001 0000"),
        (EXCEPT + "--from 2001", None), (EXCEPT + "--from 50 --to 40", None)]),
    ((CLOCKED, "#0 0! b0 v #42 1! #43 0! #100 b1 v 1! #200 b0 v #2000"),
     (CLOCKED, "#0 0! b0 v #4 1! #5 0! #10 b1 v 1! #20 b0 v #200", "10ns"), [
         ("--rise c --from 41", "timescale 1ns 10ns;edges 2 1"),
         ("--rise c --from 43", "timescale 1ns 10ns"),
         ("--rise c --to 41", "timescale 1ns 10ns;edges 0 1")]),
    (("c 1 !", "#0 0! #5 1! #20"), ("c 1 !", "#0 0! #5 1! #20", ""), [
        ("", "timescale 1ns -"), ("--common", "")]),
    (("q 8 !", "#0 b10100x10 !"), ("q 8 !", "#0 b10100x1x !"), [
        ("--hex", "differs 0ns q 10100x10 10100x1x")]),
    (("q 8 !", "#0 b10100x10 !"), ("q 8 !", "#0 b10110x10 !"), [("--hex", "differs 0ns q aX bX")]),
    # Names with a range, also if only one dump has it in the path.
    ((SLICES, BODY), (SLICES, BODY.replace("b10 @", "b11 @")), [
        ("", FOUND), ("--except tb.q[3:0]", FOUND), ("--except tb.q[7:4]", ""), ("tb.q[3:0]", ""),
        ("tb.q[7:4]", FOUND), ("tb.q", None), ("--except tb.q", None)]),
    *((one, other, [row for name in ("tb.q", "tb.q[3:0]") for row in (
        (name, line), ("--except " + name, ""))]) for one, other, line in (
            ((LOOSE, BODY), (FULL, OTHER), "differs 10ns tb.q 0010 0011"),
            ((FULL, OTHER), (LOOSE, BODY), "differs 10ns tb.q[3:0] 0011 0010"))),
    ((BESIDE, BODY + "1#"), (BESIDE, OTHER + "0#"), [
        ("--except tb.q[3:0]", "differs 10ns tb.q.s 1 0"), ("--except tb", None),
        ("--except tb.q", "differs 10ns tb.q[3:0] 0010 0011")]),
    # A path in both dumps is compared if a name selects it in one.
    ((FULL, BODY), (SLICES + ", tb>q>s 1 #", OTHER), [
        ("tb.q", "alone B tb.q 1;differs 10ns tb.q[3:0] 0010 0011"),
        ("--except tb.q", "alone A tb.r 1;alone B tb.q[7:4] 1")]),
    # The outermost scope that only one dump has; a dot in a name makes none.
    (("t>u>b 1 !, t>u>b 1 @, t>c 1 #", "#0"), ("t>c 1 #", "#0"), [("", "alone A t.u 2")]),
    (("tb>rtl>q[1:0] 2 !, tb>rtl>q>s 1 @", "#0 0!"),
     ("tb>gate>q[1:0] 2 !, tb>gate>q>s 1 @", "#0 0!"), [
      ("", BOTH), ("tb", BOTH), ("--common tb", None), ("--map=tb.gate=tb.rtl", ""),
      ("--except=tb.rtl.q.s", BOTH.replace("rtl 2", "rtl 1")), ("--except=tb.gate", BOTH[:16]),
      ("--map=tb.gate.q.s=tb.rtl.x", "alone A tb.rtl.q[1:0] 1;alone A tb.rtl.q 1;"
       "alone B tb.gate 1;alone B tb.rtl.x 1"),
      ("--map=tb.gate.q[1:0]=tb.rtl.q[1:0] --map=tb.gate.q=tb.rtl.y",
       "alone A tb.rtl.q 1;alone B tb.rtl.y 1")]),
    (("t>x 1 #, t>\\u.c 1 !, t>\\u.d 1 @", "#0 0! 0@ 0# #9"), ("t>x 1 #", "#0 0# #9"), [
        ("", "alone A t.\\u.c 1;alone A t.\\u.d 1")]),
    (("w 1 ! [1], w 1 @ [0]", "#0 1! 0@ #5"), ("w 1 @ [0], w 1 ! [1]", "#0 1! 0@ #5"), [("", "")]),
    (("w 1 ! [1], w 1 @ [0]", "#0 1! 0@ #5"), ("w 1 @ [7], w 1 ! [1]", "#0 1! 0@ #5"), [
        ("", "alone A w[0] 1;alone B w[7] 1")]),
    (("tb>a 1 !", "#0 0!"), ("TOP>tb>a 1 !", "#0 0!"), [
        ("--map TOP= --map TOP.tb=tb", ""), ("--map TOQ= --map TOP= --map TOP.tb=tb", None)])]


class Two(Case):
    """Two dumps."""

    def test_what_differs(self):
        for one, other, rows in DIFFS:
            self.file("a.vcd", made(*one))
            self.file("b.vcd", made(*other))
            for line, wanted in rows:
                words = line.split()
                at = next((at for at, word in enumerate(words) if word[:2] == "tb"
                           and words[at - 1] != "--except"), len(words))
                with self.subTest(dumps=one, words=line):
                    found = said("diff", *words[:at], "a.vcd", "b.vcd", *words[at:])
                    self.assertEqual(found, ["status 2"] if wanted is None else [
                        *filter(None, wanted.split(";")), "status %d" % bool(wanted)])

    def test_how_many_signals_are_compared(self):
        text = (b"$scope module t $end $var wire 1 ! c $end $var wire 1 d %s $end $var wire 1 e %s "
                b"$end $upscope $end $enddefinitions $end #0 0! 0d 1e\n")
        self.file("a.vcd", text % (b"req", b"ack"))
        self.file("b.vcd", text % (b"rq", b"ak"))
        count, least = "compared 1 signal (A has 3, B has 3)", ": --at-least asks for 2\n"
        for words, status, message in (
                ("--common", 0, count + "\n"), ("--common --at-least=1", 0, count + "\n"),
                ("--common --at-least 2", 2, count + least), ("--at-least=1", 1, ""),
                ("--at-least=2", 2, count + least), ("--common --json", 0, count + "\n"),
                ("--except=t.rq --except=t.ak --except=t.req --except=t.ack", 0, ""),
                ("--common --except t.c", 2, "the dumps have no path in common: --map OLD=NEW "
                 "renames a scope\n")):
            got, out, messages = run("vcdkit-diff", [*words.split(), "--junit", "j.xml", "a.vcd",
                                                     "b.vcd"])
            self.assertEqual((got, messages.decode()), (
                status, "vcdkit-diff: " * bool(message) + message), words)
            self.assertEqual(b"alone A t.req" in out, words[:10] == "--at-least")
            self.assertEqual([its.text for its in xml.parse("j.xml").iter("system-out")],
                             [count] * (status < 2))
        self.assertEqual(said("diff --at-least=x a.vcd b.vcd"), ["status 2"])

    def test_edges(self):
        """It is a difference if only one dump has edges, also with --common, as nothing is
        compared; if none has, the question is wrong. A clock may be a bit."""
        head = (b"$timescale 1 %s $end $var wire 1 ! c $end $var wire 2 w w [2:3] $end "
                b"$var wire 4 d v $end $enddefinitions $end #0 0! b0 w ")
        edge = b"#5000 1! b10 w b1 d "
        self.file("a.vcd", head % b"ns" + b"b0 d " + edge + b"#6000 b11 d #9000\n")
        self.file("b.vcd", head % b"us" + b"bx d #9\n")
        self.file("c.vcd", head % b"ns" + b"b1 d #4000 b1x d " + edge + b"#6000 b111 d #9000\n")
        self.assertEqual(said("diff --common --rise c --junit j.xml a.vcd b.vcd"),
                         ["edges 1 0", "status 1"])
        self.assertEqual([(of.get("name"), len(of)) for of in xml.parse("j.xml").iter("testcase")],
                         [("size", 0), ("differs", 1), ("edges", 1)])
        for words, message in (
                ("--fall=c a.vcd b.vcd", "in both dumps, c never falls"),
                ("--rise=c --to 4us a.vcd c.vcd", "in both dumps, c never rises in this window"),
                ("--rise=c --from 5500 --to 5600 a.vcd b.vcd",
                 "b.vcd: it has no time in this window: its ticks are 1us")):
            self.assertEqual(run("vcdkit-diff", words.split())[::2], (
                2, b"vcdkit-diff: %s\n" % message.encode()))
        # An event counts from --from on.
        event = (b"$timescale 1 ns $end $var wire 1 ! c $end $var event 1 e v $end "
                 b"$enddefinitions $end ")
        self.file("d.vcd", event + b"#0 0! #2 1e #4 #5 1!\n")
        self.file("e.vcd", event + b"#0 0! #2 #4 #5 1!\n")
        for begin, lines in (2, ["differs 5ns v triggered -", "status 1"]), (3, ["status 0"]):
            self.assertEqual(said("diff --rise c --from %dns d.vcd e.vcd" % begin), lines)
        # A signal may have a clock's whole word as its path.
        self.file("f.vcd", b"$var wire 1 ! c $end $var wire 1 d c@0 $end $enddefinitions $end "
                  b"#0 0! 1d #5 1! #7 0! 0d #9 1!\n")
        self.assertEqual(said("table --rise c f.vcd c@0"), [
            "time (tick),c@0", "5,1", "9,0", "status 0"])
        for clock in "c", "w[2]":
            self.assertEqual(said("diff --always --rise %s a.vcd c.vcd" % clock), [
                "differs 5us v 0000 001x", "status 1"])
        self.assertEqual(said("diff --always a.vcd c.vcd"), [
            "differs 0ns v 0000 0001", "differs 4us v 0000 001x", "differs 6us v 0011 0111",
            "status 1"])

    def test_a_time_that_is_none_of_both(self):
        head = b"$timescale %s $end $var wire 1 ! c $end $enddefinitions $end #0 0! #5 1! "
        self.file("a.vcd", head % b"1ns" + b"#20\n")
        self.file("b.vcd", head % b"1s" + b"#99999999999 0!\n")
        for dumps in "a.vcd b.vcd", "b.vcd a.vcd":
            self.assertEqual(said("diff --common " + dumps), ["status 2"])
            self.assertEqual(said("diff --common --to 1s " + dumps)[-1], "status 1")

    @unittest.skipIf(not shutil.which("unshare") or subprocess.run(
        ["unshare", "-rm", "true"], stderr=subprocess.DEVNULL).returncode, "needs a namespace")
    def test_without_proc(self):
        other = self.file("b.vcd", text_of(NESTED).replace(b"b11 1\n", b"b1011 1\n"))
        done = subprocess.run(
            ["unshare", "-rm", "sh", "-c", 'mount -t tmpfs none /proc && "$@"', "-",
             os.path.join(EXTRAS, "vcdkit-diff"), NESTED, other, "bench.slow"],
            stdout=subprocess.PIPE, stderr=subprocess.PIPE, timeout=SECONDS)
        self.assertEqual((done.stdout, done.stderr),
                         (b"differs 35ns bench.slow.count 0011 1011\n", b""))


class Rules(Case):
    """Rules, and the transfers of channels, on the file bus."""

    def rules(self, text, *words):
        """Returns the status, the output and the messages for a file of rules."""
        self.file("rules", text.encode())
        status, out, messages = run("vcdkit-when", ["--rules", "rules", *words])
        return status, out.decode(), messages.decode()

    def failed(self, tag="failure"):
        """Returns the name of each test of a report that failed, and its message."""
        return [(test.get("name"), one.get("message"))
                for test in xml.parse("j.xml").iter("testcase") for one in test if one.tag == tag]

    def test_keys_of_channels(self):
        """The name of a channel may be that of its signal, but no key is there twice."""
        words = ["--json", "--rise=clk", "--channel=a: req: req", "--channel=req: ack: req",
                 "--channel=a req: ack", "bus"]
        self.assertEqual(said("table", *words)[0], '{"a": 10, "a req !": "1", "req": 40, '
                         '"req req": "0", "a req": 40, "a to req": 3, "req to a req": 0}')
        with unittest.mock.patch.object(when, "MAX_WAITING", 2):
            self.assertIn(b"more than 2 transactions are open", run("vcdkit-table", [
                "--rise=clk", "--channel=a: req", "--channel=b: !req & req", "bus"])[2])

    def test_rules_that_are_none(self):
        for text, message in (
                ("a: req\nb: ack\n# c\na: clk\n", "rules:4: there is a rule a before"),
                ("a@clk: req\na@!clk: ack\n", "rules:2: there is a rule a before"),
                ("a: each req\n", "rules:1: a: it has no clock: %s, or write NAME@" % NO_CLOCK),
                (": req\n", "rules:1: a rule is `name: condition`"),
                ("no colon\n", "rules:1: a rule"),
                ("@clk: req\n", "rules:1: a rule is"), ("\na req\n", "rules:2: a rule is"),
                ("a@clk: each req\n", "a: bad condition: each is as in each req -> ack within 5"),
                ("a@clk: each !(req -> ack within 5)\n", "a: bad condition: each is as in"),
                ("a@clk: req\nb: ack\n", "b: it has no clock"), ("# nothing\n", "rules: "),
                ("a@none: req\n", "a: none: selects nothing"),
                ("a@: req\n", "rules:1: a@: write a clock"),
                ("one: req\ntwo: req ==\n", "rules:2: two: bad condition: it ends too early\n")):
            status, out, messages = self.rules(text, "bus")
            self.assertEqual((status, out), (2, ""), text)
            self.assertIn(message, messages)
        # A report of an earlier run does not stay where a rule is none.
        self.assertEqual(self.rules("a: req\nb: req = 1\n", "--junit=j.xml", "bus")[0], 2)
        self.assertEqual([message for _, message in self.failed("error")],
                         ["rules:2: b: bad condition: use == instead of ="])

    def test_rules(self):
        self.file("a.vcd", HEAD + b'#0 0! 0" #5 1! #7 1" #9 0! #12 1! #20\n')
        self.assertEqual(self.rules("\ufeffone: req\n", "a.vcd")[1], "one: 5ns, 2 times\n")
        # An event that is never triggered is never looked at.
        self.assertEqual(self.rules("a: req\nnone: !go\n", "a.vcd")[:2], (1, "a: 5ns, 2 times\n"))
        # What --first leaves undecided is skipped.
        self.rules("a: never req\nb: always req is x\nc: !req\n", "--first", "--junit=j.xml",
                   "a.vcd")
        self.assertEqual([[name for name, _ in self.failed(tag)] for tag in ("failure", "skipped")],
                         [["b"], ["a"]])


class Output(Case):
    """What a script does with the files that it writes, and with signals."""

    def test_salvage_to_standard_output(self):
        run("vcdkit-explain", ["--salvage", "good", "torn"])
        status, dump, messages = run_apart("vcdkit-explain", ["--salvage", "-", "torn"])
        self.assertEqual((status, dump), (1, text_of("good")))
        self.assertIn(b"good until 29ns", messages)
        os.symlink("/proc/self/fd/1", "out")  # as /dev/stdout is one
        self.assertIn(dump, run_apart("vcdkit-explain", ["--salvage", "out", "torn"])[1])
        self.assertTrue(os.path.islink("out"))
        self.assertEqual(run_apart("vcdkit-explain", ["--salvage", "-", "whole"])[:2], (0, TORN))
        self.assertFalse(os.path.exists("-"))

    def test_a_module_that_only_an_option_needs_is_missing(self):
        self.file("json.py", b'raise ImportError("hidden")\n')
        done = subprocess.run([os.path.join(EXTRAS, "vcdkit-values"), "--json", NESTED],
                              env={**os.environ, "PYTHONPATH": self.folder},
                              stdout=subprocess.PIPE, stderr=subprocess.PIPE, timeout=SECONDS)
        self.assertEqual((done.returncode, done.stdout), (3, b""))
        self.assertIn(b"vcdkit-values: it needs the whole standard library", done.stderr)

    def test_interrupted_while_it_begins(self):
        os.makedirs("vcdkit/commands")
        for path, text in (("__init__.py", b""), ("commands/__init__.py", b""), (
                "commands/find.py",
                b"import os, signal, time\nos.kill(os.getpid(), 2)\ntime.sleep(9)\n")):
            self.file("vcdkit/" + path, text)
        shutil.copy(os.path.join(EXTRAS, "launch"), "vcdkit-find")
        done = subprocess.run(["./vcdkit-find"], env={**os.environ, "PYTHONPATH": self.folder},
                              stderr=subprocess.PIPE, timeout=SECONDS,
                              # A test in the background has it ignored.
                              preexec_fn=lambda: signal.signal(signal.SIGINT, signal.SIG_DFL))
        self.assertEqual((done.returncode, done.stderr), (-2, b""))

    def test_filters_of_what_is_packed(self):
        for name in FILTERS:
            for data in gzip.compress(TORN), lzma.compress(TORN), bz2.compress(TORN):
                self.assertEqual(run(name, [self.file("packed", data)])[:2], (0, TORN))
                with open(self.file("packed", data), "rb") as packed:
                    status, out, message = run(name, [], stdin=packed)
                self.assertEqual((status, out), (2, b""))
                self.assertIn(b"the input is compressed", message)

    def test_progress(self):
        for name, words, has_terminal in (("table", ["t.z"], False), ("x", [], True)):
            terminal, back = os.openpty()
            front, dump = os.pipe()
            out = {"stdout": back} if has_terminal else {}
            with subprocess.Popen([os.path.join(EXTRAS, "vcdkit-" + name), "-", *words],
                                  **{"stdin": front, "stdout": subprocess.DEVNULL, "stderr": back,
                                     **out}) as process:
                os.close(front)
                os.close(back)
                os.write(dump, EDGE[:-8])
                shown = b""
                while b"\rvcdkit-%s: reads the dump" % name.encode() not in shown.replace(
                        b"\r\033[K", b"\r"):
                    shown += os.read(terminal, 1000)
                os.write(dump, EDGE[-8:])
                os.close(dump)
                try:
                    while True:
                        shown += os.read(terminal, 1000)
                except OSError:  # of a terminal that nobody has open
                    pass
                os.close(terminal)
            ending = b"\r\033[K" + (b"120ns t.z x\r\n" if has_terminal else b"")
            self.assertTrue(shown.endswith(ending), shown)


class Filters(Case):
    """The filters over unusual lines."""

    def joined(self, text):
        """Returns the path of a dump whose bits are joined; in the text, a ; ends a line."""
        self.file("bits.vcd", text.replace(b";", b"\n"))
        return self.file("out.vcd", run("vcdkit-join-bits", ["bits.vcd"])[1])

    def test_join_bits(self):
        out = self.joined(b"$var wire 1 ! q [1] $end;$var wire 1 \" q [0] $end;"
                          b"$enddefinitions $end; #0;b0 !;  0\";\t#10;b1 !; #20; 1\";")
        self.assertEqual(said("table --unit tick", out, "q")[1:],
                         ["0,00", "10,10", "20,11", "status 0"])

    def test_bits_in_two_parts_of_a_scope(self):
        out = self.joined(b"$scope module t $end;$var wire 1 ! q [0] $end;$var wire 1 a clk $end;"
                          b"$var wire 1 \" q [2] $end;$upscope $end;$scope module u $end;"
                          b"$var wire 1 % q [3] $end;$upscope $end;$scope module t $end;"
                          b"$var wire 1 # q [1] $end;$upscope $end;$enddefinitions $end;"
                          b"#0;1!;0\";0#;1a;#5;1#;0%;")
        self.assertEqual(said("find", out)[:-1], [
            "t.q wire 3 \"", "t.clk wire 1 a", "u.q wire 1 %"])
        self.assertEqual(said("table", out, "t.q", "u.q")[1:], ["0,001,-", "5,011,0", "status 0"])

    def test_bits_that_are_no_vector(self):
        """What cannot be joined stays as it is, byte for byte."""
        for lines in (
                b"$var real 1 ! r[0] $end\n$var real 1 \" r[1] $end\n",  # as Icarus declares it
                b"$var shortreal 1 ! r [0] $end\n$var shortreal 1 \" r [1] $end\n",
                b"$var event 1 ! e[0] $end\n$var event 1 \" e[1] $end\n",
                b"  $var  reg 1 !  q[0]   $end\r\n$var wire 1 \" other $end\n",
                b"$var reg 1 ! d[1] $end\n$comment\n$var reg 1 \" d[0] $end\n"):
            text = lines + b"$enddefinitions $end\n#0\n1!\nr1.5 !\n"
            self.assertEqual(run("vcdkit-join-bits", [self.file("a.vcd", text)]), (0, text, b""))

    def test_close_sections(self):
        valid = (b"$date $dumpvars $end\n$var wire 1 $end1 a $end $var wire 2 #7 b $end\n"
                 b"$enddefinitions $end #0 $dumpvars\n1$end1\nb01\n#7\n$end #1\n$comment x\n"
                 b"$dumpall $end\n#2\n")
        self.file("torn.vcd", valid.replace(b"$end #1", b"#1"))
        for file in self.file("valid.vcd", valid), "torn.vcd":
            self.assertEqual(run("vcdkit-close-sections", [file])[1].split(), valid.split())
        self.assertEqual(run("vcdkit-close-sections", ["valid.vcd"]), (0, valid, b""))

    def test_blocks(self):
        """What a filter writes does not depend on the blocks in which its input comes."""
        head = (b"$comment U $end\n$var wire 1 ! q [1] $end\n$var wire 1 \" q [0] $end\n"
                b"$var string 1 s t $end\n$var wire 4 b v $end\n$enddefinitions $end\n")
        words = [b"0!", b"1\"", b"b1 !", b" x!", b"bUH b", b"U!", b"sidle s", b"#5", b"#7 1!",
                 b"b01", b"$dumpvars", b"$end", b"$comment", b"x $end", b"$dumpall 0! $end", b"",
                 b"r1.5 b"]
        for seed in range(200):
            rnd = random.Random(seed)
            lines = [rnd.choice(words) + rnd.choice([b"\n", b"\n", b"\r\n"]) for _ in range(20)]
            text = head + b"".join(lines)[:-1 if seed % 5 else None]
            size = rnd.choice([1, 30, 200])
            parts = [text[:len(head)], *(b"".join(lines[at:at + size // 10 + 1]) for at in range(
                0, 20, size // 10 + 1))]
            parts[-1] = parts[-1][:-1 if seed % 5 else None]
            for name, filtered in (
                    ("four-state", states.four_states),
                    ("close-sections", sections.closed),
                    ("join-bits", bits.joined)):
                self.assertEqual(b"".join(filtered(iter(parts))), b"".join(filtered(iter([text]))),
                                 (name, seed))


class Toggles(unittest.TestCase):
    """vcdkit-stats --saif."""

    def test_escaped_names_in_saif(self):
        dump = Dump(b"$scope module \\u/a $end $var wire 1 ! \\q-r[3] $end $upscope $end "
                    b"$enddefinitions $end #0 0! #5")
        counts = toggles.counts_of(dump, ["\\u/a"], Window(0, 6), True)
        lines = "".join(saif.texts_of(dump, counts, 5, "1")).split("\n")
        self.assertEqual(lines[11:14], ["(INSTANCE u\\/a", "  (NET", "    (q\\-r\\[3\\]"])


if __name__ == "__main__":
    unittest.main(warnings="ignore")
