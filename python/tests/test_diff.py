#!/usr/bin/env python3
"""Tries what vcdkit-diff has to refuse, its JUnit file, and that it never takes the failure of a
program for an answer. (What it finds, the second reader compares.)"""
import os
import shutil
import subprocess
import unittest
import xml.etree.ElementTree as xml

from cases import Case
from asker import run

HEADER = ("$scope module t $end $var wire 1 ! c $end $var real 64 @ r $end $var reg 4 \" q $end "
          "$upscope $end $enddefinitions $end\n")


def of_one_path(*its):
    """Returns a dump with variables of one path: of each, what is behind that, and its value."""
    return "$scope module t $end %s $upscope $end $enddefinitions $end\n#0\n%s#9\n" % (
        " ".join("$var wire 1 !%d q %s $end" % (at, behind) for at, (behind, _) in enumerate(its)),
        "".join("%d!%d\n" % (value, at) for at, (_, value) in enumerate(its)))


PAIR = "$scope module t $end $var wire 2 ! a[1:0] $end "
SLICE = "$scope module t $end $var wire 2 ! %s $end $upscope $end $enddefinitions $end\n#0\nb0 !\n"
FILES = {"a": HEADER + "#0\n0!\nr1 @\n#1\n1!\n", "b": HEADER + "#0\n0!\nr1.5 @\n#1\n1!\nb1 \"\n",
         "short": HEADER.replace("real 64", "shortreal 32") + "#0\n0!\nr1.5 @\n#1\n1!\n",
         "bits": of_one_path(("[0]", 0), ("[0:0]", 0), ("x [1]", 0)),
         "more": of_one_path(("[0]", 0), ("[0]", 1), ("x [1]", 1)),
         "pair": PAIR + "$var wire 2 ! a [1:0] $end $upscope $end $enddefinitions $end\n#0\nb0 !\n",
         "named": PAIR + "$upscope $end $enddefinitions $end\n#0\nb0 !\n",
         "high": SLICE % "q[3:2]", "far": SLICE % "q [3:2]", "low": SLICE % "q [1:0]",
         "top": "$var wire 2 ! q[1:0] $end $enddefinitions $end\n#0\nb0 !\n",
         "bit": of_one_path(("x [1]", 1)), "known": "t.q it is known\n",
         "other": HEADER.replace("module t", "module u<&"), "empty": "", "fault": HEADER + "#x",
         "binary": "".join(map(chr, range(256))) * 9}
LINES = "differs 0 t.r 1 1.5\n"
LACKING = "d/c.vcd: No such file or directory"
REFUSED = ["a none", "none a", "a .", "a empty", "empty a", "a fault", "a binary", "binary binary",
           "a b none", "a b t.none", "a b t.q.q", "a other t", "--map=none=t a b",
           "--except=none a b", "--context=foo a b", "--context=1ns a b", "--context= a b",
           "--within=foo a b", "--within=1ns a b", "--common a other", "--rise=none a b",
           "--rise=t a b", "--rise=t.r a b",
           "--fall=t.q a b", "--fall=t.c a b", "--rise=t.c a other",
           "--junit=none/j.xml a a", "--junit=. a a"]
MISUSED = ["", "a", "- -", "--into=x a b", "--map=t a b", "--map==t a b", "--real-tolerance=x a b",
           "--real-tolerance=-1 a b", "--real-tolerance=nan a b", "--rise=t.c --fall=t.c a b",
           "--within=1 --rise=t.c a b", "--html=x . .", "--none a b", "--common=1 a b"]
ANSWERED = [("a a", "", 0), ("a b", LINES, 1), ("--every a b", LINES + "differs 1 t.q - 0001\n", 1),
            ("--within=0 a short", LINES, 1), ("--always --within=1 a b", "", 0),
            ("--within=1 --common --every bits more", "differs 0 t.qx[1] 0 1\n", 1),
            ("--within=1 --common bit bits", "differs 0 t.q 1 0\n", 1),
            ("--every --waive=known bits more", "alone A t.q[0:0] 1\nalone B t.q[0] 1\n", 1,
             "known:1: t.q: leaves out 1 of 1 signals"),
            ("--waive=known pair pair", "", 0, "warning: known:1: t.q: selects nothing"),
            ("--common --at-least=2 --waive=known bits more", "", 2,
             "compared 0 signals, 2 waived (A has 3, B has 3): --at-least asks for 2"),
            ("--rise=t.c a a", "", 0,
             "compared 3 signals (A has 3, B has 3) at 1 edge (A has 1, B has 1)"),
            ("--to=0 a a t.q", "", 2, "no variable has a value where they are compared"),
            ("--except=t.q a a t.c", "", 0, "warning: --except t.q: changes nothing"),
            ("pair named", "alone A t.a 1\n", 1), ("named pair", "alone B t.a 1\n", 1),
            ("pair bit", "alone A t.a[1:0] 1\nalone A t.a 1\nalone B t.q 1\nends 0 9\n", 1),
            ("high low", "alone A t.q[3:2] 1\nalone B t.q 1\n", 1), ("high far", "", 0),
            ("--map=q= top top", "", 0, "warning: --map q=: changes nothing"),
            ("--map=t.a=t.x pair named", "alone A t.a[1:0] 1\n", 1),
            ("--map=t=x --map=t.c=x.d a b x.d", "", 0),
            ("--map=t=x a b x.c", "", 0), ("--map=t= a a c", "", 0),
            ("--map=u<&=t --common a other", "differs 0 t.c 0 -\ndiffers 0 t.r 1 -\n", 1)]
# The errors, failures, and the messages of a JUnit file.
REPORTS = [("a a", "0", "0", []), ("a b", "0", "1", [LINES.strip()]),
           ("a fault", "1", "0", ["fault:2: bad time"]),
           ("--common a other", "1", "0", ["the dumps have no path in common: --map OLD=NEW "
                                           "renames a scope"]),
           ("--map=t.qq=x a b", "1", "0", ["neither dump has t.qq; there is t.q"]),
           ("a other t.q", "1", "0", ["other: t.q: selects nothing; names are the paths that "
                                      "`vcdkit list` writes, and the scopes in these paths"]),
           ("--map=u<&=t a other", "0", "2", ["differs 0 t.c 0 -", "ends 1 -"])]


class Answers(Case):
    """A few dumps, and what has to be refused."""

    def setUp(self):
        super().setUp()
        for name, text in FILES.items():
            self.file(name, text.encode("latin-1"))
        self.addCleanup(os.chdir, os.getcwd())
        os.chdir(self.folder)

    def test_what_is_refused(self):
        for line in REFUSED:
            with self.subTest(line=line):
                said = run("diff", line.split())
                self.assertRegex(said.message, r"\Avcdkit-diff: .*\n(see: .*\n)?\Z")
                self.assertIn(said.status, (2, 3))
        for line in MISUSED:
            with self.subTest(line=line):
                said = run("diff", line.split())
                self.assertEqual((said.status, said.output), (2, b""))
                self.assertRegex(said.message, r"\Avcdkit-diff: .*\nsee: vcdkit-diff --help\n\Z")

    def test_what_is_answered(self):
        for line, wanted, status, *messages in ANSWERED:
            self.assertEqual(run("diff", line.split()), (status, wanted.encode(), "".join(
                "vcdkit-diff: %s\n" % message for message in messages)), line)

    def test_reports(self):
        for line, errors, failures, messages in REPORTS:
            run("diff", ["--junit=j.xml", *line.split()])
            of = xml.parse("j.xml").getroot()
            self.assertEqual((of.get("errors"), of.get("failures"), [
                one.get("message") for one in of.iter() if one.tag in ("error", "failure")]),
                             (errors, failures, messages), line)
            self.assertEqual(of.get("tests"), str(len(of.findall("testcase"))))

    def test_directories(self):
        for path in "d/a.vcd", "e/a.vcd", "d/b.vcd", "e/b.vcd", "e/c.vcd":
            os.makedirs(path[0], exist_ok=True)
            shutil.copy("b" if path == "e/b.vcd" else "a", path)
        for jobs in "12":
            self.assertEqual(run("diff", ["--junit=j.xml", "--jobs", jobs, "d", "e"]), (
                3, b"e/b.vcd: " + LINES.encode(), "vcdkit-diff: e/c.vcd: %s\n" % LACKING))
            self.assertEqual([(one.get("classname"), its.tag, its.get("message"))
                              for one in xml.parse("j.xml").getroot() for its in one
                              if its.get("message")],
                             [("e/b.vcd", "failure", LINES.strip()), ("e/c.vcd", "error", LACKING)])


REAL = os.path.abspath(os.environ["VCDKIT"])
WRAPPED = "#!/bin/sh\n[ \"$1\" != merge ] || { %%s; }\nexec '%s' \"$@\"\n" % REAL
MERGES = ["exit 3", "kill -9 $$", *("'%s' \"$@\" | head -c %d; %s" % (REAL, length, end)
                                  for length in (9, 100, 180, 9999)
                                  for end in ("exit 1", "kill -9 $$"))]
COMPARES = ["exit 0", "kill -9 $$", *("echo compared %d; exit" % count for count in (0, 2, 9)),
            "echo alone A in1.t.c; echo compared 2; exit 1", "cat > /dev/null; kill -9 $$",
            "'%s-compare' \"$@\"; kill -9 $$" % REAL, "'%s-compare' \"$@\"; exit 3" % REAL]


class Failures(Case):
    """If a merge or vcdkit-compare fails, or there is none, there is a message, and the status is
    never that of an answer, although two dumps are the same."""

    def program(self, name, text):
        """Writes a program, and returns its path."""
        os.chmod(self.file(name, text.encode()), 0o755)
        return self.file(name)

    def test_failures(self):
        dumps = [self.file(name, (FILES["a"] + end).encode()) for name, end in (("a", ""),
                                                                               ("b", "\n"))]
        self.addCleanup(os.environ.update, VCDKIT=REAL)
        for merge, compare in [("", None), *((one, "") for one in MERGES),
                               *(("", one) for one in COMPARES), ("", "")]:
            os.environ["VCDKIT"] = self.program("vcdkit", WRAPPED % (merge or ":"))
            if compare is not None:
                self.program("vcdkit-compare", "#!/bin/sh\n%s\nexec '%s-compare' \"$@\"\n" % (
                    compare, REAL))
            for words in dumps, ["--every", *dumps], [*dumps, "t.c"]:
                with self.subTest(merge=merge, compare=compare, words=words):
                    said = run("diff", words)
                    is_refused = (said.status in (2, 3) and said.message[:13] == "vcdkit-diff: "
                                  and said.message[13:20] != "status ")  # of what?
                    self.assertEqual((said.output, is_refused), (
                        b"", (merge, compare) != ("", "")), said)

    def test_torn_lines(self):
        """A program that is ended in the middle of a line wrote no line."""
        self.addCleanup(os.environ.update, VCDKIT=REAL)
        os.environ["VCDKIT"] = self.program("vcdkit", WRAPPED % ":")
        self.program("vcdkit-compare", "#!/bin/sh\nexec '%s-compare' \"$@\"\n" % REAL)
        dump = self.file("a", (FILES["a"] + "#2\n0!\nb11 \"\n#3\n1!\n").encode())
        whole = subprocess.run([REAL + "-strobe", "--rise", "t.c", "-i", dump], check=True,
                               stdout=subprocess.PIPE).stdout
        for length in range(whole.index(b"#1"), len(whole), 3):
            self.program("vcdkit-strobe", "#!/bin/sh\n'%s-strobe' \"$@\" | head -c %d\n"
                         "kill -9 $$\n" % (REAL, length))
            for name, *words in (("diff", "--every", dump, dump), ("table", dump, "t.q")):
                said = run(name, ["--rise=t.c", *words])
                self.assertRegex(said.message, r"\Avcdkit-%s: .*\n\Z" % name)
                self.assertEqual((said.status, b"differs" in said.output), (3, False), said)


if __name__ == "__main__":
    unittest.main()
