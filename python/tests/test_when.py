#!/usr/bin/env python3
"""Tries what vcdkit-when has to refuse, by one line."""
import re
import unittest

from cases import Case
from asker import said_by

HEADER = ("$timescale 10ns $end $scope module t $end $var wire 1 ! c $end $var reg 4 \" q [3:0] "
          "$end $var real 64 @ r $end $var event 1 $ e $end $var reg 4 \" k[7:4] $end\n"
          "$var integer 3 % i $end $scope module u $end $var reg 3 & p [0:2] $end\n"
          "$upscope $end $upscope $end $enddefinitions $end\n")
REFUSED = ["", " ", "(", ")", "q q", "q ==", "q == = 1", "q = 1", "== 1", "!", "!!q", "- -q", "q &",
           "q & ~ ~q", "1", "1 == 1", "q -> q", "q within 5", "q -> q within", "q -> q within c",
           "(q -> q within 5) & q", "q -> q -> q within 5 within 5", "q -> q within 5",
           "q -> q within 5..2", "q -> q within 2..5ns", "q is",
           "q is 5", "q is not", "q == 5ns", "q == 16", "q == -9", "q == 0b1xx00", "q == 0xg",
           "q == 1.2.3", "q[4]", "q[0:1]", "r[0]", "r == 0bx", "r === 1", "r & c", "~r", "r % 2",
           "r << 1", "{r}", "signed(r) == 1", "rose(r)", "signed(q, q)", "q(c)", "p == 1", "u",
           "none", "q[3:0].a", '"', '"q', "q; import os", "q.__class__", "lambda: q",
           "q if c else q", "[q]", "{q", "{}", "{q, 1}", "{q{q}}", "{0{q}}", "{9999999{q}}",
           "q ? q", "q := 1", "0'h1 == q", "4'q1 == q", "4'b2 == q", "4'h == q", "99999999'h1 == q",
           "past(q)", "past(q, 0)", "past(q, q)", "stable(q)", "rose()", "\udcff", "*", "...",
           "(" * 5000 + "q" + ")" * 5000, "q\n==", "!(" * 5000 + "q" + ")" * 5000, "a" * 100000,
           "0x" + "f" * 100000 + " == q", "9" * 100000 + " == q"]


class Refused(Case):
    """Each is refused by one line, and that of a condition by a status of a question."""

    def test_what_is_refused(self):
        for name, text in (("dump", HEADER + "#0\n0!\n"), ("empty", ""), ("fault", HEADER + "#x"),
                           ("binary", "".join(map(chr, range(256))) * 9), ("other", "PK\3\4")):
            self.file(name, text.encode("latin-1"))
        asked = [["--", self.file("dump"), re.sub(r"\b([qcr])\b(?!\.a)", r"t.\1", text)]
                 for text in REFUSED]
        asked += [[self.file(name), "t.c"]
                  for name in ("empty", "fault", "binary", "other", "none", "", "dump/none")]
        asked += [[*words, self.file("dump"), "t.c"] for words in (
            ["--rise", "t.q"], ["--fall", "none"], ["--rise", "t"], ["--from", "x"], ["--every"],
            ["--from", "-1"], ["--to", "9" * 99], ["--from", "1.5"], ["--from", "2", "--to", "1"])]
        for words in asked:
            with self.subTest(words=[word[:60] for word in words]):
                said = said_by("when", words)
                self.assertRegex(said.message, r"\Avcdkit-when: .*\n(see: .*\n)?\Z")
                self.assertEqual((said.output, said.status in (2, 3)), (b"", True))


if __name__ == "__main__":
    unittest.main()
