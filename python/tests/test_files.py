#!/usr/bin/env python3
"""Asks the scripts where small and made dumps are blind: faults in long files and in long lines,
and outputs that would replace an input."""
import os
import unittest
from typing import List, Sequence

from cases import Case, text_of
from asker import run

HEAD = [b"$timescale 1ns $end", b"$var wire 1 ! a $end", b"$enddefinitions $end"]
BODY = [line for time in range(400_000) for line in (b"#%d" % time, b"%d!" % (time % 2))]
BLOCKS = [1 << 16, 1 << 20, 1 << 22]  # bytes: what a reader may take at a time
LONG = b"0! 1! " * 400_000


def lines_around(lines: Sequence[bytes], number: int) -> List[str]:
    """Returns what vcdkit-explain shows of a fault in a line: two lines before it, this one, and
    one after it, if they are there; of each its number and its first 100 bytes, in which what is no
    printable ASCII is \\xNN."""
    return ["%s %6d | %s" % (">" if at == number else " ", at, "".join(
        chr(byte) if 32 <= byte < 127 else "\\x%02x" % byte for byte in lines[at - 1][:100]))
            for at in range(max(number - 2, 1), min(number + 1, len(lines)) + 1)]


def may_replace(output: str, inputs: Sequence[str]) -> bool:
    """Whether a script may write to a path: not if that is a regular file that it reads, under
    whatever name, but any other file, as the shell does."""
    return not any(os.path.isfile(one) and os.path.exists(output) and os.path.samefile(one, output)
                   for one in inputs)


class Faults(Case):
    """The lines that vcdkit-explain shows."""

    def compare(self, lines: List[bytes], number: int) -> None:
        """Compares them for a dump with a fault in a line."""
        path = self.file("long.vcd", b"\n".join(lines) + b"\n")
        said = run("explain", [path])
        self.assertEqual(said.status, 1)
        self.assertEqual([line for line in said.lines if " | " in line],
                         lines_around(lines, number))

    def test_places(self) -> None:
        """A fault at the begin and the end of a long dump, and where a block may end."""
        whole, offset, places = HEAD + BODY, 0, [4, 5, 3001, len(HEAD + BODY)]
        for number, line in enumerate(whole, 1):
            offset += len(line) + 1
            places += [number + by for block in BLOCKS for by in (-2, -1, 0, 1, 2)
                       if offset - len(line) - 1 <= block < offset]
        for number in places:
            with self.subTest(number=number):
                self.compare(whole[:number - 1] + [b"bad \xff line"] + whole[number - 1:], number)

    def test_long_lines(self) -> None:
        """A fault in a long line, behind one and before one."""
        for lines in ([b"#0", LONG + b"q!", b"#1", b"0!"], [b"#0", LONG, b"q!", LONG, b"1!"],
                      [LONG, b"1!", LONG + b"q!"]):
            whole = HEAD + lines
            self.compare(whole, next(at for at, line in enumerate(whole, 1) if b"q!" in line))


class Outputs(Case):
    """The files that a script may replace."""

    def setUp(self) -> None:
        super().setUp()
        text = b"\n".join(HEAD + BODY[:9]) + b"\n"
        self.inputs = [self.file("a.vcd", text), self.file("torn.vcd", text + b"0?\n"),
                       self.file("rules", b"one: a\n"), self.file("diff.b.vcd", text + b"#9\n0!\n")]
        self.file("old", b"another file")
        os.mkdir(self.file("sub"))
        os.symlink(self.inputs[0], self.file("soft"))
        os.link(self.inputs[1], self.file("hard"))
        os.symlink("../torn.vcd", self.file("sub/soft"))

    def test_outputs(self) -> None:
        dump, torn, rules, other = self.inputs
        names = ["a.vcd", "diff.b.vcd", "./a.vcd", "sub/../torn.vcd", "rules", "soft", "hard",
                 "sub/soft", "old", "new"]
        for name, read, words in (
                ("explain", [torn], ["--salvage", "", torn]),
                ("explain", [dump, torn], ["--junit", "", dump, torn]),
                ("stats", [dump], ["--saif", "", dump, "a"]),
                ("diff", [dump, other], ["--junit", "", dump, other]),
                ("diff", [dump, other], ["--html", "", dump, other]),
                ("when", [dump, rules], ["--junit", "", "--rules", rules, dump])):
            for output in map(self.file, names):
                with self.subTest(name=name, output=output):
                    self.ask(name, read, [output if word == "" else word for word in words], output)
        self.ask("diff", [other], ["--context", "5", "--into", self.folder, dump, other], other)

    def ask(self, name: str, read: List[str], words: List[str], output: str) -> None:
        """Compares what a script does with an output."""
        before = [text_of(path) for path in self.inputs]
        said = run(name, words)
        if may_replace(output, read):
            self.assertIn(said.status, (0, 1))
            for path, text in zip(self.inputs, before):  # some may be inputs of other questions
                self.file(os.path.basename(path), text)
            return
        self.assertEqual((said.output, said.status, said.message), (
            b"", 2, "vcdkit-%s: %s: is an input, so it is not overwritten\n" % (name, output)))
        self.assertEqual([text_of(path) for path in self.inputs], before)


if __name__ == "__main__":
    unittest.main()
