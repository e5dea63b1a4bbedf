"""The usual causes of the faults of a dump, and what helps."""
import io
import re
from typing import BinaryIO, Callable, Iterator, Optional, Tuple, cast

from ..errors import DumpFault
from ..reading.formats import format_of
from ..reading.source import Source

Cause = Tuple[str, str]  # what it is, and what helps
WIDTH = 100
FRONT = 1 << 16  # how much before a fault is looked at
NINE = ("a nine-state value of VHDL",
        "vcdkit-four-state < FILE | vcdkit check    (or run ghdl again with --vcd-4states)")
STRING = ("a string, which four-state VCD does not have",
          "vcdkit-four-state < FILE | vcdkit check    (it leaves out strings)")
PORTS = ("extended VCD, of $dumpports",
         "evcd2vcd FILE | vcdkit check    (evcd2vcd: GTKWave; or use $dumpvars instead)")
CUT_OFF = "vcdkit-explain --salvage LEFT.vcd FILE    (saves what is before the fault)"
TORN = "the dump is cut off", "run again, or " + CUT_OFF
NO_HEADER = "run again, or fix the header by hand: without a complete header, no value can be read"
PRODUCER = "run the simulation again, or fix the line by hand"
SECTION = ("a section ($dumpvars, $dumpall, $dumpoff, $dumpon) whose $end is missing",
           "vcdkit-close-sections < FILE | vcdkit check")

TAR = "an archive of tar", "tar -xf FILE    (then check the dumps in it)"
NOT_VCD = "not VCD text, but perhaps a message or a log", "look at it: head -c 200 < FILE"
BROKEN = ("the compressed file is cut off or damaged",
          "vcdkit-explain --salvage LEFT.vcd FILE    (saves what is before the break)")
# A text with the line of a fault at its end: all of it, and without the signs that any dump has.
WITHOUT_SIGNS = rb"\A[^$#]{0,%d}\Z" % (FRONT - 1)
# A value change, or a timestamp, which may lack their begin.
CHANGE = rb"\s*(#?\d+\s|[01xXzZ]+\s|[01xXzZ][!-~]|[bB][01xXzZ]+\s|[rR][-+.\deEnNaAiIfF]+\s)"

BODY = rb"\$enddefinitions\s+\$end\s"  # what comes before it
CUT_END = rb"\$(e|en)?\Z"  # an $end that is cut off

NO_TEXT = re.compile(rb"(?s).{0,1024}?[\x00-\x06\x0e-\x1a]")
BINARY = ("a binary file, not VCD text: FSDB, WLF, SHM, or damaged",
          "convert it with its vendor's tool: fsdb2vcd, wlf2vcd, simvisdbutil")
# Of a fault: its name, what its line matches, what the text up to it has, the cause and what helps.
# The first that fits is shown; an empty pattern fits all.
CAUSES = [
    ("", rb"", rb"(?im)^(?![br]\S+\s)(.*\s)?\$(?!end\s)(ned|edn|en|nd|end[a-z;.,]?)\s*$",
     "a misspelt $end", PRODUCER),
    ("unknown command", rb"\AMETA ", rb"", "sigrok-cli wrote a line of its own before the dump",
     "tail -n +2 < FILE | vcdkit check"),
    ("unknown command", rb"^\s*[\w.]+: +[-+\d.]", rb"",
     "sigrok-cli wrote a line for an analog channel",
     "grep -vE '^[A-Za-z0-9_.]+: ' < FILE | vcdkit check    "
     "(or leave out analog channels with -C)"),
    ("unknown command", rb"", WITHOUT_SIGNS, *NOT_VCD),
    ("command out of place", rb"\A(?!%s)" % CHANGE, WITHOUT_SIGNS.replace(b"#", b""), *NOT_VCD),
    ("unknown command", rb"^\s*[UuWwLlHh-][!-~]+\s*$", rb"", *NINE),
    ("unknown command", rb"^\s*s\S*\s+\S+\s*$", rb"", *STRING),
    ("unknown command", rb"\$dumpports|^\s*p\S+ +\d", rb"", *PORTS),
    ("unknown command", rb"\$vcdclose", rb"", "extended VCD: $vcdclose ends such a dump",
     "grep -v '^\\$vcdclose' < FILE | vcdkit check"),
    ("unknown command", rb"\A\$\w+\s*\n\Z", rb"", "a command that a body cannot have", PRODUCER),
    ("command out of place", rb"", rb"\$enddefinitions\s+(?!\$end\s)\S", "$enddefinitions without "
     "its $end", r"sed 's/^\$enddefinitions[ \t]*$/$enddefinitions $end/' < FILE | vcdkit check"),
    ("command out of place", rb"^\s*\$end\s*$", rb"", "an $end that ends nothing",
     "vcdkit-close-sections < FILE | vcdkit check"),
    ("command out of place", rb"^\s*[#01bxzr]", rb"",
     "no header: a later part of a split dump, or the beginning is missing",
     "cat FIRST FILE .. | vcdkit check    (all parts in order)"),
    ("command out of place", rb"^\s*\$", rb"", "a second header: two dumps in one file",
     "vcdkit merge ONE OTHER    (with each dump in a file of its own)"),
    ("bad value", rb"^\s*[bB][01xXzZ]*[UuWwLlHh-][01xXzZUuWwLlHh-]*\s", rb"", *NINE),
    ("bad value", rb"^\s*[01xXzZ]\s+\S", rb"",
     "white space between a value of one bit and its code",
     r"sed -E 's/^([01xXzZ])[ \t]+/\1/' < FILE | vcdkit check"),
    ("bad scope", rb"\$scope\s+\S+\s+\$end", rb"",
     "a scope without a name, or with the name $end",
     "give it another name in the source, because $end is a word of VCD"),
    ("bad scope", rb"\$scope\s+\S+\s+\S+\s+(?!\$end)\S", rb"", "a scope's name with a space in it",
     PRODUCER),
    ("bad variable", rb"\$var\s+string\s", rb"", *STRING),
    ("bad variable", rb"\$var\s+port\s|\$var\s+\S+\s+\[", rb"", *PORTS),
    ("bad variable", rb"\$var\s+\S+\s+0\s", rb"", "a variable of 0 bits",
     "leave it out of the dump"),
    ("bad timescale", rb"\b1(0|00)?\s*[MUNPF]?S\b", rb"", "a unit in upper case",
     r"sed -E '/\$timescale/,/\$end/s/([MUNPF]?S)\b/\L\1/' < FILE | vcdkit check    (GNU sed)"),
    ("bad timescale", rb"", rb"",
     "the number is not 1, 10 or 100, or the unit is not s, ms, us, ns, ps or fs",
     "fix the line, for example with sed"),
    ("time inside a section", rb"", rb"", *SECTION),
    ("bad time", rb"[^\n]\Z", rb"", *TORN),
    ("time goes back", rb"[^\n]\Z", rb"", *TORN),
    ("bad time", rb"#-", rb"", "a negative time",
     "sed '/^#-/d' < FILE | vcdkit check    (its changes then precede the first timestamp)"),
    ("bad time", rb"#\d+\.", rb"", "a time with a fraction",
     "use a finer time scale in the simulation"),
    ("time goes back", rb"", rb"", "the lines are out of order", CUT_OFF),
    ("unexpected end of input", rb"", rb"\A\s*\Z", "there is no dump: nothing was "
     "written to the pipe, or the simulation never reached $dumpvars", "look at its messages"),
    ("unexpected end of input", rb"", rb"", *TORN),
    ("unknown code", rb"", rb"", "header and body do not belong together, or the line is damaged",
     PRODUCER),
    ("value too wide", rb"", rb"", "more digits than the variable has bits", PRODUCER),
    ("token too long", rb"", rb"", "a very long value, or a binary file",
     "vcdkit check --token-limit 16777216 < FILE"),
]


def cause_of(fault: str, front: bytes, before: bytes, bad: bytes) -> Optional[Cause]:
    """Returns cause and help of a fault, by the front of the file, what is before the bad line, and
    that line; None where none is known."""
    its = format_of(front)
    if its and its.cause:
        return its.cause, its.remedy
    if front[257:262] == b"ustar":
        return TAR
    if NO_TEXT.match(front):
        return BINARY
    if re.search(CUT_END, bad) or (
            re.search(rb"[^\n]\Z", bad) and b"$" in before + bad
            and not re.search(BODY, before + bad)
            and (len(before) < FRONT or b"$var" in before)):  # the last line, in the header
        return TORN
    for of, pattern, earlier, cause, remedy in CAUSES:
        if of in ("", fault) and re.search(pattern, bad) and re.search(earlier, before + bad):
            return cause, remedy
    if re.search(rb"[\x00-\x06\x0e-\x1a\x7f-\xff]", bad):
        return "bytes that are not text: the file is damaged here", CUT_OFF
    if not bad.endswith(b"\n"):  # the last line of the file
        return TORN
    return None


def printable(line: bytes) -> str:
    """Returns the begin of a line as text."""
    text = line[:WIDTH].rstrip(b"\r\n").decode("ascii", "backslashreplace")
    return "".join(c if " " <= c <= "~" or c == "\t" else "\\x%02x" % ord(c) for c in text)


def short_lines(text: BinaryIO) -> Iterator[bytes]:
    """Returns a text in blocks of whole lines, as they come. A line of more than FRONT bytes may
    lack some of what is after these, so that it takes no more memory."""
    read = cast(io.BufferedReader, text).read1
    for block in iter(lambda: read(FRONT), b""):
        rest = end = b"" if block.endswith(b"\n") else text.readline(FRONT)
        while rest and not rest.endswith(b"\n"):
            rest = text.readline(FRONT)
        yield block + end + (b"\n" if rest and not end.endswith(b"\n") else b"")


def look_at(dump: Source, fault: DumpFault, say: Callable[[str], object] = str
            ) -> Tuple[bytes, Optional[Cause]]:
    """Returns the text up to the end of a fault's line, and its cause; `say` gets lines around."""
    before, bad, front, number = b"", b"", b"", 1
    with dump.open() as text:
        for block in short_lines(text):
            front = front if len(front) >= FRONT else front + block[:FRONT]
            count = block.count(b"\n")
            if number + count < fault.line - 1:  # the fault is further on
                before, number = (before + block)[-FRONT:], number + count
                continue
            for line in io.BytesIO(block):
                if number >= fault.line - 2:
                    say("%s %6d | %s" % (">" if number == fault.line else " ", number,
                                         printable(line)))
                before += line if number < fault.line else b""
                bad = line if number == fault.line else bad
                number += 1
                if number > fault.line + 1:
                    break
            if number > fault.line + 1:
                break
    before = before[-FRONT:]
    return before + bad, cause_of(fault.fault, front, before, bad)
