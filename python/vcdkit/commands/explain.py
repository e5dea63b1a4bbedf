"""Checks dumps; for a fault, shows the lines around it, the usual cause and what to do

The report or message is that of vcdkit check, and so is the exit status. Bytes that are not text
are shown as \\xNN, and long lines are truncated.

--salvage writes everything before the fault, as a dump. The line `good until` reports up to which
time this dump has all values. If there is no fault, or the fault is in the header, no file is
written. With -, the dump goes to standard output, even if it has no fault, and everything else goes
to standard error.

With several FILEs, or a directory, which stands for all dumps in it and below it (.vcd and .fst,
also compressed), there is one line for each dump: its end, or its fault and the cause. The last
line counts the dumps, and the exit status is the highest status of any dump.

examples:
  vcdkit-explain --salvage good.vcd sim.vcd
  vcdkit-explain --reach 1ms --junit dumps.xml dumps/
  ssh lab cat sim.vcd.gz | vcdkit-explain -"""
import argparse
import collections
import contextlib
import os
import re
import shlex
import sys
from typing import Any, Dict, List, NamedTuple, Optional, TextIO

from ..errors import DamagedFile, DumpFault, VcdkitError
from ..forms.junit import Test, write_tests
from ..forms.many import each_of, side_by_side
from ..forms.text import write_json
from ..model.times import amount_of
from ..questions.causes import BROKEN, CUT_OFF, NO_HEADER, look_at
from ..questions.dump import Dump
from ..questions.salvage import Good, has_header
from ..reading.files import check_outputs, files_of, write
from ..reading.formats import PACKED
from . import command, dump_of, parser, times_of

OUTPUT = ("-", "/dev/stdout")
# What one of several dumps may be, and how many are.
KINDS = {"valid": "%d valid", "fault": "%d with a fault", "short": "%d too short",
         "unread": "%d cannot be read"}
Unpacker = Optional[List[str]]


def with_file(remedy: str, name: str, unpacker: Unpacker) -> str:
    """Returns a remedy with the file in it, or with what unpacks it, or with a pipe."""
    file = shlex.quote(name)
    is_pipe = name.startswith(("(stdin)", "/dev/"))
    source = [".."] if is_pipe else []
    if unpacker:
        source.append(" ".join(unpacker) if source else
                      " ".join([word for word in unpacker if word[0] != "/"] + [file]))
    if source and re.match(r"\w+2vcd FILE", remedy):  # they need a plain file
        ending = None if is_pipe else re.search(
            r"\.(%s)\Z" % "|".join(one.ending for one in PACKED), name)
        plain = shlex.quote(name[:ending.start()]) if ending else "OUT"
        return "%s > %s && %s" % (" | ".join(source), plain, remedy.replace("FILE", plain))
    if source:
        remedy = re.sub(r"\A(run again, or |look at it: )?(.*?) < FILE",
                        lambda found: "%s%s | %s" % (found.group(1) or "", " | ".join(source),
                                                     found.group(2)), remedy)
    if is_pipe:
        remedy = re.sub(r"(vcdkit-explain .*) FILE", r".. | \1 -", remedy)
    return remedy if is_pipe else remedy.replace("FILE", file)


def explain(dump: Dump, fault: DumpFault, unpacker: Unpacker) -> bytes:
    """Shows the lines around a fault, its cause and what helps; returns what is up to it."""
    around, found = look_at(dump, fault, print)
    if found:
        cause, remedy = found
        if remedy.endswith(CUT_OFF) and not has_header(dump):
            remedy = NO_HEADER
        print("cause: " + cause)
        print("help:  " + with_file(remedy, dump.name, unpacker))
    return around


def salvage(dump: Dump, fault: DumpFault, around: bytes, asked: argparse.Namespace,
            out: Optional[TextIO]) -> None:
    """Writes what is before the fault of a dump, to `out` if that is given, and says until which
    time it has all values."""
    if not has_header(dump):
        print("vcdkit-explain: nothing can be saved: the fault is in the header", file=sys.stderr)
        return
    good = Good(dump, around)
    if out:
        out.buffer.writelines(good)
    else:
        write(asked.salvage, good)
    last = good.good_until(fault)
    print("wrote: %s, %s" % (asked.salvage, "good until " + times_of(dump, asked)(last)
                             if last >= 0 else "but it has all values of no time"))


def words_of(words: List[str]) -> argparse.Namespace:
    """Reads the command line."""
    options = parser("vcdkit-explain FILE ..", __doc__, "valid dumps, as far as they go",
                     "not a valid dump")
    options.add_argument("--salvage", metavar="OUT", help="write everything before the fault to a "
                         "file (-: standard output)")
    options.add_argument("--token-limit", type=int, metavar="N", help="maximum token "
                         "length: 64 to 16777216 bytes [default: 1048576]")
    options.add_argument("--reach", metavar="TIME",
                         help="treat a dump that ends before TIME as faulty")
    options.many(", with a test for each dump").unit().json().add("--four-state")
    options.add_argument("files", metavar="FILE", nargs="+", help="a dump, or a directory of dumps")
    asked = options.parse_args(words)
    if asked.reach is not None:
        amount_of(asked.reach)
    asked.is_many = (len(asked.files) > 1 or asked.json or asked.junit is not None
                     or asked.reach is not None or os.path.isdir(asked.files[0]))
    if asked.is_many and asked.salvage is not None:
        options.error("--salvage is for one dump, without --reach, --json and --junit")
    return asked


class Verdict(NamedTuple):
    """What there is to say of one of several dumps: the exit status of it alone, what it is by that
    (a key of KINDS), a line for a reader, the lines around a fault, and facts."""

    file: str
    status: int
    kind: str
    text: str
    around: List[str]
    facts: Dict[str, Any]


def verdict(asked: argparse.Namespace) -> Verdict:
    """Returns the verdict on a dump. If it has to reach a time, one that ends earlier is short."""
    file, dump = asked.file, dump_of(asked, None, asked.token_limit)
    around: List[str] = []
    try:
        last = dump.check().last
        end = "ends " + times_of(dump, asked)(last) if last is not None else "has no timestamp"
        facts = {"last": last}
        if asked.reach is not None and (-1 if last is None else last) < dump.span(
                asked.reach, is_up=True):
            return Verdict(file, 1, "short", "%s: %s, before %s" % (file, end, asked.reach), [],
                           facts)
        return Verdict(file, 0, "valid", "%s: %s" % (file, end), [], facts)
    except DumpFault as fault:
        if isinstance(fault, DamagedFile):
            return Verdict(file, 3, "unread", str(fault), [], {"message": str(fault)})
        _, found = look_at(dump, fault, around.append)
        cause = found[0] if found else None
        return Verdict(file, fault.status, "fault", str(fault) + (": " + cause if cause else ""),
                       around, {"line": fault.line, "fault": fault.fault, "cause": cause})
    except VcdkitError as error:
        return Verdict(file, error.status, "unread", str(error), [], {"message": str(error)})


def explain_all(asked: argparse.Namespace) -> int:
    """Writes a line for each dump, and how many have a fault; returns the highest status."""
    files = files_of(asked.files)
    check_outputs([asked.junit], files)
    found, each = [], each_of(asked, files)
    for one in side_by_side(verdict, each) if len(each) > 1 else map(verdict, each):
        found.append(one)
        row = {"file": one.file, "kind": one.kind, **one.facts}
        write_json(row) if asked.json else print(one.text, flush=True)
    if not asked.json and len(found) > 1:
        counts = collections.Counter(one.kind for one in found)
        print("%d dumps: %s" % (len(found), ", ".join(
            text % counts[kind] for kind, text in KINDS.items()
            if counts[kind] or kind == "valid")))
    write_tests(asked.junit, "vcdkit-explain", [
        Test("vcdkit-explain", one.file, {"valid": "", "unread": "error"}.get(one.kind, "failure"),
             one.text, "\n".join([one.text, *one.around])) for one in found])
    return max(one.status for one in found)


@command
def main(words: List[str]) -> int:
    asked = words_of(words)
    if asked.is_many:
        return explain_all(asked)
    check_outputs([asked.salvage], asked.files)
    if asked.salvage not in OUTPUT:
        return answer(asked, None)
    out = sys.stdout
    with contextlib.redirect_stdout(sys.stderr):
        return answer(asked, out)


def answer(asked: argparse.Namespace, out: Optional[TextIO]) -> int:
    """Says what is asked; returns the status. `out` gets what is salvaged if it is given."""
    dump = dump_of(asked, asked.files[0], asked.token_limit)
    unpacker = dump.unpacker()
    if unpacker:
        print("%s: %s" % ("FST" if unpacker[0] == "fst2vcd" else "compressed", with_file(
            "vcdkit check < FILE", dump.name, unpacker)), flush=True)
    try:
        report = dump.answer("check")
    except DamagedFile as fault:
        print("cause: " + BROKEN[0])
        if asked.salvage is not None:
            salvage(dump, fault, b"", asked, out)
        else:
            print("help:  " + with_file(BROKEN[1], dump.name, unpacker), flush=True)
        raise
    except DumpFault as fault:
        print("vcdkit: %s" % fault, file=sys.stderr, flush=True)
        around = explain(dump, fault, unpacker)
        if asked.salvage is not None:
            salvage(dump, fault, around, asked, out)
        return fault.status
    if out:
        out.buffer.writelines(dump.blocks())
    elif asked.salvage is not None:
        print("no fault: nothing written to " + asked.salvage, file=sys.stderr)
    print(report, end="")
    return 0
