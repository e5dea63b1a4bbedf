"""Finds the first difference between two dumps and what only one of them has

Each line says what differs, and then shows both sides, A first. `timescale`, `size` and `alone` (a
variable or scope that only one of them has, and how many variables that is) are about headers,
`differs` is the first time at which a variable differs, as a time of A (-: no value yet), and
`ends` and `edges` are about the length.

Values are compared at the end of each time step or, with --rise or --fall, just before the first
edge of A's clock and the first edge of B's clock, and so on. Dates, identifier codes, sections and
repeated values do not matter, and tb.q matches tb.q[3:0]. OLD of --map is a path of a dump, or a
path that another --map has made. With --common or a clock, and no difference, standard error says
how many signals and edges were compared. More is in extras/README.md.

examples:
  vcdkit-diff --context 20ns --into /tmp golden.vcd.gz sim.vcd tb.dut
  vcdkit-diff --map TOP.tb=tb --common --rise tb.clk verilator.vcd icarus.vcd
  vcdkit-diff --every --junit diff.xml --except tb.dut.seed golden.vcd sim.vcd"""
import argparse
import os
from typing import List, Sequence, Tuple

from ..errors import UsageError
from ..forms.differences import (Lines, part_in, say_compared, say_ends, say_headers, say_values,
                                 write_parts)
from ..forms.junit import Test
from ..forms.many import answer_all, each_of, read_by
from ..model.times import LAST_TICK, Timescale, amount_of
from ..questions.compare import ALWAYS, EACH_PAIR, FIRST, Comparison, same_within
from ..questions.dump import Dump
from ..questions.saved import Exceptions
from ..questions.sides import sides_of
from ..reading.files import check_outputs, files_of, write
from . import (FAULT, LAST, check_begin, dump_of, ends_of, is_part, natural, pair_of,
               parser, part_of, question, say, times_of)


def window_of_both(scales: Sequence[Timescale], begin: str, end: str) -> Tuple[int, int]:
    """Returns the window in the shorter tick of both. A number of ticks counts those of A."""
    tick = min(scale.femtoseconds for scale in scales)
    first = -(-scales[0].span(begin) // tick)
    last = LAST_TICK if end == LAST else min(scales[0].span(end) // tick, LAST_TICK)
    if first > last:
        raise UsageError("--from is above --to")
    return first, last


def parts_of_both(dumps: Sequence[Dump], asked: argparse.Namespace, has_clock: bool
                  ) -> List[Dump]:
    """Returns the window of both dumps. Without a clock, that of the longer tick may begin before
    the window and end after it, and A says when --after holds."""
    if has_clock and asked.after is not None:
        return [part_of(dump, asked) for dump in dumps]
    (asked.begin, asked.end), asked.after = ends_of(dumps[0], asked), None
    scales = [dump.timescale for dump in dumps if dump.timescale]
    if len(set(scales)) < 2:
        return [part_of(dump, asked) for dump in dumps]
    (first, last), shorter = window_of_both(scales, asked.begin, asked.end), min(
        scales, key=lambda scale: scale.femtoseconds)
    parts = []
    for dump, scale in zip(dumps, scales):
        check_begin(dump, shorter.text(first))
        factor = scale.femtoseconds // shorter.femtoseconds
        its = -(-first // factor), last // factor
        if has_clock and its[0] > its[1]:
            raise UsageError("%s: it has no time in this window: its ticks are %s" % (
                dump.name, scale))
        parts.append(dump.cut(*its if has_clock else (first // factor, -(-last // factor))))
    return parts


def compare(asked: argparse.Namespace, report: Lines) -> None:
    """Says all that differs."""
    dumps = [dump_of(asked, file) for file in (asked.one, asked.other)]  # --names of the first
    if is_part(asked):
        dumps = parts_of_both(dumps, asked, bool(asked.rise or asked.fall))
    sides, idle = sides_of(dumps, asked.maps, asked.names, asked.exceptions)
    say("vcdkit-diff", ["warning: %s: changes nothing" % option for option in idle])
    report.times = [times_of(side.dump, asked) for side in sides]
    spans = [side.dump.ticks(asked.context) for side in sides] if asked.context else []
    name = asked.rise or asked.fall
    edges = [side.edge(asked.rise, asked.fall) for side in sides] if name else []
    same = same_within(asked.tolerance, asked.x_matches)
    extent = EACH_PAIR if asked.waive is not None and asked.extent == FIRST else asked.extent
    comparison = Comparison(sides, same, extent, edges)
    if asked.condition is not None:
        from ..questions.when import state
        comparison.only = [state(side.named, asked.condition, True) for side in sides]
    scales = [side.scale for side in sides if side.scale]
    if not edges and is_part(asked) and len(set(scales)) > 1:
        comparison.window = window_of_both(scales, asked.begin, asked.end)
    if asked.within is not None:
        comparison.within = sides[0].ticks_of_both(asked.within, comparison.factors[0])
    comparison.start()
    pairs = comparison.compared
    if asked.common and not pairs and not comparison.sizes:
        raise UsageError("the dumps have no path in common: --map OLD=NEW renames a scope")
    say_headers(report, sides, comparison, asked.common)
    exceptions = Exceptions(asked.waive, lambda name: set().union(*(
        side.selected([name])[name] for side in sides)))
    waived = comparison.count(exceptions.of)
    say_compared(report, sides, pairs - waived, waived, [])
    if pairs - waived < asked.least:
        raise UsageError("%s: --at-least asks for %d" % (report.compared, asked.least))
    found = say_values(report, asked, sides, comparison, exceptions)
    if not found or asked.extent != FIRST:
        report.notes = exceptions.notes()
        say("vcdkit-diff", report.notes)
    if edges and pairs and not any(comparison.times):
        raise UsageError("in both dumps, %s never %s%s%s" % (
            name, "rises" if asked.rise else "falls", " where --if holds" * bool(asked.condition),
            " in this window" * is_part(asked)))
    is_idle = edges and not all(comparison.times)  # then nothing was compared
    if is_idle or not asked.common and not (edges and found):
        say_ends(report, sides, comparison, bool(edges))
    if edges and not found:
        say_compared(report, sides, pairs - waived, waived, [*map(len, comparison.times)])
    if not report.differs():
        if pairs == waived:
            raise UsageError("no variable is compared" + ": all are waived" * bool(waived))
        if not comparison.has_value(exceptions.of):
            raise UsageError("no variable has a value where they are compared")
    if found and asked.context:
        write_parts(report, sides, found[0].times, spans, asked.into or ".")
    if found and asked.html is not None:
        from ..forms import page_of_two
        page = page_of_two.texts_of(
            sides, comparison.factors, found, edges, same,
            spans[0] * comparison.factors[0] if spans else None, asked.forms)
        write(asked.html, (text.encode("ascii") for text in page))
        report.put("page " + asked.html, kind="page", file=asked.html)


def words_of(words: List[str]) -> argparse.Namespace:
    """Reads the command line."""
    options = parser("vcdkit-diff A B [NAME ..]", __doc__, "no difference", "a difference",
                     "usage error, " + FAULT)
    options.add_argument("--map", dest="maps", metavar="OLD=NEW", type=pair_of, action="append",
                         default=[], help="call the scope or signal OLD of either dump NEW (OLD= "
                         "removes it from paths); may be repeated")
    options.add_argument("--common", action="store_true", help="compare only what both have")
    options.add_argument("--at-least", dest="least", metavar="N", type=natural, default=0,
                         help="exit with 2 if fewer signals are compared; those of --waive do not "
                         "count")
    options.add_argument("--except", dest="exceptions", metavar="NAME", action="append", default=[],
                         help="leave out this signal or scope; may be repeated")
    options.add_argument("--real-tolerance", dest="tolerance", metavar="T", type=float,
                         default=0.0, help="let real numbers differ by T, or T times the larger")
    options.add_argument("--x-matches", action="store_true",
                         help="let a digit that is x or z match any digit")
    options.add_argument("--within", metavar="TIME", help="ignore differences that last at "
                         "most this long; not with a clock")
    options.add("--waive").window()
    options.clock("compare at the %s edges of this signal", is_one=True)
    options.add_argument("--if", dest="condition", metavar="CONDITION",
                         help="compare only edges at which this holds")
    extent = options.add_mutually_exclusive_group()
    extent.add_argument("--every", dest="extent", action="store_const", const=EACH_PAIR,
                        default=FIRST, help="show the first difference of each signal")
    extent.add_argument("--always", dest="extent", action="store_const", const=ALWAYS,
                        help="show all differences of each signal")
    options.many("")
    options.add_argument("--context", metavar="TIME",
                         help="if values differ, write both dumps from TIME before the first "
                         "difference to TIME after it")
    options.add_argument("--into", metavar="DIRECTORY",
                         help="the directory for these files, which is created if it is missing "
                         "[default: .]")
    options.add_argument("--html", metavar="FILE",
                         help="if values differ, write an HTML page of the waveforms")
    options.form().unit().json().add("--four-state")
    options.add_argument("one", metavar="A", help="the first dump")
    options.add_argument("other", metavar="B", help="the second dump")
    options.names("*")
    asked = options.parse_args(words)
    asked.maps.sort(key=lambda pair: -len(pair[0]))
    if not 0 <= asked.tolerance < float("inf"):
        options.error("--real-tolerance takes a number from 0, such as 1e-9")
    if asked.one == asked.other == "-":
        options.error("standard input twice")
    asked.is_many = os.path.isdir(asked.one) and os.path.isdir(asked.other)
    if asked.is_many and (asked.html, asked.context) != (None, None):
        options.error("--html and --context are for two dumps")
    if asked.condition is not None and not (asked.rise or asked.fall):
        options.error("--if goes with --rise or --fall")
    if asked.within is not None and (asked.rise or asked.fall):
        options.error("--within goes with neither --rise nor --fall")
    if asked.into is not None and not asked.context:
        options.error("--into is for the files of --context")
    for name in "context", "within":
        if getattr(asked, name) is not None:
            amount_of(getattr(asked, name))
    return asked


def pairs_of(asked: argparse.Namespace) -> List[argparse.Namespace]:
    """Returns what is asked of each pair of dumps: of two directories, of the dumps in both that
    have one name, and also of one that only one of them has, which then cannot be read."""
    names = {os.path.relpath(file, folder) for folder in (asked.one, asked.other)
             for file in files_of([folder])} if asked.is_many else {""}
    ones, others = ([os.path.join(folder, name) if name else folder for name in sorted(names)]
                    for folder in (asked.one, asked.other))
    parts = [part_in(asked.into, letter) for letter in "ab" if asked.context]
    check_outputs([asked.html, asked.junit, *parts], [*ones, *others, *read_by(asked)])
    each = each_of(asked, others)
    for one, its in zip(ones, each):
        its.one, its.other = one, its.file
    return each


def answer(asked: argparse.Namespace, tests: List[Test]) -> int:
    """Writes the answer, and returns the status. Adds a test for each kind of line."""
    report = Lines(asked)
    try:
        compare(asked, report)
    finally:
        tests += report.tests()
    if (asked.common or asked.rise or asked.fall) and not report.differs():
        say("vcdkit-diff", [report.compared])
    return 1 if report.differs() else 0


@question
def main(words: List[str]) -> int:
    asked = words_of(words)
    return answer_all("vcdkit-diff", answer, pairs_of(asked), asked.is_many)
