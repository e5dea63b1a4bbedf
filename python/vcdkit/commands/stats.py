"""Reports how signals change: period, duty cycle, shortest and longest pulse, time at each value

The first line of a signal has its path, type and size. These lines follow, if they apply:
  changes 20                    how often its value changes, or an event is triggered
  period 10ns to 12ns, mean 10.2ns, 9 times
                                from one rise of a bit, or trigger of an event, to the next
  duty 50%                      the part of these periods in which the bit is 1
  range -1.5 to 3, mean 0.25    of a real number, with the mean over time; without nan
  value 1 60ns 49.2%, 10 times, 5ns to 7ns
                                how long and how often it has this value, and its shortest and
                                longest pulse that begins and ends in the window
The values that it has longest come first. Only the value at the end of each time step counts. If
the dump ends before --to, the window ends with it.

With --toggle, there is a line for each bit: how often it rises, falls and becomes x. The last line
counts the bits. With --never-toggled, there are only lines of bits that neither rise nor fall, and
the exit status is 1 if there is one, and 2 for a fault or an unknown name. --saif writes how long
each bit is 0, 1, x and z, and how often it toggles, to a backward SAIF file, which power tools
read. All leave out real numbers and events.

examples:
  vcdkit-stats --hex --from 1us sim.vcd.gz tb.cpu.state
  vcdkit-stats --json sim.vcd tb.clk | jq .period
  vcdkit-stats --toggle --from 1us sim.vcd tb.cpu | head
  vcdkit-stats --never-toggled sim.vcd tb.cpu
  vcdkit-stats --saif power.saif --from 1us --to 2us sim.vcd tb.cpu"""
import argparse
import sys
from typing import Any, Dict, Iterator, List, Optional, Sequence

from .. import __version__
from ..errors import UsageError
from ..forms.text import AnyForm, counted, in_json, mean_text, shown, write_json
from ..model.signals import Signal
from ..model.times import Window
from ..questions.dump import Dump
from ..questions.statistics import Statistics, shares_of, statistics_of
from ..reading.files import check_outputs, write
from . import command, dump_of, form_for, natural, parser, times_of, window_of


def facts_of(signal: Signal, its: Statistics, form: AnyForm, count: Optional[int]
             ) -> Dict[str, Any]:
    """Returns what is counted of a signal, with times in ticks; what it does not have is `None`."""
    span = its.range() if signal.is_real else None
    return {"path": signal.path, "type": signal.type, "size": signal.size,
            "changes": its.changes,
            "period": its.periods.facts() if its.periods.count else None,
            "duty": None if signal.type == "event" else its.duty(),
            "range": {key: in_json(one, None) for key, one in span.items()} if span else None,
            "values": [{**one, "value": shown(one["value"], form)}
                       for one in shares_of(its, count)]}


def lines_of(dump: Dump, facts: Dict[str, Any], rest: int, asked: argparse.Namespace
             ) -> Iterator[str]:
    """Returns the lines of a signal, which has more values than its facts, if `rest` is above 0."""
    time = times_of(dump, asked)
    yield "%(path)s %(type)s %(size)d" % facts
    yield "  changes %d" % facts["changes"]
    period, span = facts["period"], facts["range"]
    if period:
        yield "  period %s to %s, mean %s, %s" % (
            time(period["shortest"]), time(period["longest"]),
            mean_text(dump.timescale, period["mean"], asked.unit), counted(period["times"], "time"))
    if facts["duty"] is not None:
        yield "  duty %.4g%%" % (100 * facts["duty"])
    if span:
        yield "  range %s to %s, mean %.6g" % (shown(span["least"]), shown(span["largest"]),
                                               float(span["mean"]))
    for value in facts["values"]:
        pulses = "" if value["shortest"] is None else ", %s to %s" % (
            time(value["shortest"]), time(value["longest"]))
        yield "  value %s %s %.4g%%, %s%s" % (
            value["value"], time(value["ticks"]), 100 * value["share"],
            counted(value["times"], "time"), pulses)
    if rest > 0:
        yield "  and " + counted(rest, "other value")


def write_toggles(bits: Sequence[Any], asked: argparse.Namespace) -> None:
    """Writes a line for each bit, those that toggle most first, and how many did."""
    ordered = sorted((bit for bit in bits if asked.toggle or not bit.rises + bit.falls),
                     key=lambda bit: -int(bit.rises + bit.falls))
    for bit in ordered if asked.json else ():
        write_json({"path": bit.of.signal.path, "bit": bit.number if bit.of.has_numbers else None,
                    "rises": bit.rises, "falls": bit.falls, "x": bit.unknowns})
    if not asked.json:
        sys.stdout.writelines("%s %d %d %d\n" % (bit.path, bit.rises, bit.falls, bit.unknowns)
                              for bit in ordered)
        both = sum(bool(bit.rises and bit.falls) for bit in bits)
        never = sum(not bit.rises and not bit.falls for bit in bits)
        print("%s: %d rise and fall, %d do one of these, %d do neither" % (
            counted(len(bits), "bit"), both, len(bits) - both - never, never))


def write_glitches(dump: Dump, window: Window, asked: argparse.Namespace) -> None:
    """Writes a line for each signal with short pulses, those with most first, and how many are."""
    time, every = times_of(dump, asked), [
        (signal.path, one.glitches, one.first_glitch) for signal, one in statistics_of(
            dump, asked.names, window, dump.span(asked.glitch, is_up=True))
        if signal.type != "event"]
    found = sorted((one for one in every if one[1].count), key=lambda one: -one[1].count)
    for path, its, first in found:
        if asked.json:
            write_json({"path": path, "glitches": its.count, "shortest": its.shortest,
                        "first": first})
        else:
            print(path, its.count, time(its.shortest or 0), time(first))
    if not asked.json:
        print("%s, %d with a glitch" % (counted(len(every), "signal"), len(found)))


def write_bits(dump: Dump, window: Window, asked: argparse.Namespace) -> int:
    """Writes what each bit does; returns the status."""
    from ..forms import saif
    from ..questions.toggles import counts_of
    window = dump.window_to_end(window)
    bits = counts_of(dump, asked.names, window, asked.saif is not None)
    if asked.never and not bits:
        raise UsageError("there is no bit: real numbers and events have none")
    texts = saif.texts_of(dump, bits, window.last - window.begin, __version__)
    if asked.saif not in (None, "-"):  # first, as nobody may read the lines to their end
        write(asked.saif, (text.encode("utf-8", "surrogateescape") for text in texts))
    if asked.toggle or asked.never:
        write_toggles(bits, asked)
    if asked.saif == "-":
        sys.stdout.writelines(texts)
    return int(asked.never and not all(bit.rises + bit.falls for bit in bits))


def answer(words: List[str]) -> int:
    """Writes what is asked; returns the status."""
    options = parser("vcdkit-stats FILE NAME ..", __doc__)
    options.add_argument("--values", type=natural, metavar="N", help="how many values to "
                         "list for a signal [default: 10, with --json all]")
    options.add_argument("--toggle", action="store_true", help="list how often each bit toggles")
    options.add_argument("--never-toggled", dest="never", action="store_true", help="list the bits "
                         "that never toggle; exit with 1 if there is one")
    options.add_argument("--saif", metavar="FILE", help="write a SAIF file (-: standard output)")
    options.add_argument("--glitch", metavar="TIME", help="list how many pulses of each signal are "
                         "shorter than this, the shortest and when the first one begins")
    options.window().form().unit().json().file("+")
    asked = options.parse_args(words)
    if asked.never and (asked.toggle or asked.saif is not None):
        options.error("--never-toggled goes with neither --toggle nor --saif")
    if asked.glitch is not None and (asked.toggle or asked.never, asked.saif, asked.form,
                                     asked.states, asked.values) != (False, None, None, [], None):
        options.error("--glitch goes with neither --toggle nor --saif, and shows no values")
    if asked.values is not None and (asked.toggle, asked.never, asked.json, asked.saif) != (
            False, False, False, None):
        options.error("--values goes with none of --toggle, --never-toggled, --saif and --json")
    check_outputs([asked.saif], [asked.file, asked.names_of])
    dump = dump_of(asked)
    times_of(dump, asked)  # a unit needs a time scale
    dump.select(asked.names)
    window = window_of(dump, asked)
    if asked.glitch is not None:
        write_glitches(dump, window, asked)
        return 0
    if asked.toggle or asked.never or asked.saif is not None:
        return write_bits(dump, window, asked)
    count = 10 if asked.values is None else asked.values
    for signal, its in statistics_of(dump, asked.names, window):
        facts = facts_of(signal, its, form_for(asked, signal), None if asked.json else count)
        if asked.json:
            write_json(facts)
        else:
            rest = len(its.values) - count
            print(*lines_of(dump, facts, rest, asked), sep="\n")
    return 0


def main(words: Optional[List[str]] = None) -> int:
    """Answers; with --never-toggled, a status of 1 is an answer."""
    asked = sys.argv[1:] if words is None else words
    return command(answer, 2 * ("--never-toggled" in asked))(words)
