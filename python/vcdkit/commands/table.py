"""Writes the values of several signals as CSV, with a column for each

There is a row for each change and for --from (if a signal has a value by then), with the values at
the end of that time. With --rise or --fall, there is a row for each edge of the clock, with the
values just before it; with --at, one for each of the times. Events have no column. `-` means no
value yet. With --hex, X is a digit that mixes x or z with other bits. For pandas, use --decimal or
dtype=str.

Give a --channel 'NAME: CONDITION: SIGNAL ..' for each channel of a bus. Row n then has, for each of
them, the n-th edge at which its condition holds and its signals there, and how many edges lie
between one channel and the next (below 0 if the next one comes first). Cells are empty if there is
no n-th edge. A channel NAME@CLOCK has the rising edges of this clock, NAME@!CLOCK the falling ones;
the edges between two channels are those of the second one's clock.

examples:
  vcdkit-table --rise tb.clk --if 'tb.valid & tb.ready' sim.vcd tb.address tb.data
  vcdkit-table --rise clk --channel 'a: valid & ready: addr' --channel 'r: rvalid & rready' a.vcd"""
import argparse
import collections
import csv
import io
import itertools
import os
import re
import sys
from typing import Any, Counter, List

from ..forms.tables import bus_rows, cells_of, heads_of
from ..forms.text import write_json
from . import command, dump_of, form_for, is_part, parser, part_of, times_at, warn_of_end


def words_of(words: List[str]) -> argparse.Namespace:
    """Reads the command line."""
    options = parser("vcdkit-table FILE [NAME ..]", __doc__)
    options.form().clock("write a row for each %s edge of this signal")
    options.at("write a row for each of these times%s")
    which = options.add_mutually_exclusive_group()
    which.add_argument("--if", dest="condition", metavar="CONDITION",
                       help="write only the rows at which this holds")
    which.add_argument("--channel", dest="channels", action="append", default=[],
                       metavar="CHANNEL", help="join transfers in order (see below)")
    options.add_argument("--flush", metavar="CONDITION", help="with --channel: at the edges (of "
                         "the first channel) at which this holds, such as a reset, no transfer "
                         "counts, and no transaction stays open")
    options.add_argument("--histogram", action="store_true",
                         help="with --channel: count how many transfers took each number of "
                         "edges")
    options.add_argument("--open-fails", action="store_true", help="with --channel: exit with 1 if "
                         "a transaction lacks a transfer, or if there is none")
    options.window().unit("that of the time scale").json().file("*")
    asked = options.parse_args(words)
    if asked.at is not None and (is_part(asked) or (asked.rise, asked.fall) != (None, None)):
        options.error("--at goes with none of --rise, --fall, --from, --to and --after")
    if bool(asked.channels) == bool(asked.names or asked.names_of is not None):
        options.error("give NAMEs, --names or --channel")
    for name in "histogram", "flush", "open_fails":
        if getattr(asked, name) and not asked.channels:
            options.error("--%s goes with --channel" % name.replace("_", "-"))
    each = [(re.split("(?<! ): ", one, maxsplit=2) + ["", ""])[:3] for one in asked.channels]
    if any(not name.strip() or not condition.strip() for name, condition, _ in each):
        options.error("a channel is 'NAME: CONDITION: SIGNAL ..', with a space after each colon "
                      "(the signals may be left out)")
    if each:
        from ..questions.when import named
    asked.channels = [(*named(name), condition, re.findall("[^ ]+", names))
                      for name, condition, names in each]
    if len({name for name, *_ in asked.channels}) < len(each):
        options.error("two channels have one name")
    return asked


@command
def main(words: List[str]) -> int:
    asked = words_of(words)
    times, whole = times_at(asked), dump_of(asked)
    channels = asked.channels or [("time", "", "", asked.names)]
    columns = [[one for one in whole.select(names) if one.type != "event"]
               for *_, names in channels]
    scale = whole.timescale
    unit = asked.unit or (scale.unit if scale else "tick")
    whole.ticks("0" if unit == "tick" else "0" + unit)  # a unit needs a time scale
    warn_of_end("vcdkit-table", whole, times)
    # Values at the begin of a cut are a section, and none that changed.
    dump = part_of(whole, asked)
    decimal = scale.in_unit(unit) if scale and unit != "tick" and not asked.json else (
        lambda ticks: ticks)
    cells = [cells_of(decimal, (form_for(asked, one) for one in its), asked.json)
             for its in columns]
    names, counts = [one[0] for one in channels], collections.Counter()  # type: Any, Counter[str]
    heads = heads_of(names, columns, unit, bool(asked.channels), asked.json)
    if asked.channels:
        from ..questions.when import Questions
        rules = [(name, text, clock) for name, clock, text, _ in channels]
        rules += [("--flush", asked.flush, channels[0][1])] if asked.flush else []
        asking = Questions(dump, rules, asked.rise, asked.fall, True, columns)
        head, rows = bus_rows(asking.transactions(), names, heads, cells, asked.histogram, counts)
    else:
        head, rows = heads[0], itertools.starmap(cells[0], dump.rows(
            asked.names, times, asked.rise, asked.fall, asked.condition))
    if is_part(asked):
        with dump.body():
            pass  # a bad window is refused before anything is written
    is_file = os.path.isfile("/dev/stdin" if asked.file == "-" else asked.file)
    if not is_file and isinstance(sys.stdout, io.TextIOWrapper):
        sys.stdout.reconfigure(line_buffering=True)  # the rows of a pipe are seen as they come
    if asked.json:
        for row in rows:
            write_json(dict(zip(head, row)))
    else:
        csv.writer(sys.stdout, lineterminator="\n").writerows(itertools.chain([head], rows))
    return int(asked.open_fails and (counts["lacking"] > 0 or not counts["all"]))
