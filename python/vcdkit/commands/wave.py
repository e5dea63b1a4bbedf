"""Draws the waveforms of some signals in a time window, as SVG or HTML on standard output

A one-bit signal is a line, a vector is a lane with its values, a real number is a curve between its
smallest and its largest value, and an event is a tick. x is red, and z is orange. A grey block
stands for changes that are closer together than the picture can show; it is red where the signal is
x at some time. The scope that all names have in common is shown above them.

With --html, it writes a page instead: one file that needs no network, in which you can zoom,
search, and read the values at a cursor. Press `?` to list its keys. --light and the number format
set how the page starts.

examples:
  vcdkit-wave --light --around 158ns --context 20ns sim.vcd.gz tb.cpu > failure.svg
  vcdkit-wave --html --mark 158ns sim.vcd tb > failure.html"""
import argparse
import functools
import os
import sys
from typing import List, Optional

from ..errors import UsageError
from ..forms.text import form_of
from ..model.times import Window
from ..questions.dump import Dump
from . import check_begin, command, dump_of, form_for, is_part, natural, parser, window_of

LEAST_WIDTH, MAX_WIDTH = 100, 20000  # pixels: room for a time of the axis; that of lanes
MAX_SIGNALS = 200  # rows of a picture


def shown_window(dump: Dump, asked: argparse.Namespace) -> Window:
    """Returns the window that the words ask for, which ends with the dump if that is earlier."""
    if asked.around is None:
        return dump.window_to_end(window_of(dump, asked))
    if asked.context is None:
        raise UsageError("--around needs --context TIME, how much before and after it")
    begin, last = dump.window(asked.around, asked.context)
    check_begin(dump, dump.time(begin), "--around", False)
    return dump.window_to_end(Window(begin, last + 1))


def mark_of(dump: Dump, asked: argparse.Namespace, window: Window) -> Optional[int]:
    """Returns the time of the mark, None if there is none."""
    mark = asked.mark or asked.around
    if mark is None:
        return None
    time = dump.ticks(mark)
    if not window.begin <= time <= window.last:
        raise UsageError("%s is not in the window, %s to %s" % (
            mark, dump.time(window.begin), dump.time(window.last)))
    return time


def write_page(dump: Dump, window: Window, mark: Optional[int], asked: argparse.Namespace) -> None:
    """Writes the page of --html."""
    from ..forms import page
    from ..questions.streams import Reader
    chosen = dump.select(asked.names)
    part = dump.within(window).part(asked.names)  # else a fault after the window is met
    streams = Reader().read(part, chosen, window, lambda time: time - window.begin)
    its = page.Page(os.path.basename(dump.name), page.about(dump), dump.timescale, window.begin,
                    window.last, mark, (window.begin, window.last), asked.form,
                    asked.light)
    rows = [page.PageRow(one, stream, names=form_of(form_for(asked, one)).names)
            for one, stream in zip(chosen, streams)]
    sys.stdout.writelines(page.texts_of(its, rows))


@command
def main(words: List[str]) -> int:
    options = parser("vcdkit-wave FILE NAME ..", __doc__, "the picture was written")
    options.window()
    options.add_argument("--around", metavar="TIME",
                         help="the middle of the window, where a mark is drawn")
    options.add_argument("--context", metavar="TIME",
                         help="how much time to show before and after it")
    options.add_argument("--mark", metavar="TIME", help="draw a line at this time")
    options.add_argument("--width", type=natural, default=1000, metavar="N",
                         help="width of the traces: %d to %d pixels [default: 1000]"
                         % (LEAST_WIDTH, MAX_WIDTH))
    options.add_argument("--light", action="store_true", help="draw dark lines on white")
    options.add_argument("--html", action="store_true", help="write an HTML page, in which you can "
                         "zoom and search, not a picture")
    options.form().file("+")
    asked = options.parse_args(words)
    if asked.around is not None and is_part(asked):
        options.error("--around goes with none of --from, --to and --after")
    if asked.context is not None and asked.around is None:
        options.error("--context goes with --around")
    if not LEAST_WIDTH <= asked.width <= MAX_WIDTH:
        options.error("--width takes %d to %d pixels" % (LEAST_WIDTH, MAX_WIDTH))
    asked.form = asked.form or "hex"
    dump = dump_of(asked)
    places = dump.places(dump.full(asked.names))
    if not asked.html and len(places) > MAX_SIGNALS:
        raise UsageError("the names select %d signals, and a picture has at most %d: name fewer, "
                         "or write a page by --html" % (len(places), MAX_SIGNALS))
    window = shown_window(dump, asked)
    mark = mark_of(dump, asked, window)
    if asked.html:
        write_page(dump, window, mark, asked)
    else:
        from ..forms.svg import draw
        from ..questions.lanes import lanes_of
        chosen = [dump.declarations[place] for place in places]
        draw(dump, chosen, lanes_of(dump, asked.names, window, asked.width), mark,
             functools.partial(form_for, asked), asked.light)
    return 0
