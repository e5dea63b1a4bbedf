"""A page of HTML with the waveforms of some signals: the template page.html, into which the changes
go as JSON. The page describes the forms of values and times where it reads them."""
import base64
import hashlib
import json
import os
import pkgutil
import re
from typing import Dict, List, NamedTuple, Optional, Sequence, Tuple

from ..model.signals import Signal, keys_of
from ..model.times import Timescale
from ..questions.streams import MAX_BYTES, Stream, TooMuch, packed
from ..reading.source import Source

MAX_SPAN = 1 << 53  # ticks, as numbers of JavaScript are exact up to there


class PageRow(NamedTuple):
    """A row of a page: a signal, its stream, and for one of two dumps its letter and a stream whose
    value is 1 while the two differ; and names for values, by their shortest digits."""

    signal: Signal
    stream: Stream
    side: str = ""
    differs: Optional[Stream] = None
    names: Dict[str, str] = {}

    @property
    def states(self) -> Dict[str, str]:
        """The names by the values as the page has them."""
        return {str(packed(digits.encode())): name for digits, name in self.names.items()}


class Page(NamedTuple):
    """What a page says of the whole. `view` is what it shows first."""

    title: str
    about: List[str]
    scale: Optional[Timescale]
    begin: int
    end: int
    mark: Optional[int]
    view: Tuple[int, int]
    radix: str = "hex"
    is_light: bool = False
    row: int = 0  # that is chosen first
    ends: Sequence[Tuple[str, int]] = ()  # of each of two dumps the letter, and when it ends
    cursor: Optional[int] = None  # where it is first, if not at the mark


def texts_of(page: Page, rows: Sequence[PageRow]) -> List[str]:
    """Returns the text of a page, in parts. Fails if it is too large."""
    span = page.end - page.begin
    if span > MAX_SPAN:
        raise TooMuch("the window has more than 2^53 ticks: show less time")
    streams = list({id(one): one for row in rows for one in (row.stream, row.differs)
                    if one}.values())
    places = {id(one): at for at, one in enumerate(streams)}
    # The rows of two dumps have their letters.
    keys = ([row.signal.path for row in rows] if rows[0].side
            else keys_of(row.signal for row in rows))
    head = {
        "title": page.title, "about": page.about, "begin": str(page.begin), "span": max(span, 1),
        "tick": str(page.scale.femtoseconds if page.scale else 0), "radix": page.radix,
        "light": page.is_light, "mark": None if page.mark is None else page.mark - page.begin,
        "cursor": None if page.cursor is None else page.cursor - page.begin,
        "view": [time - page.begin for time in page.view], "row": page.row,
        "ends": {letter: time - page.begin for letter, time in page.ends},
        "signals": [[key, row.signal.type, row.signal.size, places[id(row.stream)], row.side,
                     places.get(id(row.differs)), *([row.states] if row.states else [])]
                    for key, row in zip(keys, rows)]}
    found, size = [json.dumps(head, separators=(",", ":"))[:-1] + ',"streams":['], 0
    for stream in streams:
        found += ["," * bool(size), json.dumps(stream.row(), separators=(",", ":"))]
        size += len(found[-1]) + 1
        if size > MAX_BYTES:
            raise TooMuch("the page would have more than %d MB: name fewer signals, or show less "
                          "time" % (MAX_BYTES >> 20))
    before, after = template()
    # No tag can begin in it, whatever names are.
    return [before, *(text.replace("<", "\\u003c") for text in found), "]}", after]


def template() -> Tuple[str, str]:
    """Returns the text before the data and after it; only its own script can run."""
    text = (pkgutil.get_data("vcdkit", "page.html") or b"").decode()
    for name in "style", "script":
        found = re.search("<%s>(.*?)</%s>" % (name, name), text, re.DOTALL)
        code = found.group(1) if found else ""
        digest = hashlib.sha256(code.encode()).digest()
        text = text.replace("{%s}" % name, base64.b64encode(digest).decode(), 1)
    before, _, after = text.partition("{data}")
    return before, after


def about(dump: Source, letter: str = "") -> List[str]:
    """Returns what a page says of a dump."""
    date, version, scale = dump.header
    return ["%s %s" % pair for pair in (
        (letter + "file", os.path.basename(dump.name)), ("date", date), ("version", version),
        ("timescale", scale)) if pair[1]]
