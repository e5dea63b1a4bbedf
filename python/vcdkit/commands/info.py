"""Describes a dump: its time scale, first and last timestamps, counts and largest scopes

Each line has a key and its value. The first and the last timestamp are shown with a unit and, if
that differs, in ticks. `types` counts the variables of each type, and `bits` is the sum of the
sizes of all codes. The largest scopes are those that directly contain the most variables; those
with equally many are in the order of their first variables. If the fault of a dump is in its body,
the lines about the header are still written, and the fault goes to standard error.

examples:
  vcdkit-info sim.vcd.xz
  vcdkit-info --json sim.vcd | jq .last"""
import collections
from typing import Any, Dict, Iterator, List, Tuple

from ..forms.text import write_json
from ..questions.dump import Dump
from ..reading.body import first_time
from . import command, dump_of, parser, times_of


def of_header(dump: Dump, count: int) -> Iterator[Tuple[str, Any]]:
    """Returns what the header says, as pairs, with so many of the largest scopes."""
    date, version, scale = dump.header
    types = collections.Counter(one.type for one in dump.signals)
    scopes = collections.Counter(one.scopes[-1].path if one.scopes else ""
                                 for one in dump.declarations)
    sizes = {one.code: one.size for one in dump.signals}
    yield "date", date
    yield "version", version
    yield "timescale", str(scale) if scale else None
    yield "types", dict(types.most_common())
    yield "bits", sum(sizes.values())
    yield "largest", dict(scopes.most_common(count))


def lines_of(key: str, value: Any) -> List[str]:
    """Returns the lines of a value, for a reader."""
    if isinstance(value, dict) and key == "largest":
        return ["largest %s %d" % (scope or "(top)", count) for scope, count in value.items()]
    if isinstance(value, dict):
        value = ", ".join("%s %d" % pair for pair in value.items())
    return ["%s %s" % (key, "-" if value in (None, "") else value)]


@command
def main(words: List[str]) -> int:
    options = parser("vcdkit-info FILE", __doc__, failed="not a valid dump")
    options.add_argument("--scopes", type=int, default=5, metavar="N",
                         help="how many of the largest scopes to list [default: 5]")
    options.unit().json("write one JSON object; first_tick and last_tick are ticks").file()
    asked = options.parse_args(words)
    dump = dump_of(asked)
    time_text = times_of(dump, asked)
    facts: Dict[str, Any] = {"file": dump.name, **dict(of_header(dump, asked.scopes))}
    if not asked.json:
        for key, value in facts.items():
            for line in lines_of(key, value):
                print(line, flush=True)
    report = dump.check()
    counts: Dict[str, Any] = report._asdict()
    del counts["last"]
    for key, tick in ("first", first_time(dump)), ("last", report.last):
        text = counts[key] = None if tick is None else time_text(tick)
        counts[key + "_tick"] = tick
        if not asked.json:
            print(key, text or "-", *[] if text in (None, str(tick)) else ["(tick %s)" % tick])
    if asked.json:
        write_json({**facts, **counts})
    else:
        for key in ("scopes", "variables", "codes", "times", "sections", "changes"):
            print(key, counts[key])
    return 0
