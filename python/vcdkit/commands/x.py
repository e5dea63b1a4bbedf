"""Lists the values with an x or a z that signals take in a time window

Each line has a time, a path and a value. A value is listed if it has an x at the end of the first
time of the window, or if it has one at the end of a later time and differs from the value before.
Without NAMEs, all signals are searched, but only what the simulator dumped: Icarus, for example,
does not dump the words of an array by itself. Verilator simulates two states, so its dumps hide
what is uninitialised, as a message says: check for x with a four-state simulator.

--trace lists only the first such value of each path, so the signals come in the order in which they
become unknown: the cause is often at the top. The order is only that of time, because a dump does
not say which signal drives which. --becomes leaves out what was never known, such as a memory that
nobody has written: it lists a value only if the value before has no x (with --z: nor a z).

examples:
  vcdkit-x --trace --from 100ns sim.vcd | head
  vcdkit-x --becomes --trace --from 1us --to 2us sim.vcd tb.cpu"""
import argparse
from typing import List, Set

from ..errors import UsageError
from ..forms.junit import Test
from ..forms.many import answer_file
from ..forms.text import in_json, shown, write_json
from ..model.values import value_in
from ..questions.saved import Exceptions
from ..questions.unknown import Signals, values_of, values_that_become
from ..reading import body
from . import FAULT, dump_of, form_for, parser, question, say, times_of, window_of


def words_of(words: List[str]) -> argparse.Namespace:
    """Reads the command line."""
    options = parser("vcdkit-x FILE [NAME ..]", __doc__, "no such value", "there is one",
                     "usage error, " + FAULT)
    extent = options.add_mutually_exclusive_group()
    extent.add_argument("--first", action="store_true", help="list only the first one")
    extent.add_argument("--count", action="store_true", help="write only the number of values")
    options.add_argument("--trace", action="store_true",
                         help="list only the first one of each path")
    options.add_argument("--becomes", action="store_true",
                         help="list only values that were known before")
    options.add_argument("--z", action="store_true", help="list values with a z too")
    options.many(", with a test for each dump").add("--waive").window().form().unit().json()
    options.file("*")
    return options.parse_args(words)


def answer(asked: argparse.Namespace, tests: List[Test]) -> int:
    """Writes the answer, and returns the status. Adds a test for the dump."""
    dump = dump_of(asked)
    text_of = times_of(dump, asked)
    signals: Signals = {}
    for one in dump.select(asked.names) if asked.names else dump.signals:
        if not one.is_real and one.type != "event":
            signals.setdefault(one.code.encode(), []).append(one)
    exceptions = Exceptions(asked.waive, lambda name: [
        one.path for one in dump.select([name] if dump.has(name) else [])])
    if signals and all(one.path in exceptions.of for its in signals.values() for one in its):
        raise UsageError("no signal is searched: all are waived")
    window = window_of(dump, asked)
    part = dump.cut(window.begin, window.last).part(asked.names)
    count, first, notes = 0, "", []  # type: int, str, List[str]
    traced: Set[str] = set()  # paths
    letters = b"xz" if asked.z else b"x"
    for time, code, text in (values_that_become(part, signals, letters, window.begin)
                             if asked.becomes else values_of(part, signals, letters)):
        for one in signals[code]:
            if one.path in traced or exceptions.has(one.path):
                continue
            traced.update([one.path] if asked.trace else ())
            if asked.first and count:
                break
            count += 1
            value, form = value_in(text, one.size), form_for(asked, one)
            if not first:
                first = "%s %s %s" % (text_of(time), one.path, shown(value, form))
            if asked.json and not asked.count:
                write_json({"time": time, "path": one.path, "value": in_json(value, form)})
            elif not asked.count:
                print(text_of(time), one.path, shown(value, form))
        if asked.first and count:
            break
    else:
        notes = exceptions.notes()
        if not count and "VerilatedVcd" in str(dump.header.version):
            notes.append("Verilator wrote this dump: it simulates two states, so it has no x")
        say("vcdkit-x", notes)
    if not count and not any(True for _ in body.steps(part, signals)):
        raise UsageError("no signal has a value that could be x in this window, so nothing was "
                         "looked at")
    if asked.count:
        write_json({"count": count}) if asked.json else print(count)
    tests.append(Test("vcdkit-x", asked.file, "failure" if count else "", first, first,
                      "\n".join(notes)))
    return 1 if count else 0


@question
def main(words: List[str]) -> int:
    return answer_file("vcdkit-x", answer, words_of(words))
