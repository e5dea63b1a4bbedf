"""Writes the value of each signal at given times, one per line

The values are those at the end of each time of --at, or at the end of the dump. If there are
several times, each line begins with its time. After the end of the dump, the values are the last
ones; a warning on standard error says so, and the status is 0. Without NAMEs, all signals are
written, except events. `-` means that there is no value yet. If a value has an x or a z, --hex
writes x or z for four such digits and X for a mixture, and the other options write all digits.

examples:
  vcdkit-values --at 115ns --hex sim.vcd.gz tb.cpu
  vcdkit-values --at 1us,2us,3us --names view.gtkw sim.vcd"""
from typing import List

from ..forms.text import in_json, shown, write_json
from ..questions.rows import at_times, states
from . import command, dump_of, form_for, parser, times_at, times_of, warn_of_end


@command
def main(words: List[str]) -> int:
    options = parser("vcdkit-values FILE [NAME ..]", __doc__)
    options.at("the times%s [default: the end of the dump]").form().unit().json().file("*")
    asked = options.parse_args(words)
    given, dump = times_at(asked), dump_of(asked)
    text = times_of(dump, asked)
    times = [str(dump.check().last or 0)] if given is None else given
    names = dump.full(asked.names)
    signals = states(dump.places(names))
    warn_of_end("vcdkit-values", dump, given)
    for time, values in at_times(dump, signals, list(map(dump.ticks, times)), names):
        for one, value in zip(signals.values(), values):
            form = form_for(asked, one)
            if asked.json:
                write_json({"time": time, "path": one.path, "value": in_json(value, form)})
            else:
                print(*[text(time)] * (len(times) > 1), one.path, shown(value, form))
    return 0
