"""Dump: questions about one dump, which import what only they need, as each import takes time."""
import functools
import importlib
import os
import re
from typing import IO, Any, Dict, Iterable, Iterator, List, Optional, Tuple, Union

from ..errors import RunFailed, UsageError
from ..model.names import utf8_names
from ..model.signals import Signal, keys_of
from ..model.times import Time
from ..model.values import Cell, Edges, Row, Value, value_in
from ..reading import body
from ..reading.files import write
from ..reading.source import Names, Source, merge
from ..reading.texts import Bytes, File, Text, library_path
from .rows import as_they_come, at_times, edges_of, sampled, states

__all__ = ["Dump", "merge"]


class Dump(Source):
    """A dump: a file, an open file, its bytes, or what pick(), cut() and merge() make of others.

    A file may be compressed (gzip, xz, bzip2, zstd, or FST if fst2vcd is on the PATH), or a pipe;
    "-" is standard input. Nothing is read before the first question, and each reads the dump again,
    except for the header. It raises DumpFault, UnknownName, NoTimescale, UsageError or RunFailed.

    A time is a number of ticks, or a text with a unit, such as "115ns" or "1.5us". A name is a path
    of `signals`, or a scope, which stands for everything in it. Except for pick(), "q" stands for
    "q[3:0]" if there is no other such path. Dictionaries have paths as keys, with a
    blank and the code behind if variables with different values have one path."""

    def __init__(self, source: Union[str, "os.PathLike[str]", bytes, IO[Any]],
                 name: Optional[str] = None, token_limit: Optional[int] = None,
                 four_state: bool = False):
        """An open file is read to its end and kept in memory. `name` is what faults call the bytes.
        `token_limit` is the maximum length of a token in bytes (by default 1,048,576). With
        `four_state`, a file is read through vcdkit-four-state."""
        if hasattr(source, "read"):
            data, name = source.read(), name or str(getattr(source, "name", "(file)"))
            source = data.encode("utf-8", "surrogateescape") if isinstance(data, str) else data
        text: Text = (
            Bytes(bytes(source), name or "(bytes)")
            if isinstance(source, (bytes, bytearray, memoryview)) else File(source, four_state))
        super().__init__(text, () if token_limit is None else ("--token-limit", str(token_limit)))

    def save(self, path: Union[str, "os.PathLike[str]"]) -> "Dump":
        """Writes the text to a file, and returns the Dump of that. If this fails, the file is as
        it was. It keeps its mode. Through a link its target is written, and a FIFO or a device is
        written as it is."""
        write(path, self.blocks())
        return Dump(path)

    def find(self, pattern: str, flags: int = 0) -> List[Signal]:
        """Returns the signals whose paths match a regular expression anywhere (re.search).
        UsageError if it is none."""
        search = compiled(pattern, flags).search
        paths = self.signals.columns()[0]
        return [self.signals[at] for at, path in enumerate(paths) if search(path)]

    def derived(self, named: Dict[str, str]) -> "Dump":
        """Returns a dump that also has expressions, as when() takes them, as variables, each with a
        name: dump.derived({"pc": "tb.stage[53:38]"})."""
        from .columns import derived
        return derived(self, named)

    def value(self, name: str, time: Time) -> Cell:
        """Returns the value of one signal at the end of a time; `None` if it has none."""
        _ = self[name]  # one signal
        return next(iter(self.sample(time, name)[time].values()), None)

    def sample(self, times: Union[Time, Iterable[Time]], names: Names = ()
               ) -> Dict[Time, Dict[str, Cell]]:
        """Returns for each time, as it was given, the value of each path at the end of that time: a
        Value for digits, a float for a real number (or its text, if that is not a number), `None`
        if there is no value yet. Without names, all signals are sampled, except events."""
        asked, its = {time: self.ticks(time) for time in _each(times)}, self.full(names)
        chosen = states(self.places(its))
        keys = dict(zip(chosen, keys_of(chosen.values())))
        found = sampled(self, asked.values(), its)
        return {time: {keys[place]: value for place, value in found[ticks].items() if place in keys}
                for time, ticks in asked.items()}

    def edges(self, names: Names = ()) -> Dict[str, Edges]:
        """Returns for each path how often its value changes, and how often its least significant
        bit rises and falls. For an event it counts triggers. Without names, all signals count."""
        its = self.full(names)
        words = utf8_names(its)
        rows = self.answer("edges", ["--", *words]).split("\n")[:-1]
        edges = functools.lru_cache(maxsize=None)(  # those with the same counts are one
            lambda counts: Edges(*map(int, counts.split(" "))))
        counts = dict(zip(sorted(self.places(words)), (
            edges(row.partition(" ")[2]) for row in rows)))
        chosen = dict(sorted(self.places(its).items()))
        return dict(zip(keys_of(chosen.values()), map(counts.__getitem__, chosen)))

    def changes(self, name: str) -> Iterator[Tuple[int, Cell]]:
        """Returns the times, in ticks, and the values of one signal, as they come: one for each
        value that the dump writes, even if it is the same again. Each trigger of an event is a 1.
        At a fault, those of the last time may not be all. It raises what dump[name] does."""
        signal = self[name]
        pairs = body.at_once(self.part([name]), signal.code.encode())
        return ((time, value_in(value, signal.size)) for time, value in pairs)

    def arrays(self, name: str) -> Tuple[Any, Any]:
        """Returns the changes of one signal as arrays of numpy: the times as uint64, and the values
        as a masked array of uint64, in which a value with an x or a z is masked. The values of a
        real number are floats, and those of more than 64 bits are Values."""
        try:
            numpy = importlib.import_module("numpy")
        except ImportError as error:
            raise RunFailed("arrays() needs numpy: %s" % error) from error
        signal = self[name]
        is_short = signal.size <= 64 and not signal.is_real
        path = library_path() if is_short and signal.type != "event" else None
        if path:
            from ..reading import library
            found = library.changes(path, self.text, signal.code.encode())
            if found is not None:
                return _columns(found, numpy)
        pairs = list(self.changes(name))
        times = numpy.array([time for time, _ in pairs], dtype=numpy.uint64)
        numbers = [_number(one) for _, one in pairs]
        if signal.is_real:
            return times, numpy.array([one if isinstance(one, (int, float)) else float("nan")
                                       for one in numbers], dtype=float)
        is_masked = [not isinstance(one, int) for one in numbers]
        values = (numpy.array([0 if one is None else one for one in numbers], dtype=numpy.uint64)
                  if is_short else numpy.array([one for _, one in pairs], dtype=object))
        return times, numpy.ma.masked_array(values, mask=is_masked)

    def rows(self, names: Names, at: Optional[Iterable[Time]] = None, rise: Optional[str] = None,
             fall: Optional[str] = None, condition: Optional[str] = None) -> Iterator[Row]:
        """Returns rows of a table, as they come: a time in ticks, and the value of each signal that
        the names select, as sample() returns it. Events are left out.

        Without options there is a row for the begin of a cut, and for each time at whose end one of
        the signals has another value than before; none for a time that a fault leaves unfinished.
        With `rise` and `fall`, paths of clocks of one bit, there is a row for each such edge, even
        if the clock comes back within its time, with the values just before that time: first values
        in a `$dumpvars` before the edge count. UsageError if a path is not such a clock. With `at`
        there is a row for each of these times, in this order. With `condition`, as when() takes it,
        there are only those of these rows at which it holds, by the values that the row has."""
        its = self.full(names)
        if not its:
            raise UsageError("rows() needs a name")
        columns = states(self.places(its))
        edges = edges_of(self, rise, fall)
        if at is not None and edges:
            raise UsageError("rows are at times or at edges: give `at`, or `rise` and `fall`")
        only = None
        if condition is not None:
            from .when import state
            only = state(self, condition, rise is not None or fall is not None)
        if at is not None:
            return at_times(self, columns, [self.ticks(time) for time in _each(at)], its, only)
        every = [*its, *(path for path, *_ in edges), *(only.paths if only else ())]
        return as_they_come(self, every, list(columns.values()), edges, only)

    def table(self, names: Names, at: Optional[Iterable[Time]] = None, rise: Optional[str] = None,
              fall: Optional[str] = None, condition: Optional[str] = None
              ) -> Dict[str, List[Any]]:
        """Returns the rows() as columns of numbers: "time", in ticks, and one for each path. A
        value with an x or a z is `None`. pandas.DataFrame() accepts the result."""
        its = self.full(names)
        rows = list(self.rows(its, at, rise, fall, condition))
        keys = keys_of(states(self.places(its)).values(), ["time"])
        columns = zip(*(row.values for row in rows)) if rows else ([] for _ in keys)
        return {"time": [row.time for row in rows],
                **{key: [_number(one) for one in column] for key, column in zip(keys, columns)}}

    def when(self, condition: str, rise: Optional[str] = None, fall: Optional[str] = None,
             every: bool = False) -> Iterator[int]:
        """Returns the times, in ticks, at which a condition begins to hold, as `vcdkit-when` takes
        it: "tb.bus == 0xff & !tb.reset". It is looked at at the end of each time, or at the edges
        of `rise` and `fall`, as rows() takes them; with `every`, each edge counts at which it
        holds. UsageError if it is no condition, UnknownName if a name of it selects nothing."""
        from .when import Questions
        asking = Questions(self, [("", condition)], rise, fall, every)
        return (time for time, _ in asking.times())


def compiled(pattern: str, flags: int = 0) -> "re.Pattern[str]":
    """Returns a regular expression. UsageError if it is none."""
    import warnings
    try:
        with warnings.catch_warnings():
            warnings.simplefilter("ignore", FutureWarning)  # of [[ in an expression
            return re.compile(pattern, flags)
    except (re.error, RecursionError, OverflowError, TypeError, ValueError) as error:
        raise UsageError("bad expression: %s: %s" % (str(pattern)[:100], error)) from None


def _each(times: Union[Time, Iterable[Time]]) -> Iterable[Time]:
    """Returns one time or several as some."""
    return [times] if isinstance(times, str) or not isinstance(times, Iterable) else times


def _number(one: Cell) -> Union[int, float, str, None]:
    """Returns a Value as an int, `None` if it has x or z; other values as they are."""
    if isinstance(one, Value):
        return int(one) if one.is_known else None
    return one


def _columns(found: Any, numpy: Any) -> Tuple[Any, Any]:
    """Returns the changes that the library found as arrays() gives them."""
    times, values, known = numpy.array(found, dtype=numpy.uint64).reshape(-1, 3).T.copy()
    unknown = known != numpy.uint64(2**64 - 1)
    values[unknown] = 0
    return times, numpy.ma.masked_array(values, mask=unknown)
