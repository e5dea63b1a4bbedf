"""Expressions as variables of a dump, whose text then has their values: all questions take them."""
import io
import re
from typing import BinaryIO, Dict, Iterator, List, Sequence, Tuple, TypeVar

from ..errors import UsageError
from ..model.names import bare, fronts
from ..model.operators import Kind, Value, digits_of
from ..reading import body, header
from ..reading.source import Source
from ..reading.texts import Headed
from .condition import Conditions

NAMED = re.compile(r"\s*(\S+) = (.+)\Z", re.DOTALL)
Its = TypeVar("Its", bound=Source)


def names_and_expressions(words: Sequence[str]) -> Tuple[List[str], Dict[str, str]]:
    """Returns the names that words are or begin with, as `pc = tb.ir[7:0]` does, and the expression
    of each of the latter."""
    found = [NAMED.match(word) for word in words]
    named = {its.group(1): its.group(2) for its in found if its}
    if len(named) < sum(map(bool, found)):
        raise UsageError("two expressions have one name")
    return [its.group(1) if its else word for its, word in zip(found, words)], named


class _Columns:
    """Expressions over a dump, and their codes, which no other variable has."""

    def __init__(self, dump: Source, named: Dict[str, str]):
        self._dump, self._named = dump, named
        front = "~" * (1 + max(map(len, dump.signals.columns()[3]), default=0))
        self._codes = [b"%s%d" % (front.encode(), at) for at in range(len(named))]
        self.paths, self.kinds, _ = self._read()

    def _read(self) -> Tuple[List[str], List[Kind], Conditions]:
        conditions = Conditions(self._dump)
        kinds = [conditions.add_value(text) for text in self._named.values()]
        return [*conditions.paths], kinds, conditions

    def front(self, text: bytes) -> bytes:
        """Returns a header that also declares the expressions."""
        lines = "".join("$var %s %d %s %s $end\n" % (
            "wire" if kind.width else "real", kind.width or 1, code.decode(), name)
            for name, kind, code in zip(self._named, self.kinds, self._codes))
        return text[:-len(header.BODY)] + lines.encode("utf-8", "surrogateescape") + header.BODY

    def body(self, file: BinaryIO) -> Iterator[bytes]:
        """Returns a body with their values: at the end of each time, and of a section."""
        *_, conditions = self._read()
        values, last = conditions.values(), [b""] * len(self._codes)
        changes_of, is_due = body.Known(conditions.over).__getitem__, False
        known = 0  # the expressions of which a signal has a value
        for block in body.blocks(file):
            out: List[bytes] = []
            for line in io.BytesIO(block):
                if line[:1] in (b"#", b"\n") or line == b"$end\n":  # a fault has an empty line
                    out += self._lines(values(), last, known) if is_due else ()
                    is_due = False
                else:
                    found = conditions.take(changes_of(line[:-1]), 0)
                    is_due, known = bool(found) or is_due, known | found
                out.append(line)
            yield b"".join(out)
        yield b"".join(self._lines(values(), last, known) if is_due else ())

    def _lines(self, values: Sequence[Value], last: List[bytes], known: int) -> Iterator[bytes]:
        """Returns the lines of values that are others than the last ones, of known expressions."""
        for at, (value, kind, code) in enumerate(zip(values, self.kinds, self._codes)):
            digits = "r%r" % value if isinstance(value, float) else "b" + digits_of(
                value, kind.width)
            line = b"%s %s\n" % (digits.encode(), code)
            if line != last[at] and known >> at & 1:
                last[at] = line
                yield line

    def text(self, names: Sequence[str] = (), window: Sequence[str] = ()) -> Headed:
        """Returns the text that has what names select, and in a window of `cut` if there is one,
        with the expressions."""
        own = [name for name in names if name not in self._named]
        # The cut comes first, as it ends before a later fault.
        part = (self._dump.made("cut", window) if window else self._dump).part(
            [*dict.fromkeys([*own, *self.paths])] if names else [])
        return Headed(self.front, part.text, self.body, self.text)


def derived(dump: Its, named: Dict[str, str]) -> Its:
    """Returns a dump that also has expressions as variables, each with a name."""
    paths = dump.signals.columns()[0]
    taken = {name for path in paths for name in (bare(path), *fronts(path))} if named else ()
    for name in named:
        if name in taken:
            raise UsageError("%s: the dump has this name: give the expression another one" % name)
    return dump.like(_Columns(dump, named).text()) if named else dump
