"""The variables and scopes of a header."""
import itertools
from typing import (Any, Dict, FrozenSet, Iterable, Iterator, List, NamedTuple, Optional, Sequence,
                    Set, Tuple, Union, overload)

from .times import Timescale

Columns = Tuple[List[str], List[str], List[int], List[str]]  # paths, types, sizes and codes


class Signal(NamedTuple):
    """A variable of a header: its path, its type (`wire`, `reg`, `real`, ..), its size in bits and
    its identifier code. Two signals with the same code are two names of one value."""

    path: str
    type: str
    size: int
    code: str

    @property
    def is_real(self) -> bool:
        """Whether its values are real numbers. `vcdkit` takes a real number for any variable, so
        this goes by the type: `real`, `realtime`, `real_parameter` of Verilator, `shortreal`."""
        return self.type.startswith("real") or self.type == "shortreal"


class Scope(NamedTuple):
    """A scope of a header with signals in it, or in scopes below it: its name, its path, its type
    (`module`, `task`, ..), and its scopes and signals in the order of declaration. At the top of
    the tree is a scope without a name."""

    name: str
    path: str
    type: str
    scopes: List["Scope"]
    signals: List[Signal]

    def walk(self) -> Iterator["Scope"]:
        """Returns this scope and all scopes below it. Each one comes before those in it."""
        waiting = [self]
        while waiting:
            scope = waiting.pop()
            yield scope
            waiting += reversed(scope.scopes)


class Header(NamedTuple):
    """What a header says of the dump as a whole: `None` if it says nothing."""

    date: Optional[str]
    version: Optional[str]
    timescale: Optional[Timescale]


class Declaration(NamedTuple):
    """How a variable is declared: in which scopes, the outermost first, with which range (two
    numbers, of one index twice the same, and nothing if it has neither), and what is behind its
    name."""

    signal: Signal
    scopes: Tuple[Scope, ...]
    declared: Tuple[int, ...]
    behind: str

    @property
    def bits(self) -> range:
        """The numbers of its bits, from the left: those of its range if that fits the size, else
        size - 1 down to 0."""
        left, right = self.declared or (self.signal.size - 1, 0)
        if abs(left - right) + 1 != self.signal.size:
            left, right = self.signal.size - 1, 0
        return range(left, right + 1) if left <= right else range(left, right - 1, -1)

    @property
    def has_numbers(self) -> bool:
        """Whether its bits have numbers: it is a vector, or declared with an index."""
        return bool(self.declared) or self.signal.size > 1


def each(columns: Sequence[Sequence[Any]]) -> Iterator[Signal]:
    """Makes a Signal of each row of columns."""
    return map(tuple.__new__, itertools.repeat(Signal), zip(*columns))


class Signals(Sequence[Any]):  # of Signals, but mypy is to take a path as what may be in it
    """The variables of a header, in the order of declaration, made as they are asked for."""

    def __init__(self, columns: Columns):
        self._columns = columns
        self._paths: FrozenSet[str] = frozenset()

    def columns(self) -> Columns:
        """Returns the paths, the types, the sizes and the codes, a list of each."""
        return self._columns

    def __len__(self) -> int:
        return len(self._columns[0])

    @overload
    def __getitem__(self, at: int) -> Signal: ...

    @overload
    def __getitem__(self, at: slice) -> List[Signal]: ...

    def __getitem__(self, at: Union[int, slice]) -> Union[Signal, List[Signal]]:
        paths, types, sizes, codes = self._columns
        if not isinstance(at, slice):
            return Signal(paths[at], types[at], sizes[at], codes[at])
        return list(each((paths[at], types[at], sizes[at], codes[at])))

    def __contains__(self, one: object) -> bool:
        """Whether there is a signal, or one of a path."""
        if isinstance(one, str):
            self._paths = self._paths or frozenset(self.columns()[0])
            return one in self._paths
        return any(one == its for its in self)

    def __iter__(self) -> Iterator[Signal]:
        return each(self._columns)

    def __repr__(self) -> str:
        return "<%d signals>" % len(self)


def keys_of(signals: Iterable[Signal], others: Iterable[str] = ()) -> List[str]:
    """Returns what to call each signal: its path; if variables that are not one value have that
    path, or others have that name, the path, a blank and the code."""
    chosen = list(signals)
    codes: Dict[str, Set[str]] = {name: {""} for name in others}
    for one in chosen:
        codes.setdefault(one.path, set()).add(one.code)
    return [one.path if len(codes[one.path]) == 1 else one.path + " " + one.code for one in chosen]


def words_in(rows: str) -> List[str]:
    """Returns the words of rows; no word has white space."""
    words = rows.replace("\n", " ").split(" ")
    words.pop()
    return words
