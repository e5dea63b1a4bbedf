"""The differences of pairs that last longer than some time, for vcdkit-diff --within."""
import collections
from typing import Deque, Dict, Iterable, Iterator, List, NamedTuple, Optional, Sequence, Tuple

from ..model.signals import Signal
from ..model.times import LAST_TICK
from ..model.values import full
from ..reading import body
from .compare import Same

Values = Tuple[Optional[bytes], Optional[bytes]]
Found = Tuple[int, str, Values]  # when a difference begins, of which pair, and its first values


class Pair:
    """A pair of variables, of which one is a signal, their codes, and of a difference that goes on
    the place where its end comes."""

    def __init__(self, name: str, signal: Signal, codes: Sequence[bytes]):
        self.name, self.codes, self.is_event = name, codes, signal.type == "event"
        self._size = signal.size
        self.now: Optional[List[int]] = None

    def full(self, value: Optional[bytes]) -> Optional[bytes]:
        """Returns a value with all its digits, as vcdkit-compare writes it."""
        return value if value is None or value[:1] == b"r" else full(
            value.decode(), self._size).encode()


class _Waiting(NamedTuple):
    """A difference, and when it ends, as far as that is known."""

    found: Found
    end: List[int]


def longer(pairs: Sequence[Pair], steps: Iterable[body.Step], same: Same, least: int, end: int
           ) -> Iterator[Found]:
    """Returns the differences in some steps, up to an end, that are longer than some ticks, in the
    order in which they begin. One of events has no end."""
    of_code: Dict[bytes, List[int]] = {}
    for at, pair in enumerate(pairs):
        for code in pair.codes:
            of_code.setdefault(code, []).append(at)
    values: Dict[bytes, bytes] = {}
    waiting: Deque[_Waiting] = collections.deque()
    for time, changes in steps:
        now = dict(changes)
        values.update(now)
        for pair in map(pairs.__getitem__, sorted({at for code in now for at in of_code[code]})):
            one, other = map((now if pair.is_event else values).get, pair.codes)
            is_same = bool(one) == bool(other) if pair.is_event else same(one, other)
            if is_same and pair.now is not None:
                pair.now.append(time)
                pair.now = None
            elif not is_same and pair.now is None:
                ends = [2 * LAST_TICK] * pair.is_event
                both = pair.full(one), pair.full(other)
                waiting.append(_Waiting((time, pair.name, both), ends))
                pair.now = None if pair.is_event else ends
        yield from _known(waiting, time, least)
    for one_left in waiting:
        one_left.end.append(end)
    yield from _known(waiting, end, least)


def _known(waiting: Deque[_Waiting], now: int, least: int) -> Iterator[Found]:
    """Takes those away from the front of which it is known whether they are longer, and returns
    those that are."""
    while waiting and (waiting[0].end or now - waiting[0].found[0] > least):
        found, ends = waiting.popleft()
        if (ends or [now])[0] - found[0] > least:
            yield found
