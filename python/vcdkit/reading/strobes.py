"""The edges of clocks, and the values just before them, as vcdkit-strobe writes them."""
import contextlib
import heapq
import itertools
from operator import itemgetter
from typing import Collection, Dict, Iterator, List, Sequence, Tuple

from ..errors import DumpFault
from . import body
from .source import Edge, Source

# A time, 1 at an edge and 0 or 2 before or after that, changes, and bits of edges.
Part = Tuple[int, int, body.Changes, int]


def at_clocks(source: Source, names: List[str], codes: Collection[bytes], edges: Dict[Edge, int]
              ) -> Iterator[Tuple[int, body.Changes, int]]:
    """Returns each time that has one of some edges, with the changes of some codes since the last
    such time, up to just before this one; then the bits of the edges there. Without edges, returns
    each time at which the codes have a value, with these. The names select all these signals."""
    if not edges:
        return ((time, changes, 0) for time, changes in body.steps(source.part(names), codes))
    its, groups = _edges(source.strobe([*edges], names), codes), {*edges.values()}
    dated = {one for code in codes if code[-1:] == b" " for one in (code, code[:-1])}
    if not dated and len(groups) == 1:
        return ((time, changes, *groups) for time, changes in its)  # type: ignore[misc]
    return _joined(((time, 1, changes, 0) for time, changes in its), _dates(
        source.part(names), dated), *(_bits(source, [
            edge for edge in edges if edges[edge] == bits], bits) for bits in groups))


def _joined(*each: Iterator[Part]) -> Iterator[Tuple[int, body.Changes, int]]:
    """Returns what comes up to each edge."""
    found: body.Changes = []
    bits = 0
    for time, what, changes, its in heapq.merge(*each, key=itemgetter(0, 1)):
        found += changes
        bits |= its
        if what == 1:
            yield time, found, bits
            found, bits = [], 0
        elif len(found) > body.MAX_SEEN:
            found = list(dict(found).items())


def _bits(source: Source, edges: Sequence[Edge], bits: int) -> Iterator[Part]:
    """Returns the times of some edges, up to a fault."""
    with contextlib.suppress(DumpFault):
        for time, _ in _edges(source.strobe(edges, [edges[0][0]]), ()):
            yield time, 0, [], bits


def _dates(part: Source, codes: Collection[bytes]) -> Iterator[Part]:
    """Returns the times since which codes have their values, up to a fault."""
    begin = part.begin() if codes else 0
    for of in ([part.before(begin)] if begin else []) + ([part] if codes else []):
        for time, changes in body.up_to_fault(of, codes):
            yield time, 2, [one for one in changes if one[0][-1:] == b" "], 0


def _edges(strobe: Source, codes: Collection[bytes]) -> Iterator[Tuple[int, body.Changes]]:
    """Returns the time of each edge in a strobe, with the changes of some codes."""
    changes_of, texts = body.Known(codes).__getitem__, [b""]
    with strobe.body() as out:
        for block in itertools.chain(body.blocks(out), [b"#\n"]):
            first, *pieces = (b"\n" + block[:-1]).split(body.TIME)
            texts.append(first)
            for piece in pieces:
                whole = b"".join(texts)
                texts = [piece]
                if whole:
                    _, time, *rest = whole.split(b"\n", 2)
                    yield int(time[1:time.index(b" ")], 2), changes_of(rest[0]) if rest else []
