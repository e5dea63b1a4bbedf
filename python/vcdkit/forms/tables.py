"""Heads and rows of vcdkit-table, also of the channels of a bus."""
import collections
import functools
import itertools
import sys
from typing import Any, Callable, Counter, Iterable, Iterator, List, Sequence, Tuple

from ..model.signals import Signal, keys_of
from ..model.values import Cell, Value
from .text import AnyForm, in_json, shown

Cells = Callable[[int, List[Cell]], List[Any]]  # makes the cells of a time and values


def cells_of(time: Callable[[int], Any], forms: Iterable[AnyForm], is_json: bool) -> Cells:
    """Returns what makes the cells of a row, whose columns have these forms."""
    text: Any = in_json if is_json else shown
    texts = [functools.partial(text, form=form) for form in forms]
    # Of numbers, what is kept would take 0 for -0.
    each = [(functools.lru_cache(maxsize=1 << 14)(one), one) for one in texts]
    return lambda ticks, values: [time(ticks), *[
        kept(value) if value.__class__ is Value else one(value)
        for value, (kept, one) in zip(values, each)]]


def heads_of(names: Sequence[str], columns: Sequence[Sequence[Signal]], unit: str, is_bus: bool,
             is_json: bool) -> List[List[str]]:
    """Returns the heads of the time and the columns of each channel, or of the one table."""
    if not is_json:
        return [["%s (%s)" % (name, unit), *(one.path for one in its)]
                for name, its in zip(names, columns)]
    others = [*names, *map("%s to %s".__mod__, zip(names, names[1:]))]
    fronts = [(name + " ") * is_bus for name in names]
    return [[name, *(front + key for key in keys_of(its, [
        one[len(front):] for one in others if one.startswith(front)]))]
            for name, front, its in zip(names, fronts, columns)]


def with_edges(transactions: Iterable[List[Any]], counts: Counter[str]
               ) -> Iterator[Tuple[List[Any], List[Any]]]:
    """Returns transactions with the edges from one transfer to the next. It counts those that lack
    a transfer, or have one that comes before that to its left, and says so behind them."""
    for of in transactions:
        edges = [other[0] - one[1] if one and other else None for one, other in zip(of, of[1:])]
        counts.update(all=1, lacking=None in of,
                      early=any(one is not None and one < 0 for one in edges))
        yield of, edges
    sys.stdout.flush()
    print("vcdkit-table: %stransactions: %d; that lack a transfer: %d; with a number of edges "
          "below 0: %d" % ("" if counts["all"] else "warning: ", counts["all"], counts["lacking"],
                           counts["early"]), file=sys.stderr)


def bus_rows(transactions: Iterable[List[Any]], names: List[str], heads: List[List[str]],
           cells: Sequence[Cells], is_histogram: bool, found: Counter[str]
             ) -> Tuple[List[str], Iterable[List[Any]]]:
    """Returns the head and the rows of channels with some names and heads."""
    pairs = ["%s to %s" % pair for pair in zip(names, names[1:])]
    each = with_edges(transactions, found)
    if is_histogram:
        counts = collections.Counter(pair for _, edges in each for pair in enumerate(edges))
        return ["edges", *pairs], [[one, *(counts[at, one] for at in range(len(pairs)))]
                                   for one in sorted({one for _, one in counts if one is not None})]
    return [*itertools.chain(*heads), *pairs], (
        [*(cell for one, its, head in zip(of, cells, heads)
           for cell in (its(*one[2]) if one else [None] * len(head))), *edges]
        for of, edges in each)
