"""SAIF, which power tools read: how long each bit has each value, and how often it toggles."""
import re
from typing import Dict, Iterable, Iterator, List, Tuple, Union

from ..model.signals import Scope
from ..questions.toggles import BitCounts
from ..reading.source import Source

Nets = Dict[int, List[BitCounts]]  # the bits in each scope, by its id()


def texts_of(dump: Source, bits: Iterable[BitCounts], ticks: int, version: str) -> Iterator[str]:
    """Returns the lines of a SAIF file, of a window of so many ticks."""
    scale, date = dump.timescale, re.sub(r'([\\"])', r"\\\1", dump.header.date or "")
    yield '(SAIFILE\n(SAIFVERSION "2.0")\n(DIRECTION "backward")\n(DESIGN )\n'
    yield '(DATE "%s")\n(VENDOR "vcdkit")\n(PROGRAM_NAME "vcdkit-stats")\n' % date
    yield '(VERSION "%s")\n(DIVIDER / )\n(TIMESCALE %s)\n(DURATION %d)\n' % (
        version, "%d %s" % scale if scale else "1 s", ticks)
    of: Nets = {}  # of each declaration
    for bit in bits:
        of.setdefault(id(bit.of), []).append(bit)
    nets: Nets = {}
    for one in dump.declarations:
        nets.setdefault(id((dump.tree, *one.scopes)[-1]), []).extend(of.get(id(one), ()))
    yield from _instances(dump.tree, nets, ticks)
    yield ")\n"


def _escaped(name: str) -> str:
    """Returns a name as SAIF writes it: a backslash before each odd character, and none for the one
    with which an escaped name of Verilog begins."""
    return re.sub(r"(\W)", r"\\\1", name[name.startswith("\\"):], flags=re.ASCII)


def _instances(top: Scope, nets: Nets, ticks: int) -> Iterator[str]:
    """Returns the lines of the scopes with a bit in them, or below, however deep."""
    some = {id(one) for bits in nets.values() for bit in bits for one in bit.of.scopes}
    waiting: List[Tuple[Union[Scope, str], str]] = [(top, "")]  # scopes, and last lines
    while waiting:
        scope, indent = waiting.pop()
        if isinstance(scope, str):
            yield scope
            continue
        inner, its = indent + "  " * bool(scope.name), nets.get(id(scope), [])
        if scope.name:
            yield "%s(INSTANCE %s\n" % (indent, _escaped(scope.name))
            waiting.append((indent + ")\n", ""))
        if its:
            yield inner + "(NET\n"
        front = len(scope.path) + 1 if scope.path else 0
        for bit in its:
            low = ticks - bit.high - bit.unknown - bit.floating
            yield "%s  (%s\n%s    (T0 %d) (T1 %d) (TX %d) (TZ %d) (TC %d) (IG 0)\n%s  )\n" % (
                inner, _escaped(bit.path[front:]), inner, low, bit.high,
                bit.unknown, bit.floating, bit.rises + bit.falls, inner)
        if its:
            yield inner + ")\n"
        waiting += [(one, inner) for one in reversed(scope.scopes) if id(one) in some]
