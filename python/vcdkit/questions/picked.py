"""A dump of some variables at any places, whatever their paths are."""
from typing import Collection, Iterator

from ..model.names import names_for
from ..reading import body, header
from ..reading.source import Source

MAX_NAMES = 1 << 17  # bytes of names on a command line


def picked(dump: Source, places: Collection[int]) -> Iterator[bytes]:
    """Returns the dump of the signals at some places, as pick() makes it, in pieces. If their paths
    also name scopes with others, or have no room on a command line, this takes the lines of these
    signals out of the whole dump."""
    paths, _, _, codes = dump.signals.columns()
    names = names_for([paths[at] for at in places], paths)
    if sum(map(len, names)) <= MAX_NAMES and len(dump.select(names)) == len(places):
        yield from dump.pick(names).blocks()
        return
    whole = dump.pick(names_for(paths, paths))
    yield from header.with_variables(whole.header_text(), set(places))
    chosen, time = {codes[at].encode() for at in places}, b""
    with whole.body() as out:
        for line in out:  # of timestamps without changes only the last one is left
            if line[:1] == b"#":
                time = line
            elif line[:1] == b"$" or body.change(line)[0] in chosen:
                yield time + line
                time = b""
    yield time
