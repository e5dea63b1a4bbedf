"""What differs between two dumps, as `vcdkit merge A B | vcdkit-compare in1=in2` finds it."""
import functools
import itertools
from typing import BinaryIO, Iterator, List, Sequence

from . import header, program
from .source import Source, merge
from .texts import Made, Text

BLOCK = 1 << 18


def header_of(dumps: Sequence[Source]) -> bytes:
    """Returns the header of the merge of some dumps."""
    with merge(*dumps).open() as out:
        text = header.front(out)
        if text:
            out.close()  # else there is a fault in a header
    return text


def lines(words: Sequence[str], merged: Text) -> Iterator[List[bytes]]:
    """Returns the words of each line that vcdkit-compare writes of the dumps in a merge."""
    with program.opened(Made("compare", (*words, "in1=in2"), (merged,))) as out:
        yield from (line[:-1].split(b" ") for line in out if line[-1:] == b"\n")


def are_alike(one: Source, other: Source) -> bool:
    """Whether two dumps have the same bytes from their first scope or variable on. To look at the
    values would take several times as long."""
    with one.open() as mine, other.open() as its:
        blocks = (itertools.chain([_declared(text)], iter(functools.partial(text.read, BLOCK), b""))
                  for text in (mine, its))
        return all(its == other for its, other in itertools.zip_longest(*blocks))


def _declared(file: BinaryIO) -> bytes:
    """Reads a block from the first scope or variable on."""
    text = file.read(BLOCK)
    begin = next((one.begin for one in header.commands(text)
                  if one.keyword in (b"$scope", b"$var")), len(text))
    return text[begin:] + file.read(begin)
