"""The nine states of VHDL in a dump, which become the four of VCD."""
import io
from typing import Iterable, Iterator

from . import header
from .body import NINE_STATES

FOUR = bytes.maketrans(b"UuWw-LlHh", b"xxxxx0011")


def four_states(blocks: Iterator[bytes]) -> Iterator[bytes]:
    """Returns a dump, in blocks of whole lines, with four states and without strings."""
    text, body = header.parted(blocks)
    at = 0
    for one in header.commands(text):
        if one.keyword == b"$var" and one.words[:1] == [b"string"]:
            is_line = header.is_alone(text, one)
            yield text[at:text.rfind(b"\n", 0, one.begin) + 1 if is_line else one.begin]
            at = (text + b"\n").index(b"\n", one.end) + 1 if is_line else one.end
    yield text[at:]
    yield from _of_body(body)


def _of_body(blocks: Iterable[bytes]) -> Iterator[bytes]:
    is_comment = False
    for block in blocks:
        if not is_comment and b"$comment" not in block:
            yield _of_lines(block)
            continue
        for line in io.BytesIO(block):
            yield line if is_comment else _of_lines(line)
            words = line.split() if b"$" in line else []
            if words:
                is_comment = (is_comment or words[0] == b"$comment") and words[-1] != b"$end"


def _of_lines(block: bytes) -> bytes:
    """Returns whole lines with four states."""
    text = NINE_STATES.sub(lambda odd: b"" if odd.group()[1:2] == b"s" else
                           odd.group().translate(FOUR), b"\n" + block)[1:]
    # A string goes with the line feed before it, so the last line of the input may lack its.
    return text + b"\n" if text and block[block.rfind(b"\n") + 1:][:1] == b"s" else text
