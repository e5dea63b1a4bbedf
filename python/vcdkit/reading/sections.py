"""The sections of a dump, of which each gets its $end."""
from typing import Iterable, Iterator, List

from . import header
from .body import NO_CHANGE, NO_CHANGE_OR_TIME


def closed(blocks: Iterator[bytes]) -> Iterator[bytes]:
    """Returns a dump, which comes in blocks of whole lines, in pieces, with each $end that is
    missing, and without those that end nothing."""
    text, body = header.parted(blocks)
    yield text
    yield from _Sections().of_blocks(body)


class _Sections:
    """What comes before a line of a body: a section that is open, a comment that is not at its
    $end, or the value of a code."""

    def __init__(self) -> None:
        self._is_open = self._is_code = self._is_comment = False

    def of_blocks(self, blocks: Iterable[bytes]) -> Iterator[bytes]:
        """Returns the body in pieces, with each $end that is missing."""
        last = b"\n"
        for block in filter(None, blocks):
            yield from self._of_block(b"\n" + block)
            last = block[-1:]
        if self._is_open:
            yield b"$end\n" if last == b"\n" else b"\n$end\n"

    def _of_block(self, text: bytes) -> Iterator[bytes]:
        """As of_blocks, of a text that begins with the line feed before it."""
        at = 0
        while at < len(text) - 1:
            if not self._is_comment and not self._is_code:
                odd = (NO_CHANGE if self._is_open else NO_CHANGE_OR_TIME).search(text, at)
                end = odd.start() if odd else len(text)
                yield text[at + 1:end + 1]
                at = end
            if at < len(text) - 1:
                end = text.find(b"\n", at + 1)
                end = end if end >= 0 else len(text)
                yield self._of_line(text[at + 1:end + 1])
                at = end

    def _of_line(self, line: bytes) -> bytes:
        """Returns a line with what is missing, and without what ends nothing."""
        words = line.split()
        found = [word for one in words for word in self._of_word(one)]
        if found == words:
            return line
        text = b" ".join(found).replace(b" \n ", b"\n")
        text = text[2:] if text[:1] == b"\n" else text
        return text + b"\n" if text else b""

    def _of_word(self, word: bytes) -> List[bytes]:
        """Returns the words that stand for one."""
        if self._is_comment:
            self._is_comment = word != b"$end"
        elif self._is_code:
            self._is_code = False
        elif word[:1] in b"bBrR":
            self._is_code = True
        elif word[:1] == b"#" and self._is_open:
            self._is_open = False
            return [b"\n", b"$end", b"\n", word]
        elif word.startswith(b"$dump"):
            self._is_open = True
        elif word == b"$end":
            was_open, self._is_open = self._is_open, False
            return [word] if was_open else []
        elif word == b"$comment":
            self._is_comment = True
        return [word]
