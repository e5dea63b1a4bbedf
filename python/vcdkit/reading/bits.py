"""Bits that are declared one by one, which become vectors."""
import io
import re
from collections import Counter
from typing import Dict, Iterable, Iterator, List, NamedTuple, Optional, Set, Tuple

from . import header
from .body import BIT

Path = Tuple[Tuple[bytes, ...], bytes]  # the scopes around it, and the name
Places = List[Tuple[bytes, int]]
NAME = re.compile(rb"(.+)\[(-?\d+)\]\Z")  # of a bit
NO_BITS = re.compile(rb"real|(?:shortreal|event|string)\Z")  # types


class Bit(NamedTuple):
    """A line that declares a bit: its command in the header, type, code, name and number."""

    command: header.Command
    kind: bytes
    code: bytes
    name: bytes
    number: int


def joined(blocks: Iterator[bytes]) -> Iterator[bytes]:
    """Returns a dump, which comes in blocks of whole lines, with its bits in vectors, in pieces."""
    text, body = header.parted(blocks)
    vectors = _Vectors()
    yield from _of_header(text, vectors)
    yield from vectors.of_blocks(body) if vectors.places else body


def _of_header(text: bytes, vectors: "_Vectors") -> Iterator[bytes]:
    """Returns a header with vectors."""
    made: Dict[int, bytes] = {}  # of the begin of a command what is there instead
    found, vectors.others = _vectors_in(text)
    for bits in found:
        made.update((bit.command.begin, b"") for bit in bits)
        made[bits[0].command.begin] = vectors.declare(sorted(bits, key=lambda bit: -bit.number))
    at = 0
    for begin, line in sorted(made.items()):
        yield text[at:text.rfind(b"\n", 0, begin) + 1]
        yield line
        at = text.index(b"\n", begin) + 1
    yield text[at:]


def _vectors_in(text: bytes) -> Tuple[List[List[Bit]], Set[bytes]]:
    """Returns the bits of each vector, in the order of declaration, and all other codes."""
    scopes: List[bytes] = []
    uses: Dict[bytes, int] = Counter()  # of each code
    found: Dict[Path, List[Bit]] = {}
    others: Set[Path] = set()  # that no bits have
    for one in header.commands(text):
        words = one.words
        if one.keyword == b"$scope":
            scopes.append(b"".join(words[1:2]) or b"$%d" % one.begin)
        elif one.keyword == b"$upscope":
            del scopes[-1:]
        elif one.keyword == b"$var" and len(words) > 3:
            uses[words[2]] += 1
            bit = _bit_of(text, one)
            if bit:
                found.setdefault((tuple(scopes), bit.name), []).append(bit)
            else:
                others.add((tuple(scopes), words[3]))
    vectors = []
    for name, bits in found.items():
        numbers = {bit.number for bit in bits}
        if (name not in others and len({bit.kind for bit in bits}) == 1 < len(bits)
                and max(numbers) - min(numbers) + 1 == len(numbers) == len(bits)):
            vectors.append(bits)
            for bit in bits:
                uses[bit.code] -= 1
    return vectors, {code for code, count in uses.items() if count}


def _bit_of(text: bytes, one: header.Command) -> Optional[Bit]:
    """Returns the bit that a line declares; `None` if it is none."""
    kind, size, code, *rest = one.words
    found = NAME.match(b"".join(rest))
    if (not found or size != b"1" or len(rest) > 2 or NO_BITS.match(kind)
            or not header.is_alone(text, one)):
        return None
    return Bit(one, kind, code, found.group(1), int(found.group(2)))


class _Vectors:
    """The vectors that were made: of each code of a bit the codes of its vectors and its places in
    them, of each vector its digits, and the codes that other variables have."""

    def __init__(self) -> None:
        self.places: Dict[bytes, Places] = {}
        self.others: Set[bytes] = set()
        self._digits: Dict[bytes, List[bytes]] = {}
        self._changed: Dict[bytes, bool] = {}
        # Of each line that changes a bit of vectors, its code and the digit.
        self._lines: Dict[bytes, Tuple[bytes, bytes]] = {}

    def declare(self, bits: List[Bit]) -> bytes:
        """Returns the line of a vector of bits, the first of which is the leftmost."""
        code = bits[0].code
        while code in self.others or code in self._digits:
            code += b"~"
        self._digits[code] = [b"x"] * len(bits)
        for place, bit in enumerate(bits):
            self.places.setdefault(bit.code, []).append((code, place))
            self._lines.update((digit + bit.code + b"\n", (bit.code, digit)) for digit in (
                b"0", b"1", b"x", b"z", b"X", b"Z"))
        return b"$var %s %d %s %s [%d:%d] $end\n" % (
            bits[0].kind, len(bits), code, bits[0].name, bits[0].number, bits[-1].number)

    def of_blocks(self, blocks: Iterable[bytes]) -> Iterator[bytes]:
        """Returns the lines of a body."""
        get, digits, changed = self._lines.get, self._digits, self._changed
        for block in blocks:
            out = []
            for line in io.BytesIO(block):
                code, digit = get(line) or self._odd(line)
                for vector, place in self.places.get(code, ()):
                    digits[vector][place] = digit
                    changed[vector] = True
                if not code or code in self.others:
                    if changed and line.lstrip()[:1] in (b"#", b"$"):
                        out += self._due()
                    out.append(line)
            yield b"".join(out)
        yield b"".join(self._due())

    def _odd(self, line: bytes) -> Tuple[bytes, bytes]:
        """Returns what a line changes that is not as most are; no code if that is no such bit."""
        change = None if line[:1] in b"#$" else BIT.match(line)
        is_bit = change and change.group(2) in self.places
        return (change.group(2), change.group(1)) if change and is_bit else (b"", b"")

    def _due(self) -> List[bytes]:
        """Returns the lines of the vectors that changed."""
        lines = [b"b%s %s\n" % (b"".join(self._digits[code]), code) for code in self._changed]
        self._changed.clear()
        return lines
