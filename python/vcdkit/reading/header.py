"""The header of a dump: its commands, one after the other, and what they declare. Filters read
headers here too, so that a command may be on several lines, and several commands on one."""
import functools
import itertools
import re
from typing import Collection, Dict, Iterable, Iterator, List, NamedTuple, Optional, Tuple

from ..model.names import field_of, range_in
from ..model.signals import Columns, Declaration, Header, Scope, Signal, Signals
from ..model.times import Timescale, amount_in

# A command, from its keyword to its $end.
COMMAND = re.compile(rb"(?<!\S)(\$\S*)(.*?)(?<!\S)\$end(?!\S)", re.DOTALL)
BLANK = re.compile(rb"[ \t\r]*\n?")
LAST = b"$enddefinitions"
BODY = LAST + b" $end\n"  # the last line of a header that vcdkit writes


class Command(NamedTuple):
    """A command of a header: its keyword, the words up to its $end, and where it is in the text."""

    keyword: bytes
    words: List[bytes]
    begin: int
    end: int


def commands(text: bytes) -> Iterator[Command]:
    """Returns the commands of a header."""
    for found in COMMAND.finditer(text):
        yield Command(found.group(1), found.group(2).split(), *found.span())
        if found.group(1) == LAST:
            break


def parted(blocks: Iterator[bytes]) -> Tuple[bytes, Iterator[bytes]]:
    """Reads blocks of whole lines up to the end of a header. Returns the header, and the blocks
    behind it. A header without an end has all that there is."""
    text, is_near = bytearray(), False
    for block in blocks:
        begin = max(len(text) - len(LAST), 0)
        text += block
        is_near = is_near or text.find(LAST, begin) >= 0
        for one in commands(bytes(text)) if is_near else ():
            if one.keyword == LAST:
                end = BLANK.match(text, one.end).end()  # type: ignore[union-attr]
                return bytes(text[:end]), itertools.chain([bytes(text[end:])], blocks)
    return bytes(text), blocks


def front(file: Iterable[bytes]) -> bytes:
    """Reads the header that vcdkit writes; nothing if the file ends before that."""
    lines = []
    for line in file:
        lines.append(line)
        if line == BODY:
            return b"".join(lines)
    return b""


def declarations(text: bytes) -> Tuple[Scope, List[Declaration]]:
    """Returns the scopes, in one without a name and each once, and the variables."""
    top = Scope("", "", "", [], [])
    opened: List[Tuple[Scope, ...]] = [()]  # the scopes around a place, and around those
    known: Dict[Tuple[int, str], Scope] = {}
    found = []
    for keyword, raw, *_ in commands(text):
        words = [word.decode("utf-8", "surrogateescape") for word in raw]
        outer = opened[-1][-1] if opened[-1] else top
        before = outer.path + "." if outer.path else ""
        if keyword == b"$scope":
            key = id(outer), words[1]
            if key not in known:
                known[key] = Scope(words[1], before + words[1], words[0], [], [])
                outer.scopes.append(known[key])
            opened.append((*opened[-1], known[key]))
        elif keyword == b"$upscope":
            opened.pop()
        elif keyword == b"$var":
            signal = Signal(before + words[3], words[0], int(words[1]), words[2])
            outer.signals.append(signal)
            behind = "".join(words[4:])
            declared = field_of(behind) or field_of(range_in(words[3]))
            found.append(Declaration(signal, opened[-1], declared, behind))
    return top, found


class Head:
    """A header that vcdkit writes: each of its facts is read once, if it is asked for."""

    declared = functools.cached_property(lambda self: declarations(self.text))

    def __init__(self, text: bytes):
        self.text = text

    @functools.cached_property
    def facts(self) -> Header:
        """What it says before its first scope or variable, or its last time scale."""
        texts: Dict[bytes, str] = {}
        last = self.text.rfind(b"$timescale")
        for keyword, words, begin, _ in commands(self.text):
            if keyword in (b"$scope", b"$var") and begin > last:
                break
            texts[keyword] = b" ".join(words).decode(errors="backslashreplace")
        scale = amount_in(texts.get(b"$timescale", ""))
        return Header(texts.get(b"$date"), texts.get(b"$version"),
                      Timescale(*scale) if scale else None)

    @functools.cached_property
    def signals(self) -> Signals:
        """The variables, as vcdkit declares them: each on a line of its own."""
        paths, types, sizes, codes = found = [], [], [], []  # type: Columns
        fronts = [""]
        for line in self.text.decode("utf-8", "surrogateescape").split("\n"):
            if line[:5] == "$var ":
                _, kind, size, code, name, _ = line.split(" ", 5)
                paths.append(fronts[-1] + name)
                types.append(kind)
                sizes.append(int(size))
                codes.append(code)
            elif line[:7] == "$scope ":
                fronts.append(fronts[-1] + line.split(" ")[2] + ".")
            elif line[:9] == "$upscope ":
                fronts.pop()
        return Signals(found)


def with_variables(text: bytes, places: Collection[int]) -> Iterator[bytes]:
    """Returns the lines of a header that vcdkit writes, of its variables only those at some places,
    and of its scopes only those around them."""
    opened: List[Optional[bytes]] = []  # the lines of scopes, `None` for those that are written
    at = 0
    for one in commands(text):
        line = text[one.begin:one.end] + b"\n"
        if one.keyword == b"$scope":
            opened.append(line)
        elif one.keyword == b"$var":
            if at in places:
                yield from filter(None, opened)
                opened = [None] * len(opened)
                yield line
            at += 1
        elif one.keyword != b"$upscope" or opened.pop() is None:
            yield line


def renamed(names: Dict[str, str], text: bytes) -> bytes:
    """Returns a header that vcdkit writes, in which variables get other paths: these come last. A
    new path with a range has that of the variable; else a range in the old one comes after it."""
    fronts, kept, moved = [""], [], []
    for line in text.decode("utf-8", "surrogateescape").split("\n"):
        words = line.split(" ")
        if words[0] == "$scope":
            fronts.append(fronts[-1] + words[2] + ".")
        elif words[0] == "$upscope":
            fronts.pop()
        new = names.get(fronts[-1] + words[4]) if words[0] == "$var" else None
        if new is None:
            kept.append(line)
            continue
        declared = [] if range_in(new) else words[5:-1] or [range_in(words[4])]
        moved.append(" ".join(filter(None, [*words[:4], new, *declared, "$end"])))
    return "\n".join([*kept[:-2], *moved, *kept[-2:]]).encode("utf-8", "surrogateescape")


def is_alone(text: bytes, one: Command) -> bool:
    """Whether a command is all that a line has."""
    front = text[text.rfind(b"\n", 0, one.begin) + 1:one.begin]
    back = text[one.end:].split(b"\n", 1)[0]
    return not front.strip() and not back.strip() and b"\n" not in text[one.begin:one.end]
