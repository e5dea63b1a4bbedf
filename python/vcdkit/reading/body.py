"""The lines of a body: what knows them is here.

vcdkit writes on each line a timestamp, a command of a section, or a value: `0!`, `b101 !`,
`r1.5 !`. Filters find the lines of other programs by the expressions at the end."""
import contextlib
import functools
import io
import itertools
import re
from typing import (TYPE_CHECKING, BinaryIO, Callable, Collection, Dict, FrozenSet, Iterable,
                    Iterator, List, Optional, Tuple, cast)

from ..errors import DumpFault, UsageError, failing
from ..model.times import LAST_TICK
from ..model.values import same
from . import progress
from .formats import FRONT, format_of
from .texts import File

if TYPE_CHECKING:
    from .source import Source

MAX_SEEN = 1 << 14  # texts of which the changes are kept
MAX_KEPT = 64  # bytes of a text that is kept
BLOCK = 1 << 16
Changes = List[Tuple[bytes, bytes]]  # a code and a value each
Step = Tuple[int, Changes]  # a time, and what codes get there
Blocks = Callable[[BinaryIO], Iterable[bytes]]


def change(line: bytes) -> Tuple[bytes, bytes]:
    """Returns the code and the value of a line, without the `b` of digits."""
    first = line[:1]
    if first == b"b" or first == b"r":
        text, code = line.split()
        return code, text[1:] if first == b"b" else text
    return line[1:-1], first


def blocks(text: BinaryIO, is_file: bool = False) -> Iterator[bytes]:
    """Returns a text in blocks of whole lines, as they come. The last line of a file may lack its
    end; a program that writes such a line was ended, so this is left out."""
    read = cast(io.BufferedReader, text).read1
    for block in iter(lambda: read(BLOCK), b""):
        block = block if block.endswith(b"\n") else block + text.readline()
        block = block if is_file else block[:block.rfind(b"\n") + 1]
        if block:
            yield block


def blocks_of(path: str) -> Iterator[bytes]:
    """Returns the text of a file, which may be packed, or that of standard input if the path is
    `-`, once and in blocks of whole lines, as filters read it."""
    with failing("(stdin)" if path == "-" else path):
        with open(0 if path == "-" else path, "rb", closefd=path != "-") as file:
            its = format_of(file.peek(FRONT))
            if its is None or not its.unpacker:
                part = functools.partial(progress.part_of_file, file.fileno())
                progress.running.append(part)
                try:
                    yield from blocks(file, True)
                finally:
                    progress.running.remove(part)
                return
        if path == "-":
            raise UsageError("the input is compressed: unpack it first, for example with gzip -dc")
        from .source import Source
        with Source(File(path)).open() as text:
            yield from blocks(text, True)


def timed(part: "Source", some: Optional[Blocks] = None) -> Iterator[Tuple[int, bytes]]:
    """Returns each timestamp of a part of a dump with the lines up to the next one, as soon as that
    comes: a text that does not end with a line feed. What comes before the first timestamp has time
    0. A timestamp that is there twice is one, and one without lines is left out, as is a time that
    a fault leaves unfinished. `some` may leave out lines of the body that do not matter."""
    now, texts = 0, []
    fault: Optional[DumpFault] = None
    try:
        with part.body() as out:
            for block in (some or blocks)(out):
                first, *pieces = (b"\n" + block[:-1]).split(TIME)
                if first:
                    texts.append(first[1:])
                for piece in pieces:
                    head, _, text = piece.partition(b"\n")
                    time = int(head)
                    if time != now:
                        if texts:
                            yield now, b"\n".join(texts) if len(texts) > 1 else texts[0]
                        now, texts = time, [text] if text else []
                    elif text:
                        texts.append(text)
    except DumpFault as error:
        fault = error
    if texts and (fault is None or part.is_finished(now, fault)):
        yield now, b"\n".join(texts)
    if fault:
        raise fault


def steps(part: "Source", codes: Collection[bytes], some: Optional[Blocks] = None
          ) -> Iterator[Step]:
    """Returns of each timestamp of a part of a dump the last values that some codes get there. What
    comes before the first timestamp has time 0. No two steps that follow each other have one time.
    A time that a fault leaves unfinished has no step. `some` is that of timed.

    A code with a blank behind it stands for the time since which the code has its value, which
    comes with each change to another one."""
    dated = {code[:-1] for code in codes if code[-1:] == b" "}
    its = _steps(part, {code for code in codes if code[-1:] != b" "}, some)
    return _dated(part, its, dated) if dated else its


def _steps(part: "Source", codes: Collection[bytes], some: Optional[Blocks]) -> Iterator[Step]:
    """Returns steps without the times since which codes have their values."""
    changes_of = Known(codes).__getitem__  # faster than known[..]
    for time, text in timed(part, some):
        changes = changes_of(text)
        if changes:
            yield time, changes


def _dated(part: "Source", its: Iterator[Step], dated: Collection[bytes]) -> Iterator[Step]:
    """Returns steps with the times since which some codes have their values: those at the begin of
    a part, from before it, come with the first step."""
    begin = part.begin()
    earlier = up_to_fault(part.before(begin), dated) if begin else ()
    last: Dict[bytes, bytes] = {}
    known: Dict[bytes, bytes] = {}
    for time, changes in itertools.chain(earlier, its):
        dates = []
        for code, text in changes:
            if code in dated and last.get(code) != same(text):
                dates.append((code + b" ", b"%d" % time))
                last[code] = same(text)
        if time < begin:
            known.update(dates)
            continue
        yield time, [*known.items(), *changes, *dates]
        known.clear()


def up_to_fault(part: "Source", codes: Collection[bytes]) -> Iterator[Step]:
    """Returns the steps before a fault."""
    with contextlib.suppress(DumpFault):
        yield from steps(part, codes)


def begun(part: "Source") -> Iterator[Tuple[int, bytes, bytes]]:
    """Returns each time of a cut with two texts of lines: first those of the values with which the
    cut begins, which are from before its first time (at other times none), then the others."""
    begin = b""
    times = timed(part)
    for time, text in itertools.islice(times, 1):
        if text.startswith(b"$dumpvars\n"):
            begin, _, text = text.partition(b"\n$end")
        yield time, begin, text
    for time, text in times:
        yield time, b"", text


class Known(Dict[bytes, Changes]):
    """Of each text of lines the last values of some codes in it, in the order of these lines, which
    nobody may alter. Those of short texts are kept to be given again, as most dumps have few."""

    def __init__(self, codes: Collection[bytes]):
        super().__init__()
        self._codes = codes

    def __missing__(self, text: bytes) -> Changes:
        if b"\n" in text:
            its = [one for line in text.split(b"\n") for one in self[line]]
            last = dict(its)
            if len(last) < len(its):
                latest_first = dict.fromkeys(code for code, _ in reversed(its))
                its = [(code, last[code]) for code in reversed([*latest_first])]
        elif text[:1] in b"$":  # of a section, or empty
            its = []
        else:
            one = change(text + b"\n")
            its = [one] if one[0] in self._codes else []
        if len(text) <= MAX_KEPT:
            if len(self) >= MAX_SEEN:
                self.clear()
            self[text] = its
        return its


def at_once(part: "Source", code: bytes) -> Iterator[Tuple[int, bytes]]:
    """Returns the times and the values of a code, each as soon as its line comes."""
    known, now = Known([code]), 0
    with part.body() as out:
        for line in out:
            if line[:1] == b"#":
                now = int(line[1:])
            elif line[-1:] == b"\n":
                for _, value in known[line[:-1]]:
                    yield now, value


def last_time(text: bytes) -> Optional[int]:
    """Returns the last timestamp of a text that has its whole line; `None` if there is none."""
    at = text.rfind(TIME, 0, max(text.rfind(b"\n"), 0))
    return int(text[at + 2:text.index(b"\n", at + 1)]) if at >= 0 else None


def last_command(text: bytes) -> Optional[bytes]:
    """Returns the last command of a section and what comes after it; `None` without one."""
    at = text.rfind(b"\n$")
    return text[at + 1:] if at >= 0 else None


def first_time(dump: "Source") -> Optional[int]:
    """Returns the first timestamp of any dump, also if no change follows, which vcdkit leaves out;
    `None` if there is none before the end or a fault."""
    section = b""
    with contextlib.suppress(DumpFault), dump.open() as text:
        words = (word for block in blocks(text, True) for word in block.split())
        for word in words:
            first = word[:1]
            if first == b"#":
                time = re.fullmatch(rb"#0*(\d{1,20})", word)
                return int(time[1]) if time and not section and int(time[1]) <= LAST_TICK else None
            if first in b"bBrR":
                next(words, b"")  # its code
            elif word in (b"$dumpvars", b"$dumpall", b"$dumpon", b"$dumpoff"):
                section = word
            elif word == b"$end":
                section = b""
            elif first == b"$":
                any(one == b"$end" for one in words)  # reads up to there
    return None


# Lines in a block of whole lines, which begins with a line feed: most lines are never looked at. A
# place is that of the line feed before a line.

TIME = b"\n#"  # at the place of a timestamp
CODES = re.compile(rb"\n(?:[01xz]|[br]\S* )(.*)")  # of the lines that have a value


def letters_in(letters: bytes) -> "re.Pattern[bytes]":
    """Returns what finds lines whose values have one of some letters; the group is the code."""
    return re.compile(rb"\n(?:[%b]|b[01xz]*?[%b][01xz]* )(.*)" % (letters, letters))


def has_letter(value: bytes, letters: bytes) -> bool:
    """Whether a value is digits of which one is one of some letters."""
    return value[:1] != b"r" and any(map(value.__contains__, letters))


def line_at(text: bytes, at: int) -> bytes:
    """Returns the line at a place."""
    return text[at + 1:text.index(b"\n", at + 1) + 1]


def time_at(text: bytes, at: int) -> int:
    """Returns the time of a timestamp at a place."""
    return int(text[at + 2:text.index(b"\n", at + 1)])


def time_after(text: bytes, begin: int, time: int) -> int:
    """Returns the place of the first timestamp above a time; that of the end if there is none."""
    found = high = len(text) - 1
    low = begin
    while low < high:
        middle = (low + high) // 2
        at = text.find(TIME, middle, high + 1)
        if at >= 0 and time_at(text, at) <= time:
            low = at + 1
        else:
            found, high = at if at >= 0 else found, middle
    return found


def next_change(text: bytes, code: bytes, begin: int) -> int:
    """Returns the place of the first line from there on with a value of a code, else -1."""
    at = text.find(code + b"\n", begin)
    while at >= 0:
        line = text.rfind(b"\n", 0, at)
        if text[line + 1] not in b"#$" and change(line_at(text, line))[0] == code:
            return line
        at = text.find(code + b"\n", at + 1)
    return -1


def changes_in(text: bytes, begin: int, end: int, codes: FrozenSet[bytes]
               ) -> Iterator[Tuple[bytes, bytes, int]]:
    """Returns the changes of some codes between two places: code, value and place. It looks only at
    lines that end as one of the codes does."""
    table = bytearray(256)
    table[10] = 10
    for code in codes:
        table[code[-1]] = 1
    marks = text[begin:end + 1].translate(table)
    at = marks.find(b"\1\n")
    while at >= 0:
        line = text.rfind(b"\n", 0, begin + at)
        if text[line + 1] not in b"#$":
            code, value = change(text[line + 1:begin + at + 2])
            if code in codes:
                yield code, value, line
        at = marks.find(b"\1\n", at + 1)


# Lines as other programs write them, each with the line feed before it. The group has a value.

BIT = re.compile(rb"\s*(?:[bB](?=\S\s))?([01xXzZ])\s*(\S+)\s*$")  # a change of one bit, also b1 !
_CHANGE = rb"(?:[01xXzZ]\S*|[bBrR]\S*[ \t]+\S+)[ \t]*\r?\n"
_TIME = rb"#\S*[ \t]*\r?\n"
# The line feed before a line that is not only a change, and not only a change or a timestamp.
NO_CHANGE = re.compile(rb"\n(?!%s)" % _CHANGE)
NO_CHANGE_OR_TIME = re.compile(rb"\n(?!%s|%s)" % (_CHANGE, _TIME))
# A value that is none of VCD: up to the end of its digits; a string as a whole.
NINE_STATES = re.compile(rb"\n(?:[UuWwLlHh-]|s[^\n]*|[bB][01xXzZ]*[UuWwLlHh-][^ \t\n]*)")
