"""Lets the evaluator of the definitions of vcdkit (hostile/reference) play the program's part in
this process, because a small dump is read faster than a program starts."""
import contextlib
import io
from typing import Any, BinaryIO, Dict, Iterator, List, Optional, Sequence, Tuple

from faulty_dumps import evaluator
from reference import comparison, strobe  # type: ignore[import]
from vcdkit.errors import UnknownName, VcdkitError, error_of
from vcdkit.questions import compare
from vcdkit.reading import header, program
from vcdkit.reading.texts import Bytes, File, Headed, Made, Text

MOST = 1000  # answers that are kept
OPENED = program.opened


class Heads:
    """Reads headers as the evaluator does, each only once."""

    def __init__(self) -> None:
        self._read, self._known = evaluator.read_head, {}  # type: ignore[var-annotated]

    def __call__(self, tokens: Any, most: int) -> Any:
        mark = b"$enddefinitions $end\n"
        front = tokens.text[:tokens.text.find(mark) + len(mark)]
        if front not in self._known:
            head = self._read(tokens, most)
            if not tokens.text[:tokens.at + 1] == front:
                return head
            self._known[front] = head, tokens.at, tokens.line
        head, tokens.at, tokens.line = self._known[front]
        return head


class Evaluator:
    """Stands for the program: `opened` is as that of vcdkit.reading.program."""

    def __init__(self) -> None:
        self.known: Dict[Any, Tuple[bytes, bytes, int]] = {}

    @contextlib.contextmanager
    def opened(self, text: Text) -> Iterator[BinaryIO]:
        """Opens a text to be read once. An error comes after what was written before it, unless
        the reader ends early."""
        if isinstance(text, File):
            with OPENED(text) as file:
                yield file
            return
        data, error = self._read(text)
        with io.BytesIO(data) as out:
            yield out
            was_read = not out.closed and not out.read(1)
        if error and was_read:
            raise error

    def _read(self, text: Text) -> Tuple[bytes, Optional[VcdkitError]]:
        """Returns the bytes of a text up to its end, or to the error with which it ends."""
        if isinstance(text, Bytes):
            return text.data, None
        if isinstance(text, Headed):
            data, error = self._read(text.of)
            front, end, rest = data.partition(header.BODY)
            if text.body:
                rest = b"".join(text.body(io.BytesIO(rest + program.FAULT * bool(error))))
            return (text.front(front + end) if end else program.FAULT) + rest, error
        if isinstance(text, Made):
            return self._made(text)
        with OPENED(text) as file:
            return file.read(), None

    def _made(self, text: Made) -> Tuple[bytes, Optional[VcdkitError]]:
        """Returns what a command writes, and its error. That of an input comes first; a merge gets
        a fault there too, since it would go on with the other dumps."""
        read = [self._read(one) for one in text.of]
        is_merge = text.command == "merge"
        inputs = [(b"%d" % at if is_merge else b"(stdin)",
                   data + program.FAULT * (is_merge and error is not None))
                  for at, (data, error) in enumerate(read)]
        status, out, said = self.run([text.command, *text.words], inputs)
        names = {name.decode(): one.name for (name, _), one in zip(inputs, text.of)}
        is_answer = status <= (text.command == "strobe")  # 1: no clock has an edge
        found = None if is_answer else error_of(
            said.decode(errors="backslashreplace"), status, names)
        if isinstance(found, UnknownName):
            found.of = text.of[0]
        return out, next((error for _, error in read if error), found)

    def run(self, words: Sequence[str], files: Sequence[Tuple[bytes, bytes]]
            ) -> Tuple[int, bytes, bytes]:
        """Returns the status, the output and the message."""
        inputs = tuple(files)
        key = tuple(words), inputs
        if key not in self.known:
            if len(self.known) > MOST:
                self.known.clear()
            self.known[key] = self._run(words[0], list(words[1:]), inputs)
        out, said, status = self.known[key]
        return status, out, said

    @staticmethod
    def _run(command: str, words: List[str], inputs: Any) -> Tuple[bytes, bytes, int]:
        at = words.index("--") if "--" in words else len(words)
        names = [name.encode("utf-8", "surrogateescape") for name in words[at + 1:]]
        if command == "strobe":
            found: Tuple[bytes, bytes, int] = strobe.answered(
                [(word.encode(), option == "--fall") for option, word in zip(
                    words[:at:2], words[1:at:2])], names, *inputs[0])
            return found
        times = [word for option in words[1:at:2] for word in option.split(",")]
        done: Tuple[bytes, bytes, int] = evaluator.run(
            command, [moment_of(time) for time in times],
            [] if command == "merge" else names, list(inputs))
        return done


def compared(words: Sequence[str], merged: Text) -> Iterator[List[bytes]]:
    """Stands for vcdkit-compare, as vcdkit.reading.comparing.lines."""
    extent, times = {"--first": comparison.FIRST, "--always": comparison.ALWAYS}, iter(words)
    asked = comparison.Asked(extent=extent.get("".join(words[:1]), comparison.EACH_PAIR))
    for word in times:
        if word == "--from":
            asked.begin = int(next(times))
        elif word == "--to":
            asked.end = int(next(times))
        elif word == "--except":
            asked.exceptions.append(next(times).encode())
    with program.opened(merged) as file:
        text = file.read()
    out: bytes = comparison.within(asked, [(b"in1", b"in2")], b"(stdin)", text)[0]
    yield from (line.split(b" ") for line in out.splitlines())


def moment_of(time: str) -> Tuple[int, Optional[int]]:
    """Returns a time as the evaluator takes it."""
    digits = time.rstrip("smunpf")
    unit = time[len(digits):]
    return int(digits), evaluator.UNITS[unit.encode()] if unit else None


class Ways:
    """Who answers: the evaluator in this process, or the program."""

    def __init__(self) -> None:
        evaluator.read_head = Heads()
        self._evaluator, self._lines = Evaluator(), compare.lines
        self.take(False)

    def take(self, is_program: bool) -> None:
        """Lets one of them answer."""
        compare.lines = self._lines if is_program else compared
        program.opened = OPENED if is_program else self._evaluator.opened
