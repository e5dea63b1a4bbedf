"""Answers by the program vcdkit, over pipes."""
import contextlib
import errno
import functools
import os
import shutil
import signal
import subprocess
import threading
from typing import IO, BinaryIO, Dict, Iterator, List, Optional, Sequence, cast

from ..errors import DamagedFile, RunFailed, UnknownName, VcdkitError, error_of
from . import header, progress
from .texts import Bytes, File, Headed, Text, program_path, unnamed_file

NAMES = ("vcdkit", "vcdkit-static", "vcdkit-unproved")  # of the program
OTHERS = {"compare": "vcdkit-compare", "strobe": "vcdkit-strobe"}


def beside(name: str) -> str:
    """Returns the program beside vcdkit, or beside the file to which that is a link."""
    its = program_path() or ""
    for one in its, os.path.realpath(its):
        found = shutil.which(os.path.join(os.path.dirname(one), name))
        if found:
            return found
    raise RunFailed("there is no program %s beside vcdkit: install both" % name)


def refusal() -> str:
    """Returns what to do where there is no program."""
    named = os.environ.get("VCDKIT")
    return ("there is no program %s, which VCDKIT names" % named if named else
            "there is no program vcdkit on the PATH: install it, or name it with VCDKIT=FILE")


def not_started(program: str, error: OSError) -> RunFailed:
    """Returns the exception where a program cannot be started."""
    if error.errno == errno.ENOENT:
        return RunFailed("there is no program %s on the PATH to read it with" % program)
    if error.errno == errno.E2BIG:
        return RunFailed("too many names for a command line: name scopes")
    return RunFailed("%s: %s" % (program, error.strerror))


@functools.lru_cache(maxsize=None)
def is_vcdkit(program: str) -> bool:
    """Whether a program has the name of vcdkit, or says that it is vcdkit; it is asked once."""
    if os.path.basename(program) in NAMES:
        return True
    try:
        said = subprocess.run([program, "--version"], stdin=subprocess.DEVNULL,
                              stdout=subprocess.PIPE, stderr=subprocess.DEVNULL).stdout
    except OSError:
        return True  # what cannot be started is refused as such
    return said.startswith(b"vcdkit ")


# No token of a dump, nor an identifier code, which would complete a change that was cut off.
FAULT = b"\n\x01\n"


class _Part:
    """A running program, and what it calls its inputs. If it fails and unpacks a file, or a merge
    or a comparison reads what it writes, a fault comes after that: an end would seem to be that of
    the dump."""

    def __init__(self, words: Sequence[str], stdin: BinaryIO, names: Dict[str, str],
                 of: Optional[Text], pass_fds: Sequence[int], is_merged: bool, answer: int):
        self.words, self.names, self.of = words, names, of
        self.answer = answer  # the greatest status that is an answer and no failure
        # A file, as a pipe holds only some of a message that nobody reads before the output.
        self.messages: IO[bytes] = (open(os.memfd_create("messages"), "w+b")
                                    if hasattr(os, "memfd_create") else unnamed_file())
        reader, writer = os.pipe()
        try:
            self.process = subprocess.Popen(words, stdin=stdin, stdout=writer,
                                            stderr=self.messages, pass_fds=pass_fds)
        except OSError as error:
            os.close(reader)
            os.close(writer)
            raise not_started(words[0], error) from error
        self.out = cast(BinaryIO, os.fdopen(reader, "rb"))
        if is_merged:
            threading.Thread(target=self._mark_failure, args=[writer], daemon=True).start()
        else:
            os.close(writer)

    def _mark_failure(self, writer: int) -> None:
        """Writes a fault if it fails, and closes the pipe."""
        with contextlib.suppress(OSError):  # nobody may read on
            if not 0 <= self.process.wait() <= self.answer:
                os.write(writer, FAULT)
        os.close(writer)

    def finish(self) -> None:
        """Waits for it, and keeps what it says."""
        self.status = self.process.wait()
        with self.messages as said:
            said.seek(0)
            self.said = said.read().decode(errors="backslashreplace").strip()

    def ended_early(self) -> bool:
        """Whether the next program did not read on: a script says so as a shell does."""
        return (self.status in (-signal.SIGPIPE, 128 + signal.SIGPIPE)
                or self.said in ("vcdkit: write failed", "vcdkit-strobe: write failed"))

    def error(self) -> VcdkitError:
        """Returns the exception of its status and message."""
        if self.of is None:
            said = "; ".join(filter(None, map(str.strip, self.said.split("\n"))))
            return DamagedFile(self.names["(stdin)"], 0, said or "%s: status %d" % (
                self.words[0], self.status))
        error = error_of(self.said or "%s: status %d" % (" ".join(self.words[:2]), self.status),
                         self.status, self.names)
        if isinstance(error, UnknownName):
            error.of = self.of
        return error


class _Pipe:
    """The programs of one pipe, the nearest to the files first."""

    def __init__(self, is_raw: bool) -> None:
        self.is_raw = is_raw  # no vcdkit reads the file
        self.files: List[File] = []
        self.parts: List[_Part] = []
        self.threads: List[threading.Thread] = []
        self.errors: List[Exception] = []  # of threads
        self.copies: List[IO[bytes]] = []  # they are removed with this object
        progress.running.append(self.part_read)

    def start(self, words: Sequence[str], stdin: BinaryIO, names: Dict[str, str],
              of: Optional[Text], pass_fds: Sequence[int] = (), is_merged: bool = False,
              answer: int = 0) -> BinaryIO:
        """Starts a program, and returns what it writes."""
        with stdin:
            self.parts.append(_Part(words, stdin, names, of, pass_fds, is_merged, answer))
        return self.parts[-1].out

    def feed(self, text: Text, is_merged: bool = False) -> BinaryIO:
        """Returns a file to read the text from; with `is_merged` it has no end before its."""
        if isinstance(text, File):
            self.files.append(text)
            filters = text.filters()
            file = text.open()
            for words in filters:
                file = self.start(words, file, {"(stdin)": text.name}, None, (), not self.is_raw)
            return file
        if isinstance(text, Bytes):
            kept = unnamed_file()
            kept.write(text.data)
            kept.seek(0)
            return kept
        if isinstance(text, Headed):
            return self.head(text, is_merged)
        program = program_path()
        if not program:
            raise RunFailed(refusal())
        if not is_vcdkit(program):
            raise RunFailed("%s, which VCDKIT names, is not vcdkit" % program)
        files = [self.feed(one, is_merged or text.command in ("merge", "compare"))
                 for one in text.of]
        names = [self._name_of(file) for file in files[1:]]  # the first one is standard input
        other, is_compared = OTHERS.get(text.command), text.command == "compare"
        words = [*([beside(other)] if other else [program, text.command]), *text.words,
                 *(["--", "-", *names] if text.command == "merge" else [])]
        try:
            out = self.start(words, files[0], dict(zip(["(stdin)", *names], (
                one.name for one in text.of))), None if is_compared else text.of[0],
                             [file.fileno() for file in files[1:]], is_merged,
                             int(other is not None))  # a difference, or no edge
        finally:
            for file in files[1:]:
                file.close()
        return out

    def _name_of(self, file: BinaryIO) -> str:
        """Returns a name by which a program can open a file. A system without /proc has no /dev/fd:
        there, the file is copied first."""
        name = "/dev/fd/%d" % file.fileno()
        if os.path.exists(name):
            return name
        import tempfile
        self.copies.append(tempfile.NamedTemporaryFile())
        shutil.copyfileobj(file, self.copies[-1])
        self.copies[-1].flush()
        return self.copies[-1].name

    def head(self, text: Headed, is_merged: bool) -> BinaryIO:
        """Returns a file from which a text with another header can be read."""
        file = self.feed(text.of, is_merged or text.narrowed is not None)
        reader, writer = os.pipe()
        self.threads.append(threading.Thread(
            target=self._pass_on, args=[text, file, os.fdopen(writer, "wb")], daemon=True))
        self.threads[-1].start()
        return cast(BinaryIO, os.fdopen(reader, "rb"))

    def _pass_on(self, text: Headed, file: BinaryIO, to: BinaryIO) -> None:
        """Writes the other header and the body; then a fault if that fails."""
        with contextlib.suppress(BrokenPipeError), file, to:
            try:
                front = header.front(file)
                to.write(text.front(front) if front else FAULT)
                to.writelines(text.body(file) if text.body else
                              iter(lambda: file.read(1 << 16), b""))
            except BrokenPipeError:
                raise
            except Exception as error:  # pylint: disable=broad-except
                self.errors.append(error)
                to.write(FAULT)

    def part_read(self) -> Optional[float]:
        """Returns how much of its first file is read, as a part of 1; `None` if unknown."""
        process = self.parts[0].process.pid if self.parts else 0
        try:
            size = os.stat("/proc/%d/fd/0" % process).st_size
            with open("/proc/%d/fdinfo/0" % process, encoding="ascii") as info:
                return min(int(info.readline().split()[1]) / size, 1.0) if size else None
        except (OSError, ValueError, IndexError):
            return None

    def finish(self, was_read: bool) -> None:
        """Waits for all; ends those first that still run, unless all was read."""
        progress.running.remove(self.part_read)
        for part in self.parts if not was_read else ():
            part.process.terminate()
        for thread in self.threads:
            thread.join()
        for part in self.parts:
            part.out.close()
            part.finish()

    def check(self) -> None:
        """Raises the error of the one nearest to the files, if there is one."""
        for file in self.files:
            file.check()
        for error in self.errors:
            raise error
        failed = [part for part in self.parts if not 0 <= part.status <= part.answer]
        for part in failed:
            # If only an unpacker failed, vcdkit did not read on to the break.
            was_read = not part.ended_early() and (part.of or part is not failed[-1])
            if was_read or part is self.parts[-1]:
                raise part.error()


@contextlib.contextmanager
def opened(text: Text) -> Iterator[BinaryIO]:
    """Opens a text to be read once. If the reader ends early, so do the programs, with no error."""
    pipe, was_read = _Pipe(isinstance(text, File)), False
    try:
        with pipe.feed(text) as out:
            yield out
            was_read = not out.closed and not out.read(1)
    finally:
        pipe.finish(was_read)
    if was_read:
        pipe.check()
