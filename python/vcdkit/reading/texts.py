"""Texts that a question is asked of: a file, bytes, or what a command makes of other texts."""
import os
import shutil
import stat
import sys
import threading
from typing import (BinaryIO, Callable, Iterator, List, NamedTuple, Optional, Sequence, Tuple,
                    Union, cast)

from ..errors import RunFailed
from .formats import FRONT, FST, format_of

PACKAGE = os.path.dirname(os.path.dirname(os.path.abspath(__file__)))
# The program that is vcdkit-four-state.
FOUR_STATE = """import sys
sys.path.insert(0, %r)
from vcdkit.commands.four_state import main
sys.exit(main([]))""" % os.path.dirname(PACKAGE)
BLOCK = 1 << 16


def installed(name: str) -> Optional[str]:
    """Returns a program that comes with vcdkit: the one beside the running command (an
    installation), else the one above it (a tarball), else the one on the PATH, else the one beside
    Python. `None` if there is none."""
    script = sys.argv[0] if sys.argv else ""
    folder = os.path.dirname(os.path.realpath(script))
    is_command = os.path.basename(script).startswith("vcdkit-")
    near = [os.path.join(folder, above, name) for above in ("", "..")] if is_command else []
    last = os.path.join(os.path.dirname(sys.executable or ""), name)  # of a wheel
    return next(filter(None, map(shutil.which, [*near, name, last])), None)


def program_path() -> Optional[str]:
    """Returns the program that VCDKIT names, else the vcdkit that comes with the running command
    or is on the PATH; `None` if there is none."""
    named = os.environ.get("VCDKIT")
    return shutil.which(named) if named else installed("vcdkit")


def library_path() -> Optional[str]:
    """Returns the library that VCDKIT_LIBRARY names (none if it is empty), else the one beside the
    package; `None` if there is none."""
    named = os.environ.get("VCDKIT_LIBRARY")
    if named is not None:
        return os.path.abspath(named) if named else None
    beside = os.path.join(PACKAGE, "libvcdkit.so")
    return beside if os.path.exists(beside) else None


def unnamed_file() -> BinaryIO:
    """Returns a file that nobody else can open."""
    import tempfile  # the import takes as long as a run of vcdkit on a small dump
    return cast(BinaryIO, tempfile.TemporaryFile())


class _Kept:
    """What comes through a pipe, which can be read only once: a temporary file has it as it is
    read, so that each reader gets it from its begin, and what has not come yet when it comes."""

    def __init__(self, path: bytes):
        self._pipe = open(path, "rb", buffering=0)
        self._file = unnamed_file()
        self._news = threading.Condition()
        self._length, self._is_whole, self._is_reading = 0, False, False
        self.error: Optional[OSError] = None

    def open(self) -> BinaryIO:
        """Opens it at its begin."""
        if self._is_whole:
            return open("/dev/fd/%d" % self._file.fileno(), "rb")
        front, back = os.pipe()
        threading.Thread(target=self._write_to, args=(back,), daemon=True).start()
        return open(front, "rb")

    def _write_to(self, back: int) -> None:
        """Writes it to a pipe, until all is written or nobody reads there."""
        at = 0
        try:
            while True:
                block = self._block(at)
                if not block:
                    break
                at += os.write(back, block)
        except BrokenPipeError:
            pass
        finally:
            os.close(back)

    def _block(self, at: int) -> bytes:
        """Returns what is at an offset, once it is there: nothing at the end."""
        with self._news:
            self._news.wait_for(lambda: self._is_there(at) or not self._is_reading)
            is_there = self._is_there(at)
            self._is_reading = self._is_reading or not is_there
        if not is_there:
            self._read_on()
        return os.pread(self._file.fileno(), BLOCK, at)

    def _is_there(self, at: int) -> bool:
        return at < self._length or self._is_whole

    def _read_on(self) -> None:
        """Reads on in the pipe, as one of the readers at a time does."""
        block = b""
        try:
            block = os.read(self._pipe.fileno(), BLOCK)
            self._file.write(block)
            self._file.flush()
        except OSError as error:
            self.error, block = error, b""
        if not block:
            self._pipe.close()
        with self._news:
            self._length += len(block)
            self._is_whole, self._is_reading = not block, False
            self._news.notify_all()


class File:
    """A file, `-` for standard input. A pipe is read as its readers ask for it. With `four_state`
    its nine states are made four."""

    def __init__(self, path: Union[str, bytes, "os.PathLike[str]"], four_state: bool = False):
        self._path = os.fsencode(path)
        self.name = self._path.decode("utf-8", "backslashreplace")
        if self.name == "-":
            self._path, self.name = b"/dev/stdin", "(stdin)"
        self._kept: Optional[_Kept] = None
        self._four_state = four_state

    def open(self) -> BinaryIO:
        """Opens it at its begin, each time anew."""
        try:
            if self._kept is None and not stat.S_ISREG(os.stat(self._path).st_mode):
                self._kept = _Kept(self._path)
            return self._kept.open() if self._kept else open(self._path, "rb")
        except OSError as error:
            raise self._failure(error) from error

    def check(self) -> None:
        """Raises the error with which a pipe ended, if there was one."""
        if self._kept and self._kept.error:
            raise self._failure(self._kept.error)

    def _failure(self, error: OSError) -> RunFailed:
        return RunFailed("%s: %s" % (self.name, error.strerror or error))

    def unpacker(self) -> Optional[List[str]]:
        """Returns the words of the program that unpacks it; `None` if it is plain text."""
        with self.open() as file:
            its = format_of(file.read(FRONT))
            while self._kept and its is FST and file.read(BLOCK):
                pass  # fst2vcd seeks, so it needs all of a pipe before
        return [*its.unpacker] if its and its.unpacker else None

    def filters(self) -> List[List[str]]:
        """Returns the words of the programs that make a plain dump of it, one after the other."""
        unpacker = self.unpacker()
        last = [[sys.executable, "-IBc", FOUR_STATE]] if self._four_state else []
        return [unpacker, *last] if unpacker else last


class Bytes(NamedTuple):
    """The bytes of a dump, and what a fault calls them."""

    data: bytes
    name: str


class Made(NamedTuple):
    """What `vcdkit COMMAND WORDS..` writes of other texts: of one, or for `merge` of some. For
    `compare` and `strobe` it is what vcdkit-compare and vcdkit-strobe write."""

    command: str
    words: Tuple[str, ...]
    of: Tuple["Text", ...]

    @property
    def name(self) -> str:
        """What a fault of it is called."""
        names = ", ".join(text.name for text in self.of)
        return "merge of " + names if self.command == "merge" else names


class Headed(NamedTuple):
    """A text that vcdkit writes, with another header, which is made of its own one, and maybe with
    another body. Both headers go to the end of their last lines. `narrowed` makes one that has at
    least what some names (all, without names) and words of `cut` select."""

    front: Callable[[bytes], bytes]
    of: "Text"
    body: Optional[Callable[[BinaryIO], Iterator[bytes]]] = None
    narrowed: Optional[Callable[[Sequence[str], Sequence[str]], "Headed"]] = None

    @property
    def name(self) -> str:
        """What a fault of it is called."""
        return self.of.name


Text = Union[File, Bytes, Made, Headed]


def narrowed(text: Text, names: Sequence[str] = (), window: Sequence[str] = ()) -> Text:
    """Returns a text of which a part that may be narrowed has only what is asked of it."""
    if isinstance(text, Headed) and text.narrowed:
        return text.narrowed(names, window)
    if not isinstance(text, Made):
        return text
    is_cut = text.command == "cut"
    names = (text.words[text.words.index("--") + 1:] if "--" in text.words
             else names if is_cut else ())
    window = text.words if is_cut else window if text.command == "pick" else ()
    return text._replace(of=tuple(narrowed(one, names, window) for one in text.of))
