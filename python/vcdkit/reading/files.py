"""Files that are written, and small ones that are read."""
import os
import stat
import sys
import threading
from functools import partial
from typing import Iterable, List, Optional, Sequence, Tuple, Union

from ..errors import UsageError, failing
from .formats import DUMP

Path = Union[str, "os.PathLike[str]"]


def text_of_file(path: str) -> str:
    """Returns the text of a file, or of standard input for `-`."""
    with failing(path), open("/dev/stdin" if path == "-" else path, "rb") as file:
        return file.read().decode("utf-8-sig", "surrogateescape")


def lines_in(path: str) -> List[Tuple[str, str]]:
    """Returns the lines of a file, each behind the place with which messages about it begin; one
    that is empty or begins with # is none."""
    lines = [line.strip() for line in text_of_file(path).splitlines()]
    return [("%s:%d: " % (path, number), line) for number, line in enumerate(lines, 1)
            if line and line[0] != "#"]


def files_of(words: Sequence[str]) -> List[str]:
    """Returns the dumps that words name: of a directory those in it and below it."""
    files: List[str] = []
    for word in words:
        if not os.path.isdir(word):
            files.append(word)
            continue
        found = sorted(os.path.join(folder, name) for folder, _, names in os.walk(word)
                       for name in names if DUMP.search(name))
        if not found:
            raise UsageError("%s: there is no dump in this directory" % word)
        files += found
    return files


def check_outputs(outputs: Iterable[Optional[str]], inputs: Iterable[Optional[str]]) -> None:
    """Refuses to write a file over one that is read."""
    of_inputs = [status for status in map(_status, inputs) if status]
    for path in outputs:
        its = _status(path)
        if its and stat.S_ISREG(its.st_mode) and any(
                os.path.samestat(its, one) for one in of_inputs):
            raise UsageError("%s: is an input, so it is not overwritten" % path)


def _status(path: Optional[str]) -> Optional[os.stat_result]:
    """Returns what the system says of a file, `-` for standard input; `None` if there is none."""
    try:
        return None if path is None else os.stat(0 if path == "-" else path)
    except (OSError, ValueError):
        return None


def write(path: Path, blocks: Iterable[bytes]) -> None:
    """Writes a file, behind links if the path is one; if this fails, it is as it was. What is no
    regular file, such as a FIFO or a device, is written as it is."""
    name = os.fspath(path)
    with failing(name):
        mode = os.stat(name).st_mode if os.path.exists(name) else None
        if mode is None or stat.S_ISREG(mode) and not _is_open_file(name):
            _replace(os.path.realpath(name), mode, blocks)
        else:
            with open(_own(name), "ab") as file:  # what was written there stays
                file.writelines(blocks)


def _own(name: str) -> Union[str, int]:
    """Returns a copy of this process's standard output if a path leads to it, else the path."""
    try:
        if os.path.samestat(os.stat(name), os.fstat(1)):
            sys.stdout.flush()
            return os.dup(1)
    except (OSError, AttributeError):  # it is closed
        pass
    return name


def _is_open_file(name: str) -> bool:
    """Whether a path leads to what a process has open, as /dev/stdout does."""
    while os.path.islink(name) and not name.startswith("/proc/"):
        name = os.path.join(os.path.realpath(os.path.dirname(name)), os.readlink(name))
    return name.startswith("/proc/")


def _replace(name: str, mode: Optional[int], blocks: Iterable[bytes]) -> None:
    """Puts a new file in the place of one, with its mode, once all is written. (mkstemp would give
    a new file a mode that the umask does not say.)"""
    part = "%s.%d.part" % (name, threading.get_native_id())
    private = partial(os.open, mode=0o600)  # nobody else may read it yet
    try:
        with open(part, "wb", opener=private if mode is not None else None) as file:
            file.writelines(blocks)
            if mode is not None:
                os.chmod(part, stat.S_IMODE(mode))
        os.replace(part, name)
    finally:
        if os.path.exists(part):
            os.unlink(part)
