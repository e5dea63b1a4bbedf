"""What can go wrong: a class for each cause, whose `status` is the exit status of the program."""
import contextlib
import re
from typing import Any, Dict, Iterator, Tuple


class VcdkitError(Exception):
    """What vcdkit refused or could not do."""

    status = 3


# Faults at a timestamp: all values of the one before it are there.
AT_A_TIMESTAMP = ("bad time", "time goes back", "time inside a section")


class DumpFault(VcdkitError, ValueError):
    """The first fault of a dump: its file, its line (from 1) and its name: `unknown command`, .."""

    status = 1

    def __init__(self, file: str, line: int, fault: str):
        super().__init__("%s:%d: %s" % (file, line, fault))
        self.file, self.line, self.fault = file, line, fault

    # Without it, pickle and copy make it anew of only its message.
    def __reduce__(self) -> Tuple[Any, ...]:
        return type(self), (self.file, self.line, self.fault)


class UnknownName(VcdkitError, LookupError):
    """A name that selects no variable. The message suggests similar names."""

    status = 1

    def __init__(self, name: str, hint: str = ""):
        super().__init__("%s: selects nothing%s" % (name, hint))
        self.name, self._hint = name, hint
        self.of: Any = None  # the text that was asked, until the message has its hint

    def __reduce__(self) -> Tuple[Any, ...]:
        return type(self), (self.name, self._hint)


class NoTimescale(VcdkitError, ValueError):
    """A time has a unit, but the dump has no time scale: give ticks."""

    status = 1


class UsageError(VcdkitError, ValueError):
    """A bad time or limit, or a name that does not fit the question."""

    status = 2


class RunFailed(VcdkitError, OSError):
    """A file cannot be read or written, memory ran out, or there is no vcdkit."""

    status = 3


class DamagedFile(DumpFault, RunFailed):
    """A program could not unpack a file to its end: the dump ends there, as at a fault."""

    status = 3

    def __init__(self, file: str, line: int, fault: str):
        super().__init__(file, line, fault)
        self.args = ("%s: %s" % (file, fault),)


@contextlib.contextmanager
def failing(name: str) -> Iterator[None]:
    """Lets an error of the system be a RunFailed about a file."""
    try:
        yield
    except VcdkitError:
        raise
    except OSError as error:
        raise RunFailed("%s: %s" % (name, error.strerror)) from error


def error_of(text: str, status: int, names: Dict[str, str]) -> VcdkitError:
    """Returns the exception for the message and the status of a run. `names` has, of each name that
    the message may have for an input, the name that the caller knows."""
    if text.startswith("vcdkit-strobe: "):
        status -= status == 2  # vcdkit has 1 for these
    text = re.sub(r"\A(vcdkit|vcdkit-strobe|error): ", "", text.strip()).split("\n")[0]
    fault = re.match(r"(.*):(\d+): ([^:]*)\Z", text)
    if status == 1 and fault:
        file = names.get(fault.group(1), fault.group(1))
        return DumpFault(file, int(fault.group(2)), fault.group(3))
    at, _, what = text.rpartition(": ")
    if status == 1 and what.startswith("selects nothing"):
        return UnknownName(at)
    if status == 1 and what.startswith("no timescale"):
        return NoTimescale("%s: no timescale: give times in ticks" % names.get(at, at))
    if status in (1, 2):
        return UsageError(text)
    return RunFailed("%s: %s" % (names[at], what) if at in names else text)
