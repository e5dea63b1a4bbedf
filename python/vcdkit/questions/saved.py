"""Files of names: a list, a save file of GTKWave, which has the signals that a viewer showed, or
exceptions with their reasons."""
import collections
import re
from typing import Callable, Dict, Iterable, List, Optional, Set

from ..errors import UsageError
from ..model.names import FIELD, places_of
from ..reading.files import lines_in, text_of_file
from ..reading.source import Source

# What only a save file has: a line of flags, or a setting.
SAVED = re.compile(r"(?m)^(?:@[0-9a-f]+|\[\w+\].*)\r?$")
# A line with a signal: an alias or the place of a bit may stand before it.
SIGNAL = re.compile(r"(?m)^(?:\+\{.*?\} |\(\d+\))?((?:[A-Za-z_\\$]|[^\0-\x7f])[^\s]*)\s*$")
GROUP = re.compile(r"(?m)^#\{.*?\} (.+)$")  # a vector that was put together of bits


def names_of(path: str, dump: Source) -> List[str]:
    """Returns the names in a file, each once. In a list, the first word of each line is a name, and
    a line that begins with `# ` is a comment. GTKWave adds a range to the names in a save file: if
    a name selects nothing, it is taken without the range."""
    text = text_of_file(path)
    if SAVED.search(text):
        found = [word for line in text.splitlines() for word in _signals_of(line)]
        known = places_of(found, dump.signals.columns()[0])
        found = [name if known[name] else FIELD.sub("", name) for name in found]
    else:
        found = [line.split()[0] for line in text.splitlines()
                 if line.strip() and not line.startswith("# ")]
    if not found:
        raise UsageError("%s: it has no name" % path)
    return list(dict.fromkeys(found))


class Exceptions:
    """Names of a file, each with the reason for which the values of its signals may be as they
    are. It notes which signals each of them leaves out."""

    def __init__(self, path: Optional[str], selected: Callable[[str], Iterable[str]]):
        """`selected` returns the paths that a name selects; none if it selects nothing."""
        self.of: Dict[str, str] = {}  # of each path that is an exception the line that has it
        self._lines: Dict[str, int] = {}  # of each line how many paths it selects
        self._left_out: Set[str] = set()
        for place, line in lines_in(path) if path is not None else ():
            name, *reason = line.split(None, 1)
            if not reason:
                raise UsageError("%s%s: write the reason after the name" % (place, name))
            paths, place = {*selected(name)}, "%s%s: " % (place, name)
            self._lines[place] = len(paths)
            self.of.update((one, place) for one in paths if one not in self.of)

    def has(self, path: str) -> bool:
        """Whether a signal is an exception; notes that it is left out."""
        self._left_out.update([path] if path in self.of else [])
        return path in self.of

    def notes(self) -> List[str]:
        """Returns for each line how many signals it leaves out, or a warning."""
        counts = collections.Counter(self.of[path] for path in self._left_out)
        return ["%sleaves out %d of %d signals" % (place, counts[place], size) if counts[place] else
                "warning: %s%s" % (place, "is not needed" if size else "selects nothing")
                for place, size in self._lines.items()]


def _signals_of(line: str) -> List[str]:
    """Returns the signals of a line of a save file."""
    group = GROUP.match(line)
    if group:
        return [SIGNAL.sub(r"\1", word) for word in group.group(1).split()]
    signal = SIGNAL.match(line)
    return [signal.group(1)] if signal else []
