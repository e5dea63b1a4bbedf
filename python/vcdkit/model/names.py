"""Names, and which variables they select: the rule of all commands and of the package.

A name selects the variable that has this path, and all whose path goes on behind it with a dot, as
the path of what is in a scope does. If there is neither, it selects the variable that has this path
with a range after it, as `tb.q` selects `tb.q[3:0]`, but only if no other path is the name with a
range. A name with a range selects only what has this very path."""
import itertools
import re
from typing import Collection, Container, Dict, Iterable, Iterator, List, Sequence, Set, Tuple

RANGE = re.compile(r"\[(-?\d+):(-?\d+)\]\Z")
FIELD = re.compile(r"\s*\[(-?\d+)(?::(-?\d+))?\]\Z")  # a range, or one bit


def bare(path: str) -> str:
    """Returns a path without the range, as tb.q of tb.q[3:0]."""
    return RANGE.sub("", path) if path[-1:] == "]" else path


def range_in(path: str) -> str:
    """Returns the range at the end of a path, as [3:0] of tb.q[3:0]; nothing if it has none."""
    return path[len(bare(path)):]


def plain(path: str) -> str:
    """Returns a path without its range and escapes: tb.u.q of tb.\\u.q[3:0], and of tb.\\u/q."""
    return re.sub(r"(?<![^.])\\", "", bare(path)).replace("/", ".")


def field_of(name: str) -> Tuple[int, ...]:
    """Returns the range with which a name ends, of one bit its number twice, else nothing."""
    found = FIELD.search(name)
    return (int(found.group(1)), int(found.group(2) or found.group(1))) if found else ()


def fronts(path: str) -> Iterator[str]:
    """Returns the names that select a path, itself first: all before a dot or its end."""
    while path:
        yield path
        path = path.rpartition(".")[0]


def full_names(names: Collection[str], paths: Sequence[str], known: Container[str],
               is_signal: bool = False) -> Dict[str, str]:
    """Returns for each name the name in full: tb.q[3:0] for tb.q if that is only a path with a
    range, else the name. `known` contains the paths. If a name can only be that of a signal, as in
    a condition, it does not matter whether there is such a scope."""
    left = {name for name in names if name and name not in known}
    found: Dict[str, Set[str]] = {}
    for path in paths if left else ():
        if path[-1:] == "]" and bare(path) in left:
            found.setdefault(bare(path), set()).add(path)
    scopes = set() if is_signal or not found else {
        name for path in paths for name in fronts(path.rpartition(".")[0]) if name in found}
    full = {name: next(iter(its)) for name, its in found.items()
            if len(its) == 1 and name not in scopes}
    return {name: full.get(name, name) for name in names}


def places_of(names: Collection[str], paths: Sequence[str]) -> Dict[str, List[int]]:
    """Returns of each name the places of the paths that it selects."""
    found: Dict[str, List[int]] = {name: [] for name in names}
    for at, path in enumerate(paths):
        while path:
            if path in found:
                found[path].append(at)
            path = path.rpartition(".")[0]
    return found


def names_for(chosen: Sequence[str], paths: Iterable[str]) -> List[str]:
    """Returns as few names as select these paths and no other ones."""
    mixed = {name for path in set(paths).difference(chosen) for name in fronts(path)}
    names: Dict[str, bool] = {}
    for path in chosen:
        names[[path, *(one for one in fronts(path) if one not in mixed)][-1]] = True
    return list(names)


def utf8_names(names: Sequence[str]) -> List[str]:
    """Returns names that select all that some names do, and that are UTF-8, as only such words can
    be given to vcdkit: scopes for others, or no names, which means all."""
    words = []
    for name in names:
        scope = next((one for one in fronts(name) if not re.search("[\udc80-\udcff]", one)), "")
        if name and not scope:
            return []
        words.append(scope)
    return words


def hint(name: str, paths: Sequence[str]) -> str:
    """Returns what to write instead of a name that selects nothing: paths, or else scopes."""
    its = [(one, plain(one)) for one in dict.fromkeys(itertools.chain(paths, *map(fronts, paths)))]
    is_pattern, base = re.search(r"[*?]", name), FIELD.sub("", name)
    bit = re.fullmatch(r"(.+)@(\d+)", name)
    if bit and bit[1] in map(bare, paths):
        return "; for a bit, write %s[%s]" % bit.groups()
    asked, core = (plain(name), plain(base)), _core(plain(name))
    near = ([one for one, text in its if text in asked]
            or [one for one, text in its if _core(text) == core]
            or sorted((one for one, text in its if _has(_core(text), core)),
                      key=lambda one: one.count("."))
            or ([] if is_pattern else _like(base, paths)))
    if near:
        return "; there is " + ", ".join(near[:3]) + ", .." * (len(near) > 3)
    return ("; a name is not a pattern: vcdkit-find and find() take regular expressions"
            if is_pattern else "; for an expression, write spaces around =" if "=" in name else
            "; names are the paths that `vcdkit list` writes, and the scopes in these paths")


def _core(path: str) -> str:
    """Returns a path without numbers in brackets, in lower case."""
    return re.sub(r"\s*\[[-\d:]*\]", "", path).lower()


def _has(path: str, name: str) -> bool:
    """Whether a path is a name with more scopes between or before those of the name."""
    left, words = reversed(path.split(".")), name.split(".")
    return next(left) == words[-1] and all(word in left for word in words[-2::-1])


def _like(name: str, paths: Sequence[str]) -> List[str]:
    """Returns up to three names that differ from one that selects nothing in the first of its words
    that no path has there, and are like it: a path, or a scope if there is no such path."""
    import difflib  # only a message needs it
    front, word, rest = "", *name.partition(".")[::2]
    its = {path.partition(".")[0] for path in paths}
    while word in its:
        front, (word, rest) = front + word + ".", rest.partition(".")[::2]
        its = {path[len(front):].partition(".")[0] for path in paths if path.startswith(front)}
    full: Dict[str, List[str]] = {}  # of each word without its range those that have one
    for one in sorted(its):
        full.setdefault(bare(one), []).append(one)
    near = [front + one for short in difflib.get_close_matches(word, sorted(full))
            for one in full[short]][:3]
    return [one + "." + rest if one + "." + rest in paths else one for one in near]
