"""Lists the variables whose paths match a regular expression, or writes a dump of only these

A REGEX is a Python regular expression, which may match anywhere in a path: 'count$',
'^tb\\.cpu\\.', '(?i)clk'. If there are several, a path has to match one of them; if there is none,
all variables are listed. With --names, the variables that the names in a file select are listed
too. Each line has the path, type, size and code, as in vcdkit list. With --tree, each line has a
scope, indented below the scope that contains it, and the number of matching variables in it and in
the scopes below it.

examples:
  vcdkit-find sim.vcd 'count$'
  vcdkit-find --pick --names view.gtkw sim.vcd > view.vcd
  vcdkit-find --tree sim.vcd | head -n 20"""
import sys
from typing import Callable, Dict, List

from ..forms.text import write_json
from ..model.signals import Scope, Signal
from ..questions.dump import compiled
from ..questions.picked import picked
from . import JSON, command, dump_of, parser


def write_tree(top: Scope, is_found: Callable[[Signal], bool]) -> None:
    """Writes the scopes that have signals which are found, each above those in it."""
    scopes = list(top.walk())
    counts: Dict[int, int] = {}
    depths = {id(top): -1}
    for scope in reversed(scopes):
        counts[id(scope)] = sum(map(is_found, scope.signals)) + sum(
            counts[id(inner)] for inner in scope.scopes)
    counts[id(top)] = sum(map(is_found, top.signals))  # it counts only its own
    for scope in scopes:
        depth = depths[id(scope)]
        depths.update((id(inner), depth + 1) for inner in scope.scopes)
        if counts[id(scope)]:
            print("%s%s %d" % ("  " * depth, scope.name or "(top)", counts[id(scope)]))


@command
def main(words: List[str]) -> int:
    options = parser("vcdkit-find FILE [REGEX ..]", __doc__,
                     failed="no path matches, or not a valid dump")
    form = options.add_mutually_exclusive_group()
    form.add_argument("--pick", action="store_true", help="write a dump of only these variables")
    form.add_argument("--tree", action="store_true",
                      help="list scopes, with the number of variables in each")
    form.add_argument("--json", action="store_true", help=JSON)
    options.add("--names").file()
    options.add_argument("patterns", metavar="REGEX", nargs="*", default=[],
                         help="a regular expression [default: all variables]")
    asked = options.parse_args(words)
    asked.names = []
    dump, patterns = dump_of(asked), list(map(compiled, asked.patterns))
    named, is_all = {one.path for one in dump.select(asked.names)}, not patterns and not asked.names

    def is_found(one: Signal) -> bool:
        return is_all or one.path in named or any(
            pattern.search(one.path) for pattern in patterns)

    places = [at for at, one in enumerate(dump.signals) if is_found(one)]
    found = [dump.signals[at] for at in places]
    if not is_all and not found:
        hint = "; brackets of a path are \\[ and \\]" if "[" in "".join(asked.patterns) else ""
        print("vcdkit-find: no path matches" + hint, file=sys.stderr)
        return 1
    if asked.pick:
        sys.stdout.buffer.writelines(picked(dump, places) if places else dump.cut().blocks())
    elif asked.tree:
        write_tree(dump.tree, is_found)
    for one in found if not asked.pick and not asked.tree else ():
        write_json(one._asdict()) if asked.json else print(*one)
    return 0
