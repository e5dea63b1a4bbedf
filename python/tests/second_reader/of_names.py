"""Asks what a name selects that may be none of a dump: the package, a condition, and pick."""
import re
from typing import List, Optional

from asker import Asker, Skip
from conditions import Operand, quoted
from dumps import Dump, Variable, bare, is_inside
from looks import looks_at_changes, starts
from of_package import same_answer
from vcdkit import Dump as Package
from vcdkit import VcdkitError

ENDS = ["", "", "", "[0]", "[1]", "[1:0]", "[3:2]", "[0:0]"]


def any_name(of: Asker) -> str:
    """Returns a name made of pieces of those of a dump."""
    one, other = of.random.choices(of.dump.variables, k=2)
    front = ".".join(one.chain[:of.random.randint(0, len(one.chain))])
    last = of.random.choice([other.name, bare(other.name), *other.chain[-1:]])
    name = (front + "." if front else "") + last
    name = of.random.choice([name, name, one.path, one.scope])
    return name + of.random.choice(ENDS)


def named(dump: Dump, name: str) -> List[Variable]:
    """Returns the variables of a path, else those of the one path that is the name with a range: a
    scope of that name does not matter in a condition."""
    its = [one for one in dump.variables if one.path == name]
    ranged = [one for one in dump.variables if bare(one.path) == name != one.path]
    return its or (ranged if len({one.path for one in ranged}) == 1 else [])


def operand(dump: Dump, name: str) -> Optional[Operand]:
    """Returns what a name of a condition is: the signal of this name, else, if it ends in [N] or
    [N:M], these bits of the signal before them. `None` if there is none, or several."""
    whole, bits = named(dump, name), re.fullmatch(r"(.*)\[(-?\d+)(?::(-?\d+))?\]", name)
    its = whole or named(dump, bits[1] if bits else name)
    if len({one.code for one in its}) != 1:
        return None
    one = its[0]
    if one.is_event or one.is_real:
        raise Skip
    if whole or not bits:
        return Operand(one, name, 0, one.size, False)
    ends = int(bits[2]), int(bits[3] or bits[2])
    places = [one.bits.index(end) for end in ends if end in one.bits]
    is_part = len(places) == 2 and places[0] <= places[1]
    return Operand(one, name, places[0], places[1] + 1, False) if is_part else None


def ask_any_name(of: Asker) -> None:
    """Asks what a name selects."""
    dump, name, whole = of.dump, any_name(of), Package(of.path)
    try:
        its: Optional[List[Variable]] = dump.selected([name])
    except KeyError:
        its = None
    try:
        got = [tuple(one) for one in whole.select(name)]
    except VcdkitError as error:
        got = [type(error).__name__]  # type: ignore[list-item]
    of.same("a name, select", name, got,
            ["UnknownName"] if its is None else [one.row for one in its])
    its = [one for one in dump.variables if is_inside(one.path, name)]  # it has its range
    try:
        got = [tuple(one) for one in whole.pick(name).signals]
    except VcdkitError as error:
        got = [type(error).__name__]  # type: ignore[list-item]
    of.same("a name, pick", name, got, [one.row for one in its] or ["UnknownName"])
    side, text = operand(dump, name), quoted(name) + " is not z"
    if side is None:
        try:
            times = list(whole.when(text))
        except VcdkitError:
            times = [-1]
        of.same("a name, condition", name, times, [-1])
        return
    looks = looks_at_changes(dump, {side.of.code})
    begins = starts(looks, lambda look: "-" not in str(side.at(look)) and "z" not in side.at(look),
                    False)
    same_answer(of, "a name, condition", name, lambda: whole.when(text),
                [look.time for look, is_one in zip(looks, begins) if is_one], dump.fault)
