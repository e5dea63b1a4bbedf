"""Writes a dump as another tool would: other codes, ticks, scopes, order and spelling."""
import random
from typing import Dict, List, NamedTuple, Optional, Sequence

from dumps import LAST, Dump, Item, Real, Variable, bare


class Changed(NamedTuple):
    """What is different in the other dump, besides what does not matter: how many values are
    others, one that is left out or comes later, its end, its ticks, a scope around all,
    variables that are left out, one that has a bit more, and names without ranges."""

    values: int = 0
    deletes: bool = False
    moves: bool = False
    end: int = 0  # -1: it ends earlier; 1: it ends later
    is_finer: bool = False
    top: str = ""
    without: Sequence[Variable] = ()
    wider: Optional[Variable] = None
    is_bare: bool = False


class OtherDump:
    """Writes the other dump."""

    def __init__(self, dump: Dump, of: random.Random, changed: Changed):
        self.dump, self.random, self.changed = dump, of, changed
        names = [one.code for one in dump.variables]
        of.shuffle(names)
        is_same = of.random() < .3
        self.codes = {code: code if is_same else "k%d" % at for at, code in enumerate(names)}
        self.lines: List[str] = []
        self.factor = 1
        self._declare()
        self._write_body()

    @property
    def text(self) -> bytes:
        """The text."""
        return ("\n".join(self.lines) + "\n").encode("utf-8", "surrogateescape")

    def _declare(self) -> None:
        """Writes the header, each variable in scopes of its own."""
        scale, variables = self.dump.scale, list(self.dump.variables)
        if scale and scale[0] > 1 and self.changed.is_finer and self.dump.end * 10 < LAST - 100:
            scale, self.factor = (scale[0] // 10, scale[1]), 10
        if scale and (self.factor > 1 or self.random.random() < .95):
            self.lines.append("$timescale %d%s $end" % scale)
        if self.random.random() < .5:
            self.random.shuffle(variables)
        for one in variables:
            if one not in self.changed.without:
                chain = self.changed.top.split(".") * bool(self.changed.top) + list(one.chain)
                self.lines += ["$scope module %s $end" % name for name in chain]
                self.lines.append(self._declaration(one))
                self.lines += ["$upscope $end"] * len(chain)
        self.lines.append("$enddefinitions $end")

    def _declaration(self, of: Variable) -> str:
        """Returns a declaration; a range is a matter of taste unless the names need it."""
        name = bare(of.name) if self.changed.is_bare else of.name
        size, code, kind = of.size, self.codes[of.code], of.type
        if of is self.changed.wider:
            size, code = size + 1, "wider"
        elif size > 1 and of.is_numbered and name == bare(name) and name[-1] != "]":
            is_alone = len(self.dump.of_path[of.path]) == 1
            if not is_alone or self.random.random() < .7:
                name += " [%d:%d]" % (of.left, of.right)
        elif of.is_numbered and name[-1] != "]":
            name += " [%d]" % of.left
        if kind in ("wire", "reg", "tri"):
            kind = self.random.choice(["wire", "reg", "tri"])
        return "$var %s %d %s %s $end" % (kind, size, code, name)

    def _changed_items(self) -> List[Item]:
        """Returns the changes with what is different."""
        items, of = list(self.dump.items), self.random
        for _ in range(self.changed.values if items else 0):
            at = of.randrange(len(items))
            item = items[at]
            if isinstance(item.value, Real):
                text = of.choice(["7", "1.5000000001", "0", item.value.text, "nan"])
                items[at] = item._replace(value=Real(text))
            elif not self.dump.of_code[item.code].is_event:
                place = of.randrange(len(item.value))
                items[at] = item._replace(value=item.value[:place] + of.choice("01xz")
                                          + item.value[place + 1:])
        if items and self.changed.deletes:
            del items[of.randrange(len(items))]
        if len(items) > 1 and self.changed.moves:
            at = of.randrange(len(items) - 1)
            items[at] = items[at]._replace(time=items[at + 1].time, section="")
        return items

    def _write_body(self) -> None:
        """Writes the changes, by time."""
        items = self._changed_items()
        times = sorted({*self.dump.times, *(item.time for item in items)})
        if self.changed.end < 0 and len(times) > 1:
            times = times[:-self.random.randint(1, len(times) - 1)]
        elif self.changed.end > 0 and times and times[-1] + 5 < LAST // self.factor:
            times.append(times[-1] + 5)
        by_time: Dict[int, List[Item]] = {}
        for item in items:
            by_time.setdefault(item.time, []).append(item)
        for time in times:
            self.lines.append("#%d" % (time * self.factor))
            self._write_time(by_time.get(time, []))

    def _write_time(self, items: Sequence[Item]) -> None:
        """Writes the changes of a time: of sections only `$dumpvars` matters."""
        written = {one.code for one in self.dump.variables
                   if one not in self.changed.without and one is not self.changed.wider}
        is_open = False
        for item in items:
            of = self.dump.of_code[item.code]
            if item.code not in written or of.is_event and item.section:
                continue
            if (item.section == "$dumpvars") != is_open:
                is_open = not is_open
                self.lines.append("$dumpvars" if is_open else "$end")
            self.lines += [self._change(item, of.size)] * (
                1 + (self.random.random() < .1 and not of.is_event))
        self.lines += ["$end"] * is_open

    def _change(self, item: Item, size: int) -> str:
        """Returns a value change."""
        code = self.codes[item.code]
        if isinstance(item.value, Real):
            return "r%s %s" % (item.value.text, code)
        return item.value + code if size == 1 else "b%s %s" % (item.value, code)
