"""What a picture of vcdkit-wave shows of a signal: its shapes, with their classes and places."""
import math
import re
from fractions import Fraction
from typing import Any, List, NamedTuple, Optional, Sequence, Tuple, Union
import xml.etree.ElementTree as xml

from dumps import Real, Value, Variable, number
from shown import is_known, shown

HIGH, CURVE = 16, 48  # pixels: how high a row is, and a row of real numbers
LETTER = 6.7  # pixels
NEAR = .06  # pixels: a picture has places with one decimal
NAMESPACE = "{http://www.w3.org/2000/svg}"
NUMBER = r"(-?[\d.]+)"
# The parts of a path: a box, a lane with slanted ends, a line after an edge, a line, a trigger; and
# where in them it begins, ends, and has its heights.
PARTS: Sequence[Tuple[Any, int, int, Tuple[int, ...]]] = (
    (re.compile(r"%s %sH%sv\d+H\1Z" % ((NUMBER,) * 3)), 1, 3, ()),
    (re.compile(r"%s %sL%s %sH%sL%s .*Z" % ((NUMBER,) * 6)), 1, 6, ()),
    (re.compile(r"%s %sV%sH%s" % ((NUMBER,) * 4)), 1, 4, (2, 3)),
    (re.compile(r"%s %sV%s" % ((NUMBER,) * 3)), 1, 1, (2, 3)),
    (re.compile(r"%s %sv16" % ((NUMBER,) * 2)), 1, 1, ()))
Points = Sequence[Tuple[int, Value]]


class Shape(NamedTuple):
    """A shape: its class, the text in it, where it begins and ends in pixels, and if it is a line,
    its heights below the top of the row, first that of its left end."""

    kind: str
    text: str
    begin: float
    end: float
    heights: Tuple[float, ...] = ()

    def is_like(self, other: "Shape") -> bool:
        """Whether both are the same but for what is rounded."""
        mine, its = ((one.begin, one.end, *one.heights) for one in (self, other))
        return self[:2] == other[:2] and len(mine) == len(its) and all(
            abs(a - b) < NEAR for a, b in zip(mine, its))


class Row(NamedTuple):
    """A row of so many pixels that shows the values at their times, the last one up to an end, in a
    window from a time on."""

    of: Variable
    points: Points
    end: int
    begin: Union[int, Fraction]
    length: Union[int, Fraction]
    width: int
    form: str

    def shapes(self) -> List[Shape]:
        """Returns the shapes of blocks, and of each value from its time, or from the end of the
        block that it is the last value of, to the next value or block. The last value is there even
        if it has no length."""
        of, pixels = self.of, self.pixels()
        busy = {one for one in pixels if pixels.count(one) > 1}
        found, before = self._blocks(pixels), None  # type: List[Shape], Optional[float]
        places = [(at, at + 1) if at in busy else (self._place(time),) * 2
                  for at, (time, _) in zip(pixels, self.points)]
        for number_of, ((_, x), (to, _), (_, value), at) in enumerate(zip(
                places, [*places[1:], (self.width, self.width)], self.points, pixels), 1):
            height = self._height(value)
            if of.is_event:
                found += [Shape("bit", "", x, x)] * (at not in busy)
            elif x < to or number_of == len(pixels):
                before = height if before is None or at in busy else before
                heights = () if height is None or before is None else (before, height)
                text = self._text(value, to - x) if of.size > 1 and not of.is_real else ""
                found.append(Shape(self._class(value), text, x, to, heights))
            before = height
        return sorted(found, key=lambda one: (one.kind, one.begin))

    def _place(self, time: int) -> float:
        return float((time - self.begin) * self.width / self.length)

    def pixels(self) -> List[int]:
        """Returns the pixels in which the values begin."""
        return [int((time - self.begin) * self.width // self.length) for time, _ in self.points]

    def _blocks(self, pixels: List[int]) -> List[Shape]:
        """Returns the pixels with several changes. Blocks of values that look the same are one; a
        curve has a line from the least to the largest number in each of them."""
        of, found = self.of, []  # type: Variable, List[Shape]
        for at in sorted({one for one in pixels if pixels.count(one) > 1}):
            its = [self._height(value) for pixel, (_, value) in zip(pixels, self.points)
                   if pixel == at]
            known = [one for one in its if one is not None] if of.is_real else []
            kind = "x" if (of.is_real or self.has_x(at)) and not of.is_event else "several"
            if known:
                found.append(Shape("curve", "", at + .5, at + .5, (max(known), min(known))))
            elif found and (found[-1].kind, found[-1].end) == (kind, at) and not of.is_event:
                found[-1] = found[-1]._replace(end=at + 1)
            else:
                found.append(Shape(kind, "", at, at + 1))
        return found

    def has_x(self, at: int) -> bool:
        """Whether a value has an x at some time of a pixel."""
        ends = [time for time, _ in self.points[1:]] + [self.end]
        return any(isinstance(value, str) and "x" in value
                   and (time - self.begin) * self.width < (at + 1) * self.length
                   and (to - self.begin) * self.width > at * self.length
                   for (time, value), to in zip(self.points, ends))

    def _height(self, value: Value) -> Optional[float]:
        """Returns how far below the top of its row a value is. `None` if it is no line: an x, or a
        vector."""
        if not self.of.is_real:
            return {"0": HIGH, "1": 0, "z": HIGH / 2}.get(
                str(value)) if self.of.size == 1 else None
        numbers = [one for _, its in self.points for one in [finite(its)] if one is not None]
        real = finite(value)
        return None if real is None else CURVE * (
            1 - (real / 2 - min(numbers) / 2) / (max(numbers) / 2 - min(numbers) / 2 or 1))

    def _class(self, value: Value) -> str:
        """Returns the class of a value, which gives it its colour."""
        if isinstance(value, Real):
            return "x" if finite(value) is None else "curve"
        known = "bit" if self.of.size == 1 else "lane"
        return "x" if "x" in value else "z" if "z" in value else known

    def _text(self, value: Value, width: float) -> str:
        """Returns the text in a lane: as much of a value as there is room for between its slanted
        ends, first without zeros in front, then only its last digits, if these are two or more."""
        text, room = shown(value, self.form), int((width - 2 * min(3, width / 2) - 2) / LETTER)
        if len(text) > room and self.form != "--ascii" and is_known(str(value)):
            text = text.lstrip("0") or "0"
        return text if len(text) <= room else "+" + text[1 - room:] if room > 2 else ""


def finite(value: Value) -> Optional[float]:
    """Returns a real number that can be drawn."""
    real = number(value.text) if isinstance(value, Real) else None
    return real if real is not None and math.isfinite(real) else None


def rows_of(text: str, width: int) -> List[Tuple[str, List[Shape]]]:
    """Returns the rows of a picture, each with the path of its signal and its shapes."""
    root = xml.fromstring(text)
    left, top = int(root.get("width", "")) - width - 30, 0.0
    rows: List[Tuple[str, List[Shape]]] = []
    for one in root:
        title, kind = one.find(NAMESPACE + "title"), one.get("class", "")
        if one.get("text-anchor") == "end" and title is not None:
            top = float(one.get("y", "")) - 12
            rows.append((title.text or "", []))
        elif rows and one.tag == NAMESPACE + "path":
            rows[-1][1].extend(shape_of(kind, part, left, top)
                               for part in one.get("d", "").split("M")[1:])
        elif rows and not kind and one.tag == NAMESPACE + "text":  # the lane in whose middle it is
            its, place = rows[-1][1], float(one.get("x", "")) - left
            at = min(range(len(its)), key=lambda at: abs(its[at].begin + its[at].end - 2 * place))
            its[at] = its[at]._replace(text=one.text or "")
    return [(path, sorted(its, key=lambda one: one.kind)) for path, its in rows]


def shape_of(kind: str, part: str, left: float, top: float) -> Shape:
    """Returns the shape of a part of a path, in a row that begins at a place."""
    for form, begin, end, heights in PARTS:
        found = form.fullmatch(part)
        if found:
            return Shape(kind, "", float(found[begin]) - left, float(found[end]) - left,
                         tuple(float(found[at]) - top for at in heights))
    raise AssertionError(part)
