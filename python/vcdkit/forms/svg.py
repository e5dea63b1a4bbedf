"""A picture of waveforms as SVG."""
import html
import math
import os
from typing import Callable, Dict, List, Optional, Sequence, Tuple, Union

from ..model.signals import Declaration, Signal
from ..model.times import UNITS, Timescale
from ..model.values import Value
from ..questions.lanes import Lanes, Pixels, Point, Several
from ..reading.source import Source
from .junit import clean
from .text import Form, form_of, shown

ROW, HIGH, PAD, TOP, CHAR = 26, 16, 10, 34, 6.7  # pixels
Shapes = Dict[str, List[str]]  # the parts of the path of each class
CURVE = 3 * HIGH  # pixels: how high a curve is
MAX_NAME = 40  # letters
LEAST_ROOM = 3  # letters of a value that is cut
DARK = {"back": "#10161d", "text": "#d8dee4", "axis": "#8b98a5", "grid": "#2b3540",
        "bit": "#3fd07f", "lane": "#58a6ff", "curve": "#d2a8ff", "x": "#ff4040", "z": "#ffa020",
        "several": "#5b6570", "mark": "#ff6060"}
LIGHT = {"back": "#ffffff", "text": "#1f2328", "axis": "#59636e", "grid": "#d8dee4",
         "bit": "#1a7f37", "lane": "#0969da", "curve": "#8250df", "x": "#cf222e", "z": "#bc4c00",
         "several": "#afb8c1", "mark": "#cf222e"}
STYLE = """text{font:11px 'DejaVu Sans Mono',Menlo,Consolas,monospace;fill:%(text)s}
.axis{fill:%(axis)s}.marked{fill:%(mark)s}
.mark{stroke:%(mark)s;stroke-dasharray:4 3}.grid{stroke:%(grid)s}
path{fill:none;stroke-width:1.4}.bit{stroke:%(bit)s}.lane{stroke:%(lane)s;fill:%(lane)s22}
.curve{stroke:%(curve)s}.x{stroke:%(x)s;fill:%(x)s33}.z{stroke:%(z)s}
.several{fill:%(several)s}"""


def unit_of(scale: Optional[Timescale], ticks: int) -> Tuple[str, float]:
    """Returns the unit in which a span of ticks is a handy number, and its ticks."""
    if not scale:
        return "", 1
    at = UNITS.index(scale.unit)
    while at and ticks * scale.number >= 5 * 1000 ** (UNITS.index(scale.unit) - at + 1):
        at -= 1
    return UNITS[at], 1000 ** (UNITS.index(scale.unit) - at) / scale.number


def value_text(value: object, form: Union[str, Form], room: int) -> str:
    """Returns a value as a lane has it: the last digits for which there is room."""
    text = ("%g" % value if isinstance(value, float)
            else shown(value if isinstance(value, str) else None, form))
    is_number = isinstance(value, Value) and value.is_known and not form_of(form).is_letters
    if len(text) > room and is_number:
        text = text.lstrip("0") or "0"
    if len(text) > room:
        text = "+" + text[1 - room:] if room >= LEAST_ROOM else ""
    return text


def class_of(value: object, known: str) -> str:
    """Returns the class of a value: x, z, or that of known ones."""
    if not isinstance(value, Value):
        return known if isinstance(value, float) and math.isfinite(value) else "x"
    return "x" if "x" in value else "z" if "z" in value else known


def short(name: str) -> str:
    """Returns the end of a name that is too long."""
    return name if len(name) <= MAX_NAME else ".." + name[2 - MAX_NAME:]


# Where a value or a block begins and ends, what it is, and what was there just before.
Piece = Tuple[float, float, object, object]


class Picture:
    """The shapes of an SVG, and where a time is in it."""

    def __init__(self, pixels: Pixels, left: int):
        self.pixels, self.begin, self.span = pixels, pixels.window.begin, pixels.length
        self.left, self.right = left, left + pixels.width
        self.out: List[str] = []

    def x(self, time: float) -> float:
        """Returns where a time is, in pixels from the left."""
        return self.left + (time - self.begin) * self.pixels.width / self.span

    def add(self, form: str, *parts: object) -> None:
        """Adds an element."""
        self.out.append(form % parts)

    def text(self, x: float, y: float, text: str, kind: str = "", anchor: str = "start",
             title: str = "") -> None:
        """Writes a text, and a longer one where the mouse is over it."""
        text, title = (html.escape(clean(one), False) for one in (text, title))
        self.add('<text x="%.1f" y="%.1f" class="%s" text-anchor="%s">%s%s</text>', x, y, kind,
                 anchor, "<title>%s</title>" % title if title else "", text)

    def shapes(self, of_kind: Shapes) -> None:
        """Draws a path of each class."""
        for kind, parts in of_kind.items():
            self.add('<path class="%s" d="%s"/>', kind, "".join(parts))

    def axis(self, scale: Optional[Timescale], bottom: int) -> None:
        """Draws a grid with times, which are 1, 2 or 5 of a power of ten apart."""
        unit, ticks = unit_of(scale, self.span)
        step = next(one * 10**power for power in range(-3, 24) for one in (1, 2, 5)
                    if one * 10**power * ticks * self.pixels.width / self.span >= 90
                    and one * 10**power * ticks > 0.999)  # no part of a tick
        number = math.ceil(self.begin / (step * ticks))
        while number * step * ticks <= self.begin + self.span:
            x = self.x(number * step * ticks)
            self.add('<path class="grid" d="M%.1f %dV%d"/>', x, TOP - 6, bottom)
            self.text(x, TOP - 12, ("%.3f" % (number * step)).rstrip("0").rstrip(".") + unit,
                      "axis", "middle")
            number += 1

    def places(self, points: List[Point]) -> List[Piece]:
        """Returns where each point begins and ends. A block is a pixel, and the value that it ends
        with begins behind it."""
        places: List[float] = []
        last: object = None
        for time, value in points:
            is_block = isinstance(value, Several)
            places.append(self.left + self.pixels.of(time) if is_block
                          else places[-1] + 1 if isinstance(last, Several) else self.x(time))
            last = value
        return [(x, to, value, before) for x, to, (_, value), (_, before) in zip(
            places, [*places[1:], self.right], points, [(0, None), *points])]

    def pieces(self, points: List[Point]) -> List[Piece]:
        """Returns where each value begins and ends, but for one that ends where it begins; blocks
        that look the same are one."""
        its = self.places(points)
        its = [one for one in its[:-1] if one[0] < one[1]] + its[-1:]
        its = [one for at, one in enumerate(its) if not at or one[2] != its[at - 1][2]]
        ends = [x for x, *_ in its[1:]] + [self.right]
        return [(x, to, value, before) for (x, _, value, before), to in zip(its, ends)]

    def bit(self, y: int, points: List[Point]) -> None:
        """Draws a line, high or low; z in the middle."""
        height: Dict[object, float] = {"0": y + HIGH, "1": y, "z": y + HIGH / 2}
        of_kind: Shapes = {}
        for x, to, value, before in self.pieces(points):
            if isinstance(value, Several):
                of_kind.setdefault(value.kind, []).append(box(x, to, y, HIGH))
            elif value not in height:  # x, or the text of a real number
                of_kind.setdefault("x", []).append(box(x, to, y, HIGH))
            else:
                edge = "M%.1f %.1fV%.1f" % (x, height.get(before, height[value]), height[value])
                of_kind.setdefault(class_of(value, "bit"), []).append(edge + "H%.1f" % to)
        self.shapes(of_kind)

    def lane(self, y: int, points: List[Point], form: Union[str, Form]) -> None:
        """Draws a lane with slanted ends, and the values that fit."""
        of_kind: Shapes = {}
        texts = []
        for x, to, value, _ in self.pieces(points):
            if isinstance(value, Several):
                of_kind.setdefault(value.kind, []).append(box(x, to, y, HIGH))
                continue
            slant, middle = min(3, (to - x) / 2), y + HIGH / 2
            shape = "M%.1f %.1fL%.1f %.1fH%.1fL%.1f %.1fL%.1f %.1fH%.1fZ" % (
                x, middle, x + slant, y, to - slant, to, middle, to - slant, y + HIGH, x + slant)
            of_kind.setdefault(class_of(value, "lane"), []).append(shape)
            text = value_text(value, form, int((to - x - 2 * slant - 2) / CHAR))
            if text:
                texts.append(((x + to) / 2, text))
        self.shapes(of_kind)
        for middle, text in texts:
            self.text(middle, y + HIGH - 4, text, "", "middle")

    def curve(self, y: int, points: List[Point]) -> None:
        """Draws real numbers as steps between the least and the largest one, which it names."""
        pieces = self.pieces(points)
        of_kind: Shapes = {}
        least, largest = bounds([value for _, _, value, _ in pieces])

        def height(number: float) -> float:  # halves, as a difference may be infinite
            part = (number / 2 - least / 2) / ((largest / 2 - least / 2) or 1)
            return y + CURVE * (1 - part)

        def level(value: object) -> Optional[float]:
            return height(value) if isinstance(value, float) and math.isfinite(value) else None

        for x, to, value, before in pieces:
            at, was, kind = level(value), level(before), "curve"
            if isinstance(value, Several) and value.least <= value.largest:
                ends = height(value.least), height(value.largest)
                part = "".join("M%.1f %.1fV%.1f" % (pixel + 0.5, *ends)
                               for pixel in range(int(x), int(to)))
            elif at is not None:
                part = "M%.1f %.1fV%.1fH%.1f" % (x, at if was is None else was, at, to)
            else:
                part, kind = box(x, to, y, CURVE), "x"
            of_kind.setdefault(kind, []).append(part)
        self.shapes(of_kind)
        for number, below in (largest, y + 9), (least, y + CURVE - 2):
            self.text(self.left + 3, below, "%g" % number, "axis")

    def events(self, y: int, points: List[Point]) -> None:
        """Draws a tick for each time, a block for several."""
        of_kind: Shapes = {}
        for x, to, value, before in self.places(points):
            if isinstance(value, Several):
                of_kind.setdefault("several", []).append(box(x, to, y, HIGH))
            elif not isinstance(before, Several):  # else it is in the block
                of_kind.setdefault("bit", []).append("M%.1f %.1fv%d" % (x, y, HIGH))
        self.shapes(of_kind)

    def row(self, y: int, signal: Signal, points: List[Point], name: str,
            form: Union[str, Form]) -> None:
        """Draws a signal."""
        self.text(self.left - PAD, y + HIGH - 4, name, anchor="end", title=signal.path)
        if signal.type == "event":
            self.events(y, points)
        elif signal.is_real:
            self.curve(y, points)
        elif signal.size == 1:
            self.bit(y, points)
        else:
            self.lane(y, points, form)

    def mark(self, time: int, text: str, bottom: int) -> None:
        """Draws a line at a time, with a label."""
        x = self.x(time)
        self.add('<path class="mark" d="M%.1f %dV%d"/>', x, TOP - 6, bottom)
        self.text(x, bottom + 11, text, "marked", "middle")

    def write(self, bottom: int, title: str, colours: Dict[str, str]) -> None:
        """Writes the SVG, with a title for those who do not see it."""
        size = self.right + 3 * PAD, bottom + 2 * PAD
        print('<svg xmlns="http://www.w3.org/2000/svg" width="%d" height="%d" viewBox="0 0 %d %d" '
              'role="img">' % (*size, *size))
        print("<title>%s</title>" % html.escape(clean(title), False))
        print('<style>%s</style><rect width="100%%" height="100%%" fill="%s"/>'
              % (STYLE % colours, colours["back"]))
        print("\n".join(self.out) + "\n</svg>")


def box(x: float, to: float, y: int, high: int) -> str:
    """Returns a rectangle as a part of a path."""
    return "M%.1f %.1fH%.1fv%dH%.1fZ" % (x, y, to, high, x)


def bounds(values: Sequence[object]) -> Tuple[float, float]:
    """Returns the least and the largest number of a curve."""
    numbers = [value for value in values if isinstance(value, float) and math.isfinite(value)]
    several = [value for value in values
               if isinstance(value, Several) and value.least <= value.largest]
    return (min([*numbers, *(one.least for one in several)], default=0.0),
            max([*numbers, *(one.largest for one in several)], default=0.0))


def draw(dump: Source, chosen: Sequence[Declaration], lanes: Lanes, mark: Optional[int],
         form: Callable[[Signal], Union[str, Form]], is_light: bool) -> None:
    """Draws and writes the picture."""
    scopes = os.path.commonprefix([[scope.path for scope in one.scopes] for one in chosen])
    scope = scopes[-1] + "." if scopes else ""
    names = [short(one.signal.path[len(scope):]) for one in chosen]
    # A time of the axis begins before the traces.
    left = PAD * 2 + math.ceil(CHAR * max(map(len, [short(scope) + "0ns", *names])))
    picture, window = Picture(lanes.pixels, left), lanes.pixels.window
    bottom = TOP
    rows = []
    for one in chosen:
        rows.append(bottom)
        bottom += ROW + (CURVE - HIGH) * one.signal.is_real
    picture.axis(dump.timescale, bottom)
    if scope:
        picture.text(PAD, TOP - 12, short(scope), "axis", title=scope)
    for y, (signal, *_), name in zip(rows, chosen, names):
        picture.row(y, signal, lanes.of_code[signal.code.encode()].points, name,
                    form(signal))
    if mark is not None:
        picture.mark(mark, dump.time(mark), bottom)
    title = "Waveforms of %s from %s to %s" % (
        ", ".join(one.signal.path for one in chosen), *map(dump.time, (window.begin, window.last)))
    picture.write(bottom, title, LIGHT if is_light else DARK)
