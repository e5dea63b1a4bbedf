"""Asks vcdkit-wave: the data of a page, what its own script shows, and the shapes of a picture. The
page of vcdkit-diff is compared here too."""
import json
import re
from fractions import Fraction
from typing import Any, Callable, Dict, List, Optional, Sequence, Set, Tuple

from asker import Asker, Skip, Window, run
from dumps import LAST, Dump, Real, Value, Variable
from page_script import NODE, shown_by
from pictures import Row, rows_of
from shown import cell, same, shown, unsigned

EXACT = 1e-5  # pixels: a place on a page is a float
Span = Tuple[float, float]
Points = List[Tuple[int, Any]]


# ---- The data of a page.

def data_of(text: str) -> Any:
    """Returns the data of a page."""
    found = re.search(r'<script id="data" type="application/json">(.*?)</script>', text, re.S)
    assert found
    return json.loads(found[1])


def points_of(data: Any, stream: int, size: int) -> Points:
    """Returns the times and the values of a stream."""
    gaps, values, *places = data["streams"][stream]
    if places and places[0] is not None:
        values = [values[place] for place in places[0]]
    time, found = int(data["begin"]), []
    for gap, value in zip(gaps, values):
        time += gap
        found.append((time, value_of(value, size)))
    return found


def value_of(value: Any, size: int) -> Any:
    """Returns a value of a page: a number, `r` and a text, digits in hexadecimal, or digits in
    binary of which one is x or z."""
    if not isinstance(value, str):
        return float(value)
    if value[0] == "r":
        return cell(Real(value[1:]))
    if re.search("[xz]", value):
        return value.rjust(size, value[0] if value[0] in "xz" else "0")
    return bin(int(value, 16))[2:].rjust(size, "0")


def plain(value: Any) -> Any:
    """Returns a value so that NaN is equal to itself."""
    return "nan" if value != value else value


def wanted_points(dump: Dump, of: Variable, begin: int, end: int) -> List[Tuple[int, Value]]:
    """Returns the times of a window at which a signal has another value than before, and the
    values; the first one is at the begin."""
    if of.is_event:
        return [(step.time, "1") for step in dump.steps_in(begin, end) if of.code in step.triggers]
    found: List[Tuple[int, Value]] = []
    for time in sorted({begin} | {step.time for step in dump.steps_in(begin, end)}):
        value = dump.at(time).get(of.code)
        if value is not None and (not found or not same(value, found[-1][1])):
            found.append((time, value))
    return found


def page_of(of: Asker, words: List[str], window: Window) -> Optional[Any]:
    """Returns a page of vcdkit-wave and its data; None if it is refused for a reason that the pages
    give: a late window, a mark outside of it, or too many ticks."""
    said = run("wave", words)
    if of.is_late(window, "page", words, said) or of.has_fault(window, "page", words, said):
        return None
    end = of.dump.end_of(window.begin, window.end)
    marks = [of.dump.ticks_down(re.sub("--mark=", "", word)) for before, word in zip(
        ["", *words], words) if before == "--mark" or word.startswith("--mark=")]
    if end - window.begin > 2**53 or not all(window.begin <= mark <= end for mark in marks):
        of.same("page, refused", words, (said.status, bool(said.message)), (2, True))
        return None
    if not of.same("page", words, (said.status, said.message), (0, "")):
        return None
    return data_of(said.text), said


def ask_page(of: Asker) -> None:
    """Asks for a page of some signals."""
    dump, names, window = of.dump, of.names(3), of.window()
    words = of.form()[0] + [*window.words, "--html", *of.maybe(.2, "--light"),
                            *of.maybe(.3, "--mark", of.time())]
    words = of.placed(words, [of.path, *names])
    found = page_of(of, words, window)
    if not found:
        return
    data, end = found[0], dump.end_of(window.begin, window.end)
    # The drawing of a page needs a length, so a window of one tick has a span of 1.
    of.same("page, the window", words, (int(data["begin"]), data["span"]),
            (window.begin, max(1, end - window.begin)))
    its = dump.selected(names)
    if not of.same("page, the signals", words, [
            (name[:len(one.path)], kind, size)  # behind it, there may be the code
            for (name, kind, size, *_), one in zip(data["signals"], its)],
                   [(one.path, one.type, one.size) for one in its]):
        return
    for row, one in zip(data["signals"], its):
        of.same("page, the data", [*words, one.path], [
            (time, plain(value)) for time, value in points_of(data, row[3], one.size)],
            [(time, plain(cell(value))) for time, value in wanted_points(
                dump, one, window.begin, end)])


def ask_around(of: Asker) -> None:
    """Asks for a page around a time."""
    time, count = of.time(.5), of.random.choice([0, 1, 5, 50, 1000])
    middle, names = of.dump.ticks_down(time), of.names(2)
    unit = of.dump.scale[1] if of.dump.scale and of.happens(.5) else ""
    if of.dump.ticks(time) != middle or middle > of.dump.end:
        raise Skip
    text = of.dump.time_in(count, unit) + unit if unit else str(count)
    begin, end = max(0, middle - count), min(LAST, middle + count)
    words = of.placed(["--html", "--around", time, "--context", text], [of.path, *names])
    found = page_of(of, words, Window([], begin, end, True))
    if found:
        last = of.dump.end_of(begin, end)
        data = found[0]
        of.same("around", words, (int(data["begin"]), data["span"], data["mark"]),
                (begin, max(1, last - begin), middle - begin))


def same_page_of_two(of: Asker, words: List[str], path: str,
                     pairs: Sequence[Tuple[str, Variable, Variable]], dumps: Tuple[Dump, Dump],
                     names: Set[str], are_alike: Callable[[Any, Any], bool]) -> None:
    """Compares the page of a difference: it has the signals of the lines, values of the dumps, and
    the times at which these differ."""
    with open(path, encoding="utf-8") as file:
        data = data_of(file.read())
    tick, seen = int(data["tick"] or 0), set()
    of_name: Dict[str, List[Tuple[Variable, Variable]]] = {}
    for name, *both in pairs:
        of_name.setdefault(name, []).append((both[0], both[1]))
    is_moved = any("is shown" in line for line in data["about"])  # B at the edges of A
    for name, _, size, stream, side, differs in data["signals"]:
        seen.add(name)
        if len(of_name.get(name, ())) != 1 or is_moved:
            continue
        one, dump = of_name[name][0]["AB".index(side)], dumps["AB".index(side)]
        scale = dump.tick // tick if dump.tick and tick else 1
        if not one.is_event:
            points = points_of(data, stream, size)
            of.same("page of two", [*words, name, side], [
                (time, plain(value)) for time, value in points],
                [(time, plain(cell(dump.at(time // scale).get(one.code)))) for time, _ in points])
            if dumps[0].tick == dumps[1].tick and data["span"] > 1:  # of one tick it shows two
                marks, begin = points_of(data, differs, 1), int(data["begin"])
                end = min(begin + data["span"], dumps[0].end, dumps[1].end)
                times = {step.time for each in dumps for step in each.steps_in(begin, end)}
                of.same("page of two, where they differ", [*words, name], [
                    time for time in sorted(times)
                    if [mark for at, mark in marks if at <= time][-1:] == ["1"]],
                    [time for time in sorted(times) if not are_alike(*(
                        each.at(time).get(its.code)
                        for each, its in zip(dumps, of_name[name][0])))])
    clear = {name for name in names if len(of_name[name]) == 1}
    of.same("page of two, the signals", words, sorted(clear - seen), [])


# ---- Pixels.

def same_pixels(of: Asker, words: List[Any], row: Row, shapes: Dict[str, List[Span]]) -> None:
    """Compares the pixels of a row: red if and only if the signal is x there, and a block if and
    only if it changes there more than once. A value that begins at the end has no length."""
    reds, blocks = shapes.get("x", []) + shapes.get("manyX", []), shapes.get("several", [])
    places = row.pixels()
    is_edge = row.points[-1:] and row.points[-1][0] == row.end and places.count(places[-1]) < 2
    pixels = [place for place in range(row.width) if not is_edge or place != places[-1]]
    of.same("pixels, red", words, [place for place in pixels if is_in(place, reds)],
            [place for place in pixels if row.has_x(place)])
    of.same("pixels, a block", words, [place for place in pixels if is_in(place, blocks)],
            [place for place in pixels if places.count(place) > 1])


def is_in(place: int, spans: Sequence[Span]) -> bool:
    """Whether a pixel has a part of some spans."""
    return any(min(end, place + 1) - max(begin, place) > min(EXACT, (end - begin) / 3)
               for begin, end in spans)


def view_of(of: Asker, span: int) -> Optional[Tuple[float, float]]:
    """Returns from when to when a page is zoomed, or `None`."""
    ends = sorted(of.random.randint(-2, 4 * span + 2) / 4 for _ in range(2))
    is_one = span < 2**40 and ends[0] < ends[1] and of.happens(.5)
    return (ends[0], ends[1]) if is_one else None


def ask_shown(of: Asker) -> None:
    """Asks the page's own script for values at a cursor, and for the pixels of its rows."""
    dump, window, width = of.dump, of.window(.3), of.random.choice([50, 120, 400, 1000])
    its = of.random.sample(dump.variables, min(8, len(dump.variables)))
    names = list(dict.fromkeys(one.path for one in its if dump.is_unique(one)))
    if not NODE or not names:
        raise Skip
    words = [*window.words, "--html", of.path, "--", *names]
    found = page_of(of, words, window)
    if not found:
        return
    begin, end = window.begin, dump.end_of(window.begin, window.end)
    times = [min(end, max(begin, of.tick())) for _ in range(4)]
    view = view_of(of, max(1, end - begin))
    rows = shown_by(of.write(of.path + ".html", found[1].output), width,
                    [time - begin for time in times], view)
    for row in rows:
        one = dump.of_path[row["path"]][0]
        if one.is_event:
            continue
        for form, values in row["values"].items():
            of.same("values at a cursor", [*words, one.path, form, times],
                    [unsigned(value) for value in values],
                    [unsigned(shown(dump.at(time).get(one.code), "--" + form)) for time in times])
        if not one.is_real and (end - begin) * width < 2**53:  # else floats are not exact
            shapes = {kind: [(shape[0], shape[1]) for shape in its] for kind, its in row["shapes"]}
            first, last = map(Fraction, view or (0, max(1, end - begin)))
            same_pixels(of, [*words, one.path, view, str(width)], Row(
                one, wanted_points(dump, one, begin, end), max(end, begin + 1), begin + first,
                last - first, width, ""), shapes)


# ---- Pictures.

def ask_picture(of: Asker) -> None:
    """Asks for the picture of a window: the shapes of its rows."""
    dump, names, (words, form), window = of.dump, of.names(2), of.form(), of.window(.6)
    width, its = of.random.choice([100, 101, 103, 400, 4000]), dump.selected(names)
    if len(its) > 20:
        raise Skip
    words = of.placed([*words, *window.words, "--width", str(width)], [of.path, *names])
    said = run("wave", words)
    if of.is_late(window, "picture", words, said) or of.has_fault(window, "picture", words, said):
        return
    end = dump.end_of(window.begin, window.end)
    if end - window.begin > 2**53 // width or not of.same(
            "picture", words, (said.status, said.message), (0, "")):
        return  # else floats are not exact
    rows = rows_of(said.text, width)
    stop = max(end, window.begin + 1)
    wanted = [(one.path, Row(
        one, wanted_points(dump, one, window.begin, end), stop, window.begin, stop - window.begin,
        width, form or "--hex").shapes()) for one in its]
    is_alike = [path for path, _ in rows] == [path for path, _ in wanted] and all(
        len(got) == len(shapes) and all(one.is_like(other) for one, other in zip(got, shapes))
        for (_, got), (_, shapes) in zip(rows, wanted))
    if not is_alike:
        of.differ("picture", words, rows, wanted)
