#!/usr/bin/env python3
"""Tests the pages of vcdkit-wave --html and vcdkit-diff --html where the second reader asks
nothing: names of hostile dumps, and limits. Then a browser shows them: its rows, what keys and the
mouse do, and how long a frame takes. This is skipped if there is no Chromium."""
import base64
import hashlib
import json
import os
import random
import re
import unittest

import cases
from cases import NESTED, text_of
import asker
import browser
from of_pages import data_of
from page_script import NODE, shown_by
from vcdkit import Dump, Signal
from vcdkit.forms import page
from vcdkit.forms.text import FORMS, shown
from vcdkit.questions import streams

HOSTILE = b"""$date </script><script>hacked = 1</script> $end
$version <img src=x onerror=hacked=1> $end
$timescale 1ns $end $scope module <b>&amp; $end
$var wire 1 ! </script><script>hacked=1</script> $end
$var wire 4 " <img/src=x/onerror=hacked=1>'"` $end
$var wire 4 # __proto__ $end $var wire 4 $ {data}\xff\x01 $end
$upscope $end $enddefinitions $end #0 0! b1x " b1 # #5 1! b0 " b10 $ #9\n"""
LATE = 2**60
FRAME = 0.05  # seconds of processor time that the script of a frame may take


def run(command, *words):
    """Runs a command; returns its status, its output and its messages."""
    said = asker.run(command, words)
    return said.status, said.text, said.message


def data_in(path):
    """Returns the data of a page in a file."""
    return data_of(text_of(path).decode("ascii"))


class Case(cases.Case):
    """A case that makes pages."""

    def page(self, *words):
        """Returns the text of a page of vcdkit-wave, which has to be written."""
        status, text, messages = run("wave", "--html", *words)
        self.assertEqual((status, messages), (0, ""))
        return text


class Data(Case):
    """What a page has."""

    def test_nested(self):
        data = data_of(self.page("--around", "70ns", "--context", "5ns", "--signed", "--light",
                                 NESTED, "bench.slow"))
        self.assertEqual([data[key] for key in ("begin", "span", "mark", "radix", "light", "tick")],
                         ["650", 100, 50, "signed", True, "100000"])
        self.assertIsNone(data_of(self.page(NESTED, "bench"))["mark"])

    def test_hostile_names(self):
        text = self.page(self.file("</title><img src=x onerror=hacked=1>.vcd".replace("/", ""),
                                   HOSTILE), "<b>&amp;")
        blank = "".join(page.template())
        self.assertEqual(text.count("<"), blank.count("<"))
        self.assertTrue(text.isascii())
        self.assertEqual([one[0] for one in data_of(text)["signals"]], [
            "<b>&amp;." + name for name in ("</script><script>hacked=1</script>",
                                            "<img/src=x/onerror=hacked=1>'\"`", "__proto__",
                                            "{data}\udcff\x01")])

    def test_limits(self):
        path = self.file("long.vcd", b"$timescale 1ns $end $var wire 64 ! q $end $var wire 1 \" c "
                         b"$end $enddefinitions $end " + b"".join(
                             b"#%d b%s !\n" % (time, format(time * 999_999_937, "b").encode())
                             for time in range(500)))
        for name, limit, message in (
                ("MAX_CHANGES", 100, "more than 100 changes: name fewer signals, or show less time "
                 "(there is room up to 99ns)"),
                ("MAX_BYTES", 1000, "more than 0 MB of values: name fewer"),
                ("MAX_BYTES", 7000, "the page would have more than 0 MB: name fewer signals")):
            was, modules = getattr(streams, name), [streams, page][:1 + (name == "MAX_BYTES")]
            for module in modules:
                setattr(module, name, limit)
            try:
                status, text, messages = run("wave", "--html", path, "q", "c")
                self.assertEqual(run("wave", "--html", path, "c")[0], 0)
            finally:
                for module in modules:
                    setattr(module, name, was)
            self.assertEqual((status, text), (2, ""))
            self.assertIn("vcdkit-wave: " + message, messages)
        head = b"$var wire 1 ! q $end $enddefinitions $end "
        long = self.file("span.vcd", head + b"#0 0!\n#%d 1!\n#%d 0!\n" % (LATE, LATE + 9))
        status, text, messages = run("wave", "--html", long, "q")
        self.assertEqual((status, text), (2, ""))
        self.assertIn("the window has more than 2^53 ticks", messages)
        data = data_of(self.page("--from", str(LATE - 1), long, "q"))
        self.assertEqual((data["begin"], data["span"]), (str(LATE - 1), 10))
        self.assertEqual(run("wave", "--html", "--mark", "5", "--from", "9", long, "q")[0], 2)

    def test_a_number_that_is_repeated_in_a_pixel(self):
        dump = self.file("a.vcd", b"$var real 64 ! r $end $enddefinitions $end "
                                  b"#0 r7 ! #501 r1000 ! #502 r1e3 ! #1000\n")
        self.assertRegex(run("wave", "--width", "100", dump, "r")[1],
                         r'"curve" d="M[^M"]*M[^M"]*"')

    @unittest.skipUnless(NODE, "there is no node")
    def test_forms_of_real_numbers(self):
        numbers = ["1e16", "1e15", "123456789012345680", "1e-4", "1e-5", "1.5e-7", "-2.5e+20",
                   "1e300", "0.1", "0", "-3", "9999999999999998", "1e22"]
        dump = self.file("a.vcd", b"$var real 64 ! r $end $enddefinitions $end " + "".join(
            "#%d r%s !\n" % (5 * at, one) for at, one in enumerate(numbers)).encode())
        row, = shown_by(self.file("page.html", self.page(dump, "r").encode()), 100,
                        range(0, 5 * len(numbers), 5))
        self.assertEqual(row["values"]["hex"], [shown(float(one), None) for one in numbers])

    def test_two_scales_and_clocks(self):
        text = text_of(NESTED)
        slow = self.file("slow.vcd", re.sub(rb"(?m)^#350\n(.*\n)*?#450$", lambda found: found.group(
            ).replace(b"b11 1\n", b"b1011 1\n"), text).replace(b"100ps", b"1ns"))
        page = self.file("page.html")
        status, said, _ = run("diff", "--common", "--rise", "bench.clock", "--html", page, NESTED,
                              slow)
        self.assertEqual((status, said.splitlines()[1:]), (1, ["page " + page]))
        data = data_in(page)
        self.assertEqual([row[0] for row in data["signals"]],
                         ["bench.clock"] * 2 + ["bench.slow.count"] * 2)
        self.assertEqual((data["mark"], data["tick"]), (450, "100000"))
        self.assertIn("B is shown 405ns earlier", data["about"])
        fast = self.file("fast.vcd", text.replace(b"b11 1\n", b"b1011 1\n"))
        was, streams.MAX_CHANGES = streams.MAX_CHANGES, 12  # then it shows less time
        try:
            self.assertEqual(run("diff", "--html", page, NESTED, fast)[0], 1)
            data = data_in(page)
            self.assertLess(data["span"], 500)
            self.assertEqual(int(data["begin"]) + data["mark"], 350)
            self.assertEqual(run("diff", "--context", "100ns", "--html", page, "--into",
                                 self.folder, NESTED, fast)[0], 2)
        finally:
            streams.MAX_CHANGES = was
        for path, status in ((self.file("none/page.html"), 3), (page, 1)):
            self.assertEqual(run("diff", "--html", path, NESTED, slow)[0], status)
        self.assertEqual(run("diff", "--html", page, "--from", "20ns", NESTED, fast)[0], 1)
        self.assertEqual(int(data_in(page)["begin"]), 200)

    def test_more_ticks_than_a_page_has(self):
        """Of a long dump the page of a difference shows what there is room for."""
        text = (b"$timescale 1fs $end $var wire 1 ! c $end $enddefinitions $end "
                b"#0 0! #%d %d! #%d 0!\n")
        dumps = [self.file("%d.vcd" % at, text % (2**60, at, 2**61)) for at in (0, 1)]
        page = self.file("page.html")
        status, said, messages = run("diff", "--html", page, *dumps)
        self.assertEqual((status, messages), (1, ""))
        data = data_in(page)
        self.assertLessEqual(data["span"], 2**53)
        self.assertEqual(int(data["begin"]) + data["mark"], 2**60)
        self.assertIn("2^53 ticks: show less time", run("wave", "--html", dumps[0], "c")[2])


class Template(unittest.TestCase):
    """The template."""

    def setUp(self):
        self.text = "".join(page.template())

    def test_policy(self):
        policy = " ".join(re.search('Content-Security-Policy" content="(.*?)"', self.text,
                                    re.DOTALL).group(1).split())
        for name in "style", "script":
            code = re.search("<%s>(.*?)</%s>" % (name, name), self.text, re.DOTALL).group(1)
            digest = base64.b64encode(hashlib.sha256(code.encode()).digest()).decode()
            self.assertIn("%s-src 'sha256-%s'" % (name, digest), policy)
        self.assertIn("default-src 'none'", policy)
        self.assertNotRegex(self.text, r"https?:|@import|url\(|innerHTML|eval|\son[a-z]+=\"")
        self.assertTrue(self.text.isascii())

    def test_the_forms_of_values(self):
        """The page knows each form that the scripts have."""
        found = re.search(r"const RADICES = (\[.*?\]);", self.text).group(1)
        self.assertEqual(sorted(json.loads(found)), sorted(FORMS))
        for name in set(FORMS) - {"decimal"}:  # which is what is left
            self.assertIn('radix === "%s"' % name, self.text)

    def test_contrast(self):
        for theme in re.findall(r":root[.a-z]*\{(.*?)\}", self.text, re.DOTALL):
            colours = dict(re.findall(r"--(\w+):#(\w+)", theme))
            for names, backs, least in (
                    ("text x", "back bar chosen", 4.5), ("axis", "back bar", 4.5),
                    ("mark cursor other", "back", 4.5),
                    ("text", "lane:26 x:33 z:20 differs", 4.5), ("x", "x:33", 4.5),
                    ("bit lane curve z several manyX", "back", 3), ("edge lane", "bar back", 3)):
                for name in names.split():
                    for back in backs.split():
                        ratio = contrast(colours, name, back)
                        self.assertGreaterEqual(ratio, least, (name, back))


def contrast(colours, name, back):
    """Returns the contrast of two colours, as WCAG 2 defines it; `back` may have an opacity."""
    def channels(text):
        text = "".join(one * 2 for one in text) if len(text) == 3 else text
        return [int(text[at:at + 2], 16) / 255 for at in (0, 2, 4)], int(text[6:] or "ff", 16) / 255

    def light(parts):
        red, green, blue = (one / 12.92 if one <= 0.04045 else ((one + 0.055) / 1.055) ** 2.4
                            for one in parts)
        return 0.2126 * red + 0.7152 * green + 0.0722 * blue

    key, _, opacity = back.partition(":")
    over, part = channels(colours[key] + opacity)
    below = channels(colours["back"])[0]
    mixed = [part * one + (1 - part) * other for one, other in zip(over, below)]
    one, other = sorted((light(channels(colours[name])[0]), light(mixed)), reverse=True)
    return (one + 0.05) / (other + 0.05)


@unittest.skipIf(browser.PROGRAM is None, "there is no chromium")
class Shown(Case):
    """What a browser shows."""

    @classmethod
    def setUpClass(cls):
        cls.browser = browser.Browser()
        cls.addClassCleanup(cls.browser.close)

    def open(self, text, fragment=""):
        self.browser.open(self.file("page.html", text.encode("ascii")), fragment)
        self.addCleanup(self.well)

    def well(self):
        """There is no error, and nothing was loaded."""
        self.assertEqual(self.browser.said, [])
        self.assertEqual([url[:5] for url in self.browser.asked], ["file:"])

    def value(self, expression):
        return self.browser.value(expression)

    def is_now(self, expression, wanted):
        self.assertEqual(self.value(expression), wanted, expression)

    def press(self, *keys):
        self.browser.press(*keys)

    def test_rows(self):
        """The elements of the rows in view."""
        self.open(self.page("--mark", "115ns", NESTED, "bench"))
        rows = """[...$("rows").children].filter(one => one.style.display !== "none").map(
            one => one.children[0].textContent + "|" + one.children[1].textContent)"""
        values = Dump(NESTED).sample("115ns", ["bench"])["115ns"]
        got = self.value(rows)
        self.assertIn("level|3", got)
        self.assertIn("\\data+flags|" + values["bench.\\data+flags"].hex(), got)
        self.assertIn("\u25be lane[0].fast|", got)
        self.press("s", "r")
        self.value("draw()")
        self.assertIn("bench.high|%d" % values["bench.high"], self.value(rows))
        self.is_now("$('spoken').textContent", "bench.lane0 %d at 115ns" % values["bench.lane0"])
        self.is_now("document.querySelectorAll('[role=treeitem][aria-selected=true]').length", 1)
        self.is_now("""document.getElementById($("rows").getAttribute("aria-activedescendant"))
            .title.slice(0, 11)""", "bench.lane0")

    def test_keys(self):
        self.open(self.page("--mark", "70ns", NESTED, "bench.slow", "bench.level"))
        span = "now.to - now.from"
        self.press("+")
        self.is_now(span, 610)
        self.is_now("xOf(now.cursor) / width", 700 / 1220)
        self.press("ArrowRight")
        self.is_now("now.from", 472)
        self.press("-", "f")
        self.is_now("[now.from, now.to]", [0, 1220])
        self.press("ArrowDown")
        self.is_now("items[now.row].path", "bench.slow.overflow")
        self.press("ArrowDown", "ArrowDown", "ArrowDown")
        self.is_now("items[now.row].path", "bench.slow.count")
        changes = [time for time, _ in Dump(NESTED).changes("bench.slow.count")]
        self.press("n")
        self.is_now("now.cursor", min(time for time in changes if time > 700))
        self.press("p", "p")
        self.is_now("now.cursor", max(time for time in changes if time < 700 and time != 650))
        self.press("x")
        self.is_now("now.cursor", 720)
        self.press("X", "Home", "End", "m")
        self.is_now("now.cursor", 700)
        self.press("R", "R", "R")
        self.value("draw()")
        self.is_now("[items[now.row].radix, $('own').value]", ["signed", "signed"])
        self.press("a")
        self.is_now("[items[now.row].isCurve, numbersOf(items[now.row]).list.at(-1)]", [True, -5])
        self.press("F")
        self.is_now("items.map(one => one.path)", ["bench.slow", "bench.level"])
        self.value("now.row = 0")
        self.press("Enter")
        self.is_now("items.length", 6)
        self.press("/", "l", "e", "v", "Enter")
        self.is_now("items.map(one => one.path)", ["bench.level"])
        self.press("/", "[")
        self.is_now("$('find').getAttribute('aria-invalid')", "true")
        self.press("Escape", "g", "1", ".", "5", "n", "s", "Enter")
        self.is_now("[now.cursor, now.pattern, items.length]", [15, None, 6])
        self.press("?")
        self.is_now("$('keys').open && $('keys').textContent.includes('next change')", True)
        self.press("Escape", "t")
        self.is_now("root.classList.contains('light')", False)
        self.value("addEventListener('copy', event => { "
                   "window.got = event.clipboardData.getData('text/plain'); })")
        self.press("y")
        self.is_now("window.got", "0")
        self.press("l")
        self.is_now("window.got.split('#')[1]", "from=0s&to=122ns&cursor=1.5ns")

    def test_mouse(self):
        self.open(self.page(NESTED, "bench.slow.clock", "bench.slow.count"))
        left, top = self.value("(({ x, y }) => [x, y])(canvas.getBoundingClientRect())")
        y = top + 30 + 24 + 12
        x = left + self.value("Math.round(xOf(350))")
        self.browser.click(x + 3, y)
        self.is_now("[now.cursor, items[now.row].path]", [350, "bench.slow.count"])
        self.browser.click(x + 203, y, modifiers=8)
        self.is_now("now.cursor === 350 && now.other > 400", True)
        self.value("draw()")
        self.assertIn(" after 1 ", self.value("$('said').textContent"))
        time = self.value("timeAt(%s)" % (x - left))
        self.browser.mouse("Wheel", x, y, deltaX=0, deltaY=-100)
        self.assertAlmostEqual(self.value("timeAt(%s)" % (x - left)), time, 6)
        self.assertAlmostEqual(self.value("now.to - now.from"), 1220 / 1.25, 6)
        self.browser.mouse("Pressed", x, y, button="left", clickCount=1)
        self.browser.mouse("Moved", x - 60, y, button="left", buttons=1)
        self.browser.mouse("Released", x - 60, y, button="left", clickCount=1)
        self.assertAlmostEqual(self.value("timeAt(%s)" % (x - left - 60)), time, 6)
        self.press("f")
        self.browser.click(left + self.value("xOf(400)"), y, count=2)
        self.assertEqual(self.value("[now.from, now.to]"), [320, 480])

    def test_second_cursor_and_search(self):
        self.open(self.page("--mark", "70ns", NESTED, "bench.slow.count", "bench.slow.clock"))
        self.press("2", "n")
        self.is_now("[now.other, now.cursor > 700]", [700, True])
        self.value("draw()")
        self.is_now("/^2 is .* before 1/.test($('said').textContent)", True)
        change = [time for time, _ in Dump(NESTED).changes("bench.slow.count") if time < 700]
        self.press("p", "p", "z")
        self.is_now("[now.cursor, now.from < now.cursor]", [change[-2] if 700 == change[-1] else
                                                           self.value("now.cursor"), True])
        self.is_now("now.to - now.from < 300", True)
        self.press("/", "c", "l", "o", "c", "k", "Enter")
        self.is_now("[now.pattern !== null, shown]", [True, 1])
        self.press("Escape")
        self.is_now("[now.pattern, shown, $('find').value, now.other]", [None, 2, "", None])
        # A toggle that is on looks otherwise than one that is off.
        looks = "(id => getComputedStyle($(id)).borderColor)"
        self.is_now("setTheme(false), %s('short') !== %s('theme')" % (looks, looks), True)

    def test_a_wrong_time(self):
        self.open(self.page("--mark", "70ns", NESTED, "bench.slow.count"))
        self.press("g", "f", "o", "o", "Enter")
        self.is_now("[$('at').getAttribute('aria-invalid'), document.activeElement.id, now.cursor]",
                    ["true", "at", 700])
        self.press("Escape")
        self.value("draw()")
        self.is_now("[$('at').getAttribute('aria-invalid'), $('at').value]", ["false", "70ns"])
        self.press("g", *"90ns", "Enter")
        self.is_now("[$('at').getAttribute('aria-invalid'), now.cursor]", ["false", 900])

    def test_shortreal_is_a_curve(self):
        dump = self.file("a.vcd", b"$var shortreal 32 ! r $end $var real 64 @ q $end "
                         b"$var wire 1 a w $end $enddefinitions $end #0 r1 ! r2 @ 0a #5\n")
        self.open(self.page(dump, "r", "q", "w"))
        self.is_now("signals.map(one => one.isCurve)", [True, True, False])

    def test_red_only_where_there_is_an_x(self):
        dump = self.file("a.vcd", b"$timescale 1ns $end $var wire 1 ! c $end $var wire 4 v v $end "
                         b"$enddefinitions $end " + b"".join(
                             b"#%d %s! b%s v\n" % (
                                 at, b"x" if at in (0, 10_000) else b"%d" % (at % 2),
                                 b"1x" if at == 5000 else b"%d" % (at % 2))
                             for at in range(20_001)))
        self.open(self.page(dump, "c", "v"))
        reds = """(() => { draw();
            const { data, width } = pen.getImageData(0, 0, canvas.width, 100);
            return [0, 1].map(row => {
              const y = TOP + tops[row] + PAD + HIGH / 2, red = [];
              for (let x = 0, at = 4 * width * y; x < width; x++, at += 4)
                if (data[at] > data[at + 1] + 60) red.push(timeAt(x));
              return red;
            }); })()"""
        self.value("setTheme(false), now.cursor = SPAN")
        for times, wanted in zip(self.value(reds), ([0, 10_000], [5000])):
            pixel = self.value("timeAt(1) - timeAt(0)")
            for time in times:
                self.assertTrue(any(-2 * pixel <= time - at <= 2 * pixel for at in wanted),
                                (time, wanted))
            for at in wanted:
                self.assertTrue(any(abs(time - at) <= 2 * pixel for time in times), (at, times))

    def test_links(self):
        text = self.page(NESTED, "bench")
        self.open(text, "#from=30ns&to=110ns&cursor=72ns&find=slow%5C.c")
        self.is_now("[now.from, now.to, now.cursor, items.length]", [300, 1100, 720, 3])
        self.open(text, "#from=%&to=-5&cursor=9e9&find=(&__proto__=1")
        self.is_now("[now.from, now.to, now.cursor]", [0, 1220, 0])

    def test_late_times(self):
        path = self.file("late.vcd", b"$timescale 1fs $end $var wire 1 ! q $end $enddefinitions "
                         b"$end #%d 0!\n#%d 1!\n#%d 0!\n" % (LATE, LATE + 3, LATE + 9))
        self.open(self.page("--from", str(LATE), path, "q"), "#cursor=%dfs" % (LATE + 3))
        self.is_now("[$('at').value, valueAt(items[0], now.cursor)]",
                    ["1152.921504606846979s", "1"])

    def test_a_hostile_dump(self):
        self.open(self.page(self.file("dump.vcd", HOSTILE), "<b>&amp;"))
        self.press("?")
        self.is_now("typeof hacked", "undefined")
        self.is_now("signals.length === 4 && $('keys').textContent.includes('<img src=x')", True)
        self.is_now("document.querySelectorAll('img').length", 0)
        self.press("Escape")
        # Whatever got in: no script of its own runs, and nothing is sent.
        self.is_now("""new Promise(done => {
            document.addEventListener("securitypolicyviolation", () => done(typeof hacked));
            document.body.insertAdjacentHTML("beforeend", "<img src=x: onerror='hacked = 1'>");
            })""", "undefined")
        self.is_now("fetch('http://127.0.0.1:9/').then(() => 'sent', () => 'refused')", "refused")
        self.is_now("typeof hacked", "undefined")
        self.assertTrue(all("Content Security Policy" in one for one in self.browser.said))
        self.browser.said.clear()
        del self.browser.asked[1:]  # it lists what it refused

    def test_two_dumps(self):
        other = self.file("other.vcd", text_of(NESTED).replace(b"b11 1\n", b"b1011 1\n"))
        page = self.file("page.html")
        self.assertEqual(run("diff", "--html", page, NESTED, other)[0], 1)
        self.browser.open(page)
        self.is_now("items.map(one => one.side + one.path)", ["A" + "bench.slow.count",
                                                              "B" + "bench.slow.count"])
        self.is_now("[now.cursor, valueAt(items[0], 350), valueAt(items[1], 350)]", [350, "3", "b"])
        self.is_now("'differs' in paths", True)
        # Not only the colour says so: the values have a sign, and the waves a line below them.
        self.is_now("[...$('rows').children].map(one => one.children[1].textContent)",
                    ["\u2260 3", "\u2260 b"])
        self.is_now("""(() => { draw(); const x = xOf(355), y = TOP + ROW - 0.5;
            return [x, xOf(345)].map(at => pen.isPointInStroke(paths.mark, at, y)); })()""",
                    [True, False])
        self.is_now("$('spoken').textContent", "bench.slow.count A 3 B b at 35ns")
        self.press("Home", "d")
        self.is_now("now.cursor", 350)

    def test_two_dumps_at_edges(self):
        """The values are those before the edge, and the row that was chosen is in the middle."""
        head = b"$timescale 1ns $end $var wire 1 ! c $end " + b"".join(
            b"$var wire 1 %c s%02d $end " % (65 + at, at) for at in range(50))
        head += b"$enddefinitions $end #0 0! " + b" ".join(b"0%c" % (65 + at) for at in range(50))
        body = b" #5 1! #10 0! #15 1! 1k #20 0! #25 1! #30 0! #35 1! 0k #40 0! #45 1! #50\n"
        one, other = self.file("a.vcd", head + body), self.file(
            "b.vcd", head + body.replace(b"0! #25 1!", b"0! #25 1! 0k").replace(
                b"#40 0!", b"#38 1A #40 0!"))
        page = self.file("page.html")
        self.assertEqual(run("diff", "--every", "--rise", "c", "--html", page, one, other)[1],
                         "differs 35ns s42 1 0\ndiffers 45ns s00 0 1\npage %s\n" % page)
        self.browser.open(page)
        self.is_now("(draw(), [now.cursor, data.mark, $('spoken').textContent])",
                    [34, 35, "s42 A 1 B 0 at 34ns"])
        self.press("d")
        self.is_now("(draw(), [now.cursor, $('spoken').textContent])", [38, "s00 A 0 B 1 at 38ns"])
        self.press("D")
        self.is_now("(draw(), [now.cursor, $('spoken').textContent])", [25, "s42 A 1 B 0 at 25ns"])
        # A page of many rows.
        body = b"".join(b" #%d 1%c" % (at + 100, 65 + at) for at in range(50)) + b" #200\n"
        one, other = self.file("a.vcd", head + b" #60 1k #61 0k" + body), self.file(
            "b.vcd", head + b" #200\n")
        self.assertEqual(run("diff", "--every", "--html", page, one, other)[0], 1)
        self.browser.open(page)
        self.is_now("""(() => { draw(); const y = tops[now.row] + TOP - $('view').scrollTop;
            return [items[now.row].path, y > 0.3 * height && y < 0.7 * height]; })()""",
                    ["s42", True])

    def test_the_first_match_is_chosen(self):
        self.open(self.page(NESTED, "bench"), "#find=slow%5C.c")
        self.is_now("[items[0].isScope, !items[now.row].isScope, now.row]", [True, True, 1])
        self.press("Escape", "/", "c", "o", "u", "n", "t", "Enter")
        self.is_now("[items[now.row].path, items[0].isScope]", ["bench.lane[0].count", True])

    def test_two_dumps_of_two_lengths(self):
        """The shorter one ends where it ends, and so does the comparison; the page begins with the
        row that differs first."""
        head = b"$timescale 1ns $end " + b"".join(
            b"$var wire 1 %c s%02d $end " % (65 + at, at) for at in range(40))
        head += b"$enddefinitions $end "
        zeros = b"#0 " + b"".join(b"0%c " % (65 + at) for at in range(40))
        one = self.file("a.vcd", head + zeros + b"#5 1c #10 1A #20\n")
        other = self.file("b.vcd", head + zeros + b"#100\n")
        page = self.file("page.html")
        self.assertEqual(run("diff", "--every", "--html", page, one, other)[0], 1)
        self.browser.open(page)
        self.is_now("[SPAN, signals.map(one => one.side + one.path)]",
                    [100, ["As00", "Bs00", "As34", "Bs34"]])
        self.is_now("[items[now.row].side, items[now.row].path, now.cursor]", ["A", "s34", 5])
        self.is_now("[0, 1].map(row => [10, 20, 21, 100].map(time => valueAt(signals[row], time)))",
                    [["1", "1", "-", "-"], ["0"] * 4])
        self.value("(show(0, SPAN), 0)")
        ends = self.value("""(() => { draw(); const y = TOP + tops[0] + 1, line = pen.getImageData(
            0, y, canvas.width, 1).data, red = [];
            for (let x = 0; x < canvas.width; x++)
              if (line[4 * x] > line[4 * x + 1] + 10 && timeAt(x) > 7) red.push(timeAt(x));
            return [Math.min(...red), Math.max(...red)]; })()""")
        self.assertAlmostEqual(ends[0], 10, delta=0.5)
        self.assertAlmostEqual(ends[1], 20, delta=0.5)

    def test_frames(self):
        """Two million changes: the processor time that the script of a frame takes."""
        of = random.Random(1)
        rows = []
        for number in range(20):
            stream = streams.Stream()
            size, kind = [(1, "wire"), (32, "wire"), (1, "wire"), (64, "real")][number % 4]
            step = of.choice([2, 9, 50])
            stream.times.extend(range(0, step * 100_000, step))
            stream.values += [at % 97 / 7 if kind == "real" else "%x" % of.getrandbits(size)
                              for at in range(100_000)]
            rows.append(page.PageRow(Signal("t.s%d" % number, kind, size, str(number)), stream))
        self.open("".join(page.texts_of(page.Page(
            "large", [], None, 0, 5_000_000, None, (0, 5_000_000)), rows)))
        self.browser.tell("Performance.enable", timeDomain="threadTicks")

        def seconds():
            return next(one["value"] for one in self.browser.tell("Performance.getMetrics")[
                "metrics"] if one["name"] == "ScriptDuration")
        self.value("draw()")
        before = seconds()
        self.value("""(() => { for (let at = 0, half = SPAN / 2; at < 40; at++, half *= 0.75) {
            show(SPAN / 2 - half, SPAN / 2 + half); draw(); } })()""")
        self.assertLess((seconds() - before) / 40, FRAME)


if __name__ == "__main__":
    unittest.main(warnings="ignore")
