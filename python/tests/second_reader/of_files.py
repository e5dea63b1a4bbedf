"""Asks what is said of faults and before them, and asks the filters and about compressed dumps."""
import bz2
import gzip
import lzma
import os
import re
import subprocess
from typing import Any, Callable, Dict, List, Sequence, Tuple

from asker import PYTHON, Asker, Skip, run
from conditions import quoted
from dumps import Dump, Variable
from faulty_dumps import body_place, read
from shown import all_from_json

NINE = {"x": "xXuUwW-", "0": "0lL", "1": "1hH", "z": "zZ"}


# ---- What is refused, and limits.

TWICE = {"table": ["--rise", "--fall", "--if", "--from", "--to", "--at", "--unit", "--flush"],
         "when": ["--rise", "--fall", "--rules", "--junit", "--from", "--to", "--unit"],
         "diff": ["--rise", "--fall", "--from", "--to", "--context", "--html", "--at-least"],
         "x": ["--from", "--to", "--unit", "--names"], "find": ["--names"],
         "stats": ["--from", "--to", "--values", "--saif"], "values": ["--at", "--unit"],
         "wave": ["--from", "--to", "--around", "--mark", "--width"],
         "explain": ["--reach", "--jobs", "--junit", "--salvage"]}


def ask_twice(of: Asker) -> None:
    """Asks with an option that is given twice: neither of the two may be left out silently."""
    script = of.random.choice(sorted(TWICE))
    option = of.random.choice(TWICE[script])
    words = [*of.random.choice([[option, "1"], [option + "=1"]]), of.path,
             *of.random.choice([[option, "2"], [option + "=2"]]), *of.maybe(.5, "tb")]
    said = run(script, words)
    of.same("an option twice", [script, *words], (
        said.status, said.output, "argument %s: it may be given only once" % option in said.message
    ), (2, b"", True))


def ask_no_window(of: Asker) -> None:
    """Asks for a window that ends before it begins."""
    dump, clock = of.dump, of.conditions.name(of.clock())
    begin = of.random.randint(1, max(1, dump.end))
    if begin > dump.end:
        raise Skip
    script = of.random.choice(["table", "when", "x", "stats", "diff", "wave"])
    words = ["--from", str(begin), "--to", str(of.random.randrange(begin))]
    words += of.maybe(.5, "--rise=" + clock) if script in ("table", "when", "diff") else []
    words = of.placed(words, [of.path, *[of.path] * (script == "diff"), quoted(clock) if (
        script == "when") else clock])
    said = run(script, words)
    of.same("no window", [script, *words], (said.status, said.output, bool(said.message)),
            (2, b"", True))


def ask_nested(of: Asker) -> None:
    """Asks about scopes that are nested up to the limit."""
    depth = of.random.choice([1, 300, 500, 990, 1000])
    names = ["s%d" % at for at in range(depth)]
    text = "%s$var wire 1 ! q $end\n$enddefinitions $end\n#0\n0!\n#5\n1!\n#9\n" % "".join(
        "$scope module %s $end\n" % name for name in names)
    path = of.write(of.path + ".nested.vcd", text.encode())
    said = run("find", ["--tree", path])
    of.same("nested, the tree", [path], (said.status, said.lines),
            (0, ["%s%s 1" % ("  " * at, name) for at, name in enumerate(names)]))
    said = run("stats", ["--saif", "-", path, names[0]])
    of.same("nested, SAIF", [path], (said.status, re.findall(r"INSTANCE (\w+)", said.text),
                                     said.text.count("(TC 1)"), said.text.count("(") - said.text.
                                     count(")")), (0, names, 1, 0))
    said = run("table", [path, names[0]])
    of.same("nested, a table", [path], (said.status, said.lines[1:]), (0, ["0,0", "5,1"]))


# ---- Faults, and how long a dump is.

def ask_salvage(of: Asker) -> None:
    """Asks for what is before a fault, as a dump, and for the lines around the fault."""
    dump, out = of.dump, of.path + ".saved.vcd"
    if not dump.fault:
        raise Skip
    if os.path.exists(out):
        os.unlink(out)
    said = run("explain", ["--salvage", out, of.path])
    with open(out, "rb") as file:
        saved = read(file.read())
    # Without a timestamp and a change nothing is known, not even that time 0 has no change. An event
    # in a section is none.
    until = dump.finished if dump.times or dump.changes() else -1
    of.same("salvage", [of.path], (said.status, said.about, said.lines[-1:]), (1, dump.fault, [
        "wrote: %s, %s" % (out, "good until " + dump.time_text(until) if until >= 0 else
                           "but it has all values of no time")]))
    of.same("salvage, the dump", [of.path], (saved.fault, saved.end, saved.changes()),
            ("", dump.end, dump.changes()))
    count, line = len(of.text.split(b"\n")), int(dump.fault.partition(":")[0])
    lines = [int(found) for found in re.findall(r"(?m)^[> ] *(\d+) \|", said.text)]
    of.same("explain, the lines", [of.path], [one for one in lines if one < count], [
        one for one in range(max(1, line - 2), line + 2) if one < count])


def ask_reach(of: Asker) -> None:
    """Asks of some dumps whether they are long enough."""
    time, dump = of.time(), of.dump
    reach, count = of.maybe(.8, "--reach", time), of.random.choice([1, 1, 2])
    is_valid = not reach or dump.last is not None and dump.ticks(time) <= dump.last
    wanted = {"file": of.path, "kind": "valid" if is_valid else "short", "last": dump.last}
    if dump.fault:
        line, fault = dump.fault.split(": ")
        wanted = {"file": of.path, "kind": "fault", "line": int(line), "fault": fault}
    words = of.placed([*reach, "--json", *of.maybe(.5, "--jobs", "2")], [of.path] * count)
    said = run("explain", words)
    of.same("reach", words, (said.status, [
        {key: one[key] for key in one if key != "cause"} for one in all_from_json(said.text)]), (
            int(wanted["kind"] != "valid"), [wanted] * count))


# ---- Filters.

def plain_lines(of: Asker) -> Tuple[List[str], int]:
    """Returns the lines of the dump, if it has no fault and each has one item, and the place of the
    one that ends the header."""
    of.need_whole()
    lines = of.text.decode().replace("\r\n", "\n").split("\n")
    ends = [at for at, line in enumerate(lines) if line.strip() == "$enddefinitions $end"]
    if not ends or any(re.search(r"\$end\s+\S|\$var(?!.*\$end)|^[bBrR]\S+\s*$", line)
                       or re.match(r"[^$\s]\S*\s+\S+\s+\S", line) for line in lines):
        raise Skip
    return lines, ends[0]


def ask_four_state(of: Asker) -> None:
    """Asks for a dump whose digits are those of VHDL."""
    lines, end = plain_lines(of)

    def nine(found: Any) -> str:
        return "".join(of.random.choice(NINE[digit.lower()]) for digit in found[0])
    made = lines[:end] + ["$var string 0 STR st $end", lines[end]]
    for line in lines[end + 1:]:
        if re.match(r"[bB][01xzXZ]+ |[01xzXZ]\S+\s*$", line):
            line = re.sub(r"(?<=^[bB])[01xzXZ]+|^[01xzXZ]", nine, line)
        made += [line] + of.maybe(.1 if line.startswith("#") else 0, "sIDLE STR")
    path = of.write(of.path + ".nine.vcd", ("\n".join(made) + "\n").encode())
    said = run("four-state", [path])
    got = Dump(said.output)
    of.same("four-state", [path], (said.status, [one.row for one in got.variables], got.items),
            (0, [one.row for one in of.dump.variables], of.dump.items))
    names = of.names(1)
    if of.happens(.1):  # as each look at the dump starts Python
        of.same("four-state, an option", [path, *names], run("table", ["--four-state", path, "--",
                *names])[:2], run("table", [of.path, "--", *names])[:2])


def ask_close_sections(of: Asker) -> None:
    """Asks for a dump in which an $end is missing before a timestamp, or is one too many."""
    of.need_whole()
    place = body_place(of.text)
    body = re.sub(rb"\$comment\s.*?\$end(?=\s|$)", lambda found: b" " * len(found[0]),
                  of.text[place:], flags=re.S)
    ends = [one for one in re.finditer(rb"\$end(?=\s+#\d+\s|\s*$)", body)]
    times = [one for one in re.finditer(rb"(?<=\n)#\d+(?=\s)", body)]
    text = of.text
    if ends and of.happens(.7):
        one = of.random.choice(ends)
        text = text[:place + one.start()] + text[place + one.end():]
    elif times and of.happens(.6):
        at = place + of.random.choice(times).start()
        text = text[:at] + b"$end\n" + text[at:]
    path = of.write(of.path + ".open.vcd", text)
    said = run("close-sections", [path])
    of.same("close-sections", [path], (said.status, Dump(said.output).items), (0, of.dump.items))
    if text == of.text:
        of.same("close-sections, nothing to do", [path], said.output, text)


LINES = ["#0", "#5", "0!", "b1 !", "$dumpvars", "$dumpoff 1!", "$end", "$comment $end 1! $end"]


def closed(words: Sequence[str]) -> List[str]:
    """Returns the words of a body, without comments, in which an $end stands before a timestamp and
    before the end if a section is open there, and an $end that ends nothing is left out. A section
    is open if its command is behind the last $end and timestamp."""
    found: List[str] = []
    for at, word in enumerate([*words, "#end"]):
        marks = [one for one in words[:at] if one[0] in "#$"]
        is_open = bool(marks) and marks[-1].startswith("$dump")
        if word != "$end" or is_open:
            found += ["$end"] * (is_open and word[0] == "#") + [word]
    return found[:-1]


def ask_open_sections(of: Asker) -> None:
    """Asks for bodies of a few lines, of which several may be faults. One in which no $end is
    missing or too many stays as it is."""
    header = "$var wire 1 ! c $end $enddefinitions $end\n"
    for _ in range(4):
        lines = of.random.choices(LINES, k=of.random.randrange(7))
        text = header + "".join(line + "\n" for line in lines)
        words = [word for line in lines for word in line.replace("$comment $end ", "").split()]
        said = run("close-sections", [of.write(of.path + ".open.vcd", text.encode())])
        got = " ".join(said.lines[1:]).replace("$comment $end ", "").split()
        of.same("close-sections, any body", lines, got, closed(words))
        if closed(words) == words:
            of.same("close-sections, nothing to do", lines, said.text, text)


# ---- vcdkit-join-bits.

def bit_by_bit(of: Asker, its: List[Variable]) -> Tuple[bytes, Dict[str, List[str]]]:
    """Returns the dump with some vectors declared bit by bit, in any order, of which some bits have
    a second name that begins with `pin~`, and the codes of their bits."""
    lines, end = plain_lines(of)
    declared = r"\s*\$var\s+(\S+)\s+\d+\s+(\S+)\s"
    codes = {one.code: ["~%s_%d" % (one.code, place) for place in one.bits] for one in its}
    of_code = {one.code: one for one in its}
    space, order, made = of.random.choice([" ", " ", ""]), of.random.choice([1, -1, 0]), []
    for at, line in enumerate(lines):
        found = re.match(r"[bB]([01xzXZ]+) (\S+)\s*$" if at > end else declared, line) or re.match(
            r"([01xzXZ])(\S+)\s*$", line)
        if not found or found[2] not in codes:
            made.append(line)
            continue
        one = of_code[found[2]]
        if at < end:
            bits = ["$var wire 1 %s %s%s[%d] $end" % (code, one.name, space, place)
                    for code, place in zip(codes[one.code], one.bits)][::order or 1]
            bits += ["$var wire 1 %s pin~%s $end" % (code, code)
                     for code in codes[one.code] if of.happens(.2)]
        else:
            digits = found[1].lower()
            digits = digits.rjust(one.size, digits[0] if digits[0] in "xz" else "0")
            bits = [digit + code for digit, code in zip(digits, codes[one.code])]
        if order == 0 or at > end:
            of.random.shuffle(bits)
        made += bits
    return (of.random.choice(["\n", "\r\n"]).join(made) + "\n").encode(), codes


def is_bit(of: Variable) -> bool:
    """Whether a variable is declared as a bit of something."""
    return of.size == 1 and (of.is_numbered or of.name[-1] == "]")


def is_joined(of: Variable, dump: Dump) -> bool:
    """Whether a variable may be joined from bits of a dump."""
    return any(is_bit(one) and re.sub(r"\[-?\d+\]$", "", one.path) == of.path
               for one in dump.variables)


def ask_join_bits(of: Asker) -> None:
    """Asks for a dump whose bits are joined: the highest index comes first, whatever the order of
    the declarations."""
    dump = of.dump
    its = [one for one in dump.variables if 1 < one.size < 40 and one.is_numbered
           and not one.is_real and sum(other.code == one.code for other in dump.variables) == 1
           and len(dump.of_path[one.path]) == 1 and one.path not in dump.fronts
           and "]" not in one.name and "\\" not in one.name
           and not any(other.path.startswith(one.path + "[") for other in dump.variables)]
    its = of.random.sample(its, min(len(its), 3))
    if not its:
        raise Skip
    text, codes = bit_by_bit(of, its)
    path = of.write(of.path + ".bits.vcd", text)
    said = run("join-bits", [path])
    got = Dump(said.output)
    pins = {one.code for one in got.variables if one.name.startswith("pin~")}
    # Other bits of the dump may be joined too.
    of.same("join-bits, the rest", [path], *([
        one.row for one in side.variables if not one.name.startswith("pin~")
        and one.path not in [each.path for each in its] and not is_bit(one)
        and not is_joined(one, dump)] for side in (got, dump)))
    for one in its:
        found = got.of_path.get(one.path, [])
        low, high = sorted((one.left, one.right))
        if of.same("join-bits", [path, one], [(each.size, each.left, each.right)
                                              for each in found], [(one.size, high, low)]):
            step = 1 if one.left > one.right else -1
            of.same("join-bits, the values", [path, one], [
                str(got.at(each.time).get(found[0].code, "-"))[::step] for each in dump.steps],
                [str(each.end.get(one.code, "-")) for each in dump.steps])
            for place, code in enumerate(codes[one.code]):
                if code in pins:
                    of.same("join-bits, a second name", [path, code], [
                        got.at(each.time).get(code, "-") for each in dump.steps],
                        [str(each.end.get(one.code, "-" * one.size))[place] for each in dump.steps])


def ask_bits_that_stay(of: Asker) -> None:
    """Asks for a header whose bits are no vector: what is not joined stays as it is."""
    choice, name = of.random.choice, of.random.choice(["q", "d", "w"])
    places = list(range(choice([0, 1, -2]), choice([4, 5])))
    why = choice(["a gap", "twice", "a type", "a vector", "real", "event"])
    kinds = {"real": "real", "event": "event"}.get(why, "wire")
    rows = ["$var %s 1 %d %s [%d] $end" % (kinds, at, name, place)
            for at, place in enumerate(places)]
    of.random.shuffle(rows)
    if why == "a gap":
        rows = ["$var wire 1 a %s [%d] $end" % (name, place) for place in places[::2]][:3]
    rows += {"twice": ["$var wire 1 a %s [%d] $end" % (name, places[0])],
             "a type": ["$var reg 1 a %s [%d] $end" % (name, places[-1] + 1)],
             "a vector": ["$var wire 4 v %s [3:0] $end" % name]}.get(why, [])
    header = "\n".join(["$scope module tb $end", *rows, "$upscope $end", "$enddefinitions $end"])
    text = (header + "\n#0\n" + "1v\n" * (why == "a vector") + "#5\n").encode()
    path = of.write(of.path + ".stay.vcd", text)
    of.same("join-bits, bits that stay", [path, why], run("join-bits", [path])[:2], (0, text))


# ---- Packed dumps and pipes.

PACKERS: Dict[str, Callable[[bytes], bytes]] = {"gz": gzip.compress, "bz2": bz2.compress,
                                                "xz": lzma.compress, "pipe": bytes,
                                                "gz pipe": gzip.compress}


def ask_packed(of: Asker) -> None:
    """Asks about a compressed dump, or one that comes through a pipe, what was asked of a file."""
    of.need_whole()
    if of.seed % 4:
        raise Skip  # it takes the time of ten other questions
    how, names = of.random.choice(list(PACKERS)), of.names(1)
    data, wanted = PACKERS[how](of.text), run("table", [of.path, "--", *names])
    got: Any
    if "pipe" in how:
        script = os.path.join(os.path.dirname(PYTHON), "extras", "vcdkit-table")
        done = subprocess.run([script, "-", "--", *names], input=data, check=False,
                              stdout=subprocess.PIPE, stderr=subprocess.PIPE)
        got = done.returncode, done.stdout, done.stderr.decode()
    else:
        got = run("table", [of.write(of.path + "." + how, data), "--", *names])
    of.same("packed", [how, *names], tuple(got), tuple(wanted))
    # What a file has before it breaks off, the table of a dump with a fault there has too.
    how = of.random.choice(["gzip", "xz"])
    data = PACKERS[{"gzip": "gz"}.get(how, how)](of.text)
    path = of.write(of.path + ".off", data[:of.random.randint(len(data) // 3, len(data) - 9)])
    with open(path, "rb") as file:
        part = subprocess.run([how, "-dc"], stdin=file, check=False, stdout=subprocess.PIPE,
                              stderr=subprocess.DEVNULL).stdout
    wanted = run("table", [of.write(of.path + ".part", part + b"\n\1\n"), "--", *names])
    got = run("table", [path, "--", *names])
    if "time" in str(wanted.about):  # half a timestamp, which ends the time before it
        raise Skip
    of.same("packed, cut off", [how, *names], (got.status, got.output), (3, wanted.output))
