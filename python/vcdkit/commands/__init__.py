"""The commands vcdkit-diff, vcdkit-explain, .. : a module each, whose main() the shell calls. What
only some need is imported where it is used, because each import takes a part of their start."""
import argparse
import contextlib
import functools
import io
import os
import re
import sys
from typing import (TYPE_CHECKING, Any, Callable, Iterable, Iterator, List, NoReturn, Optional,
                    TextIO, Tuple)

from .. import __version__
from ..errors import DamagedFile, DumpFault, RunFailed, UsageError, VcdkitError
from ..forms.terminal import Progress
from ..forms.text import FORMS
from ..model.signals import Signal
from ..model.times import LAST_TICK, UNITS, Window
from ..reading.formats import ENDINGS

if TYPE_CHECKING:
    from ..questions.dump import Dump
    from ..reading.source import Source

STATUSES = """
exit status:
  0  %s
  1  %s
  2  %s
  3  I/O error, out of memory, or vcdkit not found

A dump may be a compressed file, a pipe, or - for standard input: see SCRIPTS in vcdkit(1).
"""
STATUSES_OF_A_FILTER = """
exit status:
  0  everything was written
  2  usage error
  3  I/O error
"""
FAULT = "a name selects nothing, or not a valid dump"
TIMES = "A TIME is a number of ticks, or has a unit, such as 115ns or 1.5us.\n"
MARK = "\0"  # which no argument has
REPEATED = ("--map", "--states", "--except", "--channel")  # other options may be given once
NEGATIVE = re.compile(r"-(?:[.\d].*[<>=]|[({\"]|[A-Za-z_]\w*\.)")
BROKEN_PIPE = 128 + 13  # the status that a shell shows of a program that SIGPIPE ended
FIRST, LAST = "0", str(LAST_TICK)  # of --from and --to
JSON = "write one JSON object per line, with times in ticks"
UNIT = "the largest without a fraction"
Main = Callable[[Optional[List[str]]], int]

# The options of several commands, and what argparse takes of them.
SHARED = {
    "--names": dict(dest="names_of", metavar="FILE",
                    help="also use the names in a list or a GTKWave save file"),
    "--four-state": dict(action="store_true",
                         help="convert VHDL's nine states, as vcdkit-four-state does"),
    "--waive": dict(metavar="FILE", help="ignore values of the signals in this file, of which each "
                    "line is a name, followed by a reason; standard error says how many "
                    "signals each line leaves out, and which lines are not needed"),
    "--from": dict(dest="begin", default=FIRST, metavar="TIME", help="the first time [default: 0]"),
    "--to": dict(dest="end", default=LAST, metavar="TIME",
                 help="the last time [default: the end of the dump]"),
    "--after": dict(metavar="CONDITION", help="begin when this begins to hold; --from and --to "
                    "then count from that time")}  # type: Any


class Parser(argparse.ArgumentParser):
    """A parser that takes options and other arguments in any order. Its methods that are named for
    options add these, and return it."""

    needs_names = False

    def add(self, *options: str) -> "Parser":
        """Adds options of SHARED."""
        for option in options:
            self.add_argument(option, **SHARED[option])
        return self

    def file(self, names: str = "") -> "Parser":
        """Adds FILE, which dump_of opens, and NAMEs: + if there has to be one, else *."""
        self.add("--four-state").add_argument("file", metavar="FILE", help="the dump")
        return self.names(names) if names else self

    def names(self, count: str) -> "Parser":
        """Adds NAMEs, as file() does."""
        self.needs_names = count == "+"
        self.add("--names").add_argument(
            "names", metavar="NAME", nargs="*", default=[],
            help="a path (see vcdkit list), a scope with everything in it, or 'NAME = EXPRESSION'"
            + " (required without --names)" * self.needs_names)
        return self

    def window(self) -> "Parser":
        """Adds the options of a window."""
        return self.add("--from", "--to", "--after")

    def at(self, what: str) -> "Parser":
        """Adds --at."""
        self.add_argument("--at", metavar="TIME,..", help=what % "; or a file (-: standard input) "
                          "with a time at the beginning of each line, as vcdkit-when writes them")
        return self

    def clock(self, what: str, is_one: bool = False) -> "Parser":
        """Adds --rise and --fall, or only one of them."""
        to = self.add_mutually_exclusive_group() if is_one else self
        for option, edge in ("--rise", "rising"), ("--fall", "falling"):
            to.add_argument(option, metavar="CLOCK", help=what % edge)
        return self

    def form(self) -> "Parser":
        """Adds --hex and the other forms of a value, of which one may be taken."""
        group = self.add_mutually_exclusive_group()
        for name, form in FORMS.items():
            group.add_argument("--" + name, dest="form", action="store_const", const=name,
                               help="values " + form.what)
        self.add_argument("--states", metavar="NAME=FILE", type=pair_of, action="append",
                          default=[], help="show names for the values of these signals: each line "
                          "of the file is a value in hexadecimal (or 0b10, 4'd9) and a name, as in "
                          "a filter file of GTKWave; may be repeated")
        self.set_defaults(forms={})
        return self

    def many(self, junit: str) -> "Parser":
        """Adds --jobs and --junit, of a command that takes many dumps."""
        self.add_argument("--jobs", type=natural, metavar="N", help="how many dumps to read at a "
                          "time [default: the number of processors]")
        self.add_argument("--junit", metavar="FILE", help="write a JUnit report" + junit)
        return self

    def unit(self, default: str = UNIT) -> "Parser":
        """Adds --unit."""
        self.add_argument("--unit", choices=(*UNITS, "tick"), metavar="UNIT", help="show times in "
                          "s, ms, us, ns, ps, fs or tick [default: %s]" % default)
        return self

    def json(self, what: str = JSON) -> "Parser":
        """Adds --json."""
        self.add_argument("--json", action="store_true", help=what)
        return self

    def format_help(self) -> str:
        text = super().format_help()
        return text + TIMES if "TIME" in text else text

    def parsed(self, words: List[str]) -> Tuple[argparse.Namespace, List[str]]:
        """Returns the arguments, and the words that fit none. Nothing behind `--` is an option:
        argparse would forget that when it looks for the names between options, so these words
        get a mark meanwhile. So does a condition that begins with a minus and a path, a number,
        a parenthesis or the like."""
        at = words.index("--") if "--" in words else len(words)
        marked = [MARK + word if NEGATIVE.match(word) else word for word in words[:at]]
        marked += [MARK + word for word in words[at + 1:]]
        given = [option for option in (word.partition("=")[0] for word in words[:at])
                 if option in self._option_string_actions and option not in REPEATED]
        for option in given:
            if given.count(option) > 1:
                self.error("argument %s: it may be given only once" % option)
        asked, rest = self.parse_known_intermixed_args(marked)
        for key, value in vars(asked).items():
            setattr(asked, key, _unmarked(value))
        return asked, _unmarked(rest)

    def error(self, message: str) -> NoReturn:
        raise UsageError("%s\nsee: %s --help" % (message, self.prog))

    def refuse(self, rest: List[str]) -> NoReturn:
        """Ends with a message about arguments that fit none, and similar options."""
        import difflib  # only a message needs it
        known = [one for action in self._actions for one in action.option_strings if one[1] == "-"]
        near = [its for one in dict.fromkeys(rest) if one[:2] == "--"
                for its in difflib.get_close_matches(one.partition("=")[0], known, 1, .8)]
        self.error("unrecognized arguments: %s%s" % (
            " ".join(rest), "; there is " + ", ".join(near) if near else
            "; the dump is an argument, without -i" if rest[0] == "-i" else
            "; write -- before what is no option" * (rest[0][:2] != "--")))

    def parse_args(self, words: List[str]) -> argparse.Namespace:  # type: ignore[override]
        asked, rest = self.parsed(words)
        if rest:
            self.refuse(rest)
        if self.needs_names and not asked.names and asked.names_of is None:
            self.error("the following arguments are required: NAME, or --names")
        return asked


def _unmarked(value: Any) -> Any:
    """Returns a word, or words, without marks."""
    if isinstance(value, list):
        return [_unmarked(one) for one in value]
    return value[len(MARK):] if isinstance(value, str) and value.startswith(MARK) else value


def pair_of(text: str) -> Tuple[str, str]:
    """Reads the words around the first =."""
    front, sign, new = text.partition("=")
    if not front or not sign:
        raise argparse.ArgumentTypeError("expected two parts with = between them")
    return front, new


def natural(text: str) -> int:
    """Reads a number from 0."""
    if not text.isascii() or not text.isdigit():
        raise argparse.ArgumentTypeError("expected a number from 0")
    return int(text)


def parser(usage: str, text: str, done: str = "everything was written", failed: str = FAULT,
           wrong: str = "usage error") -> Parser:
    """Returns a parser of words, whose help has the usage and the text of a command and its exit
    statuses 0, 1 and 2, those of a filter if nothing is said of status 1."""
    first, _, rest = text.partition("\n")
    name, _, arguments = usage.partition(" ")
    statuses = STATUSES % (done, failed, wrong) if failed else STATUSES_OF_A_FILTER
    made = Parser(
        prog=name, usage="%s [OPTION ..] %s" % (name, arguments) if arguments else None,
        description=first, epilog=rest.strip("\n") + "\n" + statuses,
        formatter_class=argparse.RawDescriptionHelpFormatter, allow_abbrev=False)
    made.add_argument("-V", "--version", action="version", version="%s %s" % (name, __version__))
    return made


# The dumps and the times that are asked for.

def dump_of(asked: argparse.Namespace, file: Optional[str] = None,
            token_limit: Optional[int] = None) -> "Dump":
    """Returns the dump of FILE, or of another file. `names` then has those of --names."""
    from ..questions.dump import Dump
    dump = Dump(asked.file if file is None else file, None, token_limit, asked.four_state)
    path, asked.names_of = getattr(asked, "names_of", None), None
    if path is not None:
        from ..questions.saved import names_of
        asked.names = [*asked.names, *names_of(path, dump)]
    if any(" = " in name for name in getattr(asked, "names", ())):
        from ..questions.columns import names_and_expressions
        asked.names, asked.named = names_and_expressions(asked.names)
    dump = dump.derived(asked.named) if hasattr(asked, "named") else dump
    if getattr(asked, "states", None):
        from ..forms.states import forms_of
        asked.forms = {**asked.forms, **forms_of(dump, asked.states, asked.form)}
    return dump


def form_for(asked: argparse.Namespace, signal: Signal) -> Any:
    """Returns the form in which the values of a signal are shown."""
    return asked.forms.get(signal.path, asked.form)


def times_at(asked: argparse.Namespace) -> Optional[List[str]]:
    """Returns the times of --at; `None` if there is none."""
    text: Optional[str] = asked.at
    if text is None or text != "-" and (text[:1].isdigit() or not os.path.exists(text)):
        return None if text is None else text.split(",")
    if text == asked.file == "-":
        raise UsageError("--at: standard input has the dump")
    from ..reading.files import text_of_file
    return [time for line in text_of_file(text).splitlines() for word in line.split()[:1]
            for time in word.split(",")]


def is_part(asked: argparse.Namespace) -> bool:
    """Whether --from, --to or --after asks for a part of the dump."""
    return (asked.begin, asked.end, asked.after) != (FIRST, LAST, None)


def ends_of(dump: "Dump", asked: argparse.Namespace) -> Tuple[str, str]:
    """Returns the first and the last time of the window that is asked for."""
    if asked.after is None:
        return asked.begin, asked.end
    time = next(dump.when(asked.after), None)
    if time is None:
        raise UsageError("--after: this never holds: " + asked.after)
    return (str(min(time + dump.span(asked.begin, True), LAST_TICK)),
            str(min(time + dump.span(asked.end), LAST_TICK)))


def after_end(dump: "Source", time: str, is_up: bool = False) -> str:
    """Returns what to say of a time that is after the last timestamp of a dump; of another one an
    empty text. A time between two ticks is the one before it, or after it. It reads up to that
    time, and raises a fault that comes before it."""
    ticks = dump.ticks(time, is_up)
    try:
        if not ticks or dump.cut(ticks - 1, ticks).check().last == ticks:
            return ""
    except DumpFault:
        with dump.cut(ticks, ticks).body() as out:
            out.read(1)  # `cut` writes nothing if the fault comes before this time
        return ""
    last = dump.check().last
    return "%s is after the end of the dump%s" % (
        time, "" if last is None else ", " + dump.time(last))


def warn_of_end(command_name: str, dump: "Source", times: Optional[List[str]]) -> None:
    """Warns if one of the times of --at is after the end of a dump."""
    with contextlib.suppress(DumpFault):  # it comes after the values before it
        is_late = after_end(dump, max(times, key=dump.ticks)) if times else ""
        if is_late:
            say(command_name, ["warning: --at: %s; its values are the last ones" % is_late])


def check_begin(dump: "Source", time: str, option: str = "--from", is_up: bool = True) -> None:
    """Refuses the time of an option if it is after the end of the dump."""
    is_late = after_end(dump, time, is_up)
    if is_late:
        raise UsageError("%s: %s" % (option, is_late))


def window_of(dump: "Dump", asked: argparse.Namespace) -> Window:
    """Returns the window that is asked for."""
    begin, end = ends_of(dump, asked)
    check_begin(dump, begin)
    return Window(dump.ticks(begin, is_up=True), dump.ticks(end) + 1)


def part_of(dump: "Dump", asked: argparse.Namespace) -> "Dump":
    """Returns the dump in the window that is asked for."""
    return dump.within(window_of(dump, asked))


def times_of(dump: "Source", asked: argparse.Namespace) -> Callable[[int], str]:
    """Returns what shows ticks as a time, also in the unit of --unit, which needs a scale."""
    if asked.unit not in (None, "tick"):
        dump.ticks("0" + asked.unit)
    return functools.partial(dump.time, unit=asked.unit or "")


# Messages, and what the shell calls.

def say(command_name: str, lines: Iterable[str]) -> None:
    """Writes messages, after the output."""
    sys.stdout.flush()
    for line in lines:
        print("%s: %s" % (command_name, line), file=sys.stderr)


def filtering(module: str, usage: str, text: str,
              made: Callable[[Iterator[bytes]], Iterator[bytes]]) -> Main:
    """Makes main() of a filter, which makes blocks of its output of those of its input."""
    def main(words: List[str]) -> int:
        from ..reading.body import blocks_of
        options = parser(usage, text, failed="")
        options.add_argument("file", metavar="FILE", nargs="?", default="-", help="the dump, which "
                             "may be compressed [default: standard input, uncompressed]")
        sys.stdout.buffer.writelines(made(blocks_of(options.parse_args(words).file)))
        return 0

    main.__module__ = module
    return command(main)


def question(function: Callable[[List[str]], int]) -> Main:
    """Makes main() of what answers yes or no by its status, as cmp and grep do: a fault of a dump
    and an unknown name have status 2, and not that of an answer."""
    return command(function, 2)


def command(function: Callable[[List[str]], int], least: int = 0) -> Main:
    """Makes main() of what takes words and returns a status: errors become a line and a status,
    which is at least so much. It ends without a line if the reader of its output has gone."""
    module = function.__module__.rpartition(".")[2]
    name = "vcdkit" if module == "__main__" else "vcdkit-" + module.replace("_", "-")

    @functools.wraps(function)
    def main(words: Optional[List[str]] = None) -> int:
        if hasattr(sys, "set_int_max_str_digits"):
            sys.set_int_max_str_digits(0)  # vectors and times may be longer
        sys.stderr = sys.stderr or open(os.devnull, "w")  # None where it was closed
        _write_bytes(sys.stderr)
        if sys.stdout is None:
            return _said(name, "write failed", RunFailed.status)
        _write_bytes(sys.stdout)
        try:
            try:
                with Progress(name):
                    return function(sys.argv[1:] if words is None else words)
            finally:
                sys.stdout.flush()
        except VcdkitError as error:
            asked = sys.argv[1:] if words is None else words
            return _said(name, str(error) + _remedy(error, asked, name), max(error.status, least))
        except BrokenPipeError:
            _drop(sys.stdout)
            return BROKEN_PIPE
        except KeyboardInterrupt:
            return 130
        except MemoryError:
            return _said(name, "out of memory", RunFailed.status)
        except OSError:
            _drop(sys.stdout)
            return _said(name, "write failed", RunFailed.status)

    return main


def _remedy(error: VcdkitError, words: List[str], command_name: str) -> str:
    """Returns what to add to a message: of a fault what helps, and of a name in place of a file
    which arguments are dumps."""
    import shlex  # only a message needs it
    if isinstance(error, RunFailed):
        name, _, said = str(error).partition(": ")
        if isinstance(error, DamagedFile) and command_name != "vcdkit-explain":
            return "\nsee: " + (".. | vcdkit-explain -" if name == "(stdin)" else
                                "vcdkit-explain " + shlex.quote(name))
        before = words[words.index(name) - 1] if name in words[1:] else ""
        if name in UNITS and before.replace(".", "", 1).isdigit():
            return " (for a time, write %s%s, without a space)" % (before, name)
        from ..forms.many import READ
        option = next((one for one in READ.values() if before == one or one + "=" + name in words),
                      "--states" * bool(re.search(r"--states[= ]\S*=%s( |\Z)" % re.escape(name),
                                                  " ".join(words))))
        if option:
            return " (%s names a file)" % option
        is_name = said.startswith("No such file") and not re.search(
            r"[/ ]|\.(%s)\Z" % "|".join(ENDINGS), name)
        dumps = ("two arguments are the dumps" if command_name == "vcdkit-diff" else
                 "argument is the dump")
        return " (the first %s; - is standard input)" % dumps if is_name else ""
    if not isinstance(error, DumpFault):
        is_swapped = str(error).startswith("bad condition") and not os.path.exists(words[0]) and (
            os.path.isfile(words[-1]))
        return "\nthe dump comes before the condition" * is_swapped
    from ..questions.causes import NINE, STRING, look_at
    from ..questions.dump import Dump
    if error.file == "(stdin)":
        return "\nsee: .. | vcdkit-explain -"
    if "--four-state" not in words and os.path.isfile(error.file):
        if look_at(Dump(error.file), error)[1] in (NINE, STRING):
            return "\nadd --four-state"
    return "\nsee: vcdkit-explain " + shlex.quote(error.file)


def _write_bytes(stream: TextIO) -> None:
    """Lets a stream write the bytes of names as they are."""
    if isinstance(stream, io.TextIOWrapper):
        stream.reconfigure(encoding="utf-8", errors="surrogateescape", newline="\n")


def _drop(stream: TextIO) -> None:
    """Lets what is left in a stream go nowhere, so that the end of Python does not write it."""
    os.dup2(os.open(os.devnull, os.O_WRONLY), stream.fileno())


def _said(name: str, text: str, status: int) -> int:
    """Writes a message, if there is somewhere to write it, and returns the status."""
    try:
        print("%s: %s" % (name, text), file=sys.stderr, flush=True)
    except OSError:
        _drop(sys.stderr)
    return status
