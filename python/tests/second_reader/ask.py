#!/usr/bin/env python3
"""Asks the scripts and the package about dumps that look like those of real designs, and compares
what they say with a second reader, which is written from the pages and shares no code with them.

Without DUMPs, it makes a dump for each seed. A dump that is longer than a real design's first
moments is cut off. If an answer differs, it prints the seed and the kind of the question, with
which the question is asked again."""
import argparse
import collections
import functools
import multiprocessing
import os
import random
import re
import subprocess
import sys
import tempfile
import time
import traceback
import zlib
from typing import Any, Callable, Counter, Dict, List, NamedTuple, Tuple

from asker import NEVER, PYTHON, Asker, Skip
from faulty_dumps import with_fault
from made_dumps import Made

os.environ.setdefault("VCDKIT", os.path.join(os.path.dirname(PYTHON), "vcdkit"))

import in_process
import of_conditions
import of_files
import of_names
import of_package
import of_pages
import of_stats
import of_two_dumps
import of_values
import small_dumps

MODULES = [of_values, of_conditions, of_stats, of_two_dumps, of_pages, of_files, of_names,
           of_package]
MAX_BYTES = 60_000  # of a dump that is given
FAULTY = .3  # the share of made dumps that get a fault
MAX_SHOWN = 3  # differences of a kind
ROUNDS = 4  # of questions about a dump that is given
EACH = 100  # of so many questions about small dumps one goes through the program too
# What is not asked of small dumps: it depends on no dump, starts a program, or is about words that
# only the program refuses.
OF_NO_DUMP = ["bits-that-stay", "marks", "nested", "no-window", "open-sections", "packed", "shown",
              "twice"]
WAYS: List[in_process.Ways] = []


@functools.lru_cache(maxsize=None)
def all_questions() -> Dict[str, Callable[[Asker], None]]:
    """Returns the questions by their names; those of the package begin with `package-`."""
    return {("package-" if module is of_package else "") + name[4:].replace("_", "-"): ask
            for module in MODULES for name, ask in vars(module).items()
            if name.startswith("ask_") and ask.__module__ == module.__name__}


class Source(NamedTuple):
    """A dump that is made for a seed, one of a file, or a small one, with another one like it."""

    seed: int
    path: str = ""
    small: bytes = b""
    other: bytes = b""

    def text(self) -> Tuple[bytes, List[str]]:
        """Returns its text, and the codes of clocks."""
        if self.small:
            return self.small, ["!"]
        if not self.path:
            made = Made(self.seed)
            of = random.Random("a fault %d" % self.seed)
            return with_fault(made.text, of) if of.random() < FAULTY else made.text, made.clocks
        with open(self.path, "rb") as file:
            text = file.read(MAX_BYTES + 1)
        return (text if len(text) <= MAX_BYTES else text[:text.rfind(b"\n#") + 1]), []

    def again(self, kind: str) -> str:
        """Returns the words that repeat a question."""
        words = "--small %d:%d" % (10**9, self.seed) if self.small else "--seeds %d:%d %s" % (
            self.seed, self.seed + 1, self.path)
        return "%s --kinds %s" % (words.rstrip(), kind)


class Found(NamedTuple):
    """What was asked of one dump: how often each question was, and what differs."""

    counts: Counter[str]
    differences: List[Tuple[str, str]]  # the question, and a text


def ask_all(source: Source, kinds: List[str]) -> Found:
    """Asks questions of some kinds about a dump. The choices of a question depend only on the seed
    and its kind. The evaluator answers about a small dump, and the program now and then."""
    found = Found(collections.Counter(), [])
    text, clocks = source.text()
    if source.small and not WAYS:
        WAYS.append(in_process.Ways())
    with tempfile.TemporaryDirectory() as folder:
        path = os.path.join(folder, "dump.vcd")
        asker = Asker(source.seed, text, clocks, path, lambda *_: None, source.other)
        for kind in kinds if asker.dump.variables else ():
            ask_one(asker, source, kind, found)
            is_again = WAYS and zlib.crc32(b"%d %s" % (source.seed, kind.encode())) % EACH == 0
            if is_again:
                WAYS[0].take(True)
                ask_one(asker, source, kind, found)
                WAYS[0].take(False)
    return found


def ask_one(asker: Asker, source: Source, kind: str, found: Found) -> None:
    """Asks a question."""
    asker.reset(kind)
    asker.differ = functools.partial(note, found, source, kind)
    try:
        all_questions()[kind](asker)
        found.counts[kind] += 1
    except Skip:
        pass
    except Exception as error:  # pylint: disable=broad-except
        if not re.search(NEVER, str(error)):
            note(found, source, kind, "a traceback", "", traceback.format_exc(limit=-3), "")
        elif not asker.is_settled():
            note(found, source, kind, "refused", "", error, "it may hold")


def note(found: Found, source: Source, kind: str, what: str, words: Any, got: Any, wanted: Any
         ) -> None:
    """Keeps a difference."""
    found.differences.append((kind, "%s: %s\n  asked:  %s\n  wanted: %s\n  got:    %s" % (
        what, source.again(kind), *(str(one)[:1000] for one in (words, wanted, got)))))


def is_valid(path: str) -> bool:
    """Whether a dump has no fault; says so if it has."""
    text, _ = Source(0, path).text()
    done = subprocess.run([os.environ["VCDKIT"], "check"], input=text, check=False,
                          stdout=subprocess.DEVNULL, stderr=subprocess.PIPE)
    if done.returncode:
        print("%s is not asked about: %s" % (path, done.stderr.decode(errors="replace").strip()))
    return not done.returncode


def sources_of(asked: argparse.Namespace) -> List[Source]:
    """Returns the dumps that are asked about."""
    if asked.small:
        stride, _, number = asked.small.partition(":")
        return [Source(number, "", *texts) for number, *texts in small_dumps.some(
            int(stride), int(number or "0"))]
    first, _, last = asked.seeds.partition(":")
    begin = int(first) if asked.seeds else random.SystemRandom().randrange(10**9)
    end = int(last) if last else begin + (ROUNDS if asked.dumps else 10**6)
    paths = [path for path in asked.dumps if is_valid(path)] if asked.dumps else [""]
    return [Source(seed, path) for seed in range(begin, end) for path in paths]


def words() -> argparse.Namespace:
    """Reads the command line."""
    of = argparse.ArgumentParser(description=__doc__.partition("\n\n")[0])
    of.add_argument("--seeds", metavar="FIRST:END", default="", help="[default: new ones]")
    of.add_argument("--kinds", metavar="KIND,..", default=",".join(all_questions()),
                    help="the kinds of questions [default: %(default)s]")
    of.add_argument("--small", metavar="N[:FIRST]", default="",
                    help="ask about every N-th small dump, from number FIRST on")
    of.add_argument("--seconds", type=float, default=0.0, help="end after so many seconds")
    of.add_argument("--processes", type=int, default=os.cpu_count())
    of.add_argument("dumps", metavar="DUMP", nargs="*")
    return of.parse_args()


def set_free() -> None:
    """Lets this process start others, as a script does that takes many dumps."""
    multiprocessing.current_process()._config["daemon"] = False  # type: ignore[attr-defined]


def main() -> int:
    """Asks everything, and says what differs."""
    asked = words()
    kinds, sources = asked.kinds.split(","), sources_of(asked)
    kinds = [kind for kind in kinds if not asked.small or kind not in OF_NO_DUMP]
    counts: Counter[str] = collections.Counter()
    wrong: Counter[str] = collections.Counter()
    end = time.monotonic() + asked.seconds if asked.seconds else float("inf")
    with multiprocessing.Pool(asked.processes, set_free, maxtasksperchild=200) as pool:
        for found in pool.imap_unordered(functools.partial(ask_all, kinds=kinds), sources):
            counts.update(found.counts)
            for kind, text in found.differences:
                wrong[kind] += 1
                if wrong[kind] <= MAX_SHOWN:
                    print(text, flush=True)
            if time.monotonic() > end:
                pool.terminate()
                break
    if not NODE_IS_THERE:
        print("the page's script was not asked: there is no node")
    print("%d questions from seed %d on: %s; %d differ" % (
        sum(counts.values()), sources[0].seed if sources else 0,
        ", ".join("%s %d" % one for one in sorted(counts.items())), sum(wrong.values())))
    return 1 if wrong else 0


NODE_IS_THERE = of_pages.NODE is not None

if __name__ == "__main__":
    sys.exit(main())
