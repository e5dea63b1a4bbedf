"""The answers about one dump, or about many in one run: of these, each comes from a process."""
import argparse
import contextlib
import io
import os
import re
import signal
import sys
from functools import partial
from typing import Callable, Iterator, List, Optional, Sequence, Tuple, TypeVar

from ..errors import RunFailed, UsageError, VcdkitError
from ..reading import progress
from ..reading.files import check_outputs, files_of
from .junit import Test, write_tests

Answer = Callable[[argparse.Namespace, List[Test]], int]
T = TypeVar("T")
# The options that name a file to read, by what they are called in what is asked.
READ = {"names_of": "--names", "rules": "--rules", "waive": "--waive"}


def answer_file(name: str, answer: Answer, asked: argparse.Namespace) -> int:
    """Answers what is asked of FILE; of a directory, of each dump in it and below it."""
    each = each_of(asked, files_of([asked.file]))
    check_outputs([asked.junit], [*(one.file for one in each), *read_by(asked)])
    return answer_all(name, answer, each, os.path.isdir(asked.file))


def each_of(asked: argparse.Namespace, files: Sequence[str]) -> List[argparse.Namespace]:
    """Returns what is asked of each of some files."""
    return [argparse.Namespace(**{**vars(asked), "file": file}) for file in files]


def read_by(asked: argparse.Namespace) -> List[Optional[str]]:
    """Returns the files that are read besides dumps."""
    return [getattr(asked, key, None) for key in READ]


def answer_all(name: str, answer: Answer, each: Sequence[argparse.Namespace], is_many: bool) -> int:
    """Answers what is asked, `jobs` at a time, and writes the JUnit file; returns the highest
    status. If there are many, each line begins with its file."""
    if each[0].jobs is not None and not is_many:
        raise UsageError("--jobs is for a directory of dumps")
    tests: List[Test] = []
    try:
        if not is_many:
            return _with_fault(answer, each[0], tests)
        if "-" in read_by(each[0]):
            raise UsageError("standard input can be read for only one dump")
        statuses = []
        for out, messages, found, status in side_by_side(partial(_answered, name, answer), each):
            print(out, end="", flush=True)
            print(messages, end="", file=sys.stderr, flush=True)
            tests += found
            statuses.append(status)
        return max(statuses)
    finally:
        write_tests(each[0].junit, name, tests)


def _with_fault(answer: Answer, asked: argparse.Namespace, tests: List[Test]) -> int:
    """Answers, and adds a test for what prevents that."""
    try:
        return answer(asked, tests)
    except VcdkitError as error:
        tests.append(Test(asked.file, "fault", "error", str(error), ""))
        raise


def side_by_side(of: Callable[[argparse.Namespace], T], each: Sequence[argparse.Namespace]
                 ) -> Iterator[T]:
    """Returns what a function makes of each, in order, `jobs` at a time."""
    from concurrent.futures import ProcessPoolExecutor  # the import takes time
    from concurrent.futures.process import BrokenProcessPool
    from multiprocessing import get_context
    count = os.cpu_count() or 1 if each[0].jobs is None else each[0].jobs
    with ProcessPoolExecutor(max(1, min(count, len(each))), get_context("fork"),
                             signal.signal, (signal.SIGINT, signal.SIG_DFL)) as pool:
        try:
            for number, found in enumerate(pool.map(of, each), 1):
                progress.stage = "%d of %d" % (number, len(each))
                yield found
        except BrokenProcessPool:
            raise RunFailed("a process was ended") from None


def _answered(name: str, answer: Answer, asked: argparse.Namespace
              ) -> Tuple[str, str, List[Test], int]:
    """Returns what an answer writes, its messages, its tests and its status."""
    tests: List[Test] = []
    written = io.BytesIO(), io.BytesIO()
    to, to_messages = (io.TextIOWrapper(one, "utf-8", "surrogateescape", "\n", write_through=True)
                       for one in written)
    with contextlib.redirect_stdout(to), contextlib.redirect_stderr(to_messages):
        try:
            status = _with_fault(answer, asked, tests)
        except VcdkitError as error:
            status = max(error.status, 2)
            print("%s: %s" % (name, error), file=sys.stderr)
    out, messages = (one.getvalue().decode("utf-8", "surrogateescape") for one in written)
    import json  # one dump needs no front
    front: str = asked.file + ": "
    front_of_json = '{"file": %s, ' % json.dumps(asked.file)
    return (re.sub("(?m)^{", lambda _: front_of_json, out) if asked.json else
            re.sub("(?m)^(?=.)", lambda _: front, out),
            re.sub("(?m)^%s: (?!.*%s)" % (name, re.escape(asked.file)),
                   lambda found: found.group() + front, messages), tests, status)
