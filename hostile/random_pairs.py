#!/usr/bin/env python3
"""random_pairs.py VCDKIT COMPARE [--runs N] [--seed S]

Compares what vcdkit-compare writes with comparison.py: over two scopes of a random dump, and over
what `vcdkit merge` writes of two random dumps. The lines of two dumps without a fault also have to
be those that the definition of two dumps gives, up to the end of the shorter one."""
import argparse, os, subprocess, sys, tempfile
from concurrent.futures import ProcessPoolExecutor

from reference import comparison
from reference import evaluator
from cases import Comparison
from reference.comparison import ALWAYS, EACH_PAIR, FIRST, Asked
from pairs import Pairs

LAST = 2**64 - 1
SHARE = 50
MERGED = [(b"in1", b"in2")]


def asked_of(r, paths):
    """A window, an extent, rules and exceptions."""
    begin = r.choice([0, 0, 0, 1, 3, 7, 30])
    end = r.choice([LAST, LAST, LAST, begin, begin + 3, 9])
    loose = r.choice([(False, False)] * 4 + [(True, False), (False, True), (True, True)])
    exceptions = []
    while paths and r.random() < 0.15:
        exceptions.append(prefix(r, r.choice(paths)))
    return Asked([], exceptions, begin, max(begin, end), r.choice([FIRST, EACH_PAIR, ALWAYS]),
                 loose)


def prefix(r, path):
    """A path, or a scope around it."""
    parts = path.split(b".")
    return b".".join(parts[:r.randrange(1, len(parts) + 1)])


def names_of(r, paths, whole):
    """Both parts, or names of some paths, with what is as far in the other part or elsewhere, and
    at times both parts, or names, once more; few of them are the same, or select nothing."""
    if r.random() < 0.6 or not paths:
        return [whole]
    found = []
    for _ in range(r.choice([1, 1, 2, 3])):
        one = prefix(r, r.choice(paths))
        other = whole[1] + one[len(whole[0]):]
        if r.random() < 0.5:
            other = b"nowhere" if r.random() < 0.1 else prefix(r, r.choice(paths))
        if b"=" not in one + other:
            found.append((one, other))
    if r.random() < 0.2:
        found.append(r.choice([whole, *found]))
        r.shuffle(found)
    return found or [whole]


def outcome(command, **how):
    p = subprocess.run(command, capture_output=True, timeout=120, **how)
    return p.stdout, p.stderr, p.returncode


class Trials:
    """The programs, and a directory for the dumps."""

    def __init__(self, program, compare, folder):
        self.program, self.compare = program, compare
        self.paths = [os.path.join(folder, "%d.%s" % (os.getpid(), name))
                      for name in ("a.vcd", "b.vcd")]

    def put(self, texts):
        for path, text in zip(self.paths, texts):
            with open(path, "wb") as file:
                file.write(text)

    def words(self, case, files):
        """The words of a case."""
        return [self.compare, *case.words(files)]

    def merged(self, case):
        """What the comparison of a merge leaves, and what the merge does."""
        merge = subprocess.Popen([self.program, "merge", *self.paths[:2]],
                                 stdout=subprocess.PIPE, stderr=subprocess.PIPE)
        got = outcome(self.words(case, []), stdin=merge.stdout)
        merge.stdout.close()
        message = merge.communicate()[1]
        return got, (message, merge.returncode)

    def given(self, case):
        """What the comparison of a dump on standard input leaves, which is a pipe."""
        return outcome(self.words(case, []), input=case.inputs[0])

    def from_file(self, case, is_named):
        """The same of a file, which is standard input if it is not named."""
        self.put(case.inputs)
        with open(self.paths[0], "rb") as file:
            return outcome(self.words(case, self.paths[:is_named]), stdin=file)


def of_two_dumps(asked, names, texts):
    """The window and the lines that the definition of two dumps gives for their merge, if neither
    has a fault, both have a variable, and both or none have a time scale; else None."""
    heads = [evaluator.read_head(evaluator.Tokens(text, 1 << 20), 1 << 24) for text in texts]
    scales = [head.scale for head in heads]
    if (scales[0] is None) != (scales[1] is None) or not all(map(comparison.all_named, heads)):
        return None
    factors = comparison.factors_of(heads)
    ends = []
    for text, factor in zip(texts, factors):
        report = dict(line.split() for line in
                      evaluator.run("check", [], [], [(b"", text)])[0].splitlines())
        ends.append(0 if report[b"last"] == b"-" else int(report[b"last"]) * factor)
    begin, end = asked.begin * factors[0], min(asked.end * factors[0], *ends)
    if max(begin, end) > LAST:
        return None
    return begin, end, factors[0], comparison.compared(asked, names, texts)[0].splitlines()


def as_merged(lines):
    """Lines of two dumps, as those of their parts in a merge."""
    found = []
    for line in lines:
        words = line.split(b" ")
        if words[0] == b"alone":
            found.append(b"alone %s in%d.%s" % (words[1], 1 + (words[1] == b"B"), words[2]))
        elif words[0] == b"size":
            found.append(b"size in1." + line[5:])
        elif words[0] == b"differs":
            found.append(b"differs %s in1." % words[1] + line[9 + len(words[1]):])
        elif words[0] == b"compared":
            found.append(line)
    return found


def in_ticks_of_first(line, factor):
    words = line.split(b" ")
    if words[0] == b"differs":
        words[1] = b"%d" % (int(words[1]) // factor)
    return b" ".join(words)


def law(trials, texts, extent, r):
    """What is wrong with the lines of a merge, compared up to the end of the shorter dump, if both
    have a variable."""
    asked = Asked(extent=extent, begin=r.choice([0, 0, 2]), end=r.choice([LAST, LAST, 8]))
    its = of_two_dumps(asked, [b"a", b"b"], texts)
    if its is None or its[0] > its[1]:
        return 0, None
    begin, end, factor, lines = its
    case = Comparison("law", b"", MERGED, Asked(extent=extent, begin=begin, end=end))
    got = [in_ticks_of_first(line, factor) for line in trials.merged(case)[0][0].splitlines()]
    want = as_merged(lines)
    return 1, None if got == want else "the law: want %.2000r\n got  %.2000r" % (want, got)


def told(case, texts, want, got):
    return "%s\n want %.2000r\n got  %.2000r\n of %.3000r" % (
        " ".join(case.words([])), want, got, texts)


def two(trials, seed):
    """Runs over two dumps, and what is wrong with them."""
    p = Pairs(seed)
    texts, variables = p.two()
    trials.put(texts)
    files = [path.encode() for path in trials.paths[:2]]
    output, message, status = evaluator.run("merge", [], [], list(zip(files, texts)))
    paths = [b"in1." + one.path for one in variables]
    case = Comparison("two", output, names_of(p.r, paths, MERGED[0]), asked_of(p.r, paths))
    want = case.outcome([b"(stdin)"], case.inputs)
    got, left = trials.merged(case)
    # A comparison that ends early breaks the pipe of a merge that has still something to write.
    ended = case.asked.extent == FIRST or case.asked.end < LAST or want[2] > 1
    wrong = []
    if got != want or (left != (message, status) and not ended):
        wrong.append(told(case, texts, (want, message, status), (got, *left)))
    if status > 0:
        return 1, wrong
    more, found = law(trials, texts, case.asked.extent, p.r)
    return 1 + more, wrong + (["%s\n of %.3000r" % (found, texts)] if found else [])


def alone(trials, seed):
    """A run over two parts of a dump, and what is wrong with it."""
    p = Pairs(seed)
    text, paths = p.parts()
    case = Comparison("alone", text, names_of(p.r, paths, (b"p", b"q")), asked_of(p.r, paths))
    way = p.r.choice(["pipe", "file", "name", "name"])
    name = trials.paths[0].encode() if way == "name" else b"(stdin)"
    got = (trials.given(case) if way == "pipe" else
           trials.from_file(case, way == "name"))
    want = case.outcome([name], [text])
    return 1, [] if got == want else [told(case, text, want, got)]


def share(job):
    """Some of the runs."""
    program, compare, folder, seeds = job
    trials, count, wrong = Trials(program, compare, folder), 0, []
    for seed in seeds:
        part = two if seed % 2 else alone
        more, found = part(trials, seed)
        count += more
        wrong += ["seed %d: %s" % (seed, one) for one in found]
    return count, wrong


def work(program, compare, runs, first=1):
    """Returns how many of the runs differ."""
    programs = os.path.abspath(program), os.path.abspath(compare)
    count, wrong, end = 0, [], first + runs
    with tempfile.TemporaryDirectory() as folder, ProcessPoolExecutor(os.cpu_count()) as pool:
        jobs = [(*programs, folder, range(seed, min(seed + SHARE, end)))
                for seed in range(first, end, SHARE)]
        for more, found in pool.map(share, jobs):
            count += more
            wrong += found
    for text in wrong[:5]:
        print(text)
    print("random pairs: %d, with %d runs, %d differ" % (runs, count, len(wrong)))
    return len(wrong)


def main():
    parser = argparse.ArgumentParser(description=__doc__)
    parser.add_argument("program")
    parser.add_argument("compare")
    parser.add_argument("--runs", type=int, default=10_000)
    parser.add_argument("--seed", type=int, default=1)
    a = parser.parse_args()
    return 1 if work(a.program, a.compare, a.runs, a.seed) else 0


if __name__ == "__main__":
    sys.exit(main())
