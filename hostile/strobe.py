#!/usr/bin/env python3
"""strobe.py STROBE DEVICES [PART..]      PART is random, hostile, streams or machine; without one,
all

Runs vcdkit-strobe under the conditions of the other scripts. It has to write what
reference/strobe.py gives. DEVICES is devices.c, built as a shared library.

random   20,000 random dumps, RUNS=100000 takes so many: three of four have two clocks that mostly
         change from one digit to the other, the others are those of random_runs.py. There are
         clocks of both edges, bits, paths that are no clocks, and names, some of nothing.
hostile  The parts of hostile.py: memory, large, devices, cut_off, pipes.
streams  Standard streams are closed; the output fails; standard input does not wait.
machine  The stack has 112 KB, and memory is limited, in steps of 16 KB; words ask for no strobe."""
import os, random, subprocess, sys
from concurrent.futures import ProcessPoolExecutor
from functools import partial

import hostile
import machine
import streams
from cases import STROBES, Strobing
from dumps import Dumps
from reference import evaluator
from trials import Program, compare

SHARE = 100
VARIABLES = [(b"c", b"reg", 1, b"!"), (b"also", b"wire", 1, b"!"), (b"d", b"reg", 1, b'"'),
             (b"q", b"reg", 4, b"#"), (b"w", b"reg", 70, b"$"), (b"v", b"reg", 33, b"%"),
             (b"e", b"event", 1, b"&"), (b"r", b"real", 64, b"("), (b"s", b"wire", 1, b"ab"),
             (b"n", b"wire", 2, b"zz"), (b"u", b"real", 1, b")"), (b"q@0", b"wire", 1, b"ab"),
             (b"d@1", b"wire", 2, b"zz"), (b"n [0]", b"wire", 1, b'"')]
SECTIONS = [b"$dumpoff", b"$dumpon", b"$dumpall"]
FAULTS = [b"?", b"#0", b"1unknown", b"b2 !", b"$end", b"#18446744073709551616", b"$dumpvars"]


# ---- random dumps

def value(r, kind, size):
    """A value of a variable, up to its code."""
    if kind == b"event":
        return b"1"
    if kind == b"real":
        return b"r" + r.choice([b"0", b"1.5", b"1.50", b"-2e3", b"0.0"]) + b" "
    digits = b"01" if r.random() < .8 else b"01xzXZ"
    many = r.choice([1, 1, 2, size, size, r.randint(1, size)])
    text = bytes(r.choice(digits) for _ in range(min(many, size)))
    if r.random() < .3:
        text = r.choice([text[:1] * len(text), b"0" * (len(text) - 1) + b"1"])
    return text if size == 1 and r.random() < .9 else b"b" + text + b" "


def steps(r):
    """The lines of a body."""
    time, lines, digit = 0, [], r.randrange(2)
    for _ in range(r.randrange(30)):
        if r.random() < .85:
            time += r.choice([0, 1, 1, 2, 5])
            lines.append(b"#%d" % time)
        if r.random() < .15:
            lines.append(r.choice([b"$dumpvars", b"$dumpvars", *SECTIONS]))
            lines += [value(r, kind, size) + code for _, kind, size, code in r.sample(
                VARIABLES, r.randrange(len(VARIABLES)))]
            lines.append(b"$end")
        if r.random() < .6:
            digit = 1 - digit
            lines.append(b"%d!" % digit)
        for _ in range(r.choice([0, 0, 1, 1, 2, 4])):
            _, kind, size, code = r.choice(VARIABLES)
            lines.append(r.choice([b"0", b"1", b"x"]) + r.choice([b"!", b'"']) if r.random() < .2
                         else value(r, kind, size) + code)
        lines += [b"$comment 1! $end"] * (r.random() < .05)
    return lines


def clocked(r):
    """A dump with clocks."""
    its = r.sample(VARIABLES, len(VARIABLES)) if r.random() < .5 else VARIABLES
    head = [b"$timescale 1 ns $end $scope module t $end", *(
        b"$var %s %d %s %s $end" % (kind, size, code, name) for name, kind, size, code in its),
            b"$upscope $end $enddefinitions $end"]
    lines = steps(r)
    if r.random() < .15:
        lines.insert(r.randrange(len(lines) + 1), r.choice(FAULTS))
    text = b"\n".join(head + lines) + b"\n"
    return text[:r.randint(len(text) // 2, len(text))] if r.random() < .1 else text


def case_of(seed):
    """A dump, clocks and names."""
    r = random.Random(seed)
    text = clocked(r) if seed % 4 else Dumps(seed).dump()
    try:
        head = evaluator.read_head(evaluator.Tokens(text, 1 << 20), 1 << 24)
    except evaluator.Fault:
        head = evaluator.Head()
    # Words are UTF-8.
    sizes = {path: head.codes[code][0] for _, path, code in head.variables() if path.isascii()}
    paths = list(sizes) or [b"t.c", b"nowhere"]
    likely = [path for path in paths if path in (b"t.c", b"t.also", b"t.d")] or paths
    clocks = []
    for _ in range(r.choice([1, 1, 1, 2, 2, 3])):
        path = r.choice(likely if r.random() < .8 else paths)
        size = sizes.get(path, 1)
        place = b"" if size == 1 and r.random() < .8 else b"@%d" % r.randrange(size)
        clocks.append((path + place, r.random() < .4))
    if r.random() < .05:
        place = r.choice([b"", b"", b"@1", b"@40", b"@%d" % (2**64 - 1), b"@%d" % 2**64, b"@"])
        clocks.append((r.choice([*paths, b"t", b"tb"]) + place, True))
    # The program takes those that rise first.
    clocks.sort(key=lambda one: one[1])
    names = [] if r.random() < .5 else r.sample(paths, r.randint(1, min(4, len(paths))))
    names += [b"nowhere"] * (r.random() < .03)
    return Strobing("%d" % seed, text, clocks, names)


def share(job):
    """How many runs have edges, and what is wrong, of some of the runs."""
    program, seeds = job
    edges, wrong = 0, []
    for case in map(case_of, seeds):
        ran = subprocess.run([program, *case.words(["-"])], input=case.inputs[0],
                             capture_output=True, timeout=60)
        want, got = case.outcome(["(stdin)"], case.inputs), (ran.stdout, ran.stderr, ran.returncode)
        edges += want[0].count(b"\n#")
        if got != want:
            wrong.append("seed %s: %s\n want %.2000r\n got  %.2000r\n of %.3000r" % (
                case.name, " ".join(case.words(["-"])), want, got, case.inputs[0]))
    return edges, wrong


def at_random(programs):
    runs = int(os.environ.get("RUNS", "20000"))
    edges, wrong = 0, []
    with ProcessPoolExecutor(os.cpu_count()) as pool:
        for more, found in pool.map(share, [
                (programs[0], range(first, min(first + SHARE, runs)))
                for first in range(0, runs, SHARE)]):
            edges += more
            wrong += found
    for text in wrong[:5]:
        print(text)
    print("random strobes: %d, with %d edges, %d differ" % (runs, edges, len(wrong)))
    return len(wrong)


# ---- streams and machine

# Words that ask for no strobe, and their status.
ANSWERED = [(["--help"], 0), (["--version"], 0), ([], 2), (["a"], 2), (["--rise"], 2),
            (["--rise=a"] * 65, 2), (["--rise=a", "--none"], 2), (["--rise=a", "-i", "nowhere"], 3),
            (["--fall=a", "-i", "/"], 3), ([b"--rise=\xff"], 2)]


def on_streams(programs):
    program = Program(*programs)
    return compare("streams", [partial(part, program, case) for case in STROBES for part in (
        streams.closed, streams.failing_outputs, streams.without_waiting)])


def without_a_strobe(program):
    """Words that ask for no strobe, or for a file that is not there: the status, and a message in
    one write."""
    for words, status in ANSWERED:
        whole = program.run(words)
        yield "%r" % words, [status], whole[2]
        yield "%r in one write" % words, [whole], program.run(words, error_fails=2)


def on_machine(programs):
    program = Program(*programs)
    least = machine.least_memory(program)
    refused = b"", Strobing.program + b": out of memory\n", 3
    jobs = [partial(machine.small_stack, program, case) for case in STROBES]
    jobs += [partial(machine.little_memory, program, least, case) for case in STROBES]
    jobs += [partial(machine.no_memory_for_words, program, words, refused) for words, _ in ANSWERED]
    return compare("machine", [*jobs, partial(without_a_strobe, program)])


WORK = {
    "random": at_random,
    "hostile": lambda programs: hostile.work(
        *programs, ["memory", "large", "devices", "cut_off", "pipes"], ["strobe"]),
    "streams": on_streams, "machine": on_machine}


def main():
    if len(sys.argv) < 3:
        sys.exit(__doc__)
    programs = [os.path.abspath(path) for path in sys.argv[1:3]]
    return max([int(bool(WORK[name](programs))) for name in sys.argv[3:] or list(WORK)])


if __name__ == "__main__":
    sys.exit(main())
