#!/usr/bin/env python3
"""machine.py PROGRAM DEVICES

Runs the program on what only a machine has: files that cannot be read, arguments that are not
UTF-8, no random numbers, an error stream that takes one write, no memory for arguments. It also
runs the command lines of the stored runs, because the gate does not compare their error streams.
DEVICES is devices.c, built as a shared library.

Each case is also run with 112 KB of stack (`ulimit -s 112`), and has to give the whole outcome.
Then it is run with limited memory (`ulimit -v`), in steps of 16 KB, from the least size with which
the loader reaches the program up to the first size with which the run gives its outcome. With each
size below that, there must be no output, the line `vcdkit: out of memory` and status 3: no signal
ends the program."""
import os, sys, tempfile
from functools import partial

from cases import A, CASES, Case
from hostile import wanted
from trials import MEMORY, TOP, Program, compare

CRATES = os.path.join(TOP, "crates")
SAMPLE = os.path.join(TOP, "samples", "counter.vcd")

# Each command over an input, with the words that come before and after the one for it.
COMMANDS = [(["check"], []), (["list"], []), (["pick", "-i"], ["tb"]), (["cut"], []),
            (["sample", "--at", "0", "-i"], []), (["edges", "-i"], []), (["merge"], [])]
# Words that ask for no job: help and the version, and words that are refused.
ANSWERED = [["--help"], ["cut", "--help"], ["--version"], [], ["chekc"], ["pick"],
            ["check", "-i", "a", "b"], ["merge", "a", "-o", "b"], ["sample", "--at", "5,5"]]

STACK = 112
STEP = 16
# As many open scopes as there may be, with a variable in each; and some names in them.
DEEP = b"".join(b"$scope module s $end $var wire 1 v%d v $end\n" % n for n in range(1000)) + (
    b"$enddefinitions $end\n#0\n1v0\n#7\n0v999\n")
DEEP_NAMES = [b"s." * 1 + b"v", b"s." * 500 + b"v", b"s." * 998 + b"s"]
# The cases for the stack and for memory: those of all commands, and some with names.
LIMITED = CASES + [
    Case("pick_names", "pick", [A + b"#0\n1!\nb1 \"\n"], names=[b"tb.clk", b"tb.q"] * 40),
    Case("pick_deep", "pick", [DEEP], names=DEEP_NAMES),
    Case("sample_deep", "sample", [DEEP], options=[(3, None), (9, None)], names=DEEP_NAMES),
    Case("edges_deep", "edges", [DEEP], names=DEEP_NAMES),
    Case("merge_deep", "merge", [DEEP, DEEP]),
]


def failing_files(program):
    """A read of a directory fails, and so does one of the memory at address 0: neither is the end
    of a dump."""
    for name in ("/", "/proc/self/mem"):
        line = b"vcdkit: " + name.encode() + b": read failed\n"
        for before, after in COMMANDS:
            yield ("%s %s" % (before[0], name), [(b"", line, 3)],
                   program.run(before + [name] + after))


def words_that_are_no_text(program):
    for words in ([b"check", b"-i", b"\xff.vcd"], [b"\xc3"], [b"pick", b"a\x80", b"--help"]):
        yield "%r" % words, [(b"", b"vcdkit: bad words\n", 2)], program.run(words)


def no_random_numbers(program):
    """If codes cannot be hashed by random numbers, no input is read, and the message says so."""
    for before, after in COMMANDS:
        line = b"vcdkit: " + SAMPLE.encode() + b": read failed\n"
        yield ("%s without random numbers" % before[0], [(b"", line, 3)],
               program.run(before + [SAMPLE] + after, no_entropy=1))
    for words in ANSWERED:
        yield ("%r without random numbers" % words, [program.run(words)],
               program.run(words, no_entropy=1))


def messages_in_one_write(program):
    """A second write to the error stream fails: no message needs it, up to 8,192 bytes."""
    for words in ANSWERED + [["check", "/"], ["list", "n" * 8_165], ["merge", "n" * 4_096, "-"]]:
        yield ("%.100r in one write" % words, [program.run(words)],
               program.run(words, error_fails=2))


def no_memory_for_words(program, words, outcome=MEMORY):
    """Each request for memory is refused in turn, up to the first that is not made. A refused one
    has this outcome."""
    whole = program.run(words)
    refused = 0
    for n in range(1, 100_000):
        got = program.run(words, refuse=n)
        if got == outcome:
            refused = n
        elif n > refused + 20:
            break
        yield "%r, request %d refused" % (words, n), [outcome, whole], got
    yield "%r, refused at all" % words, [True], refused > 0


def put(folder, case):
    """Writes the inputs of a case, and returns the names of their files."""
    files = ["%s.%d.vcd" % (case.name, k) for k in range(len(case.inputs))]
    for name, text in zip(files, case.inputs):
        with open(os.path.join(folder, name), "wb") as f:
            f.write(text)
    return files


def ways_of(folder, case):
    """The ways to give the inputs of a case: words, standard input, and the outcome. The first
    input is a file, or standard input, which is a pipe."""
    files = put(folder, case)
    yield case.words(files), b"", wanted(case, files, case.inputs)
    yield (case.words(["-"] + files[1:]), case.inputs[0],
           wanted(case, ["(stdin)"] + files[1:], case.inputs))


def small_stack(program, case):
    with tempfile.TemporaryDirectory() as folder:
        for words, given, want in ways_of(folder, case):
            got = program.run(words, folder, given, shell='ulimit -s %d; exec "$@"' % STACK)
            yield "%s with %d KB of stack" % (" ".join(words)[:100], STACK), [want], got


def in_memory(size):
    """The text for a shell that starts the program with so many kilobytes of memory."""
    return 'ulimit -v %d; exec "$@"' % size


def least_memory(program):
    """The least memory with which the loader comes to the program, in kilobytes. With less, the
    loader ends with a line and a status of its own, or the kernel ends it by a signal."""
    return next(size for size in range(STEP, 1 << 20, STEP)
                if program.run(["--version"], shell=in_memory(size))[2] in (0, 3))


def little_memory(program, least, case):
    with tempfile.TemporaryDirectory() as folder:
        for words, given, want in ways_of(folder, case):
            refused = b"", case.line(b"out of memory"), 3
            for size in range(least, least + (1 << 20), STEP):
                got = program.run(words, folder, given, shell=in_memory(size))
                yield ("%s with %d KB of memory" % (" ".join(words)[:100], size), [refused, want],
                       got)
                if got != refused:
                    break


def transcript():
    """The command lines of the crate run_words, and what each leaves: output, message, status. The
    last run is left out: it has the crate's own arguments, and only counts what it writes."""
    with open(os.path.join(CRATES, "run_words", "stdout"), "rb") as f:
        parts = (b"\n" + f.read()[:-1]).split(b"\n$ ")[1:-1]
    for part in parts:
        line, left = (part + b"\n").split(b"\n", 1)
        output, _, rest = (b"\n" + left).partition(b"\nstatus ")
        status, message = rest.split(b"\n", 1)
        yield line, (output[1:] + b"\n" if output else b"", message, int(status))


def stored_runs(program):
    """The stored runs again, with their error streams, each on a standard input of its own. Lines
    that begin with the name of another program, which is beside this one, are for that."""
    others = {name: Program(os.path.join(os.path.dirname(program.path), name.decode()))
              for name in (b"vcdkit-compare", b"vcdkit-strobe")}
    folder = os.path.join(CRATES, "run_words")
    with open(os.path.join(folder, "stdin"), "rb") as f:
        given = f.read()
    for line, want in transcript():
        words, run = line.split(), program.run
        if words[0] in others:
            words, run = words[1:], others[words[0]].run
        got = run(words, os.path.join(folder, "data"), given)
        yield "the stored run %r" % line, [want], got
    folder = os.path.join(CRATES, "vcdkit_main")
    with open(os.path.join(folder, "args")) as a, open(os.path.join(folder, "stdout"), "rb") as o:
        words, output = a.read().split(), o.read()
    want = (output, b"vcdkit: c.vcd:4: bad time\n", 1)
    yield ("the stored run %r" % words, [want],
           program.run(words, os.path.join(folder, "data")))


def main():
    program = Program(*sys.argv[1:3])
    least = least_memory(program)
    jobs = [partial(part, program)
            for part in (failing_files, words_that_are_no_text, no_random_numbers,
                         messages_in_one_write, stored_runs)]
    jobs += [partial(no_memory_for_words, program, words) for words in ANSWERED]
    jobs += [partial(small_stack, program, case) for case in LIMITED]
    jobs += [partial(little_memory, program, least, case) for case in LIMITED]
    return compare("machine", jobs)


if __name__ == "__main__":
    sys.exit(main())
