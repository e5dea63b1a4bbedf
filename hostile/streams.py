#!/usr/bin/env python3
"""streams.py PROGRAM DEVICES

Runs the program while standard streams are closed, while its output fails, and on inputs that are
not plain files. It has to leave what the evaluator gives. DEVICES is devices.c, built as a shared
library.

closed     One, two or all of the standard streams are closed: no file takes their place. A read of
           standard input fails, a write to standard output fails, and a message is lost, but the
           exit status is the same as with it.
failing    The reader of the output has ended, or the device of the output is full. A limit on the
           size of files (`ulimit -f`) ends the program with a signal, or, if that is ignored, makes
           the write fail. What was written before is the beginning of the output.
one stream Standard input has no bytes yet and does not wait, or is a terminal. `-` comes twice. Two
           names are one FIFO.
changing   A file grows or shrinks, before its length is asked for, after that, and between reads.
           The outcome is that of its last text.
many       64 files have a token limit of 16 MB, if 4 GB of memory are free."""
import fcntl, os, select, struct, subprocess, sys, tempfile, termios, time
from contextlib import contextmanager
from functools import partial
from itertools import combinations, product

from reference import evaluator
from cases import A, CASES, CLOCK, ON_A, ON_B, ON_D, Case
from hostile import wanted
from trials import MEMORY, TOP, Program, compare, outcome_of

SAMPLE = os.path.join(TOP, "samples", "nested.vcd")
WRITE_LINE = b"vcdkit: write failed\n"
TWICE = (b"", b"vcdkit: standard input twice\n", 2)
# Words that ask for no job.
ANSWERED = [["--help"], ["merge", "--help"], ["--version"], [], ["chekc"], ["pick"],
            ["sample", "--at", "5,5"], ["check", "nowhere.vcd"], ["merge", "nowhere.vcd", "-"]]
# Which streams are closed, and what a shell writes for it.
CLOSED = {streams: 'exec "$@" ' + " ".join(("<&-", ">&-", "2>&-")[stream] for stream in streams)
          for count in (1, 2, 3) for streams in combinations((0, 1, 2), count)}
CHUNK = 65_536
# With it a file is no longer short: such a file has at most 65,535 bytes.
LARGE_COMMENT = b"$comment " + b"x " * (1 << 19) + b"$end\n"
SIZE_SIGNAL = 25
SECONDS = 20


@contextmanager
def files_with(texts):
    """A directory with files of these names and texts."""
    with tempfile.TemporaryDirectory() as folder:
        for name, text in texts.items():
            with open(os.path.join(folder, name), "wb") as f:
                f.write(text)
        yield folder


def named(case):
    """The names of the files of a case, with their texts."""
    return {"%s.%d.vcd" % (case.name, k): text for k, text in enumerate(case.inputs)}


# ---- streams that are closed, and outputs that fail

def where_output_fails(outcome, line=WRITE_LINE):
    """The outcomes that a run may have whose first write fails, which leaves this line. The fault
    may come before that write, and then it is written too, or after it."""
    output, message, status = outcome
    if not output:
        return [outcome]
    lines = {line, message + line} if status < 3 else {message, line}
    return [(b"", line, 3) for line in sorted(lines)]


def where_closed(outcome, streams, line=WRITE_LINE):
    """The outcomes that a run may have with these streams closed, by the one without an output that
    fails."""
    wants = where_output_fails(outcome, line) if 1 in streams else [outcome]
    return [(out, b"" if 2 in streams else message, status) for out, message, status in wants]


def places_of_input(case):
    """Which inputs of a case may be standard input: none, the first, the last."""
    return [None] + sorted({0, len(case.inputs) - 1})


def closed(program, case):
    """Each case with each of the streams closed. Its inputs are files, or one is standard input."""
    with files_with(named(case)) as folder:
        for place in places_of_input(case):
            words, names = list(named(case)), list(named(case))
            if place is not None:
                words[place], names[place] = "-", "(stdin)"
            for streams, shell in CLOSED.items():
                given = case.inputs[place or 0]
                read = [evaluator.Failed(b"") if 0 in streams and k == place else text
                        for k, text in enumerate(case.inputs)]
                yield ("%s with %s" % (" ".join(case.words(words)), shell),
                       where_closed(wanted(case, names, read), streams,
                                    case.line(b"write failed")),
                       program.run(case.words(words), folder, given, shell=shell))


def closed_without_a_job(program):
    """Words that ask for no job, or for a file that is not there, with each of the streams
    closed."""
    for words in ANSWERED:
        whole = program.run(words)
        for streams, shell in CLOSED.items():
            yield ("%r with %s" % (words, shell), where_closed(whole, streams),
                   program.run(words, shell=shell))


def closed_input_of_a_merge(program):
    """The file beside a closed standard input has two dumps: the first fills the first chunk, so a
    second reader of the file would come upon the second one."""
    dump = ON_A + b"$comment " + b"x" * (CHUNK - len(ON_A) - 15) + b" $end\n"
    with files_with({"two.vcd": dump + ON_A}) as folder:
        assert len(dump) == CHUNK
        for words in (["-", "two.vcd"], ["two.vcd", "-"], ["two.vcd", "-", "two.vcd"]):
            yield ("merge %s <&-" % " ".join(words), [(b"", b"vcdkit: (stdin): read failed\n", 3)],
                   program.run(["merge"] + words, folder, shell='exec "$@" <&-'))


def places_of_closed(program):
    """What the descriptors of a process are whose streams were closed, while it waits for a FIFO:
    the directory / is in their place, and files come after it."""
    with files_with({"a.vcd": CLOCK}) as folder:
        os.mkfifo(os.path.join(folder, "fifo"))
        for streams, shell in CLOSED.items():
            process = program.start(["merge", "a.vcd", "fifo"], folder, shell,
                                    stdin=subprocess.PIPE, stdout=subprocess.PIPE)
            writer = opened(os.path.join(folder, "fifo"))
            links, end = [], time.monotonic() + SECONDS
            while len(links) < 5 and time.monotonic() < end:
                at = "/proc/%d/fd" % process.pid
                links = [os.readlink(os.path.join(at, name))
                         for name in sorted(os.listdir(at), key=int)]
            os.close(writer)
            outcome_of(process)
            yield ("descriptors with %s" % shell,
                   [["/" if stream in streams else None for stream in (0, 1, 2)]
                    + [os.path.join(os.path.realpath(folder), name) for name in ("a.vcd", "fifo")]],
                   [None if link.startswith("pipe:") else link for link in links])


def failing_outputs(program, case):
    """The device of the output is full, or the reader of the output has ended."""
    with files_with(named(case)) as folder:
        files = list(named(case))
        wants = where_output_fails(wanted(case, files, case.inputs), case.line(b"write failed"))
        with open("/dev/full", "wb") as full:
            yield ("%s > /dev/full" % case.name, wants,
                   program.run(case.words(files), folder, out=full))
        reader, writer = os.pipe()
        os.close(reader)
        # A process that another thread has just forked may hold the reader until it starts a
        # program. The only event of a pipe that no event was asked for is that it has no reader.
        ended = select.poll()
        ended.register(writer, 0)
        ended.poll()
        yield "%s | true" % case.name, wants, program.run(case.words(files), folder, out=writer)
        os.close(writer)


def fault_and_failing_write(program):
    """A fault is found in the first chunk, before the output in the buffer is written: two lines,
    whatever lets the write fail."""
    text = A + b"#0\n1!\n?\n"
    case = Case("fault", "pick", [text], names=[b"tb"])
    output, message, status = wanted(case, ["a.vcd"], [text])
    assert output and status == 1
    with files_with({"a.vcd": text}) as folder, open("/dev/full", "wb") as full:
        want = [(b"", message + WRITE_LINE, 3)]
        yield "a fault > /dev/full", want, program.run(case.words(["a.vcd"]), folder, out=full)
        yield ("a fault >&-", want,
               program.run(case.words(["a.vcd"]), folder, shell='exec "$@" >&-'))
    for words in ["--help"], ["--version"]:
        with open("/dev/full", "wb") as full:
            yield "%r > /dev/full" % words, [(b"", WRITE_LINE, 3)], program.run(words, out=full)


def limited_size(program):
    """The output may have 512 bytes (`ulimit -f 1`): the signal of that limit ends the program, or,
    if it is ignored, the write fails. So many bytes of the output are there."""
    with open(SAMPLE, "rb") as f:
        text = f.read()
    case = Case("size", "pick", [text], names=[b"bench"])
    front = wanted(case, [SAMPLE], [text])[0][:512]
    assert len(front) == 512
    for before, message, status in (("", b"", -SIZE_SIGNAL), ("trap '' XFSZ; ", WRITE_LINE, 3)):
        with tempfile.TemporaryFile() as out:
            shell = before + 'ulimit -f 1; exec "$@"'
            got = program.run(case.words([SAMPLE]), out=out, shell=shell)
            out.seek(0)
            yield "pick with %s" % shell, [(front, message, status)], (out.read(),) + got[1:]


# ---- standard input, FIFOs, files that grow

def without_waiting(program, case):
    """Standard input does not wait for bytes: after those that it has, a read of it fails."""
    reader, writer = os.pipe()
    os.set_blocking(reader, False)
    os.write(writer, case.inputs[0])
    with files_with(named(case)) as folder:
        files = list(named(case))[1:]
        read = [evaluator.Failed(case.inputs[0])] + case.inputs[1:]
        yield ("%s of a pipe that does not wait" % case.name,
               [wanted(case, ["(stdin)"] + files, read)],
               program.run(case.words(["-"] + files), folder, reader))
    os.close(reader)
    os.close(writer)


def input_twice(program):
    """`-` twice is refused before a file is opened or anything is read."""
    with files_with({"in.vcd": CLOCK, "-": CLOCK}) as folder:
        for words in (["-", "-"], ["nowhere.vcd", "-", "nowhere.vcd", "-"], ["-", "-", "-"],
                      ["--", "-", "-"], ["--token-limit", "64", "-", "-"], ["-"] * 64):
            with open(os.path.join(folder, "in.vcd"), "rb", 0) as given:
                what = "merge " + " ".join(words[:4])
                yield what, [TWICE], program.run(["merge"] + words, folder, given)
                yield "what %s has read" % what, [0], given.tell()
        yield ("65 files with - twice", [(b"", b"vcdkit: too many files\n", 2)],
               program.run(["merge"] + ["-"] * 65, folder))
        # A file whose name is one hyphen is no standard input.
        case = Case("hyphen", "merge", [CLOCK, ON_B, CLOCK])
        yield ("merge ./- - ./-", [wanted(case, ["./-", "(stdin)", "./-"], case.inputs)],
               program.run(["merge", "./-", "-", "./-"], folder, ON_B))


def opened(path):
    """Opens a FIFO for writing, once a reader has opened it."""
    end = time.monotonic() + SECONDS
    while True:
        try:
            writer = os.open(path, os.O_WRONLY | os.O_NONBLOCK)
        except OSError:
            if time.monotonic() > end:
                raise
            time.sleep(0.001)
        else:
            os.set_blocking(writer, True)
            return writer


def give(writer, text):
    """Writes to a pipe, and waits until all of it was read."""
    os.write(writer, text)
    end = time.monotonic() + SECONDS
    while time.monotonic() < end:
        unread = fcntl.ioctl(writer, termios.FIONREAD, struct.pack("i", 0))
        if unread == struct.pack("i", 0):
            return
        time.sleep(0.001)


def one_fifo(program):
    """Two names of one FIFO are one stream: each read of an input takes what is there."""
    for texts, what in (([ON_D, CLOCK], "two dumps"), ([ON_D], "a dump")):
        with tempfile.TemporaryDirectory() as folder:
            os.mkfifo(os.path.join(folder, "fifo"))
            os.symlink("fifo", os.path.join(folder, "link"))
            process = program.start(["merge", "fifo", "link"], folder, stdin=subprocess.DEVNULL,
                                    stdout=subprocess.PIPE)
            writer = opened(os.path.join(folder, "fifo"))
            for text in texts:
                give(writer, text)
            os.close(writer)
            inputs = (texts + [b""])[:2]
            case = Case("fifo", "merge", inputs)
            yield ("two names of a FIFO with %s" % what, [wanted(case, ["fifo", "link"], inputs)],
                   outcome_of(process))


LATER = b"#9\n0!\n"
# Comments with a long token, and what comes after it.
LONG = [b"$comment " + b"x" * size + b" $end\n" + LATER for size in (1_000, 5_000, 7_000)]
# The first and the last text of a file. They begin with the same bytes, of which a run has read at
# most two thirds when the one becomes the other.
CHANGES = [(CLOCK, CLOCK + more) for more in (LATER, *LONG)]
CHANGES += [(CLOCK + LONG[1], CLOCK + LONG[1] + more) for more in LONG]
CHANGES += [(CLOCK + LARGE_COMMENT, CLOCK + LARGE_COMMENT + LONG[2])]
CHANGES += [(ON_A, ON_A[:-5]), (CLOCK + LONG[1], CLOCK), (CLOCK + LARGE_COMMENT, CLOCK)]


def changing(program, old, new):
    """A file gets another text before call 1, 2, .. that asks for a length or reads."""
    most = max(len(os.path.commonprefix([old, new])) // 3, 1)
    for command, files in (("check", ["a.vcd"]), ("merge", ["a.vcd", "b.vcd"])):
        for place, call in product(range(len(files) + 1), range(1, 5)):
            words = ["-" if k == place else name for k, name in enumerate(files)]
            names = ["(stdin)" if word == "-" else word for word in words]
            with files_with({"a.vcd": old, "b.vcd": ON_B, "new": new}) as folder:
                with open(os.path.join(folder, files[place % len(files)]), "rb") as given:
                    got = program.run([command] + words, folder, given, changed="a.vcd",
                                      becomes="new", changed_at=call, read_most=most)
            case = Case("changing", command, [new, ON_B][:len(files)])
            yield ("%s of %d bytes, then %d, before call %d" % (words, len(old), len(new), call),
                   [wanted(case, names, case.inputs)], got)


# ---- a terminal

WAITS = (b"vcdkit: the dump comes from standard input "
         b"(for a file, write -i FILE; for merge, FILE)\n")


def terminal(program):
    """Standard input is a terminal, whose user gives a dump and ends it."""
    for words in (["check"], ["merge", "-"]):
        end, given = os.openpty()
        os.write(end, CLOCK + b"\x04")
        got = program.run(words, given=given)
        os.close(given)
        os.close(end)
        out, message, status = wanted(Case("terminal", words[0], [CLOCK]), ["(stdin)"], [CLOCK])
        yield "%s of a terminal" % words, [(out, WAITS + message, status)], got


# ---- many files

def free_memory():
    """How many kilobytes of memory are free on this machine."""
    with open("/proc/meminfo") as lines:
        return next(int(line.split()[1]) for line in lines if line.startswith("MemAvailable"))


def many_files(program):
    """64 files at a token limit of 16 MB. A large file takes two windows of that size, so all
    take 2,101,376 KB; small ones, whose tokens are no longer than they are, run in 32 MB."""
    words = ["merge", "--token-limit", "16777216", "--"]
    case = Case("many", "merge", [CLOCK] * 64)
    with files_with({"small.vcd": CLOCK, "large.vcd": CLOCK + LARGE_COMMENT}) as folder:
        trials = [("small.vcd", 32_768, True), ("large.vcd", 2_097_152, False),
                  ("large.vcd", 2_150_000, True)]
        if free_memory() < 4_000_000:
            trials.pop()
            print("streams: 64 files at a token limit of 16 MB were passed over: too little memory")
        for name, size, is_enough in trials:
            want = wanted(case, [name] * 64, case.inputs) if is_enough else MEMORY
            yield ("%s 64 times in %d KB" % (name, size), [want],
                   program.run(words + [name] * 64, folder,
                               shell='ulimit -v %d; exec "$@"' % size))


def main():
    program = Program(*sys.argv[1:3])
    jobs = [partial(part, program) for part in (
        many_files, closed_without_a_job, closed_input_of_a_merge, places_of_closed,
        fault_and_failing_write, limited_size, input_twice, one_fifo, terminal)]
    jobs += [partial(changing, program, old, new) for old, new in CHANGES]
    jobs += [partial(part, program, case) for case in CASES
             for part in (closed, failing_outputs, without_waiting)]
    return compare("streams", jobs)


if __name__ == "__main__":
    sys.exit(main())
