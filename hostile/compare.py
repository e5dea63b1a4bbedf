#!/usr/bin/env python3
"""compare.py VCDKIT COMPARE DEVICES [PART..]      PART is rows, hostile, random, small, long,
pipe, streams, machine, headers or flat; without one, all

Runs vcdkit-compare under the conditions of the other scripts, and on what `vcdkit merge` writes. It
has to write what comparison.py gives. DEVICES is devices.c, built as a shared library.

rows     comparison.py gives what the worked rows of its definitions have.
hostile  The parts of hostile.py: memory, large, devices, cut_off, pipes.
random   random_pairs.py takes 20,000 pairs; RUNS=100000 takes so many.
small    Every pair of small bodies is merged and compared. Up to the end of the shorter one, the
         lines are those of two dumps. Every small body of two parts is compared.
long     Values of up to three runs of one digit are compared with their last digits, and with
         values of one digit: by each rule, each as the first and as the second of two.
pipe     The pipe from a merge breaks after each byte, and a byte that no dump may have comes after
         it, as vcdkit-diff writes it if the merge fails: status 2, and only lines that the whole
         dump has. The same with a shell, for a merge that is killed, and one whose device fails.
streams  Standard streams are closed; the output fails; standard input does not wait.
machine  The stack has 112 KB, and memory is limited, in steps of 16 KB; words ask for no
         comparison.
headers  A header of twice as many declarations takes at most three times the CPU time: in any
         order, with deep scopes, with one path or one code for all, with dots in names. So does a
         value of twice as many digits with twice as many changes of its counterpart, a comparison
         of twice as many pairs that differ one after another, one of twice as many pairs of one
         code that have differed, with twice as many changes of it, and a path of twice as many
         parts with 99 names inside each other, in 32 MB of memory.
flat     Two streams of 64 MB are merged and compared, each program in 32 MB of memory. FLAT=2048
         takes streams of so many megabytes."""
import itertools, os, random, subprocess, sys, tempfile, threading
from concurrent.futures import ProcessPoolExecutor
from functools import partial

import compared_rows
from reference import evaluator
import hostile
import machine
import random_pairs
import streams
from cases import COMPARISONS, Comparison
from reference.comparison import ALWAYS, EACH_PAIR, FIRST, Asked
from random_pairs import Trials, law, outcome
from trials import Program, compare, outcome_of

EXTENTS = [EACH_PAIR, FIRST, ALWAYS]
# No dump has this byte outside of comments and texts, so it is a fault in any place.
BROKEN = b"\n\x01\n"


# ---- every pair of small dumps

HEADERS = [(b"$scope module t $end $var wire 1 ! c $end $var event 1 % e $end $var reg 2 \" q $end"
            b" $upscope $end $enddefinitions $end\n",
            b"$scope module t $end $var reg 2 ! q $end $var event 1 ' e $end $var wire 1 \" c $end"
            b" $var wire 1 ( c $end $upscope $end $enddefinitions $end\n"),
           (b"$timescale 1 ns $end $var wire 1 ! c $end $var event 1 % e $end"
            b" $var real 1 \" r $end $enddefinitions $end\n",
            b"$timescale 100 ps $end $var real 64 ! r $end $var event 1 ' e $end"
            b" $var wire 1 \" c $end $var wire 1 \" d $end $enddefinitions $end\n")]
LINES = [([b"#0", b"#2", b"1!", b"0!", b"x!", b"1%", b"b1 \"", b"$dumpall 1% $end"],
          [b"#0", b"#2", b"1\"", b"0\"", b"x\"", b"1'", b"b01 !", b"$dumpall 1' $end"]),
         ([b"#0", b"#2", b"1!", b"0!", b"r1 \"", b"1%", b"z!"],
          [b"#0", b"#20", b"#5", b"1\"", b"0\"", b"r1 !", b"r1.0 !", b"1'"])]


def bodies(lines, most):
    """All bodies of up to so many lines."""
    for count in range(most + 1):
        for its in itertools.product(lines, repeat=count):
            yield b"".join(line + b"\n" for line in its)


def small_pairs(job):
    """A share of the small pairs: how many runs, and what is wrong."""
    program, path, folder, number, part, parts = job
    trials, runs, wrong = Trials(program, path, folder), 0, []
    fronts, lines = HEADERS[number], LINES[number]
    r = random.Random(part)
    every = itertools.product(bodies(lines[0], 2), bodies(lines[1], 2))
    for at, texts in enumerate(itertools.islice(every, part, None, parts)):
        texts = [front + body for front, body in zip(fronts, texts)]
        trials.put(texts)
        extent = EXTENTS[at % 3]
        merged = evaluator.run("merge", [], [], list(zip([b"a", b"b"], texts)))
        begin = r.choice([0, 1, 2, 3])
        case = Comparison("small", merged[0], [(b"in1", b"in2")], Asked(
            begin=begin, end=r.choice([3, max(begin, 2), 2**64 - 1]), extent=extent))
        want, got = case.outcome([b"(stdin)"], [merged[0]]), trials.merged(case)[0]
        runs += 1
        if got != want:
            wrong.append("%s of %r: want %r, got %r" % (case.words([]), texts, want, got))
        if merged[2] == 0:
            more, found = law(trials, texts, extent, r)
            runs += more
            wrong += ["%s of %r" % (found, texts)] if found else []
    return runs, wrong


PARTS = (b"$scope module p $end $var wire 1 ! c $end $var wire 1 & d $end $var event 1 % e $end"
         b" $upscope $end $scope module q $end $var event 1 ' e $end $var wire 1 \" c $end"
         b" $var wire 1 ! d $end $upscope $end $enddefinitions $end\n")
PART_LINES = [b"#0", b"#2", b"#3", b"1!", b"0!", b"1\"", b"x\"", b"1&", b"1%", b"$dumpall 1' $end"]


def small_parts(job):
    """A share of the small dumps of two parts: how many runs, and what is wrong."""
    program, path, folder, _, part, parts = job
    trials, runs, wrong = Trials(program, path, folder), 0, []
    r = random.Random(part)
    for body in itertools.islice(bodies(PART_LINES, 4), part, None, parts):
        case = Comparison("small", PARTS + body, [(b"p", b"q")], Asked(
            begin=r.choice([0, 0, 1, 2]), end=r.choice([2, 3, 2**64 - 1]),
            extent=r.choice(EXTENTS), loose=r.choice([(False, False), (True, False),
                                                      (False, True)])))
        want, got = case.outcome([b"(stdin)"], case.inputs), trials.given(case)
        runs += 1
        if got != want:
            wrong.append("%s of %r: want %r, got %r" % (case.words([]), body, want, got))
    return runs, wrong


def small(programs):
    with tempfile.TemporaryDirectory() as folder:
        return shared("small", [
            partial(work, (*programs[:2], folder, number, part, 32))
            for work, numbers in ((small_pairs, range(len(HEADERS))), (small_parts, [0]))
            for number in numbers for part in range(32)])


def shared(name, jobs):
    """Takes the jobs in several processes, and prints what is wrong."""
    runs, wrong = 0, []
    with ProcessPoolExecutor(os.cpu_count()) as pool:
        for its in [pool.submit(job) for job in jobs]:
            more, found = its.result()
            runs += more
            wrong += found
    for text in wrong[:5]:
        print(text)
    print("%s: %d runs, %d differ" % (name, runs, len(wrong)))
    return bool(wrong)


# ---- long values

DIGITS = [b"0", b"1", b"x", b"z"]
LETTERS = [bytes.lower, bytes.upper, bytes.title]
COUNTS = [1, 2, 64, 65, 200]


def of_runs(size):
    """Values of up to three runs of one digit. Some of the counts are how many digits the last runs
    have, or one more."""
    return sorted({(first * size + middle * many + last * few)[-count:]
                   for first, middle, last in itertools.product(DIGITS, repeat=3)
                   for many in (1, 63) for few in (1, 64) for count in (size - 1, size)})


def long_values(path, size, loose):
    """A dump in which each value changes into the next one, and its counterpart into so many of
    its last digits or into a value of one digit: how many runs, and what is wrong."""
    values, r = of_runs(size), random.Random(size)
    its = range(len(values))
    text = [b"$scope module %s $end " % part
            + b"".join(b"$var wire %d %s%d v%d $end " % (size, part, n, n) for n in its)
            + b"$upscope $end\n" for part in (b"p", b"q")] + [b"$enddefinitions $end\n"]
    for time, (digit, count) in enumerate(itertools.product([None, *DIGITS], COUNTS)):
        text.append(b"#%d\n" % time)
        for n in its:
            value = values[(n + time) % len(values)]
            other = digit * min(count, size) if digit else value[-count:]
            text += [b"b%s %s%d\n" % (r.choice(LETTERS)(digits), part, n)
                     for part, digits in ((b"p", value), (b"q", other))]
    case = Comparison("long", b"".join(text), [(b"p", b"q"), (b"q", b"p")],
                      Asked(extent=ALWAYS, loose=loose))
    want = case.outcome([b"(stdin)"], case.inputs)
    got = outcome([path, *case.words([])], input=case.inputs[0])
    lines = itertools.zip_longest(want[0].splitlines(), got[0].splitlines())
    return 1, ["%s: want %r, got %r" % (case.words([]), *pair)
               for pair in itertools.chain(lines, [(want[1:], got[1:])]) if pair[0] != pair[1]][:1]


def long(programs):
    return shared("long", [
        partial(long_values, programs[1], size, loose)
        for size in (65, 128, 200) for loose in itertools.product([False, True], repeat=2)])


# ---- a pipe that ends too early

def broken_pipe(program, case):
    """What comes after each byte is a byte that is always a fault."""
    text = case.inputs[0]
    whole = case.outcome([b"(stdin)"], [text])[0]
    for size in range(len(text) + 1):
        got = program.run(case.words([]), given=text[:size] + BROKEN)
        want = case.outcome([b"(stdin)"], [text[:size] + BROKEN])
        yield "%s, broken after %d bytes" % (case.name, size), [want], got
        if want[2] == 0 or not whole.startswith(want[0][:want[0].rfind(b"compared")]):
            yield "%s, broken after %d bytes, by definition" % (case.name, size), [whole], want


SHELL = r"""{ "$MERGE" merge a b || printf '\n\001\n'; } | "$@" """


def failing_merge(program, merge):
    """A shell runs a merge whose read or write fails, or that is killed, before a comparison of
    equal dumps: never "no difference"."""
    text = COMPARISONS[0].inputs[0]
    for name in ("READ_FAILS=1", "READ_FAILS=2", "WRITE_FAILS=1", "WRITE_FAILS=2",
                 "REFUSE=3"):
        with streams.files_with({"a": text, "b": text}) as folder:
            shell = SHELL.replace('"$MERGE"', "LD_PRELOAD=%s READ_MOST=99 WRITE_MOST=77 %s %s" % (
                program.devices, name, merge))
            got = program.run(["in1=in2"], folder, shell=shell)
            yield "a merge with %s" % name, [2], got[2]
    with streams.files_with({"a": text}) as folder:
        os.mkfifo(os.path.join(folder, "b"))
        shell = SHELL.replace("$MERGE", merge)
        process = program.start(["in1=in2"], folder, shell, stdin=subprocess.DEVNULL,
                                stdout=subprocess.PIPE)
        writer = streams.opened(os.path.join(folder, "b"))
        streams.give(writer, text[:len(text) // 2])
        for child in merges_of(folder):
            os.kill(child, 9)
        os.close(writer)
        yield "a merge that is killed", [2], outcome_of(process)[2]


def merges_of(folder):
    """The processes of a merge in a directory."""
    found = []
    for name in filter(str.isdigit, os.listdir("/proc")):
        try:
            with open("/proc/%s/cmdline" % name, "rb") as file:
                words = file.read().split(b"\0")
            if words[1:2] == [b"merge"] and os.readlink("/proc/%s/cwd" % name) == (
                    os.path.realpath(folder)):
                found.append(int(name))
        except OSError:
            pass
    return found


def pipe(programs):
    program = Program(programs[1], programs[2])
    jobs = [partial(broken_pipe, program, case) for case in COMPARISONS]
    return compare("pipe", jobs + [partial(failing_merge, program, programs[0])])


# ---- streams and machine

def on_streams(programs):
    program = Program(*programs[1:])
    return compare("streams", [partial(part, program, case) for case in COMPARISONS for part in (
        streams.closed, streams.failing_outputs, streams.without_waiting)])


# Words that ask for no comparison, and their status.
ANSWERED = [(["--help"], 0), (["--version"], 0), ([], 2), (["a"], 2), (["a=b", "--from", "x"], 2),
            (["a=b", "--from", "5", "--to", "3"], 2), (["a=b", "--first", "--always"], 2),
            (["a=b", "c=c"], 2),
            (["a=b", "-i", "nowhere"], 3), (["a=b", "-i", "/"], 3),
            (["--except=b"], 2), ([b"\xff=a"], 2)]


def without_a_comparison(program):
    """Words that ask for no comparison, or for a file that is not there: the status, and a message
    in one write."""
    for words, status in ANSWERED:
        whole = program.run(words)
        yield "%r" % words, [status], whole[2]
        yield "%r in one write" % words, [whole], program.run(words, error_fails=2)


def on_machine(programs):
    program = Program(*programs[1:])
    least = machine.least_memory(program)
    refused = b"", Comparison.program + b": out of memory\n", 3
    jobs = [partial(machine.small_stack, program, case) for case in COMPARISONS]
    jobs += [partial(machine.little_memory, program, least, case) for case in COMPARISONS]
    jobs += [partial(machine.no_memory_for_words, program, words, refused) for words, _ in ANSWERED]
    jobs.append(partial(without_a_comparison, program))
    return compare("machine", jobs)


# ---- headers that are long

def declared(parts, count, scope=b"", code=lambda part, n: b"%s%d" % (part, n),
             name=lambda n: b"v%d" % n, order=lambda numbers: None):
    """A header of two parts with so many variables each."""
    text = []
    for part in parts:
        numbers = list(range(count))
        if part == parts[-1]:
            order(numbers)
        text.append(b"$scope module %s $end\n" % part)
        text += [b"$var wire 1 %s %s $end\n" % (code(part, n), name(n)) for n in numbers]
        text.append(b"$upscope $end\n")
    return b"".join(text) + b"$enddefinitions $end\n"


def deep(count):
    """Scopes in scopes, of which each has as many variables; and opened again."""
    text, each = [], count // 1980
    for part in (b"p", b"q"):
        text.append(b"$scope module %s $end\n" % part)
        for again in range(2):
            for depth in range(990):
                text.append(b"$scope module s%d $end\n" % (depth % 7))
                text += [b"$var wire 1 %s%d_%d_%d v%d_%d $end\n" % (part, again, depth, n, again, n)
                         for n in range(each)]
            text.append(b"$upscope $end\n" * 990)
        text.append(b"$upscope $end\n")
    return b"".join(text) + b"$enddefinitions $end\n", each * 1980


def nested(count):
    """Two paths of so many parts, and 99 names inside each other: each with the same path in the
    other scope, or with that scope. The former all have one pair, which counts once; of the latter
    only the first has a pair."""
    path = b".".join([b"a"] * count)
    names = [b".".join([b"a"] * n) for n in range(100)]
    text = b"".join(b"$scope module %s $end $var wire 1 %s %s $end $upscope $end\n" % (
        part, part, path) for part in (b"a", b"b")) + b"$enddefinitions $end\n"
    yield "of nested names", text, 1, [b"a.%s=b.%s" % (name, name) for name in names[1:]], b""
    yield ("of nested names and one", text, 1, [b"%s=b" % name for name in names[1:]],
           b"".join(b"alone %s %s.%s\n" % (part.upper(), part, path) * 98 for part in (b"a", b"b")))


def headers_of(count):
    """Dumps with what they are, and how many pairs they have; with some of them the words of a run
    in little memory, and the lines before the last."""
    r = random.Random(1)
    parts = [b"p", b"q"]
    yield "in order", declared(parts, count), count
    # A value that is compared with a short one again and again.
    wide = b"$scope module %s $end $var wire %d %s v $end $upscope $end\n"
    yield "of one long value", (
        b"".join(wide % (part, count, part) for part in parts) + b"$enddefinitions $end\n#0\nb"
        + b"0" * count + b" p\n" + b"b0 q\n" * count), 1
    yield "shuffled", declared(parts, count, order=r.shuffle), count
    yield ("with one path", declared(parts, count, name=lambda n: b"v"), count)
    yield ("with dots", declared(parts, count, name=lambda n: b"a.%d.b.%d" % (n // 999, n % 999),
                                 order=r.shuffle), count)
    yield ("with one code", declared(parts, count, code=lambda part, n: part), count)
    yield ("with one code in one part", declared(
        parts, count, code=lambda part, n: b"p" if part == b"p" else b"q%d" % n), count)
    yield ("of equal length", declared(parts, count, name=lambda n: b"%09d" % n,
                                       order=list.reverse), count)
    yield ("deep", *deep(count))
    yield from nested(count // 20)
    each = count // 4
    yield ("that differ one after another", declared(parts, each) + b"".join(
        b"#%d\n0p%d\n1q%d\n" % (n, n, n) for n in range(each)), each, None, b"".join(
            b"differs %d p.v%d 0 1\n" % (n, n) for n in range(each)))
    # A code goes on changing after each of its pairs has had its only line.
    yield ("with one code that changes", declared(
        parts, each, code=lambda part, n: b"p" if part == b"p" else b"q%d" % n) + b"".join(
            b"#%d\n%dp\n" % (n, n % 2) for n in range(each)), each, None, b"".join(
                b"differs 0 p.v%d 0 -\n" % n for n in range(each)))


def cpu_of(command, given):
    """The output of a process, and how much CPU time it took."""
    process = subprocess.Popen(command, stdin=subprocess.PIPE, stdout=subprocess.PIPE)

    def feed():
        try:
            process.stdin.write(given)
            process.stdin.close()
        except BrokenPipeError:
            pass
    thread = threading.Thread(target=feed)
    thread.start()
    output = process.stdout.read()
    thread.join()
    _, status, usage = os.wait4(process.pid, 0)
    process.returncode = os.WEXITSTATUS(status)
    return output, usage.ru_utime + usage.ru_stime


def asked(program, text, pairs, words=None, lines=b""):
    """The command and the dump of a run, and what it has to write."""
    command = [*SMALL, program, *words] if words else [program, "p=q"]
    return command, text + b"#%d\n" % 10**9, lines + b"compared %d\n" % pairs


def headers(programs):
    """Each header with a change of one variable of the first part, and with half of it."""
    bad = runs = 0
    count = int(os.environ.get("DECLARATIONS", "1000000")) // 2
    for (what, *less), (_, *more) in zip(headers_of(count // 2), headers_of(count)):
        times = []
        for command, text, want in (asked(programs[1], *less), asked(programs[1], *more)):
            output, time = cpu_of(command, text)
            runs += 1
            times.append(time)
            if output != want:
                bad += 1
                print("headers %s: %.200r, not %.200r" % (what, output, want))
        print("headers %s: %d bytes in %.2f s, %d in %.2f s" % (
            what, len(less[0]), times[0], len(more[0]), times[1]))
        if times[1] > 3 * times[0] + 0.2:
            bad += 1
            print("headers %s: more than three times as long" % what)
    print("headers: %d runs, %d differ" % (runs, bad))
    return bad


# ---- memory

def stream(out, megabytes, last):
    """Writes a dump of about so many megabytes: a change of each of 40 variables at each time."""
    head = b"".join(b"$var wire 64 %c v%d $end\n" % (33 + n, n) for n in range(40))
    with open(out, "wb", closefd=True) as file:
        file.write(head + b"$enddefinitions $end\n")
        texts = [b"".join(b"b%s %c\n" % (b"10" * 31 + bytes([48 + (time + n) % 2]), 33 + n)
                          for n in range(40)) for time in range(2)]
        for time in range(megabytes * 1_000_000 // len(texts[0])):
            file.write(b"#%d\n" % time + texts[time % 2])
        file.write(b"#%d\n" % (time + 1) + last)


SMALL = ["/bin/sh", "-c", 'ulimit -v 32768; exec "$@"', "sh"]


def flat(programs):
    """Two streams that differ after their last timestamp."""
    ends = [os.pipe() for _ in range(2)]
    readers, writers = zip(*ends)
    merge = subprocess.Popen([*SMALL, programs[0], "merge", *("/dev/fd/%d" % n for n in readers)],
                             pass_fds=readers, stdout=subprocess.PIPE)
    its = subprocess.Popen([*SMALL, programs[1], "in1=in2"], stdin=merge.stdout,
                           stdout=subprocess.PIPE)
    merge.stdout.close()
    for reader in readers:
        os.close(reader)
    much = int(os.environ.get("FLAT", "64"))
    threads = [threading.Thread(target=stream, args=(writer, much, last))
               for writer, last in zip(writers, (b"", b"b1 !\n"))]
    for thread in threads:
        thread.start()
    output = its.communicate()[0]
    for thread in threads:
        thread.join()
    left = merge.wait(), its.returncode
    words = output.split()
    bad = left != (0, 1) or words[:1] + words[2:3] + words[5:] != [
        b"differs", b"in1.v0", b"compared", b"40"]
    print("flat: two streams of %d MB in 32 MB, statuses %d and %d, %.100r" % (
        much, *left, output))
    return bad


WORK = {
    "rows": lambda programs: compared_rows.main([]),
    "hostile": lambda programs: hostile.work(
        *programs[1:], ["memory", "large", "devices", "cut_off", "pipes"], ["compare"]),
    "random": lambda programs: random_pairs.work(
        *programs[:2], int(os.environ.get("RUNS", "20000"))),
    "small": small, "long": long, "pipe": pipe, "streams": on_streams, "machine": on_machine,
    "headers": headers, "flat": flat}


def main():
    if len(sys.argv) < 4:
        sys.exit(__doc__)
    programs = [os.path.abspath(path) for path in sys.argv[1:4]]
    return max([int(bool(WORK[name](programs))) for name in sys.argv[4:] or list(WORK)])


if __name__ == "__main__":
    sys.exit(main())
