#!/usr/bin/env python3
"""hostile.py PROGRAM DEVICES PART..     PART is memory, large, devices, cut_off or pipes;
COMMANDS=check,list takes only the cases of these commands

Runs the program while memory is refused, while its devices fail or transfer only a few bytes, and
on dumps that are cut off after each byte. It has to write what the evaluator gives. DEVICES is
devices.c, built as a shared library.

memory   Each request of a run is refused in turn. The run must end without output, with the line
         `vcdkit: out of memory` and status 3. It may also give the whole outcome, if a library
         asked for more than it needs, or if the request is for the key of a code that was declared
         with another size. A dump with 5,000 comments at its end makes as many requests, of as many
         bytes, as one with five. All requests together stay below a bound: the windows, four times
         what is kept of the headers, and 64 KB for the command line and the two buffers.
large    There is plenty of memory: the whole outcome, below the same bound.
devices  Each read and write transfers 1, 2, 3, 5 or 7 bytes: the whole outcome. Read number 1, 2,
         3, .. of a file or of standard input fails: the outcome of the bytes until then. Write
         number 1, 2, 3, .. to standard output fails: a prefix of the output, and the line about
         the write. The same for standard error: a prefix of the message, and the same status. A
         signal interrupts call number 1 to 5 of each: the whole outcome, since the call is made
         again.
cut_off  Each dump is read in whole chunks and byte by byte.
pipes    `pick`, `cut`, `sample`, `merge`, vcdkit-compare and vcdkit-strobe read pipes that get one
         line at a time. Before the next line is given, all output that the lines so far determine
         has come, and no more."""
import os, select, subprocess, sys, tempfile, time
from concurrent.futures import ThreadPoolExecutor
from itertools import zip_longest

from reference import evaluator
from cases import CASES, COMPARISONS, LARGE, LARGE_COMPARISONS, LARGE_STROBES, STROBES

LITTLE = [1, 2, 3, 5, 7]


class Place:
    """The program, and a directory with the inputs of the cases."""

    def __init__(self, program, devices, folder):
        self.program, self.devices, self.folder = program, devices, folder

    def files_of(self, case, inputs, mark=""):
        files = ["%s%s.%d.vcd" % (case.name, mark, k) for k in range(len(inputs))]
        for name, text in zip(files, inputs):
            with open(os.path.join(self.folder, name), "wb") as f:
                f.write(text)
        return files

    def run(self, case, files, given=b"", **how):
        environment = {name.upper(): str(value) for name, value in how.items()}
        if environment:
            environment["LD_PRELOAD"] = self.devices
        p = subprocess.run([self.program] + case.words(files), input=given, capture_output=True,
                           cwd=self.folder, env=environment, timeout=60)
        return p.stdout, p.stderr, p.returncode

    def counts(self, case, files):
        """How many requests for memory and how many reads a run makes, and the sum of the bytes
        that it asks for."""
        name = os.path.join(self.folder, files[0] + ".counts")
        self.run(case, files, counts=name)
        with open(name) as f:
            return [int(n) for n in f.read().split()]


def wanted(case, files, inputs):
    return case.outcome([f.encode() for f in files], inputs)


def say(case, what, want, got):
    return "%s, %s\n want %r\n got  %r" % (case.name, what, want, got)


# ---- memory

# The command line, names, and the buffers of the output and of messages.
COMMAND_LINE = 65_536


def bound(case, limit=1_048_576):
    """The bytes that a run may ask for in all. Windows are asked for once. What is kept of a header
    grows with it: its sizes double, so all of them together are at most four times the last one."""
    windows = held = 0
    for text in case.inputs:
        try:
            head = evaluator.read_head(evaluator.Tokens(text, limit), evaluator.MOST_DECLARATIONS)
        except evaluator.Fault:
            head = evaluator.Head()
        windows += 65_536 + 512 + 2 * limit
        # Texts, declarations and codes are parts of the input.
        held += len(text) + 64 * len(head.rows) + sum(size + 192 for size, _ in head.codes.values())
        if case.command == "compare":  # a path has a number with its range too
            held += 16 * len(head.rows)
        if case.command == "strobe":  # each code has four places
            held += sum(3 * (size + 192) + 64 for size, _ in head.codes.values())
    return windows + 4 * held + COMMAND_LINE


def too_much(case, asked):
    """Returns what to say if a run asks for more bytes than it may."""
    most = bound(case)
    return [say(case, "bytes asked for in all", "at most %d" % most, asked)] if asked > most else []


def large(place, case):
    """A run with ample memory."""
    files = place.files_of(case, case.inputs)
    want, got = wanted(case, files, case.inputs), place.run(case, files)
    if got != want:
        yield say(case, "with ample memory", want[1:], got[1:])
    yield from too_much(case, place.counts(case, files)[2])
    yield 2


def memory(place, case):
    """Each request for memory is refused in turn."""
    files = place.files_of(case, case.inputs)
    requests, _, asked = place.counts(case, files)
    whole = wanted(case, files, case.inputs)
    yield from too_much(case, asked)
    got = [place.run(case, files, refuse=n) for n in range(1, requests + 1)]
    for n in range(requests):
        # A library sometimes asks for more than it needs, or to give some back, and continues if
        # that is refused.
        if got[n] not in ((b"", case.line(b"out of memory"), 3), whole):
            yield say(case, "request %d of %d refused" % (n + 1, requests), whole, got[n])
    # The last is for the code as a key.
    if case.known_code and got[-1] != whole:
        yield say(case, "the key of a known code refused", whole, got[-1])
    # The body is longer than the longest file that is read with windows no longer than it is. The
    # names of the files are as long, since they are copied too.
    few, many = [place.counts(case,
                              place.files_of(case,
                                             [text + b"\n$comment x $end" * n
                                              for text in case.inputs], mark))
                 for n, mark in ((66_000, ".few"), (132_000, ".all"))]
    if whole[2] == 0 and (few[0], few[2]) != (many[0], many[2]):
        yield say(case, "a longer body", few, many)
    yield requests + 1


# ---- devices

def failed_reads(place, case, file, most):
    """Each read of the one input fails in turn, of its file and of a pipe as standard input. The
    last read gives nothing."""
    text, runs = case.inputs[0], 0
    reads = -(-len(text) // most) + 1
    for word, name, given in ((file, file, b""), ("-", "(stdin)", text)):
        for call in range(1, reads + 2):
            runs += 1
            read = text if call > reads else evaluator.Failed(text[:(call - 1) * most])
            want = wanted(case, [name], [read])
            got = place.run(case, [word], given, read_most=most, read_fails=call)
            if got != want:
                yield say(case, "read %d of %d bytes each fails, of %s" % (call, most, name),
                          want, got)
    yield runs


def devices(place, case):
    files = place.files_of(case, case.inputs)
    want = wanted(case, files, case.inputs)
    runs = 0
    for most in LITTLE:
        runs += 1
        got = place.run(case, files, read_most=most, write_most=most, error_most=most)
        if got != want:
            yield say(case, "%d bytes a call" % most, want, got)
        if len(case.inputs) == 1:
            *wrong, count = failed_reads(place, case, files[0], most)
            yield from wrong
            runs += count
        for call in range(1, len(want[0]) + 3):
            runs += 1
            out, message, status = place.run(case, files, write_most=most, write_fails=call)
            # If a write brings less, as one before a read may, there are more of them.
            got = out, message, status
            whole = call > -(-len(want[0]) // most) and got == want
            line = b"" if whole or want[2] == 3 else case.line(b"write failed")
            if not (want[0].startswith(out) and message in (line, want[1] + line)
                    and status == (want[2] if whole else 3)):
                yield say(case, "write %d of %d bytes each fails" % (call, most), want, got)
            if whole:
                break
        for call in range(1, len(want[1]) // most + 2):
            runs += 1
            out, message, status = place.run(case, files, error_most=most, error_fails=call)
            if not (out == want[0] and want[1].startswith(message) and status == want[2]):
                yield say(case,
                          "write %d of %d bytes each to the error stream fails" % (call, most),
                          want, (out, message, status))
    for device in ("read", "write", "error"):
        for call in range(1, 6):
            runs += 1
            got = place.run(case, files, interrupted=1,
                            **{device + "_most": 7, device + "_fails": call})
            if got != want:
                yield say(case, "%s %d of 7 bytes each is interrupted" % (device, call), want, got)
    yield runs


# ---- dumps that are cut off

def cut_off(place, case):
    runs = 0
    for k, text in enumerate(case.inputs):
        for size in range(len(text) + 1):
            inputs = case.inputs[:k] + [text[:size]] + case.inputs[k + 1:]
            files = place.files_of(case, inputs)
            want = wanted(case, files, inputs)
            for how in ({}, {"read_most": 1}):
                runs += 1
                got = place.run(case, files, **how)
                if got != want:
                    yield say(case, "input %d cut off after %d bytes, %r" % (k, size, how), want,
                              got)
    yield runs


# ---- pipes that get one line at a time

class Live:
    """A run whose inputs are pipes."""

    def __init__(self, place, case):
        ends = [os.pipe() for _ in case.inputs]
        readers, self.writers = zip(*ends)
        self.files = ["/dev/fd/%d" % reader for reader in readers]
        self.process = subprocess.Popen([place.program] + case.words(self.files),
                                        pass_fds=readers, cwd=place.folder,
                                        stdout=subprocess.PIPE, stderr=subprocess.PIPE)
        for reader in readers:
            os.close(reader)
        self.output = b""

    def give(self, k, line):
        """Gives a line to an input, whose reader may have ended."""
        try:
            os.write(self.writers[k], line)
        except BrokenPipeError:
            pass

    def has_written(self, due):
        """Whether the output is this within ten seconds."""
        stdout, end = self.process.stdout.fileno(), time.monotonic() + 10
        while len(self.output) < len(due) and select.select([stdout], [], [],
                                                            max(0, end - time.monotonic()))[0]:
            part = os.read(stdout, 65536)
            if not part:
                break
            self.output += part
        return self.output == due

    def close(self):
        """Ends the inputs, and returns the outcome."""
        for writer in self.writers:
            os.close(writer)
        rest, message = self.process.communicate(timeout=60)
        return self.output + rest, message, self.process.returncode


def pipes(place, case):
    if case.command not in ("pick", "cut", "sample", "merge", "compare", "strobe"):
        yield 0
        return
    live, given = Live(place, case), [b""] * len(case.inputs)
    turns = zip_longest(*(text.splitlines(keepends=True) for text in case.inputs))
    for k, line in [(k, line) for turn in turns for k, line in enumerate(turn) if line]:
        live.give(k, line)
        given[k] += line
        due = wanted(case, live.files, [evaluator.Failed(text) for text in given])[0]
        if not live.has_written(due):
            yield say(case, "through pipes, after %r" % given, due, live.output)
            live.close()
            break
    else:
        want, got = wanted(case, live.files, case.inputs), live.close()
        if got != want:
            yield say(case, "through pipes", want, got)
    yield 1


PARTS = {"memory": memory, "large": large, "devices": devices, "cut_off": cut_off, "pipes": pipes}


def results(place, part, case):
    return list(PARTS[part](place, case))


def work(program, devices_, parts, commands):
    """Runs the parts over the cases of these commands, and returns how many runs differ."""
    bad = 0
    for part in parts:
        runs, every = 0, (LARGE + LARGE_COMPARISONS + LARGE_STROBES if part == "large"
                          else CASES + COMPARISONS + STROBES)
        cases = [case for case in every if case.command in commands]
        with tempfile.TemporaryDirectory() as folder, ThreadPoolExecutor(os.cpu_count()) as pool:
            place = Place(os.path.abspath(program), os.path.abspath(devices_), folder)
            for found in pool.map(lambda case: results(place, part, case), cases):
                runs += found[-1]
                bad += len(found) - 1
                for text in found[:-1][:3]:
                    print(text)
        print("%s: %d runs of %d cases" % (part, runs, len(cases)))
    print("%d differ" % bad)
    return bad


def main():
    commands = os.environ.get("COMMANDS", "check,list,pick,cut,sample,edges,merge").split(",")
    return 1 if work(sys.argv[1], sys.argv[2], sys.argv[3:], commands) else 0


if __name__ == "__main__":
    sys.exit(main())
