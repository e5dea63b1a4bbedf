#!/usr/bin/env python3
"""turns.py PROGRAM PROGRAM DUMP...   reports which of two programs is faster, even on a busy
machine: for each dump, the CPU time of both, and the ratio of the second to the first with its
spread.

    bench/turns.py old/vcdkit ./vcdkit /tmp/dumps/*.vcd
    bench/turns.py --grow 40 ./rival ./vcdkit samples/*.vcd
    bench/turns.py --runs 200 --command 'cut --from 5 --to 9' old/vcdkit ./vcdkit dump.vcd

The programs run in turn, in pairs whose order alternates, so that other work on the machine
affects both. After each pair comes a process that only reads the dump (os.read of 64 KB in a
fresh child of this script, timed from its first read to its last): its least time is subtracted
from each time, so a ratio is about the work, and not about the copy out of the page cache. A
time is user and system time together: Linux measures the sum, and estimates how it is divided.

A line shows the least and the median time of each program, without the read, and the ratio of
the least times. Its spread is the range of the ratios of the least times of ten parts of the
runs, without the lowest and the highest part. If 1 lies within that range, or within 1 per cent
of it, the line says 'no difference'. A difference of less than a fifth may come only from the
address of a loop, if both programs take the same instructions: see jumps.py.

With --grow, a run reads a larger dump: the header, and then the body again and again, each time
with later timestamps. Each timestamp of the dump has to begin a line."""
import argparse
import os
import re
import resource
import statistics
import sys
import tempfile

PARTS = 10
WITHIN = 0.01


def cpu_of(work):
    """Returns the CPU seconds of a child that does this work."""
    pid = os.fork()
    if pid == 0:
        try:
            work()
        finally:
            os._exit(127)
    _, status, used = os.wait4(pid, 0)
    if os.WIFSIGNALED(status) or os.WEXITSTATUS(status) == 127:
        sys.exit("turns.py: a run failed, with the wait status %d" % status)
    return used.ru_utime + used.ru_stime


def run_of(program, words, dump):
    """Returns the work of a run over this dump, whose output goes nowhere."""
    def work():
        os.dup2(os.open(dump, os.O_RDONLY), 0)
        os.dup2(os.open(os.devnull, os.O_WRONLY), 1)
        os.execv(program, [program] + words)
    return work


def read_only(dump):
    """Returns the CPU seconds that reading this dump takes, without those of starting a process."""
    reading, writing = os.pipe()

    def work():
        source = os.open(dump, os.O_RDONLY)
        before = resource.getrusage(resource.RUSAGE_SELF)
        while os.read(source, 65536):
            pass
        after = resource.getrusage(resource.RUSAGE_SELF)
        took = after.ru_utime + after.ru_stime - before.ru_utime - before.ru_stime
        os.write(writing, b"%.9f" % took)
        os._exit(0)
    cpu_of(work)
    os.close(writing)
    took = float(os.read(reading, 64))
    os.close(reading)
    return took


def spread_of(first, second):
    """Returns the range of the ratios of the parts, without the lowest and the highest one."""
    ratios = sorted(min(second[k::PARTS]) / min(first[k::PARTS]) for k in range(PARTS))
    return ratios[1], ratios[-2]


def grow(dump, megabytes, folder):
    """Writes a dump of so many megabytes, whose body repeats that of this dump, and returns its
    path."""
    with open(dump, "rb") as source:
        text = source.read()
    begin = re.search(rb"\$enddefinitions\s+\$end\s*\n", text).end()
    body = text[begin:].rstrip(b"\r\n") + (b"\r\n" if b"\r\n" in text else b"\n")
    stamp = re.compile(rb"(?m)^#(\d+)")
    period = int(stamp.findall(body)[-1]) + 1
    path = os.path.join(folder, os.path.basename(dump))
    with open(path, "wb") as to:
        to.write(text[:begin])
        for copy in range(max(1, int(megabytes * 1e6) // len(body))):
            to.write(stamp.sub(lambda mark: b"#%d" % (int(mark[1]) + copy * period), body))
    return path


def measure(programs, words, dump, runs):
    """Prints the line of one dump."""
    times, reads = ([], []), []
    for turn in range(runs):
        for which in (0, 1) if turn % 2 == 0 else (1, 0):
            times[which].append(cpu_of(run_of(programs[which], words, dump)))
        reads.append(read_only(dump))
    read = min(reads)
    net = [[max(time - read, 1e-6) for time in one] for one in times]
    low, high = spread_of(*net)
    same = low - WITHIN <= 1 <= high + WITHIN
    print("%-20s %s  ratio %.3f (%.3f to %.3f)%s" % (
        os.path.basename(dump)[:20],
        "  ".join("%.1f, %.1f ms" % (min(one) * 1000, statistics.median(one) * 1000)
                  for one in net),
        min(net[1]) / min(net[0]), low, high, "  no difference" if same else ""), flush=True)


def main():
    parser = argparse.ArgumentParser(description=__doc__,
                                     formatter_class=argparse.RawDescriptionHelpFormatter)
    parser.add_argument("programs", nargs=2, metavar="PROGRAM")
    parser.add_argument("dumps", nargs="+", metavar="DUMP")
    parser.add_argument("--runs", type=int, default=100, help="runs of each program (100)")
    parser.add_argument("--command", default="check", help="command and arguments (check)")
    parser.add_argument("--grow", type=float, metavar="MB", help="repeat each body up to this size")
    asked = parser.parse_args()
    if asked.runs < 2 * PARTS:
        parser.error("--runs is at least %d" % (2 * PARTS))
    programs = [os.path.abspath(program) for program in asked.programs]
    print("dump                 first: least, median; second; ratio of the least (its spread)")
    with tempfile.TemporaryDirectory() as folder:
        for dump in asked.dumps:
            read = grow(dump, asked.grow, folder) if asked.grow else dump
            measure(programs, asked.command.split(), read, asked.runs)


if __name__ == "__main__":
    main()
