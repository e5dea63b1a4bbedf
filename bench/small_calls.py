#!/usr/bin/env python3
"""small_calls.py [BYTES]   prints what one call costs over a dump of BYTES bytes (1000, at most
65536): page faults, CPU time, and instructions, if valgrind is there. Beside the commands of vcdkit
are `true`, which does nothing, `grep -c`, and `vcdkit --version`, which reads no dump. The last
lines are for 1,000 calls in a shell loop.

CPU time is user and system time, the least of 100 runs, of 30 for merges. Instructions are those of
the process, with the loader's. All programs run in the C locale. VCDKIT names the program; by
default it is the vcdkit in the directory above."""
import os
import re
import shutil
import subprocess
import sys
import tempfile
import time

HEADER = """$timescale 1ns $end
$scope module top $end
$var wire 1 ! clock $end
$var wire 8 " count [7:0] $end
$upscope $end
$enddefinitions $end
"""
ENVIRONMENT = {**os.environ, "LC_ALL": "C"}
NOWHERE = [(os.POSIX_SPAWN_OPEN, 1, os.devnull, os.O_WRONLY, 0)]
FILES = 64
CALLS = 1000


def dump_of(size):
    """Returns a dump of at least the header, and at most so many bytes."""
    text, time_, line = "", 0, HEADER
    while len(text) + len(line) <= size or not text:
        text += line
        line = "#%d\n%d!\nb%s \"\n" % (5 * time_, time_ % 2, bin(time_ % 256)[2:])
        time_ += 1
    return text


def opened(path, is_pipe):
    """Opens a file, or a pipe that has the bytes of the file."""
    if not is_pipe:
        return os.open(path, os.O_RDONLY)
    reader, writer = os.pipe()
    with open(path, "rb") as file, open(writer, "wb") as pipe:
        pipe.write(file.read())
    return reader


def cost_of(words, given):
    """Returns the page faults and the CPU seconds of a run with this standard input."""
    actions = NOWHERE + [(os.POSIX_SPAWN_DUP2, given, 0)]
    process = os.posix_spawn(words[0], words, ENVIRONMENT, file_actions=actions)
    _, status, usage = os.wait4(process, 0)
    os.close(given)
    if status:
        sys.exit("small_calls.py: %s: status %d" % (" ".join(words[:4]), status))
    return usage.ru_minflt, usage.ru_utime + usage.ru_stime


def instructions_of(words, given):
    """Returns the instructions of a run as text, `?` if valgrind is not there."""
    valgrind = shutil.which("valgrind")
    if not valgrind:
        return "?"
    tool = [valgrind, "--tool=cachegrind", "--cache-sim=no", "--cachegrind-out-file=/dev/null"]
    done = subprocess.run(tool + words, stdin=given, stdout=subprocess.DEVNULL,
                          stderr=subprocess.PIPE, env=ENVIRONMENT)
    os.close(given)
    found = re.search(rb"I\s+refs:\s+([\d,]+)", done.stderr)
    return found.group(1).decode() if found else "?"


def print_cost(name, words, given=os.devnull, is_pipe=False):
    """A line with the costs of these words, whose standard input is a file or a pipe."""
    runs = 30 if "merge" in words else 100
    costs = [cost_of(words, opened(given, is_pipe)) for _ in range(runs)]
    print("%-26s %11d %9.2f %14s" % (name, min(faults for faults, _ in costs),
                                     1000 * min(seconds for _, seconds in costs),
                                     instructions_of(words, opened(given, is_pipe))), flush=True)


def print_loop(name, words):
    """A line with the time of many calls in a loop of the shell."""
    loop = 'n=0; while [ $n -lt %d ]; do "$@" > /dev/null; n=$((n + 1)); done' % CALLS
    begin, before = time.monotonic(), os.times()
    subprocess.run(["/bin/sh", "-c", loop, "sh"] + words, stdin=subprocess.DEVNULL, check=True,
                   env=ENVIRONMENT)
    used, after = time.monotonic() - begin, os.times()
    cpu = after.children_user + after.children_system - (
        before.children_user + before.children_system)
    print("%-26s %9.2f s, %.2f s of CPU" % ("%d times %s" % (CALLS, name), used, cpu), flush=True)


def main(size):
    here = os.path.dirname(os.path.abspath(__file__))
    vcdkit = os.path.abspath(os.environ.get("VCDKIT", os.path.join(here, "..", "vcdkit")))
    others = {"true": [shutil.which("true")], "grep -c": [shutil.which("grep"), "-c", "^#"]}
    with tempfile.TemporaryDirectory() as folder:
        names = [os.path.join(folder, "%d.vcd" % number) for number in range(FILES)]
        for name in names:
            with open(name, "w") as file:
                file.write(dump_of(size))
        dump = names[0]
        print("%-26s %11s %9s %14s" % ("a dump of %d bytes" % os.path.getsize(dump), "page faults",
                                       "CPU ms", "instructions"))
        print_cost("true", others["true"])
        print_cost("grep -c", others["grep -c"] + [dump])
        print_cost("vcdkit --version", [vcdkit, "--version"])
        for words in (["check"], ["list"], ["pick", "top"], ["cut", "--from", "5"],
                      ["sample", "--at", "5"], ["edges"]):
            print_cost(words[0], [vcdkit] + words[:1] + ["-i", dump] + words[1:])
        print_cost("check < FILE", [vcdkit, "check"], dump)
        print_cost("cat FILE | check", [vcdkit, "check"], dump, is_pipe=True)
        print_cost("merge of 2", [vcdkit, "merge"] + names[:2])
        print_cost("merge of %d" % FILES, [vcdkit, "merge"] + names)
        print_loop("true", others["true"])
        print_loop("grep -c", others["grep -c"] + [dump])
        print_loop("check", [vcdkit, "check", dump])


if __name__ == "__main__":
    if len(sys.argv) > 2 or not all(word.isdigit() for word in sys.argv[1:]):
        sys.exit(__doc__)
    main(min(65536, int((sys.argv[1:] + ["1000"])[0])))
