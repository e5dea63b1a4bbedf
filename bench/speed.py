#!/usr/bin/env python3
"""speed.py COMMAND [DUMP...]    measures how fast a command of vcdkit is on each of these dumps
speed.py merge [DUMP...]         the merge of all of them, and of the first one 64 times if that has
                                 at most 20 MB, beside `check` of each, one after the other
speed.py header [VARIABLES...]   `list` and `check` of headers with so many variables (10000,
                                 100000 and 1000000), by header_dump.py

Each run takes three turns with the others, on standard input. A line has the best user and system
time, the speed in MB (of 1,000,000 bytes) a second, that time over the time of `check`, the best
wall time, the peak of resident memory, and how much was written. Before it is measured, what a
run writes is compared with what it has to be.

COMMAND is one of these, and each is beside `check` and `wc -l`:

check     beside `rival`, an unverified byte loop that counts the same (rival.rs, if there is a
          rustc), and the programs that RIVALS names: their reports must be the same
pick      `one`: the variable in the middle of `list`; `all`: all scopes at the top
cut       `before`: a window after the whole dump; `within`: one of the whole dump; `middle`: the
          middle half of the time, after which nothing is read
sample    `one`: that variable at 1000 times; `all`: all variables at 10 times; `end`: all at the
          greatest time
edges     `one`: that variable; `all`: all

Without a dump, plain dumps of 200 MB with 64 and with 20000 variables are made (plain_dump.py).
VCDKIT names the program, else it is ./vcdkit."""
import os
import shutil
import subprocess
import sys
import tempfile
import time

HERE = os.path.dirname(os.path.abspath(__file__))
VCDKIT = os.path.abspath(os.environ.get("VCDKIT") or os.path.join(HERE, "..", "vcdkit"))
CHECK = [VCDKIT, "check"]
LINES = ["wc", "-l"]
GREATEST = 2 ** 64 - 1


def output_of(words, dump):
    """What a run writes; it has to succeed."""
    with open(dump, "rb") as source:
        return subprocess.run(words, stdin=source, stdout=subprocess.PIPE, check=True).stdout


def once(words, dump):
    """CPU time and wall time of a run, in seconds."""
    with open(dump, "rb") as source:
        began = time.monotonic()
        process = subprocess.Popen(words, stdin=source, stdout=subprocess.DEVNULL)
        _, status, used = os.wait4(process.pid, 0)
    if status:
        sys.exit("speed.py: %s failed" % " ".join(words[:3]))
    return used.ru_utime + used.ru_stime, time.monotonic() - began


def peak(words, dump):
    """The peak of memory of a run in KB, by /usr/bin/time: that of a child of Python begins with
    the memory of Python."""
    if not os.path.exists("/usr/bin/time"):
        return "?"
    with open(dump, "rb") as source:
        return subprocess.run(["/usr/bin/time", "-f", "%M", *words], stdin=source, check=True,
                              stdout=subprocess.DEVNULL,
                              stderr=subprocess.PIPE).stderr.decode().strip()


def best(runs, dump):
    """The least of each figure of three turns, so that what else the machine does meets all."""
    turns = [{name: once(words, dump) for name, words in runs.items()} for _ in range(3)]
    return {name: [min(column) for column in zip(*(turn[name] for turn in turns))]
            for name in runs}


def rows(dump):
    """What `list` writes for a dump: path and type of each variable."""
    return [line.split()[:2] for line in output_of([VCDKIT, "list"], dump).splitlines()]


def last(report):
    """The last timestamp in a report of `check`; 0 if there is none."""
    word = report.split()[-1]
    return 0 if word == b"-" else int(word)


def spread(times, end):
    """This many times up to the last timestamp, as words of --at."""
    step = max(1, end // times)
    return ",".join(str(step * k) for k in range(times))


def checks(dump):
    runs = {"check": CHECK}
    if shutil.which("rustc"):
        rival = os.path.join(os.path.dirname(dump), "rival")
        subprocess.run(["rustc", "-O", "-o", rival, os.path.join(HERE, "rival.rs")], check=True)
        runs["rival"] = [rival]
    for rival in os.environ.get("RIVALS", "").split():
        runs[os.path.basename(rival)] = [os.path.abspath(rival)]
    report = output_of(CHECK, dump)
    return runs, lambda name, written: written == report


def picks(dump):
    paths = [path for path, _ in rows(dump)]
    tops = list(dict.fromkeys(path.split(b".")[0] for path in paths))
    end = last(output_of(CHECK, dump))

    def is_right(_, written):
        kept = subprocess.run(CHECK, input=written, stdout=subprocess.PIPE, check=True).stdout
        return last(kept) == end
    return {"pick one": [VCDKIT, "pick", "--", paths[len(paths) // 2]],
            "pick all": [VCDKIT, "pick", "--", *tops]}, is_right


def cuts(dump):
    end = last(output_of(CHECK, dump))
    windows = {"before": (GREATEST, GREATEST), "within": (0, GREATEST),
               "middle": (end // 4, end // 4 * 3)}
    return ({"cut " + name: [VCDKIT, "cut", "--from", str(low), "--to", str(high)]
             for name, (low, high) in windows.items()},
            lambda _, written: subprocess.run(CHECK, input=written, stdout=subprocess.PIPE,
                                              check=False).returncode == 0)


def samples(dump):
    valued = [path for path, kind in rows(dump) if kind != b"event"]
    one = valued[len(valued) // 2]
    end = last(output_of(CHECK, dump))
    ones = sum(path == one or path.startswith(one + b".") for path in valued)
    lines = {"one": 1000 * ones, "all": 10 * len(valued), "end": len(valued)}
    return {"sample one": [VCDKIT, "sample", "--at", spread(1000, end), "--", one],
            "sample all": [VCDKIT, "sample", "--at", spread(10, end)],
            "sample end": [VCDKIT, "sample", "--at", str(GREATEST)]}, (
                lambda name, written: written.count(b"\n") == lines[name.split()[1]])


def edges(dump):
    paths = [path for path, _ in rows(dump)]

    def is_right(name, written):
        found = [line.split()[0] for line in written.splitlines()]
        return name == "edges one" or found == paths
    return {"edges one": [VCDKIT, "edges", "--", paths[len(paths) // 2]],
            "edges all": [VCDKIT, "edges"]}, is_right


COMMANDS = {"check": checks, "pick": picks, "cut": cuts, "sample": samples, "edges": edges}


def measure(command, dump):
    """Prints the lines of a command over a dump."""
    runs, is_right = COMMANDS[command](dump)
    written = {}
    for name, words in runs.items():
        output = output_of(words, dump)
        if not is_right(name, output):
            sys.exit("speed.py: %s of %s is not what it has to be" % (name, dump))
        written[name] = "%.1f" % (len(output) / 1e6)
    every = {"check": CHECK, **runs, "wc -l": LINES}
    found = best(every, dump)
    print("%-12s %9s %7s %10s %8s %9s %9s" % (
        os.path.basename(dump)[:12], "CPU s", "MB/s", "over check", "wall s", "peak KB", "MB out"))
    for name, (cpu, wall) in found.items():
        print("%-12s %9.3f %7.0f %10.2f %8.3f %9s %9s" % (
            name, cpu, os.path.getsize(dump) / 1e6 / (cpu + 1e-9),
            cpu / (found["check"][0] + 1e-9), wall, peak(every[name], dump),
            written.get(name, "")))
    print()


def measure_merge(dumps):
    """Prints the time of a merge beside that of a check of each dump."""
    def least(runs):
        return min(sum(once(words, os.devnull)[0] for words in runs) for _ in range(3))
    sets = {"these": dumps}
    if os.path.getsize(dumps[0]) <= 20_000_000:
        sets["the first 64 times"] = dumps[:1] * 64
    for name, each in sets.items():
        check = least([[*CHECK, "-i", dump] for dump in each])
        merge = least([[VCDKIT, "merge", "--", *each]])
        print("%s: check %.3f s, merge %.3f s, %.2f times" % (name, check, merge, merge / check))


def measure_headers(sizes, directory):
    """Prints the times of headers of each kind and size."""
    runs = {"list": [VCDKIT, "list"], "check": CHECK, "wc -l": LINES}
    print("%-9s %9s %5s" % ("", "variables", "MB"), *("%9s" % (n + " s") for n in runs),
          "  us list  us check   KB list  KB check")
    for kind in ("ordered", "shuffled", "nested"):
        for size in sizes:
            path = os.path.join(directory, "header.vcd")
            with open(path, "wb") as to:
                subprocess.run([os.path.join(HERE, "header_dump.py"), str(size), kind], stdout=to,
                               check=True)
            if len(rows(path)) != size:
                sys.exit("speed.py: not %d variables" % size)
            found = best(runs, path)
            print("%-9s %9d %5.1f" % (kind, size, os.path.getsize(path) / 1e6),
                  *("%9.3f" % found[name][0] for name in runs),
                  *("%9.3f" % (found[name][0] / size * 1e6) for name in ("list", "check")),
                  *("%9s" % peak(runs[name], path) for name in ("list", "check")))


def main(command, words):
    with tempfile.TemporaryDirectory() as directory:
        if command == "header":
            return measure_headers([int(word) for word in words] or [10000, 100000, 1000000],
                                   directory)
        if not words:
            for variables in ("64", "20000"):
                words.append(os.path.join(directory, "plain-" + variables))
                with open(words[-1], "wb") as to:
                    subprocess.run([os.path.join(HERE, "plain_dump.py"), "200", variables],
                                   stdout=to, check=True)
        if command == "merge":
            return measure_merge(words)
        for dump in words:
            measure(command, dump)
        return None


if __name__ == "__main__":
    if sys.argv[1:2] and sys.argv[1] in {*COMMANDS, "merge", "header"}:
        if not os.access(VCDKIT, os.X_OK):
            sys.exit("speed.py: there is no program %s: run make first" % VCDKIT)
        main(sys.argv[1], sys.argv[2:])
    else:
        sys.exit(__doc__)
