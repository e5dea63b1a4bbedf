#!/usr/bin/env python3
"""prove.py programs [CPU]: proves the three programs and the crates that they use, and makes
./vcdkit, ./vcdkit-compare and ./vcdkit-strobe of them, for the processors CPU if one is named.
prove.py objects: sees that their object files, of which `make static` links, are there too.
prove.py library: proves and makes crates/vcdkit_c/out/libvcdkit_c.a.
prove.py lanes: prints how many proofs run at a time.

`rt ci` does the proofs, in a copy of these crates in the temporary directory (TMPDIR). So what they
prove is kept on this machine, and `make test` finds it (CONTRIBUTING.md, "What the gate costs").
For another processor and for the library, and where rt kept a program without its object file, the
prover then proves and builds the last crate again.

What `rt ci` prints goes to the file make.log in the top directory. The screen shows a line for each
crate: 'crate k of n, NAME: so many functions proved', or that it is kept from an earlier run. It
also shows the last lines of what failed. The exit status is 0 if everything is proved and built."""
import collections
import contextlib
import os
import re
import shutil
import signal
import subprocess
import sys
import tempfile
import time

TOP = os.path.dirname(os.path.dirname(os.path.abspath(__file__)))
KIT = os.path.dirname(os.path.dirname(os.path.realpath(shutil.which("rt") or "rt")))
MAINS = {"vcdkit": "vcdkit_main", "vcdkit-compare": "vcdkit_compare_main",
         "vcdkit-strobe": "vcdkit_strobe_main"}
LIBRARY, LAST_LINES, MEMORY_EACH = "vcdkit_c", 30, 4_000_000_000
LEFT_OUT = re.compile(r"\.git|crates/[^/]+/(out|must-fail/[^/]+\.edit)")
IS_READ = re.compile(r"crates/|(crates\.txt|HANDLES)\Z")
VERDICT = re.compile(r"logic=proved functions=(\d+)")
DONE = re.compile(r"rt: (\w+) (proved|is kept)\b")
FAULT = re.compile(r"rt: .*\b(NOT PROVED$|its tests FAILED|the program (had|ended|was|wrote)\b)")
# What the prover prints that does not say why a crate is not proved.
NOISE = re.compile(r"fn \S+: proved|(statements|library|empty contracts:|logic) ")
COUNTS = re.compile(r"(\d+) passed, (\d+) failed$")
LOG = os.path.join(TOP, "make.log")
# Says for which processor the programs in the top directory were built.
STAMP = os.path.join(TOP, "crates/vcdkit_main/out/built")


def listed(top=TOP):
    """Returns the lines of crates.txt, by the names of their crates."""
    with open(os.path.join(top, "crates.txt"), encoding="utf-8") as lines:
        return {line.split()[0].rstrip(":"): line for line in lines
                if ":" in line.partition("#")[0]}


def with_below(crates):
    """Returns the names of these crates and of all that they use."""
    lines, found, left = listed(), set(), list(crates)
    while left:
        name = left.pop()
        if name not in lines:
            sys.exit("crates.txt has no crate " + name)
        found.add(name)
        needs = lines[name].partition("#")[0].partition(":")[2].split()
        left += [it for it in needs if it in lines and it not in found]
    return found


def lanes():
    """Returns how many proofs are to run at a time: as RT_JOBS says, or else one for each processor
    with 4 GB of available memory, at least one. (Without RT_JOBS, rt expects up to 10 GB for each,
    although a proof on one processor takes a quarter of that.)"""
    with open("/proc/meminfo", encoding="utf-8") as lines:
        available = 1024 * int(re.search(r"MemAvailable:\s+(\d+)", lines.read())[1])
    given = os.environ.get("RT_JOBS", "")
    return max(1, int(given) if given.isdigit() else
               min(len(os.sched_getaffinity(0)), available // MEMORY_EACH))


@contextlib.contextmanager
def copied(crates=None):
    """Gives a repository with the files of this one as they are now, or, if crates are named, with
    these crates and those that they use. The must-fail edits and what was built are left out.
    `rt ci` refuses there what it refuses here, such as links and stray files. Of files outside of
    the crates it reads only the names, so these are empty. The repository is removed at the end."""
    names = None if crates is None else with_below(crates)

    def left_out(at, found):
        inside = "" if at == TOP else os.path.relpath(at, TOP) + "/"
        wanted = {"": {"crates", "crates.txt", "HANDLES"}, "crates/": names}.get(inside, found)
        return [it for it in found if names is not None and it not in wanted
                or LEFT_OUT.fullmatch(inside + it) and not os.path.islink(os.path.join(at, it))]

    def copy(one, other):
        is_read = IS_READ.match(os.path.relpath(one, TOP))
        shutil.copyfile(one if is_read else os.devnull, other)

    with tempfile.TemporaryDirectory(prefix="vcdkit-proofs-") as room:
        top = os.path.join(os.path.realpath(room), "copy")
        shutil.copytree(TOP, top, symlinks=True, ignore=left_out, copy_function=copy)
        os.mkdir(os.path.join(top, ".git"))
        if names is not None:
            with open(os.path.join(top, "crates.txt"), "w", encoding="utf-8") as lines:
                lines.writelines(line for name, line in listed().items() if name in names)
        yield top


class Progress:
    """Shows how far a run of `rt ci` is, and keeps its last lines."""

    def __init__(self, crates):
        self.crates, self.done, self.began = crates, 0, time.monotonic()
        self.last = collections.deque(maxlen=LAST_LINES)

    def take(self, line):
        if line.startswith("== "):
            self.last.clear()
        if not NOISE.match(line):
            self.last.append(line)
        end = DONE.match(line)
        if end:
            self.done += 1
            functions = next(filter(None, map(VERDICT.match, reversed(self.last))), "??")[1]
            how = "kept" if end[2] == "is kept" else functions + " functions proved"
            print("crate %d of %d, %s: %s, after %.1f minutes" % (
                self.done, self.crates, end[1], how, (time.monotonic() - self.began) / 60),
                flush=True)
        elif FAULT.match(line):
            self.show_last()

    def show_last(self):
        print("The last lines in make.log:\n%s" % "".join(self.last), end="", flush=True)
        self.last.clear()


def rt_ci(top):
    """Runs `rt ci` in a copy, and returns how many passed and how many failed. It prints a line for
    each crate, and the last lines of what failed. In the log, the paths are those of this tree."""
    progress = Progress(len(listed(top)))
    with open(LOG, "w", encoding="utf-8") as log, subprocess.Popen(
            ["rt", "ci"], cwd=top, stdin=subprocess.DEVNULL, stdout=subprocess.PIPE,
            stderr=subprocess.STDOUT, encoding="utf-8", errors="replace",
            env={**os.environ, "RT_JOBS": str(lanes())}) as rt:
        try:
            for line in rt.stdout:
                log.write(line.replace(top, TOP))
                log.flush()
                progress.take(line.replace(top, TOP))
        except BaseException:
            rt.terminate()
            raise
    counts = COUNTS.match(progress.last[-1] if progress.last else "")
    if rt.returncode:
        progress.show_last()
    passed, failed = map(int, counts.groups()) if counts else (0, 1)
    return passed, max(failed, int(rt.returncode != 0))


def words_of(top, crate):
    """Returns the words with which rt calls the prover for a crate of a copy, whose libraries are
    built there."""
    sys.path.insert(0, os.path.join(KIT, "bin"))
    sys.dont_write_bytecode = True
    import rtlib  # pylint: disable=import-error,import-outside-toplevel
    folder = os.path.join(top, "crates", crate)
    return rtlib.Crate(folder, top, {}).words(["--jobs", "1"], keeps=False)


def built(top, crate, to, cpu=""):
    """Proves a crate of a copy again, compiles it to a file, and links it if it is for another
    processor, with the words that rt has for that. Returns the status."""
    how = {"cwd": os.path.join(top, "crates", crate), "stdin": subprocess.DEVNULL}
    tools = ["--toolchain", os.path.join(KIT, "toolchain")]
    os.makedirs(os.path.join(how["cwd"], "out"), exist_ok=True)
    print("building %s, which takes some minutes" % crate, flush=True)
    with open(LOG, "a", encoding="utf-8") as log:
        status = subprocess.call([os.path.join(KIT, "bin/rattle"), "build", *words_of(top, crate),
                                  *["--cpu=" + cpu] * bool(cpu), *tools, "--backend", "llvm",
                                  "-o", to], stdout=log, stderr=log, **how)
    if status:
        print("%s was not built: the end of make.log says why" % crate)
    if status or not cpu:
        return status
    libraries = [os.path.join(KIT, "c", name) for name in ("libos_c.a", "liblibc_c.a")]
    return subprocess.call([os.path.join(KIT, "bin/rattle-link"), "--target",
                            "x86_64-unknown-linux-gnu", *tools, "-o", to[:-2], to, *libraries],
                           **how)


def take(top, name, to=None):
    """Takes a file of a copy, if it is there, to its place in this tree, or to another one."""
    to = os.path.join(TOP, to or name)
    os.makedirs(os.path.dirname(to), exist_ok=True)
    if os.path.lexists(to):
        os.remove(to)
    if os.path.isfile(os.path.join(top, name)):
        shutil.copy(os.path.join(top, name), to)


def take_programs(top, cpu="", has_objects=False):
    """Takes the programs that `rt ci` passed in a copy, with their object files if they are there
    or wanted, and returns the status."""
    for crate in MAINS.values():
        is_there = os.path.isfile(os.path.join(top, "crates", crate, "out", crate + ".o"))
        if (cpu or has_objects and not is_there) and built(top, crate, "out/%s.o" % crate, cpu):
            return 1
    for name, crate in MAINS.items():
        take(top, "crates/%s/out/%s.o" % (crate, crate))
        take(top, "crates/%s/out/%s" % (crate, crate), name)
    with open(STAMP, "w", encoding="utf-8") as stamp:
        stamp.write(cpu)
    # A source may have changed since the copy was made.
    os.utime(STAMP, (os.path.getmtime(os.path.dirname(top)),) * 2)
    return 0


def is_fresh(cpu="", has_objects=False):
    """Returns whether the programs, with object files or not, were built for this processor of the
    files that are there, because none of these changed since `rt ci` began."""
    files = [STAMP, *(os.path.join(TOP, name) for name in MAINS)]
    if has_objects:
        files += [os.path.join(TOP, "crates", it, "out", it + ".o") for it in MAINS.values()]
    if not all(map(os.path.isfile, files)):
        return False
    read = [TOP + "/crates.txt", TOP + "/HANDLES", KIT + "/WHAT"]
    for crate in with_below(MAINS.values()):
        for part in ("src", "specs", "proofs"):
            for at, _, names in os.walk(os.path.join(TOP, "crates", crate, part)):
                read += [at, *(os.path.join(at, it) for it in names)]
    with open(STAMP, encoding="utf-8") as stamp:
        return (stamp.read() == cpu
                and max(map(os.path.getmtime, read)) < min(map(os.path.getmtime, files)))


def made(what, cpu):
    """Proves and makes the programs, or the library, and returns the status."""
    with copied([LIBRARY] if what == "library" else MAINS.values()) as top:
        if rt_ci(top)[1]:
            return 1
        if what != "library":
            return take_programs(top, cpu, what == "objects")
        archive = "out/lib%s.a" % LIBRARY
        status = built(top, LIBRARY, archive)
        take(top, "crates/%s/%s" % (LIBRARY, archive))
        return status


def end_on_signals():
    """Has a signal to end raise an exception, so that copies are removed."""
    for number in (signal.SIGHUP, signal.SIGTERM):
        signal.signal(number, lambda number, _: sys.exit(128 + number))


def main(words):
    what, cpu = (*words, "", "")[:2]
    if what not in ("programs", "objects", "library", "lanes") or words not in ([what], [
            "programs", cpu]):
        print(__doc__, file=sys.stdout if what == "--help" else sys.stderr)
        return 0 if what == "--help" else 2
    if what == "lanes":
        print(lanes())
        return 0
    if what == "objects" and os.path.isfile(STAMP):
        with open(STAMP, encoding="utf-8") as stamp:
            cpu = stamp.read()
    if what != "library" and is_fresh(cpu, what == "objects"):
        print("nothing has changed since the programs were proved and built")
        return 0
    end_on_signals()
    try:
        return made(what, cpu)
    except KeyboardInterrupt:
        print("interrupted; rt keeps each crate that it proved")
        return 128 + signal.SIGINT


if __name__ == "__main__":
    sys.exit(main(sys.argv[1:]))
