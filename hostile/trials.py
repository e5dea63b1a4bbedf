"""Runs of the program, each with what it has to leave: output, message and status."""
import os, subprocess
from concurrent.futures import ThreadPoolExecutor

TOP = os.path.join(os.path.dirname(os.path.abspath(__file__)), "..")
MEMORY = (b"", b"vcdkit: out of memory\n", 3)


class Program:
    """The built program, and the devices that can be loaded before its C library."""

    def __init__(self, path, devices=None):
        self.path, self.devices = os.path.abspath(path), devices and os.path.abspath(devices)

    def start(self, words, folder=TOP, shell=None, how=None, **streams):
        """Starts the program. If there is a text for the shell, a shell starts it: "$@" is the
        program and its words. `how` is the environment of the devices."""
        command = [self.path] + words
        if shell:
            command = ["/bin/sh", "-c", "ulimit -c 0; " + shell, "sh"] + command
        environment = {name.upper(): str(value) for name, value in (how or {}).items()}
        if environment:
            environment["LD_PRELOAD"] = self.devices
        return subprocess.Popen(command, cwd=folder, env=environment, stderr=subprocess.PIPE,
                                **streams)

    def run(self, words, folder=TOP, given=b"", out=subprocess.PIPE, shell=None, **how):
        """Returns output, message and status. `given` is the bytes of standard input, or a file."""
        is_text = isinstance(given, bytes)
        process = self.start(words, folder, shell, how,
                             stdin=subprocess.PIPE if is_text else given, stdout=out)
        return outcome_of(process, given if is_text else None)


def outcome_of(process, given=None):
    """Returns what a process leaves that was started."""
    try:
        output, message = process.communicate(given, timeout=120)
    finally:
        process.kill()
    return output or b"", message, process.returncode


def compare(name, jobs):
    """Takes the jobs, several at a time, and prints what differs. A job returns trials: what was
    run, the outcomes that it may have, and the one that it had. Returns the exit status."""
    runs = bad = 0
    with ThreadPoolExecutor(os.cpu_count()) as pool:
        for what, wanted, got in (one for found in pool.map(lambda job: list(job()), jobs)
                                  for one in found):
            runs += 1
            if got not in wanted:
                bad += 1
                print("%s\n want %s\n got  %.300r" % (
                    what, " or ".join("%.300r" % (one,) for one in wanted), got))
    print("%s: %d runs, %d differ" % (name, runs, bad))
    return 1 if bad else 0
