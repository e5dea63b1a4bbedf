#!/usr/bin/env python3
"""library.py PROGRAM LIBRARY [--runs N] [--seed S]

Runs random command lines over random dumps with libvcdkit and with the program, and compares
output, message and status. It also reads the changes of each code, with arrays of random lengths,
and compares them with those that the evaluator reads."""
import argparse, ctypes, os, random, subprocess, sys, tempfile
from concurrent.futures import ThreadPoolExecutor

from reference import evaluator
from random_runs import COMMANDS, case

LIMIT = 65_536
WORDS = ["check", "list", "pick", "cut", "sample", "edges", "merge", "--help", "--version", "-i",
         "--", "--from", "--to", "--at", "--token-limit", "5", "7ns", "5,7", "a.vcd", "b.vcd", "tb",
         "-", "", "--x", "\u00e9", "help"]


class Lent(ctypes.Structure):
    _fields_ = [("at", ctypes.c_char_p), ("length", ctypes.c_size_t)]


class File(ctypes.Structure):
    _fields_ = [("name", Lent), ("bytes", Lent)]


class Change(ctypes.Structure):
    _fields_ = [("time", ctypes.c_uint64), ("value", ctypes.c_uint64), ("known", ctypes.c_uint64)]


class Reading(ctypes.Structure):
    _fields_ = [("state", ctypes.c_uint64 * 8), ("count", ctypes.c_uint64),
                ("fault", ctypes.c_uint64), ("line", ctypes.c_uint64)]


def lent(data):
    return Lent(data, len(data))


class Library:
    """The functions of libvcdkit."""

    def __init__(self, path):
        self.c = ctypes.CDLL(path)
        self.c.vcdkit_run.restype = self.c.vcdkit_changes.restype = ctypes.c_uint8

    def run(self, words, given, files, seed, room):
        """Returns status, output and message; if there is less room, the front of the output."""
        size = ctypes.c_size_t
        out, err = ctypes.create_string_buffer(max(room, 1)), ctypes.create_string_buffer(1 << 16)
        used, said = ctypes.c_uint64(), ctypes.c_uint64()
        status = self.c.vcdkit_run(
            (Lent * max(len(words), 1))(*map(lent, words)), size(len(words)),
            given, size(len(given)),
            (File * max(len(files), 1))(*[File(lent(n), lent(b)) for n, b in files]),
            size(len(files)), ctypes.c_uint64(seed), out, size(room), ctypes.byref(used),
            err, size(len(err)), ctypes.byref(said))
        return status, out.raw[:min(room, used.value)], used.value, err.raw[:said.value]

    def changes(self, dump, code, seed, room):
        """The rows of a code, and how the reading ended."""
        size, rows, reading = ctypes.c_size_t, [], Reading()
        while True:
            array = (Change * room)()
            status = self.c.vcdkit_changes(dump, size(len(dump)), code, size(len(code)),
                                           ctypes.c_uint64(seed), ctypes.byref(reading), array,
                                           size(room))
            rows += [(c.time, c.value, c.known) for c in array[:reading.count]]
            if status != 4:
                return rows, (status, reading.fault, reading.line) if status == 1 else (status,)


def row_of(item, time):
    if item.form == "real":
        return time, 0, 0
    digits = evaluator.extended(item.text, 64)[-64:]
    return (time, int("".join("1" if d == 49 else "0" for d in digits), 2),
            int("".join("1" if d in b"01" else "0" for d in digits), 2))


def rows_of(dump, code):
    """The same by the evaluator."""
    tokens = evaluator.Tokens(dump, LIMIT)
    try:
        head = evaluator.read_head(tokens, evaluator.MOST_DECLARATIONS)
    except evaluator.Fault as fault:
        return [], (1, fault.number, fault.line)
    if code not in head.codes:
        return [], (2,)
    items, fault = evaluator.read_items(tokens, head.codes)
    rows = [row_of(item, time) for item, time, _ in evaluator.placed(items)
            if item.kind == "change" and item.code == code]
    return rows, (1, fault.number, fault.line) if fault else (0,)


def codes_in(dump):
    try:
        head = evaluator.read_head(evaluator.Tokens(dump, LIMIT), evaluator.MOST_DECLARATIONS)
        return list(head.codes)
    except evaluator.Fault:
        return []


def differs(program, library, folder, seed):
    """Returns what is not the same, in words, or nothing."""
    r = random.Random(seed)
    words, given, *_ = case(seed, COMMANDS, folder, None)
    files = {}
    for name in words:
        if name.endswith(".vcd") and os.path.exists(os.path.join(folder, name)):
            with open(os.path.join(folder, name), "rb") as file:
                files[name.encode()] = file.read()
    if r.random() < 0.1:
        words = [r.choice(WORDS) for _ in range(r.randrange(7))]
    p = subprocess.run([program] + words, input=given, capture_output=True, cwd=folder, timeout=60)
    for name in files:
        os.remove(os.path.join(folder, name.decode()))
    room = r.choice([0, 1, 7, len(p.stdout), len(p.stdout) + 1, 1 << 20])
    got = library.run([w.encode() for w in words], given, list(files.items()),
                      r.getrandbits(64), room)
    want = (p.returncode, p.stdout[:room], len(p.stdout), p.stderr)
    if got != want:
        return "seed %d: vcdkit %s\n input %r\n want  %r\n got   %r" % (seed, words, given, want,
                                                                        got)
    dump = r.choice(list(files.values()) or [given])
    for code in r.sample(codes_in(dump), min(2, len(codes_in(dump)))) + [b"no code"]:
        got = library.changes(dump, code, r.getrandbits(64), r.choice([1, 2, 3, 100, 5000]))
        want = rows_of(dump, code)
        if got != want:
            return "seed %d: changes of %r\n input %r\n want  %r\n got   %r" % (seed, code, dump,
                                                                               want, got)
    return None


def main():
    parser = argparse.ArgumentParser(description=__doc__)
    parser.add_argument("program")
    parser.add_argument("library")
    parser.add_argument("--runs", type=int, default=10_000)
    parser.add_argument("--seed", type=int, default=1)
    a = parser.parse_args()
    program, library, bad = os.path.abspath(a.program), Library(os.path.abspath(a.library)), 0
    with tempfile.TemporaryDirectory() as folder, ThreadPoolExecutor(os.cpu_count()) as pool:
        for found in pool.map(lambda s: differs(program, library, folder, s),
                              range(a.seed, a.seed + a.runs)):
            if found:
                bad += 1
                if bad <= 5:
                    print(found)
    print("%d runs, %d differ" % (a.runs, bad))
    return 1 if bad else 0


if __name__ == "__main__":
    sys.exit(main())
