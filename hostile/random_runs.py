#!/usr/bin/env python3
"""random_runs.py PROGRAM [--devices DEVICES] [--runs N] [--seed S] [--commands a,b]

Runs the program on random dumps, and compares output, message and status with those of the
evaluator. DEVICES is devices.c, built as a shared library: with it, one file in five grows or
shrinks while the program runs."""
import argparse, os, random, subprocess, sys, tempfile
from concurrent.futures import ThreadPoolExecutor

from dumps import Dumps
from reference import evaluator

COMMANDS = ["check", "list", "pick", "cut", "sample", "edges", "merge"]

# About these lengths reading changes: the shortest window, and a chunk, which no short file fills.
LENGTHS = [4_096, 65_536]


def asked(d, text):
    """Names of the dump's own variables and scopes, or some others."""
    try:
        paths = [path
                 for _, path, _ in evaluator.read_head(evaluator.Tokens(text, 1_048_576),
                                                       100).variables()]
    except evaluator.Fault:
        paths = []
    if not paths or d.r.random() < 0.2:
        return d.names()
    chosen = [d.r.choice(paths).split(b".") for _ in range(d.r.choice([0, 1, 1, 2, 3]))]
    return [b".".join(parts[:d.r.randrange(1, len(parts) + 1)]) for parts in chosen]


def word(moment):
    return "%d%s" % (moment[0], moment[1] or "")


def model(moment):
    return moment[0], None if moment[1] is None else evaluator.UNITS[moment[1].encode()]


def times_of_cut(r, a, b):
    """Both times of a cut, and the words for them: either may be left out."""
    if a[1] is None and b[1] is None:
        a, b = min(a, b, key=lambda m: m[0]), max(a, b, key=lambda m: m[0])
    words = []
    if r.random() < 0.15:
        a = (0, None)
    else:
        words += ["--from", word(a)]
    if r.random() < 0.15:
        b = (2**64 - 1, None)
    else:
        words += ["--to", word(b)]
    return [a, b], words


def padded(r, text):
    """The text, one time in ten with white space before its last token, so that its length is about
    one of LENGTHS."""
    more = r.choice(LENGTHS) + r.randrange(-2, 3) - len(text)
    at = max(text.rfind(b" "), text.rfind(b"\n"))
    if r.random() < 0.9 or at < 0 or more < 0:
        return text
    return text[:at] + b" " * more + text[at:]


def change(r, folder, name, text):
    """Lets the file have another text at first, and returns the environment in which it gets this
    one. Until then, a run reads only bytes that both texts have."""
    first = r.choice([text[:r.randrange(len(text) // 2, len(text) + 1)], text + text[-99:] * 9])
    both, path = min(len(first), len(text)), os.path.join(folder, name)
    call = min(r.randrange(1, 7), max(1, both))
    for at, its in ((path, first), (path + ".new", text)):
        with open(at, "wb") as f:
            f.write(its)
    return {"CHANGED": path, "BECOMES": path + ".new", "CHANGED_AT": str(call),
            "READ_MOST": str(max(1, both // call))}


def put_input(r, folder, seed, command, text):
    """The name of the input, the words that ask for it, and the bytes of standard input."""
    ways = [[], [], ["-i", "-"], ["-i", "FILE"]]
    if command in ("check", "list", "cut"):
        ways += [["-"], ["FILE"]]
    words = r.choice(ways)
    if "FILE" not in words:
        return b"(stdin)", words, text
    name = "%d.vcd" % seed
    with open(os.path.join(folder, name), "wb") as f:
        f.write(text)
    return name.encode(), [name if w == "FILE" else w for w in words], b""


def case(seed, commands, folder, devices):
    """Arguments, the bytes of standard input and whether they come from a file, the environment,
    and what the evaluator says."""
    d = Dumps(seed)
    r = d.r
    command = r.choice(commands)
    limit = r.choice([1_048_576, 1_048_576, 1_048_576, 64, 65, 100])
    arguments, options, names, given = [], [], [], b""
    if command == "merge":
        inputs = [(b"%d_%d.vcd" % (seed, k), padded(r, d.dump()))
                  for k in range(r.choice([1, 1, 2, 2, 2, 3, 5, 64] if r.random() < 0.1
                                          else [1, 2, 2, 2, 3]))]
        if r.random() < 0.2 and len(inputs) < 64:
            inputs.append(inputs[0])
        arguments = [name.decode() for name, _ in inputs]
        if r.random() < 0.2:
            k = r.randrange(len(inputs))
            arguments[k], given = "-", inputs[k][1]
            inputs[k] = (b"(stdin)", given)
        for file, (_, text) in zip(arguments, inputs):
            if file != "-":
                with open(os.path.join(folder, file), "wb") as f:
                    f.write(text)
    else:
        text = padded(r, d.dump())
        name, arguments, given = put_input(r, folder, seed, command, text)
        inputs = [(name, text)]
    if command in ("pick", "sample", "edges"):
        # Words are UTF-8, and a dump's names any bytes: only names of ASCII are asked for.
        names = [n
                 for n in asked(d, inputs[0][1]) if n.isascii()] or ([b"tb"] if command == "pick"
                                                                     else [])
    if command == "cut":
        options, words = times_of_cut(r, d.moment(60), d.moment(60))
        arguments += words
    if command == "sample":
        options = [d.moment(60) for _ in range(r.choice([1, 1, 2, 3, 6]))]
        if all(m[1] is None for m in options):
            options = [(n, None) for n in sorted({m[0] for m in options})]
        arguments += ["--at", ",".join(word(m) for m in options)]
    if command != "merge":
        arguments += ["--token-limit",
                      str(limit)] + (["--"] + [n.decode("latin-1") for n in names] if names else [])
    else:
        arguments = ["--token-limit", str(limit), "--"] + arguments
    want = evaluator.run(command, [model(m) for m in options], names, inputs, limit)
    files = [(name, text) for name, text in inputs if name != b"(stdin)"]
    how = {}
    if devices and files and r.random() < 0.2:
        name, text = r.choice(files)
        how = {"LD_PRELOAD": devices, **change(r, folder, name.decode(), text)}
    return [command] + arguments, given, r.random() < 0.3, how, want


def run(words, given, is_file, folder, how):
    """Output, message and status of a run whose standard input is a pipe or a file."""
    options = {"capture_output": True, "cwd": folder, "timeout": 60, "env": how}
    if not is_file:
        p = subprocess.run(words, input=given, **options)
    else:
        with tempfile.TemporaryFile(dir=folder) as file:
            file.write(given)
            file.seek(0)
            p = subprocess.run(words, stdin=file, **options)
    return p.stdout, p.stderr, p.returncode


def differs(program, folder, commands, devices, seed):
    arguments, given, is_file, how, want = case(seed, commands, folder, devices)
    got = run([program] + arguments, given, is_file, folder, how)
    for path in {os.path.join(folder, it) for name in arguments for it in (name, name + ".new")}:
        if ".vcd" in path and os.path.exists(path):
            os.remove(path)
    if got == want:
        return None
    return "seed %d: vcdkit %s\n %s\n input %.3000r\n want  %.3000r\n got   %.3000r" % (
        seed, " ".join(arguments), how, given, want, got)


def main():
    parser = argparse.ArgumentParser(description=__doc__)
    parser.add_argument("program")
    parser.add_argument("--devices", type=os.path.abspath)
    parser.add_argument("--runs", type=int, default=10_000)
    parser.add_argument("--seed", type=int, default=1)
    parser.add_argument("--commands", default=",".join(COMMANDS))
    a = parser.parse_args()
    program, bad = os.path.abspath(a.program), 0
    with tempfile.TemporaryDirectory() as folder, ThreadPoolExecutor(os.cpu_count()) as pool:
        for found in pool.map(
                lambda s: differs(program, folder, a.commands.split(","), a.devices, s),
                range(a.seed, a.seed + a.runs)):
            if found:
                bad += 1
                if bad <= 5:
                    print(found)
    print("%d runs, %d differ" % (a.runs, bad))
    return 1 if bad else 0


if __name__ == "__main__":
    sys.exit(main())
