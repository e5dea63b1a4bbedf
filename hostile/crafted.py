#!/usr/bin/env python3
"""crafted.py PROGRAM [PART..]     PART is limits, edges, garbage or declarations; without one, all

Runs the program on crafted dumps and command lines. It has to write what the evaluator gives. On
random command lines it has to end with an exit status of 0 to 3. `declarations` takes 1 GB of
memory."""
import os, random, subprocess, sys, tempfile
from concurrent.futures import ProcessPoolExecutor

from reference import evaluator

CHUNK = 65_536
SHARES = 16
HEAD = (b"$timescale 1ns $end\n$scope module t $end\n$var wire 1 ! a $end\n"
        b"$var reg 70 \" b $end\n$var real 1 & r $end\n$var event 1 % e $end\n$upscope $end\n")
BODY = b"$enddefinitions $end\n"
LAST = 2**64 - 1


def run(program, words, given=b"", folder=None):
    p = subprocess.run([program] + words, input=given, capture_output=True, cwd=folder, timeout=600)
    return p.stdout, p.stderr, p.returncode


def words_of(command, options, names):
    words = [command]
    if command == "cut":
        words += ["--from", str(options[0]), "--to", str(options[1])]
    if command == "sample":
        words += ["--at", ",".join(map(str, options))]
    return words + ["--"] * bool(names) + [n.decode() for n in names]


def differs(program, what, command, text, options=(), names=(), limit=None):
    """Nothing, or what is wrong with a run over a text."""
    words = words_of(command, options, names)
    if limit is not None:
        words[1:1] = ["--token-limit", str(limit)]
    want = evaluator.run(command, [(n, None) for n in options], list(names), [(b"(stdin)", text)],
                         1_048_576 if limit is None else limit)
    got = run(program, words, text)
    return None if got == want else "%s, %s\n want %.300r\n got  %.300r" % (what,
                                                                            " ".join(words)[:200],
                                                                            want, got)


# ---- limits, met and passed by one

def scopes(n):
    return b"$scope module s $end\n" * n


def limits(program):
    one = b"$var wire 1 ! a $end\n"
    texts = [("a size", b"$var wire %s ! a $end\n" % size + BODY + b"#0\n1!\n")
             for size in (b"0", b"1", b"16777215", b"16777216", b"0" * 30 + b"1", b"1" + b"0" * 30)]
    texts += [("digits",
               b"$var wire 9 ! a $end\n" + BODY + b"#0\nb" + b"01" * 4 + b"x" * k + b" !\n")
              for k in (0, 1, 2)]
    texts += [("a real text", HEAD + BODY + b"#0\nr" + b"1" * k + b" &\n")
              for k in (0, 1, 63, 64, 65)]
    texts += [("a time", one + BODY + b"#%s\n1!\n" % time)
              for time in (b"%d" % LAST, b"%d" % (LAST + 1), b"0" * 40 + b"5",
                           b"0" * 20 + b"%d" % LAST, b"", b"-1", b"9" * 40)]
    texts += [("scopes", scopes(n) + one + BODY + b"#0\n1!\n") for n in (999, 1000, 1001)]
    texts += [("a code", b"$var wire 1 %s a $end\n" % code + BODY + b"#0\n1%s\n" % code)
              for code in (b"!", b"~", b"~" * 7, b"~" * 8, b"~" * 9, b"!" * 500, b"\x7f",
                           b"\xc3\xa9", b"a\x00")]
    texts += [("a token at its limit", b"$comment " + b"x" * k + b" $end\n" + one + BODY)
              for k in (1_048_575, 1_048_576, 1_048_577)]
    for what, text in texts:
        for command, options, names in (("check", (), ()), ("list", (), ()), ("pick", (), [b"a"]),
                                        ("cut", (0, LAST), ()), ("sample", (0, LAST), ()),
                                        ("edges", (), ())):
            yield differs(program, what, command, text, options, names)
    for limit in (64, 65):
        for k in (62, 63, 64, 65, 66):
            for text in (b"$var wire 1 %s a $end\n" % (b"!" * k) + BODY,
                         b"$var wire 1 ! %s $end\n" % (b"n" * k) + BODY,
                         b"$var wire 999 ! a $end\n" + BODY + b"#0\nb%s !\n" % (b"1" * k),
                         one + BODY + b"#%s\n" % (b"0" * k)):
                yield differs(program, "a token of %d bytes" % k, "check", text, limit=limit)
    for names in ([b""], [b"."], [b"t"] * 1000, [b"t.a", b"t.b", b"nothing"], [b"t.a."], [b"t."],
                  [b"-x"]):
        yield differs(program, "%d names" % len(names), "pick", HEAD + BODY + b"#0\n1!\n",
                      names=names)
    for word, good in (("63", False), ("64", True), ("16777216", True), ("16777217", False),
                       ("0" * 18 + "64", True), ("0" * 19 + "64", False), ("", False),
                       ("+64", False), ("0x40", False)):
        out, message, status = run(program, ["check", "--token-limit=" + word], one + BODY)
        want = (b"", 0) if good else (b"vcdkit: bad token limit: %s\n" % word.encode(), 2)
        yield None if (message, status) == want else "token limit %r: %r %d" % (word, message,
                                                                                status)
    yield from files(program)


def files(program):
    """64 files and 65; a merge of 1,000 scopes, whose text has one more."""
    with tempfile.TemporaryDirectory() as folder:
        texts = {"a": b"$var wire 1 ! a $end\n" + BODY + b"#0\n1!\n",
                 "deep": scopes(1000) + b"$var wire 1 ! a $end\n" + BODY + b"#0\n1!\n"}
        for name, text in texts.items():
            with open(os.path.join(folder, name), "wb") as f:
                f.write(text)
        for names in (["a"], ["a"] * 64, ["deep"], ["deep", "a"]):
            want = evaluator.run("merge", [], [], [(n.encode(), texts[n]) for n in names])
            got = run(program, ["merge"] + names, folder=folder)
            yield None if got == want else "merge of %d files: %.300r, not %.300r" % (len(names),
                                                                                      got, want)
        got = run(program, ["merge"] + ["a"] * 65, folder=folder)
        yield None if got == (b"", b"vcdkit: too many files\n", 2) else "65 files: %.300r" % (got,)
        merged = run(program, ["merge", "deep"], folder=folder)[0]
        got = run(program, ["check"], merged)
        yield None if got == (b"", b"vcdkit: (stdin):1004: scopes too deep\n",
                              1) else "1,001 scopes: %.300r" % (got,)


# ---- items at each offset across the edge of a chunk

PHRASES = [b"#5", b"1!", b"b" + b"0" * 40 + b"1x" + b" \"", b"b1 \"", b"r1.5 &", b"1%",
           b"$dumpvars", b"x!", b"bX1 \"", b"$end", b"#12345678901234567890",
           b"$comment $end", b"$comment " + b"y" * 70 + b" $end", b"0!", b"b" + b"10" * 35 + b" \"",
           b"#12345678901234567891", b"Z!"]


def edge(program, offset, white):
    """Returns what is wrong if the items begin at this offset from the end of the first chunk, with
    this white byte after each token."""
    body = b"".join(token + white for phrase in PHRASES for token in phrase.split())
    start = HEAD + b"$comment \n\n "
    text = start + b"z" * (CHUNK + offset - len(start)
                           - len(b" $end\n" + BODY)) + b" $end\n" + BODY + body
    for command, options, names in (("check", (), ()), ("pick", (), [b"t"]), ("cut", (5, LAST), ()),
                                    ("sample", (5, LAST), ()), ("edges", (), ())):
        yield differs(program, "offset %d, white %r" % (offset, white), command, text, options,
                      names)


def edges(program, share):
    length = sum(len(p) + 2 for p in PHRASES)
    for offset in range(-length - 70 + share, 8, SHARES):
        for white in (b" ", b"\n", b"\r\n", b"\t", b"\v", b"\f"):
            yield from edge(program, offset, white)


# ---- bytes and command lines at random

def garbage(program):
    r = random.Random(5)
    pieces = [b"$var", b"$end", b"$scope", b"$upscope", b"$enddefinitions", b"$comment",
              b"$dumpall", b"#1", b"1!", b"b1", b"!", b"wire", b"1", b"a", b"r1", b"x\"",
              b"\x00", b"\xff", b"#", b"b", b"r", b"$", b"\n", b" ", b"$timescale", b"1ns",
              b"\x1b[2J"]
    for n in range(3000):
        text = b"".join(r.choice(pieces) + r.choice([b" ", b"\n", b"", b"\r"])
                        for _ in range(r.randrange(40))) if n % 3 else r.randbytes(r.randrange(200))
        yield differs(program, "bytes", r.choice(["check", "list", "edges"]),
                      (HEAD + BODY) * (n % 2) + text)
    words = ["check", "list", "pick", "cut", "sample", "edges", "merge", "-i", "--from", "--to",
             "--at", "--token-limit", "--", "-", "", "/dev/null", "/", "/nowhere",
             "5", "5ns", "1,2", "18446744073709551616", "--help", "-V", "a", "a.b", "-i=x", "--frm",
             "é", "\n", "64"]
    for _ in range(3000):
        line = [r.choice(words) for _ in range(r.randrange(8))]
        status = run(program, line)[2]
        yield None if 0 <= status <= 3 else "command line %r: status %d" % (line, status)


# ---- as many declarations as there may be, and one more

def declarations(program):
    half = 8_388_608
    for more in (0, 1):
        p = subprocess.Popen([program, "check"], stdin=subprocess.PIPE, stdout=subprocess.PIPE,
                             stderr=subprocess.PIPE)
        pair = b"$scope a b $end $upscope $end\n"
        try:
            for _ in range(64):
                p.stdin.write(pair * (half // 64))
            p.stdin.write(b"$var wire 1 ! a $end\n" * more + BODY)
            p.stdin.close()
        except BrokenPipeError:
            pass
        out, message = p.stdout.read(), p.stderr.read()
        got = (out[:15], message, p.wait())
        want = (b"", b"vcdkit: (stdin):%d: too many declarations\n" % (half + 1),
                1) if more else (b"scopes %d\n" % half, b"", 0)
        yield None if got == want else "%d declarations: %r, not %r" % (2 * half + more, got, want)


PARTS = {"limits": limits, "edges": edges, "garbage": garbage, "declarations": declarations}


def tried(program, name, share):
    """How many runs a part has, or a share of it, and what is wrong with them."""
    found = list(edges(program, share) if name == "edges" else PARTS[name](program))
    return len(found), [text for text in found if text]


def main():
    program, bad = os.path.abspath(sys.argv[1]), 0
    with ProcessPoolExecutor(os.cpu_count()) as pool:
        for name in sys.argv[2:] or list(PARTS):
            shares = range(SHARES if name == "edges" else 1)
            runs, wrong = 0, []
            for n, found in pool.map(tried, [program] * len(shares), [name] * len(shares), shares):
                runs, wrong = runs + n, wrong + found
            for text in wrong[:5]:
                print(text)
            print("%s: %d runs" % (name, runs))
            bad += len(wrong)
    print("%d differ" % bad)
    return 1 if bad else 0


if __name__ == "__main__":
    sys.exit(main())
