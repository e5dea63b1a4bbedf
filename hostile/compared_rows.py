#!/usr/bin/env python3
"""compared_rows.py [FILE..]

Compares comparison.py with the worked rows of its definitions, whose values the prover computes
from the definitions (CompareRows.antt and WithinRows.antt of vcd_laws). It reads a row as the row
stands there, with the names that the file defines."""
import os, re, sys

from reference import comparison
from reference import evaluator

TOP = os.path.join(os.path.dirname(os.path.abspath(__file__)), "..")
FILES = [os.path.join(TOP, "crates", "vcd_laws", "proofs", name)
         for name in ("CompareRows.antt", "WithinRows.antt")]
TOKEN = re.compile(r'"(?:[^"\\]|\\.)*"|∷|\+\+|[\w.]*\w|[][(){}=;,^-]')
LINE = re.compile(r"(?m)^(\w+)((?: \w+)*) (?::|=) ")


def written(text):
    """A text as the rows write it: `;` is a line feed, `^` a tab."""
    return text.encode().replace(b";", b"\n").replace(b"^", b"\t")


def asked_of(q):
    rule = q["rule"]
    extents = {"Extent.First": comparison.FIRST, "Extent.EachPair": comparison.EACH_PAIR,
               "Extent.Always": comparison.ALWAYS}
    return comparison.Asked(q["names"], q["exceptions"], q["from"], q["to"], extents[q["extent"]],
                            (rule["x_of_one"], rule["x_of_other"]))


def record_of(output, message, status):
    return {"output": output, "message": message, "status": status}


def texts_of(inputs):
    return [one["bytes"] for one in inputs]


# What the rows take from other files: how many arguments it has, and what it is.
KNOWN = {
    "codes": (1, str.encode), "written": (1, written),
    "clean": (1, lambda text: {"bytes": written(text)}),
    "dump": (2, lambda front, body: {"bytes": written(front) + written(body)}),
    "gives": (3, lambda output, message, status: record_of(
        written(output), b"vcdkit: %s\n" % message.encode() if message else b"", status)),
    "compared": (4, lambda q, limit, names, inputs: record_of(
        *comparison.compared(asked_of(q), names, texts_of(inputs), limit))),
    "within": (5, lambda q, limit, names, name, one: record_of(
        *comparison.within(asked_of(q), names, name, one["bytes"], limit))),
    "comparison": (5, lambda q, limit, names, name, one: record_of(
        *comparison.answered(asked_of(q), names, name, one["bytes"], limit))),
    "outcome": (4, lambda want, limit, names, inputs: record_of(*evaluator.run(
        want.split(".")[-1].lower(), [], [], list(zip(names, texts_of(inputs))), limit))),
    "limit": (0, lambda: 1_048_576), "true": (0, lambda: True), "false": (0, lambda: False),
    "exactly": (0, lambda: {"x_of_one": False, "x_of_other": False}),
}


class Expression:
    """An expression that is read from its tokens, over the definitions of its file."""

    def __init__(self, text, of_file, local):
        self.tokens, self.of_file, self.local = TOKEN.findall(text), of_file, local

    def takes(self, token):
        if self.tokens[:1] != [token]:
            return False
        self.tokens.pop(0)
        return True

    def value(self):
        """A list from its front, or arithmetic."""
        left = self.applied()
        if self.takes("∷"):
            return [left] + self.value()
        if self.takes("++"):
            return left + self.value()
        if self.takes("^"):
            left = left ** self.applied()
        return left - self.applied() if self.takes("-") else left

    def applied(self):
        """A name with its arguments, or an atom."""
        name = self.tokens[0]
        count, function = self.called(name)
        if function is None:
            return self.atom()
        self.tokens.pop(0)
        return function(*(self.atom() for _ in range(count)))

    def called(self, name):
        """How many arguments a name has, and what it is with them."""
        if name in self.of_file:
            words, text = self.of_file[name]
            return len(words), lambda *its: Expression(text, self.of_file,
                                                       dict(zip(words, its))).value()
        return (0, None) if name in self.local else KNOWN.get(name, (0, None))

    def atom(self):
        token = self.tokens.pop(0)
        if token == "(":
            found = [self.value()]
            while self.takes(","):
                found.append(self.value())
            self.tokens.pop(0)
            found = found[0] if len(found) == 1 else tuple(found)
        elif token == "record":
            found = self.record()
        elif token == "[":
            found = self.tokens.pop(0) and []
        elif token[0] == '"':
            return re.sub(r"\\(.)", r"\1", token[1:-1])
        elif token.isdigit():
            return int(token)
        elif token in self.local:
            return self.local[token]
        elif token in self.of_file or token in KNOWN:
            return self.called(token)[1]()
        else:
            return token
        if self.tokens and self.tokens[0][0] == ".":
            found = found[self.tokens.pop(0)[1:]]
        return found

    def record(self):
        found = {} if self.tokens[0] == "{" else dict(self.atom())
        self.tokens.pop(0)
        while not self.takes("}"):
            name = self.tokens.pop(0)
            assert self.takes("="), name
            found[name] = self.value()
            self.takes(";")
        return found


def definitions(text):
    """Of each name that a file defines its arguments and its text; and its rows."""
    parts = re.split(r"(?m)^(?=\S)", re.sub(r"(?m)^--.*\n", "", text))
    found, rows = {}, []
    for part in parts:
        head = LINE.match(part)
        if head and " ≡ " in part.replace("\n", " "):
            rows.append((head[1], re.split(r"\s+≡\s+", part[head.end():])))
        elif head and not part[head.end() - 2] == ":" and "refl" not in part:
            found[head[1]] = (head[2].split(), part[head.end():])
    return found, rows


def main(paths):
    count = bad = 0
    known = {}
    for path in paths or FILES:
        with open(path, encoding="utf-8") as file:
            found, rows = definitions(file.read())
        known.update(found)
        for name, (got, want) in rows:
            count += 1
            got, want = (Expression(text, known, {}).value() for text in (got, want))
            if got != want:
                bad += 1
                print("%s\n want %r\n got  %r" % (name, want, got))
    print("worked rows: %d, %d differ" % (count, bad))
    return 1 if bad or not count else 0


if __name__ == "__main__":
    sys.exit(main(sys.argv[1:]))
