"""Reads dumps that may have a fault, and makes some. Which fault is the first, and in which line,
says the evaluator of the definitions of vcdkit (hostile/reference)."""
import os
import re
import sys
from typing import Any, List

from dumps import Dump

TOP = os.path.dirname(os.path.dirname(os.path.dirname(os.path.dirname(os.path.abspath(__file__)))))
sys.path.append(os.path.join(TOP, "hostile"))
from reference import evaluator  # type: ignore[import]

FAULTS = ["q!", "#-5", "#0", "U!", "$foo", "b12 !", "$end", "#1.5", "1@@@", "bUU !", "b0 @@@",
          "sIDLE !", "#", "$dumpports", "1 !", "p0 0 !", "$enddefinitions $end", "$dumpvars",
          "$scope module a $end", "#99999999999999999999"]
NAMES = "|".join(evaluator.TEXTS.values())


def read(text: bytes) -> Dump:
    """Returns what a dump has, up to its fault."""
    tokens = evaluator.Tokens(text, 1 << 20)
    _, fault = evaluator.read_items(tokens, evaluator.read_head(tokens, 10**6).codes)
    if not fault:
        return Dump(text)
    name = evaluator.TEXTS[fault.number]
    word = re.search(rb"\S*\Z", text[:tokens.at])
    end = len(text) if name == "unexpected end of input" or not word else word.start()
    return Dump(before(text, end), "%d: %s" % (fault.line, name))


def body_place(text: bytes) -> int:
    """Returns where the body begins."""
    end = re.compile(rb"\$enddefinitions\s+\$end").search(text)
    assert end
    return end.end()


def before(text: bytes, end: int) -> bytes:
    """Returns what is before a place, as a dump: an open comment and a value without its code are
    left out, an open section is closed."""
    place = body_place(text)
    words, kept, at, is_open = text[place:end].split(), [], 0, False
    while at < len(words):
        word, at = words[at], at + 1
        if word == b"$comment":
            at = words.index(b"$end", at) + 1 if b"$end" in words[at:] else len(words)
        elif word[:1] not in b"bBrR":
            is_open = word != b"$end" if word[:1] == b"$" else is_open
            kept.append(word)
        elif at < len(words):
            kept.append(word + b" " + words[at])
            at += 1
    return text[:place] + b"\n" + b"\n".join(kept + [b"$end"] * is_open) + b"\n"


def with_fault(text: bytes, random: Any) -> bytes:
    """Returns a dump that is cut off, or has a line that most often is a fault."""
    place = body_place(text)
    lines = text[place:].split(b"\n") + [b""] * (b"\n" not in text[place:])  # all in one line
    at = random.randrange(1, len(lines))
    inside = [place for place in range(1, len(lines)) if is_open_before(lines, place)]
    if inside and random.random() < .3:
        at = random.choice(inside)
    if random.random() < .4:
        lines = lines[:at] + [lines[at][:random.randrange(len(lines[at]) + 1)]]
    else:
        lines.insert(at, random.choice(FAULTS).encode())
    return text[:place] + b"\n".join(lines)


def is_open_before(lines: List[bytes], place: int) -> bool:
    """Whether a section of a body is open before one of its lines."""
    words = [word for line in lines[:place] for word in line.split()]
    opened = [at for at, word in enumerate(words) if word.startswith(b"$dump")]
    return bool(opened) and b"$end" not in words[opened[-1]:]
