#!/usr/bin/env python3
"""families.py [FAMILY...]   prints how many instructions commands take for each byte of unusual
bodies, as multiples of what they take for each byte of scalars, and how many `check` takes for each
line.

valgrind counts, so other work on the machine does not change the figures. Each body has 2.5 MB. A
second run reads only half of it, and a figure is the difference between the two runs for each byte
that only the first one reads. VCDKIT names the program; by default it is the vcdkit in the
directory above. The script takes a minute or two."""
import os
import sys
import tempfile

from figures import instructions, write

HEAD = b"""$var wire 1 ! a $end $var wire 1 " b $end $var reg 8 # c $end $var reg 33 $ d $end
$var real 64 % e $end $enddefinitions $end
"""
SIZE = 2_500_000
LAST = str(2**64 - 1)
SCALARS = "scalars"
# The lines of a family, over and over. {t} is a time that increases.
FAMILIES = {
    SCALARS: ["0!", "1!", '0"', '1"'],
    "scalars with CR LF": ["0!\r", "1!\r", '0"\r', '1"\r'],
    "timestamps": ["#{t}"],
    "comments": ["$comment $end"],
    "a change and a comment in turn": ["1!", "$comment $end", "0!", "$comment $end"],
    "section keywords": ["$dumpon", "$end"],
    "sections with a change": ["$dumpon 0! $end", "$dumpoff x! $end"],
    "sections with a change and a time": ["#{t}", "$dumpon 0! $end"],
    "z and a number in turn": ["bz #", "b1010 #"],
    "x at 33 bits": ["bx $"],
    "x and z in turn at 33 bits": ["bx $", "bz $"],
    "real numbers": ["r0 %", "r1 %"],
    "x among digits": ["bxxxx #", "b1xz0 #"],
}
COMMANDS = {
    "check": lambda program, dump: [program, "check", dump],
    "edges": lambda program, dump: [program, "edges", "-i", dump],
    "cut inside": lambda program, dump: [program, "cut", dump],
    "cut before": lambda program, dump: [program, "cut", "--from", LAST, dump],
    "merge": lambda program, dump: [program, "merge", dump, dump],
}


def lines_of(family):
    """Returns the lines of a body of this family."""
    lines, text, time, size = FAMILIES[family], [], 0, 0
    while size < SIZE:
        line = lines[len(text) % len(lines)].format(t=time).encode() + b"\n"
        time += 1
        size += len(line)
        text.append(line)
    return text


def figures_of(program, family, folder):
    """Returns the instructions of each command for each byte, and those of check for each line."""
    lines = lines_of(family)
    half = len(lines) // 2 // 4 * 4
    more = lines[half:]
    dumps = [write(os.path.join(folder, name), HEAD + b"#0\n" * (family != "timestamps") + text)
             for name, text in (("half", b"".join(lines[:half])), ("whole", b"".join(lines)))]
    added = {}
    for name, words in COMMANDS.items():
        counts = [instructions(words(program, dump)) for dump in dumps]
        added[name] = (counts[1] - counts[0]) / (2 if name == "merge" else 1)
    return {name: count / len(b"".join(more)) for name, count in added.items()}, \
        added["check"] / len(more)


def main(families):
    if any(family not in FAMILIES for family in families):
        print(__doc__, "\nFAMILY is one of: %s" % ", ".join(FAMILIES), sep="\n")
        return 0 if families[0] in ("-h", "--help") else 2
    program = os.environ.get("VCDKIT") or os.path.join(os.path.dirname(__file__), "..", "vcdkit")
    with tempfile.TemporaryDirectory() as folder:
        program = os.path.abspath(program)
        base, _ = figures_of(program, SCALARS, folder)
        print("| body | %s | check of a line |\n|---|%s" % (" | ".join(COMMANDS),
                                                        "---|" * (len(COMMANDS) + 1)))
        for family in families or FAMILIES:
            each, line = figures_of(program, family, folder)
            cells = ["%.1f" % (each[name] / base[name]) for name in COMMANDS]
            print("| %s | %s | %.0f |" % (family, " | ".join(cells), line), flush=True)
    return 0


if __name__ == "__main__":
    sys.exit(main(sys.argv[1:]))
