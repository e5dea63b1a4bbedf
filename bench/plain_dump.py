#!/usr/bin/env python3
"""plain_dump.py MB [VARIABLES]  writes a plain dump of MB megabytes (of 1,000,000 bytes) to
standard output, the same each time: VARIABLES variables of one bit (64) in a scope, and in steps
of 5 a timestamp with 16 changes after it."""
import random
import sys

NEAR = 64  # the changes after a timestamp are of variables among this many in a row
LISTS = 1 << 16  # the lists of changes that are made, and then used again and again


def code_of(place):
    """The code in base 94, lowest digit first."""
    code = chr(33 + place % 94)
    return code if place < 94 else code + code_of(place // 94)


def changes(dice, codes):
    """Changes of 16 of the variables."""
    bits = dice.getrandbits(16)
    codes = sorted(codes, key=lambda _: dice.random())[:16]
    return "".join(f"{bits >> place & 1}{code}\n" for place, code in enumerate(codes)).encode()


def main():
    if len(sys.argv) not in (2, 3) or not all(word.isdigit() for word in sys.argv[1:]):
        sys.exit(__doc__)
    size, variables = (int(word) for word in (sys.argv[1:] + [str(NEAR)])[:2])
    if variables < NEAR:
        sys.exit(f"plain_dump.py: at least {NEAR} variables")
    codes = [code_of(place) for place in range(variables)]
    around = codes + codes[:NEAR]
    dice = random.Random(1)
    lists = [changes(dice, around[first : first + NEAR])
             for first in (NEAR * place % variables for place in range(LISTS))]
    declared = "".join(f"$var wire 1 {code} s{place} $end\n" for place, code in enumerate(codes))
    out = sys.stdout.buffer
    head = (f"$timescale\n\t1ns\n$end\n$scope module top $end\n{declared}$upscope $end\n"
            "$enddefinitions $end\n")
    written = out.write(head.encode())
    mark = 0
    while written < size * 1_000_000:
        written += out.write(b"#%d\n" % (5 * mark)) + out.write(lists[mark % LISTS])
        mark += 1


if __name__ == "__main__":
    main()
