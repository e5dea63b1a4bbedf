#!/usr/bin/env python3
"""header_dump.py VARIABLES KIND  writes a header of VARIABLES variables and no body to standard
output, the same each time. KIND: ordered (codes in order of declaration), shuffled (the same codes
in any order) or nested (ordered, in 1000 scopes, each inside the one before)."""
import random
import sys

TYPES = ["wire 1", "reg 1", "wire 8", "reg 4", "wire 32", "integer 32", "real 64", "event 1",
         "wire 1", "reg 128"]
A_SCOPE = 100  # the variables in a scope that is not nested
DEEP = 1000


def code_of(number):
    """The digits in base 94, lowest first, from `!` on, as simulators give them."""
    code = ""
    while True:
        number, digit = divmod(number, 94)
        code += chr(33 + digit)
        if number == 0:
            return code


def declaration(number, code):
    type_and_size = TYPES[number % len(TYPES)]
    size = int(type_and_size.split()[1])
    range_of = f" [{size - 1}:0]" if size > 1 and not type_and_size.startswith("real") else ""
    return f"$var {type_and_size} {code} signal_{number}{range_of} $end\n"


def flat(codes, write):
    write("$scope module top $end\n")
    for start in range(0, len(codes), A_SCOPE):
        write(f"$scope module unit_{start // A_SCOPE} $end\n")
        for number in range(start, min(start + A_SCOPE, len(codes))):
            write(declaration(number, codes[number]))
        write("$upscope $end\n")
    write("$upscope $end\n")


def nested(codes, write):
    for depth in range(DEEP):
        write("$scope module u $end\n")
        for number in range(len(codes) * depth // DEEP, len(codes) * (depth + 1) // DEEP):
            write(declaration(number, codes[number]))
    write("$upscope $end\n" * DEEP)


def main():
    kinds = {"ordered": flat, "shuffled": flat, "nested": nested}
    if len(sys.argv) != 3 or not sys.argv[1].isdigit() or sys.argv[2] not in kinds:
        sys.exit(__doc__)
    codes = [code_of(number) for number in range(int(sys.argv[1]))]
    if sys.argv[2] == "shuffled":
        random.Random(1).shuffle(codes)
    sys.stdout.write("$date\n\ttoday\n$end\n$version\n\theader_dump.py\n$end\n"
                     "$timescale\n\t1ns\n$end\n")
    kinds[sys.argv[2]](codes, sys.stdout.write)
    sys.stdout.write("$enddefinitions $end\n")


if __name__ == "__main__":
    main()
