#!/usr/bin/env python3
"""crafted_codes.py CODES  writes a header of CODES codes of five bytes to standard output, and two
changes of each, the same each time. In the hash that `indexmap` has without a seed they fall
close together, so a map by that hash takes a time that grows with their square. With a second word
they are ordinary codes instead."""
import sys

MULTIPLIER = 0x9E3779B97F4A7C15
START = 0x243F6A8885A308D3
MASK = (1 << 64) - 1


def fold(a, b):
    product = a * b
    return (product ^ (product >> 64)) & MASK


def hash_of(code):
    state = fold(START ^ 5, MULTIPLIER ^ 16)
    for byte in code:
        state = fold(state ^ (byte | byte << 8 | byte << 16), MULTIPLIER ^ 2)
    return (state ^ (state >> 32)) & 0xFFFFFFFF


def codes(count, crafted):
    groups = 1
    while 9 * groups < count:
        groups *= 2
    number = 0
    while count:
        code = bytes(33 + number // 94**place % 94 for place in range(5))
        number += 1
        if not crafted or hash_of(code) & (groups - 1) < (groups + 63) // 64:
            count -= 1
            yield code.decode()


def main():
    if len(sys.argv) not in (2, 3) or not sys.argv[1].isdigit():
        sys.exit(__doc__)
    all_codes = list(codes(int(sys.argv[1]), len(sys.argv) == 2))
    write = sys.stdout.write
    write("$scope module top $end\n")
    for place, code in enumerate(all_codes):
        write(f"$var wire 1 {code} v{place} $end\n")
    write("$upscope $end\n$enddefinitions $end\n")
    for time in range(2):
        write(f"#{time}\n")
        for code in all_codes:
            write(f"{time}{code}\n")


if __name__ == "__main__":
    main()
