#!/usr/bin/env python3
"""code_families.py FAMILY CODES CHANGES  writes a dump with CODES codes of a family to standard
output, and then CHANGES changes of each, in scattered order, the same each time. Families:

    ordinary    numbered in base 94, as simulators do
    close       crafted: their hashes fall close together where `indexmap` hashes without a seed
    shared      crafted: their numbers lead to the same few entries of a look-up
    digits8     eight digits
    hex16       sixteen hexadecimal digits
    random12    twelve bytes at random
    prefix200   two hundred bytes that are the same, and then a number in base 94
"""
import random
import sys

sys.dont_write_bytecode = True
from crafted_codes import codes as crafted

MOST_CHANGES = 1000


def in_base_94(number):
    text = ''
    while True:
        text += chr(33 + number % 94)
        number //= 94
        if number == 0:
            return text


def sharing(number):
    """The code whose number, read back with digits from 1 to 94, is a multiple of 2^22."""
    left, text = (number + 1) << 22, ''
    while left:
        digit = left % 94 or 94
        text += chr(32 + digit)
        left = (left - digit) // 94
    return text


def family(name, count):
    draw = random.Random(1)
    one = {
        'ordinary': in_base_94,
        'shared': sharing,
        'digits8': '{:08}'.format,
        'hex16': '{:016x}'.format,
        'random12': lambda number: ''.join(chr(33 + draw.randrange(94)) for _ in range(12)),
        'prefix200': lambda number: 'p' * 200 + in_base_94(number + 94**4),
    }
    if name == 'close':
        return list(crafted(count, True))
    return [one[name](number) for number in range(count)]


def main():
    if (len(sys.argv) != 4 or not (sys.argv[2] + sys.argv[3]).isdigit()
            or int(sys.argv[3]) > MOST_CHANGES):
        sys.exit(__doc__)
    all_codes = family(sys.argv[1], int(sys.argv[2]))
    write = sys.stdout.write
    write('$scope module top $end\n')
    for number, code in enumerate(all_codes):
        write(f'$var wire 1 {code} v{number} $end\n')
    write('$upscope $end\n$enddefinitions $end\n')
    for turn in range(int(sys.argv[3])):
        write(f'#{turn}\n')
        for step in range(len(all_codes)):
            write(f'{turn % 2}{all_codes[step * 2654435761 % len(all_codes)]}\n')


if __name__ == '__main__':
    main()
