#!/usr/bin/env python3
"""jumps.py PROGRAM DUMP COMMAND...  runs `PROGRAM COMMAND...` on a dump under valgrind. For
the function that takes most instructions, it prints how many executed jumps cross or end at a
multiple of 32 bytes, at the function's present address and 16 bytes further.

Some processors decode such a jump anew each time: those that Intel made from 2015 to 2019, with the
microcode that fixes their erratum of conditional jumps. A loop may therefore take 20 % more time
than the same instructions at another address, and any change to the source moves all loops after
it by a multiple of 16 bytes. To compare two designs, compare instructions and these counts before
times. The script needs valgrind and objdump. It takes minutes for 200 MB, but a tenth of that
shows as much."""
import collections
import os
import re
import subprocess
import sys
import tempfile

BLOCK = 32  # bytes: what the processor keeps decoded as one
# What is fused with the jump after it.
TESTS = re.compile(r"(cmp|test|and|add|sub|inc|dec)[bwlq]?\b")


def counts_of(program, dump, words):
    """How often the instruction at each address was executed."""
    with tempfile.TemporaryDirectory() as folder, open(dump, "rb") as body:
        out = os.path.join(folder, "counts")
        subprocess.run(
            ["valgrind", "--tool=callgrind", "--dump-instr=yes", "--callgrind-out-file=" + out,
             program, *words],
            stdin=body, stdout=subprocess.DEVNULL, stderr=subprocess.DEVNULL, check=True)
        lines = open(out).read().splitlines()
    counts, address, of_call = collections.Counter(), 0, False
    for line in lines:
        if line.startswith("calls="):
            of_call = True  # the next line counts what is called, again
            continue
        cost = re.match(r"(0x[0-9a-f]+|[+-]\d+|\*) \S+ (\d+)$", line)
        if not cost:
            continue
        place = cost.group(1)
        if place.startswith("0x"):
            address = int(place, 16)
        elif place != "*":
            address += int(place)
        if not of_call:
            counts[address] += int(cost.group(2))
        of_call = False
    return counts


def functions_of(program):
    """The instructions of each function: address and text."""
    functions, name = collections.defaultdict(list), ""
    dumped = subprocess.run(["objdump", "-d", "--no-show-raw-insn", program], capture_output=True,
                            text=True, check=True)
    for line in dumped.stdout.splitlines():
        instruction = re.match(r"\s*([0-9a-f]+):\s+(\S.*)", line)
        if instruction:
            functions[name].append((int(instruction.group(1), 16), instruction.group(2)))
        elif line.endswith(">:"):
            name = line.split("<", 1)[1][:-2]
    return functions


def hits(instructions, counts, moved):
    """How often a jump was executed that crosses or ends at a boundary, with the test that it is
    fused with."""
    total = 0
    for place in range(1, len(instructions) - 1):
        start, text = instructions[place]
        end = instructions[place + 1][0]
        if not re.match(r"j|call|ret", text):
            continue
        executed = counts[start]
        if not re.match(r"jmp|call|ret", text) and TESTS.match(instructions[place - 1][1]):
            start = instructions[place - 1][0]
        if (start + moved) // BLOCK != (end + moved) // BLOCK:
            total += executed
    return total


def main():
    program, dump, words = sys.argv[1], sys.argv[2], sys.argv[3:]
    counts, functions = counts_of(program, dump, words), functions_of(program)
    taken = {name: sum(counts[address] for address, _ in function)
             for name, function in functions.items()}
    if sum(taken.values()) * 2 < sum(counts.values()):
        sys.exit("jumps.py: the program does not stand where it is linked to")
    name = max(taken, key=taken.get)
    here, further = (hits(functions[name], counts, moved) for moved in (0, 16))
    print(f"{taken[name] / 1e6:.0f} M of {sum(counts.values()) / 1e6:.0f} M instructions in {name}")
    print(f"jumps at a boundary: {here / 1e6:.1f} M; 16 bytes further: {further / 1e6:.1f} M")


if len(sys.argv) < 4:
    sys.exit(__doc__)
main()
