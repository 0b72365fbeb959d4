"""Compare chip distances given by the calls for C with the outside program's.

Draws bases, numbers of chips, amplitudes and gains, taken and refused, hands
them to the program made of base_distances.c, and compares what it prints with
what distances.py gives.  The numbers come from a fixed generator and are the
same for the same seed.
"""

import argparse
import collections
import os
import pathlib
import subprocess
import sys

# Leave no compiled copies behind in the repository.
sys.dont_write_bytecode = True

sys.path.insert(0, str(pathlib.Path(__file__).resolve().parent / "outside"))

import distances

from draws import Generator, draw_base, halves_alike, pick

# Numbers that are drawn often: at the limits and beyond them.
AMPLITUDES = (0, 1, 2, 10, 127, 128, 256 + 10, 2 ** 32 - 1)
GAINS = (0, 1, 2, 20, 40, 255, 256, 257, 2 ** 32 - 1)
CHIPS = (0, 1, 2, 3, 62, 63, 64, 65, 256, 2 ** 32 - 1)


# --- Inputs ------------------------------------------------------------------

def any_base(generator):
    """A base: any, one with one chip set, one next to a refused one, or a
    refused one."""
    kind = generator.draw() % 8
    base = draw_base(generator)
    if kind == 0:
        return halves_alike(base)
    if kind in (1, 2):
        return halves_alike(base) ^ 1 << generator.draw() % 64
    if kind == 3:
        return 1 << generator.draw() % 64
    return base


def draw_input(generator):
    """Base, d, amplitude, top and bottom."""
    gain = [pick(generator, GAINS) if generator.draw() % 6 == 0
            else generator.draw() % 255 + 1 for _ in range(2)]
    amplitude = pick(generator, AMPLITUDES)
    if generator.draw() % 2 == 0:
        amplitude = generator.draw() % 127 + 1
    chips = pick(generator, CHIPS)
    if generator.draw() % 2 == 0:
        chips = generator.draw() % 40
    return [any_base(generator), chips, amplitude] + gain


# --- What is printed ---------------------------------------------------------

def answer(what, number, value):
    """The line of one answer."""
    if number != 0:
        return "%s refused %d" % (what, number)
    return "%s %d" % (what, value)


def expected(base, d, amplitude, top, bottom):
    """The lines of one input."""
    lines = [answer("least", *distances.least_distance(base))]
    number, count, left = distances.shifts_within(base, d, 63)
    lines.append(answer("within", number, count))
    for s in (left or [])[:count]:
        lines.append("%d %d" % (s, distances.shift_distance(base, s)[1]))
    lines.append(answer("premise", *distances.premise_holds(
        base, amplitude, top, bottom)))
    return lines


def blocks(printed):
    """The printed lines of each input: an input's last line is that of the
    premise."""
    block = []
    for line in printed.splitlines():
        block.append(line)
        if line.startswith("premise"):
            yield block
            block = []


def compare(seed, count, program):
    """Compare all inputs; how many agree, by the last line expected."""
    generator = Generator(seed)
    inputs = [draw_input(generator) for _ in range(count)]
    text = "".join(" ".join(map(str, numbers)) + "\n" for numbers in inputs)
    ended = subprocess.run([program], input=text.encode(), check=True,
                           stdout=subprocess.PIPE, timeout=60)
    printed = list(blocks(ended.stdout.decode()))
    agreed = collections.Counter()
    for i, numbers in enumerate(inputs):
        lines = expected(*numbers)
        if printed[i:i + 1] == [lines]:
            agreed[lines[-1]] += 1
        else:
            print("seed %d, input %d differs" % (seed, i))
    return agreed


def main():
    """Compare, and print how many inputs agree; 0 if all do, else 1."""
    parser = argparse.ArgumentParser(description=__doc__.split("\n")[0])
    parser.add_argument("--seed", type=int, default=127)
    parser.add_argument("--inputs", type=int, default=400)
    parser.add_argument("--program", default="target/base_distances")
    given = parser.parse_args()
    program = os.path.abspath(given.program)
    if not os.path.isfile(program):
        parser.error("there is no program %s" % program)
    agreed = compare(given.seed, given.inputs, program)
    print("agreed: " + ", ".join(
        "%d of %s" % (agreed[line], line) for line in sorted(agreed)))
    print("%d of %d agree" % (sum(agreed.values()), given.inputs))
    return 0 if sum(agreed.values()) == given.inputs else 1


if __name__ == "__main__":
    sys.exit(main())
