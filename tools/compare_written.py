"""Compare files written with the calls for C with those of the outside program,
and run the program on them.

Draws codes and frames, valid and damaged, hands their numbers to the program
made of write_files.c, and compares what it prints and the two files that it
writes with what writing.py gives.  The program is then run on the files
written, and what it prints is compared with reading.run.  The numbers come from
a fixed generator and are the same for the same seed.
"""

import argparse
import collections
import os
import pathlib
import subprocess
import sys
import tempfile

# Leave no compiled copies behind in the repository.
sys.dont_write_bytecode = True

sys.path.insert(0, str(pathlib.Path(__file__).resolve().parent / "outside"))

import reading
import writing

from compare_program import draw_layers, pick, run_program
from draws import Generator, draw_frame, draw_map, draw_word
from program_cases import FRAME_LINE, draw_coefs

# The numbers that the writers can give here; 0 is two files.
NUMBERS = (0, 1, 4, 5, 6, 8, 9)

# Numbers that are refused: for the map, for the coefficients, for penalties.
MAP_BYTES = (2, 3, 64, 255)
COEFFICIENTS = (0, 64, 65, 255)
PENALTIES = (32, 33, 255, 256, 9999, 65535)


# --- Numbers -----------------------------------------------------------------

def draw_numbers(generator, i):
    """n, map, coefficients and penalties of pair i, all of them taken."""
    n = draw_layers(generator, i)
    map = draw_map(generator, 2 ** n)
    coefs = draw_coefs(generator, n)
    word = draw_word(generator, n, map, coefs)
    return [n, map, coefs, draw_frame(generator, 31, word)]


def other_layers(generator, numbers):
    """An n that is out of range, and nothing after it."""
    numbers[:] = [pick(generator, (0, 9, 10, 257)), [], [], []]


def other_map_byte(generator, numbers):
    """A map byte out of range."""
    numbers[1][generator.draw() % len(numbers[1])] = pick(generator, MAP_BYTES)


def all_frozen(generator, numbers):
    """Each place frozen."""
    numbers[1] = [1] * len(numbers[1])


def other_coefficient(generator, numbers):
    """A coefficient out of range."""
    at = generator.draw() % len(numbers[2])
    numbers[2][at] = pick(generator, COEFFICIENTS)


def other_penalty(generator, numbers):
    """A penalty out of range."""
    numbers[3][generator.draw() % len(numbers[3])] = pick(generator, PENALTIES)


def no_zero(generator, numbers):
    """A place without a penalty 0."""
    place = generator.draw() % len(numbers[1])
    numbers[3][64 * place:64 * place + 64] = [1 + generator.draw() % 31
                                              for _ in range(64)]


# The damages of a pair, a row for each drawn number.
EXTENTS = ((), (), (), (), (other_layers,), (other_map_byte,), (all_frozen,),
           (other_coefficient,), (other_penalty,), (no_zero,),
           (all_frozen, other_coefficient), (other_penalty, no_zero),
           (other_coefficient, other_penalty), (other_map_byte, all_frozen))


# --- What is expected --------------------------------------------------------

def expected_files(n, map, coefs, frame):
    """The number by which the files are refused, and the two files: the sheet
    is tried first, then the places in rising order."""
    length = 5 * (1 + len(map) + len(coefs))
    number, sheet = writing.write_sheet(n, map, coefs, length)
    if sheet is None:
        return number, None, None
    lines = b""
    for at in range(0, len(frame), 64):
        number, line = writing.write_frame_line(frame[at:at + 64], FRAME_LINE)
        if line is None:
            return number, None, None
        lines = lines + line
    return 0, sheet, lines


# --- Runs --------------------------------------------------------------------

def stored(path):
    """The bytes of a file, None if there is none."""
    return path.read_bytes() if path.exists() else None


def run_writer(writer, n, map, coefs, frame):
    """What the writer prints for these numbers, and the two files."""
    text = " ".join(str(number) for number in [n] + map + coefs + frame)
    with tempfile.TemporaryDirectory() as name:
        ended = subprocess.run([writer], cwd=name, input=text.encode(),
                               capture_output=True, timeout=60)
        folder = pathlib.Path(name)
        return (ended.stdout, ended.stderr, stored(folder / "code.txt"),
                stored(folder / "frame.txt"))


def agrees(writer, program, numbers):
    """The number expected, and whether all is as expected."""
    number, sheet, lines = expected_files(*numbers)
    printed = b"" if number == 0 else b"%d\n" % number
    if run_writer(writer, *numbers) != (printed, b"", sheet, lines):
        return number, False
    if number != 0:
        return number, True
    found = run_program(program, sheet, lines)
    return number, found == (0, reading.run(sheet, lines), b"")


def compare(seed, pairs, writer, program):
    """Compare all pairs; how many agree, by the number expected."""
    generator = Generator(seed)
    agreed = collections.Counter()
    for i in range(pairs):
        numbers = draw_numbers(generator, i)
        for damage in pick(generator, EXTENTS):
            damage(generator, numbers)
        number, same = agrees(writer, program, numbers)
        if same:
            agreed[number] += 1
        else:
            print("seed %d, pair %d differs" % (seed, i))
    return agreed


def main():
    """Compare, and print how many pairs agree; 0 if all do, else 1."""
    parser = argparse.ArgumentParser(description=__doc__.split("\n")[0])
    parser.add_argument("--seed", type=int, default=101)
    parser.add_argument("--pairs", type=int, default=400)
    parser.add_argument("--writer", default="target/write_files")
    parser.add_argument("--program", default="crates/decode/out/decode")
    given = parser.parse_args()
    writer, program = os.path.abspath(given.writer), os.path.abspath(
        given.program)
    for path in (writer, program):
        if not os.path.isfile(path):
            parser.error("there is no program %s" % path)
    agreed = compare(given.seed, given.pairs, writer, program)
    print("agreed: " + ", ".join(
        "%d of number %d" % (agreed[number], number) for number in NUMBERS))
    print("%d of %d agree" % (sum(agreed.values()), given.pairs))
    return 0 if sum(agreed.values()) == given.pairs else 1


if __name__ == "__main__":
    sys.exit(main())
