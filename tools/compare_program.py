"""Compare the built program with the outside program on pseudo-random files.

Draws pairs of a sheet and a frame, valid and damaged, runs the program on each
in a temporary folder, and compares what it prints with reading.run.  It must
also end with status 0 and write nothing to standard error.  The pairs come
from a fixed generator and are the same for the same seed.
"""

import argparse
import collections
import os
import pathlib
import subprocess
import sys
import tempfile

# Leave no compiled copies behind in the repository.
sys.dont_write_bytecode = True

sys.path.insert(0, str(pathlib.Path(__file__).resolve().parent / "outside"))

import reading

from draws import Generator
from program_cases import (
    FRAME_LINE,
    SHEET_LINE,
    draw_files,
    instead,
    without_zeros,
)

# The numbers that the outside program can give; 0 is a listing.
NUMBERS = (0, 1, 4, 5, 6, 8, 9, 12)

# How many seconds a run may take.
TIME_LIMIT = 60

# The length of a sheet for n = 8.
LONGEST_SHEET = 6405

# Bytes to put in: tab, carriage return, line feed, blank, minus, plus, the
# bytes before and after the digits, digits, NUL, a blank with bit 7, and 255.
BYTES = b"\t\r\n -+/:0123456789\x00\xa0\xff"

# Numbers for n, beside the n of the code plus 256; for the map; for the
# coefficients; and for penalties.
LAYERS = (0, 0, 9, 9, 10, 1000, 256, 257, 9999)
MAP_BYTES = (2, 3, 10, 63, 64, 255, 256, 257, 9999)
COEFFICIENTS = (0, 0, 64, 64, 65, 255, 256, 257, 320, 9999)
PENALTIES = (31, 32, 33, 63, 64, 255, 256, 257, 287, 1000, 9999)


# --- Where a damage is done --------------------------------------------------

def pick(generator, choices):
    """One of the choices."""
    return choices[generator.draw() % len(choices)]


def line_starts(data, width):
    """Where lines of that width start; one start if there is no whole line."""
    return range(0, max(len(data) - width + 1, 1), width)


def draw_line(generator, data, width):
    """Where a line starts: any, and often the first or the last one."""
    starts = line_starts(data, width)
    mode = generator.draw() % 4
    any_start = pick(generator, starts)
    return {0: starts[0], 1: starts[-1]}.get(mode, any_start)


def draw_field(generator, data, width):
    """Where a field starts: any of a line, and often its first or last one."""
    line = draw_line(generator, data, width)
    mode = generator.draw() % 4
    any_field = pick(generator, range(0, width - 1, 4))
    return line + {0: 0, 1: width - 5}.get(mode, any_field)


def draw_index(generator, data, width):
    """Where a byte is: in any field, the last byte of a line, or anywhere."""
    mode = generator.draw() % 4
    if mode == 0:
        return draw_line(generator, data, width) + width - 1
    if mode == 1:
        return generator.draw() % (len(data) + 1)
    return draw_field(generator, data, width) + generator.draw() % 4


# --- Fields that break the form ----------------------------------------------

def around(before, after):
    """A change to a field: other bytes stand before its number, or after it."""
    def change(field):
        """The number with these bytes, as many of them as there is room for."""
        number = field.strip(b" ")
        room = max(4 - len(number), 0)
        return (before[:room] + number + after[:room]).rjust(4)
    return change


# The changes to a field: a leading zero, and more of them; a tab or a NUL for a
# blank; a sign; a number that is not right-justified; no number; a blank
# between digits; the bytes before and after the digits; a digit with bit 7.
BREAKS = (
    around(b"0", b""),
    around(b"000", b""),
    around(b"\t", b""),
    around(b"\t\t\t", b""),
    around(b"\x00", b""),
    around(b"\x00\x00\x00", b""),
    around(b"+", b""),
    around(b"-", b""),
    around(b"", b" "),
    around(b"", b"   "),
    around(b"", b"\r"),
    around(b"", b"\x00"),
    instead(b"    "),
    instead(b" 1 1"),
    instead(b"   /"),
    instead(b"   :"),
    instead(b"   \xb1"),
)


def break_at(data, at, change):
    """The data with a change to the field that starts there."""
    return reading.with_bytes(data, at, change(data[at:at + 4]))


# --- Damages to the form of either file --------------------------------------

def replace_byte(generator, data, width):
    """Put another byte in place of one."""
    at = draw_index(generator, data, width)
    return reading.with_bytes(data, at, bytes([pick(generator, BYTES)]))


def remove_byte(generator, data, width):
    """Take a byte away."""
    at = draw_index(generator, data, width)
    return data[:at] + data[at + 1:]


def insert_byte(generator, data, width):
    """Put a byte in between."""
    at = draw_index(generator, data, width)
    return data[:at] + bytes([pick(generator, BYTES)]) + data[at:]


def break_field(generator, data, width):
    """Make a field one that breaks the form."""
    at = draw_field(generator, data, width)
    return break_at(data, at, pick(generator, BREAKS))


def drop_line(generator, data, width):
    """Take a line away."""
    at = draw_line(generator, data, width)
    return data[:at] + data[at + width:]


def double_line(generator, data, width):
    """Put a line in twice."""
    at = draw_line(generator, data, width)
    return data[:at + width] + data[at:]


def return_line_ends(generator, data, width):
    """Put a carriage return before the line feed of one line or of each."""
    if generator.draw() % 2 == 0:
        return data.replace(b"\n", b"\r\n")
    at = draw_line(generator, data, width) + width - 1
    return data[:at] + b"\r" + data[at:]


def other_line_end(generator, data, width):
    """Put another byte in place of the line feed of a line."""
    at = draw_line(generator, data, width) + width - 1
    return reading.with_bytes(data, at, bytes([pick(generator, b"\r\r 0\x00")]))


def cut_anywhere(generator, data, width):
    """Take an end away: any, the last byte, or the last line."""
    mode = generator.draw() % 3
    any_length = generator.draw() % (len(data) + 1)
    return data[:{0: max(len(data) - 1, 0),
                  1: max(len(data) - width, 0)}.get(mode, any_length)]


def add_byte(generator, data, width):
    """Add a byte at the end."""
    return data + bytes([pick(generator, b"\n\n 0\r\x00")])


# --- Damages to the numbers of a sheet or a frame ----------------------------

def put_number(data, at, number):
    """The data with a number in the field that starts there."""
    return reading.with_bytes(data, at, reading.four_columns(number))


def sheet_layers(data):
    """The n in the first line of a sheet, or 1 if it has none from 1 to 8."""
    n = reading.line_number(data[:SHEET_LINE])
    return n if n in range(1, 9) else 1


def other_layers(generator, data, width):
    """Another n: out of range, or one more or less."""
    n = sheet_layers(data)
    return put_number(
        data, 0, pick(generator, LAYERS + (256 + n, 256 + n, n - 1, n + 1)))


def long_sheet(generator, data, width):
    """Another n, mostly out of range, and more lines than any sheet has."""
    data = other_layers(generator, data, width)
    return data + b"   1\n" * (LONGEST_SHEET // SHEET_LINE)


def short_sheet(generator, data, width):
    """Another n, mostly out of range, and little or nothing after it."""
    data = other_layers(generator, data, width)
    return data[:pick(generator, (3, 4, 4, 5, 6))]


def other_map_byte(generator, data, width):
    """A number out of range in the map."""
    place = generator.draw() % 2 ** sheet_layers(data)
    return put_number(data, width * (1 + place), pick(generator, MAP_BYTES))


def all_frozen(generator, data, width):
    """Each place frozen."""
    N = 2 ** sheet_layers(data)
    return reading.with_bytes(data, width, b"   1\n" * N)


def other_coefficient(generator, data, width):
    """A number out of range among the coefficients."""
    n = sheet_layers(data)
    number = generator.draw() % (n * 2 ** n // 2)
    return put_number(data, width * (1 + 2 ** n + number),
                      pick(generator, COEFFICIENTS))


def other_penalty(generator, data, width):
    """A penalty at or above the limit."""
    return put_number(data, draw_field(generator, data, width),
                      pick(generator, PENALTIES))


def no_zero(generator, data, width):
    """No penalty 0 in a line; now and then its last one is 256 or 9999."""
    if len(data) == 0:
        return data
    at = draw_line(generator, data, width)
    data = without_zeros(at // width)(data)
    if generator.draw() % 4 == 0:
        data = put_number(data, at + width - 5, pick(generator, (256, 9999)))
    return data


# --- Pairs of files ----------------------------------------------------------

FORM = (replace_byte, replace_byte, remove_byte, insert_byte, break_field,
        break_field, drop_line, double_line, return_line_ends, other_line_end,
        other_line_end, cut_anywhere, cut_anywhere, add_byte, add_byte)
SHEET_NUMBERS = (other_layers, other_map_byte, other_map_byte, other_map_byte,
                 all_frozen, all_frozen, all_frozen, other_coefficient,
                 other_coefficient, other_coefficient, long_sheet, short_sheet)
FRAME_NUMBERS = (other_penalty, other_penalty, no_zero, no_zero, no_zero)

# What is damaged, a row for each drawn number: how often the sheet, and how
# often the frame.
EXTENTS = ((0, 0), (0, 0), (0, 1), (0, 1), (0, 1), (0, 2), (0, 2),
           (1, 0), (1, 0), (2, 0), (2, 0), (1, 2))


def damage(generator, data, width, numbers, times):
    """The data damaged that many times, now and then missing, which is None, or
    empty.  The first of two damages is to a number."""
    for left in range(times, 0, -1):
        to_form = generator.draw() % 7 < 3 and left == 1
        damages = FORM if to_form else numbers
        data = pick(generator, damages)(generator, data, width)
    if times == 0:
        return data
    return {0: None, 1: b""}.get(generator.draw() % 29, data)


def break_one(generator, j, code, frame):
    """The pair with one field that breaks the form: for j = 0, 1 and so on each
    of them in the sheet's first line, in another line of it, in the frame."""
    change = BREAKS[j // 3 % len(BREAKS)]
    if j % 3 == 0:
        return break_at(code, 0, change), frame
    if j % 3 == 1:
        at = pick(generator, range(SHEET_LINE, len(code), SHEET_LINE))
        return break_at(code, at, change), frame
    at = draw_field(generator, frame, FRAME_LINE)
    return code, break_at(frame, at, change)


def draw_layers(generator, i):
    """The n of pair i: mostly 1 to 3, now and then 4 to 6, rarely 8."""
    mode = generator.draw() % 23
    drawn = generator.draw()
    if i % 200 == 100:
        return 8
    return 4 + drawn % 3 if mode == 0 else 1 + drawn % 3


def draw_pair(generator, i):
    """The bytes of the sheet and the frame of pair i, None for one that is
    missing.  Of those with n = 8 the first is not damaged; each fifth pair has
    one field that breaks the form and no other damage."""
    n = draw_layers(generator, i)
    code, frame = draw_files(generator, n)
    if i % 5 == 3:
        return break_one(generator, i // 5, code, frame)
    sheet_times, frame_times = pick(generator, EXTENTS)
    if n == 8:
        sheet_times, frame_times = ((0, 0), (0, 1), (1, 0))[i // 200 % 3]
    code = damage(generator, code, SHEET_LINE, SHEET_NUMBERS, sheet_times)
    frame = damage(generator, frame, FRAME_LINE, FRAME_NUMBERS, frame_times)
    return code, frame


# --- Runs --------------------------------------------------------------------

def write_pair(folder, code, frame):
    """Write the two files; one that is missing is not written."""
    for name, data in (("code.txt", code), ("frame.txt", frame)):
        if data is not None:
            (folder / name).write_bytes(data)


def run_program(program, code, frame):
    """The exit status, the standard output and the standard error of a run on
    the two files; the status is None if it did not end."""
    with tempfile.TemporaryDirectory() as name:
        write_pair(pathlib.Path(name), code, frame)
        try:
            ended = subprocess.run(
                [program], cwd=name, stdin=subprocess.DEVNULL,
                capture_output=True, timeout=TIME_LIMIT)
        except subprocess.TimeoutExpired:
            return None, b"", b""
        return ended.returncode, ended.stdout, ended.stderr


def show_disagreement(seed, i, code, frame, found):
    """Keep the files of a pair and say where they are and what was found."""
    folder = pathlib.Path(tempfile.mkdtemp(prefix="compare_program_"))
    write_pair(folder, code, frame)
    print("seed %d, pair %d: the files are in %s" % (seed, i, folder))
    print("expected: status 0, output %r, errors b''"
          % reading.run(code, frame)[:60])
    print("found: status %s, output %r, errors %r"
          % (found[0], found[1][:60], found[2][:60]))


def compare(seed, pairs, program):
    """Compare all pairs; how many agree, by the number expected."""
    generator = Generator(seed)
    agreed = collections.Counter()
    for i in range(pairs):
        code, frame = draw_pair(generator, i)
        found = run_program(program, code, frame)
        if found == (0, reading.run(code, frame), b""):
            agreed[reading.returned(code, frame)] += 1
        elif sum(agreed.values()) == i:
            # All pairs before this one agreed.
            show_disagreement(seed, i, code, frame, found)
    return agreed


def main():
    """Compare, and print how many pairs agree; 0 if all do, else 1."""
    parser = argparse.ArgumentParser(description=__doc__.split("\n")[0])
    parser.add_argument("--seed", type=int, default=73)
    parser.add_argument("--pairs", type=int, default=600)
    parser.add_argument("--program", default="crates/decode/out/decode")
    given = parser.parse_args()
    program = os.path.abspath(given.program)
    if not os.path.isfile(program):
        parser.error("there is no program %s" % given.program)
    agreed = compare(given.seed, given.pairs, program)
    print("agreed: " + ", ".join(
        "%d of number %d" % (agreed[number], number) for number in NUMBERS))
    print("%d of %d agree" % (sum(agreed.values()), given.pairs))
    return 0 if sum(agreed.values()) == given.pairs else 1


if __name__ == "__main__":
    sys.exit(main())
