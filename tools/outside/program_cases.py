"""The files that the program is run on, one pair of a sheet and a frame for
each way that it can end, and what it prints on them.

The program itself, decode, is run on the worked files.  The other pairs are in
the folder endings: for each its name, the names of its two files, either of
them absent where the case says so, and what reading.py says that the program
prints.  All files come from a fixed generator and are the same bytes in each
run.  Where only one of the two files is at fault, the other is one that is
taken.  The recorded calls write the files of each pair of which both are
taken; their records are in writing_cases.py.
"""

import chips
import reading

from draws import Generator, draw_base, draw_frame, draw_map, draw_word

SEED = 12

# Bytes of a line of a sheet and of a frame file.
SHEET_LINE = 5
FRAME_LINE = 257

# The noisy frame: the magnitude sent, the most that each of the four draws of a
# sample's noise adds or takes away, and the gain.
MAGNITUDE = 20
NOISE = 36
TOP = 1
BOTTOM = 30


# --- Files that are taken ----------------------------------------------------

def draw_coefs(generator, n):
    """The coefficients of a code of n layers."""
    return [1 + generator.draw() % 63 for _ in range(n * 2 ** n // 2)]


def draw_files(generator, n):
    """The bytes of a sheet and of a frame for it, both of them taken."""
    map = draw_map(generator, 2 ** n)
    coefs = draw_coefs(generator, n)
    word = draw_word(generator, n, map, coefs)
    frame = draw_frame(generator, 31, word)
    return reading.sheet_bytes(n, map, coefs), reading.frame_bytes(frame)


def worked_files(generator, n):
    """The sheet and the frame that the paper works by hand."""
    return reading.WORKED_SHEET, reading.WORKED_FRAME


def draw_sample(generator, chip):
    """A sample of a chip sent with noise, held within -127 to 127: -128 would
    be a lost one."""
    sample = -MAGNITUDE if chip == 1 else MAGNITUDE
    for _ in range(4):
        sample += generator.draw() % (2 * NOISE + 1) - NOISE
    return max(-127, min(127, sample))


def noisy_files(generator, n):
    """The sheet of a code, and the frame weighed from the samples of a drawn
    message that was sent with noise.

    Frozen are the places whose numbers have fewer than n / 2 bits 1.
    """
    map = [1 if bin(i).count("1") < n // 2 else 0 for i in range(2 ** n)]
    coefs = draw_coefs(generator, n)
    word = draw_word(generator, n, map, coefs)
    base = draw_base(generator)
    _, numbers = chips.spread(base, word, len(word))
    samples = []
    for number in numbers:
        samples += [
            draw_sample(generator, chips.chip(number, k)) for k in range(64)]
    _, frame = chips.weigh(base, samples, TOP, BOTTOM, 5, len(samples))
    return reading.sheet_bytes(n, map, coefs), reading.frame_bytes(frame)


def long_sheet(generator, n):
    """A sheet of 7,000 bytes, each line of the form, the first one n; and a
    frame of two lines."""
    numbers = [1 + generator.draw() % 63 for _ in range(7000 // SHEET_LINE - 1)]
    _, frame = draw_files(generator, 1)
    return reading.sheet_bytes(n, [], numbers), frame


# --- Changes to the bytes of a file ------------------------------------------

def no_file(data):
    """The file is absent."""
    return None


def instead(new):
    """A change to other bytes, whatever there was."""
    def change(data):
        """The other bytes."""
        return new
    return change


def with_more(more):
    """A change that adds bytes at the end."""
    def change(data):
        """The data with more bytes."""
        return data + more
    return change


def cut_short(count):
    """A change that takes bytes from the end."""
    def change(data):
        """The data without its last bytes."""
        return data[:-count]
    return change


def with_line(line, field):
    """A change to a line of a sheet: its four columns are other bytes."""
    def change(data):
        """The sheet with the other bytes; line -1 is the last."""
        at = SHEET_LINE * line % len(data)
        return reading.with_bytes(data, at, field)
    return change


def all_frozen(data):
    """The sheet with a 1 for each map byte."""
    N = 2 ** reading.line_number(data[:SHEET_LINE])
    return reading.with_bytes(data, SHEET_LINE, b"   1\n" * N)


def with_field(place, s, field):
    """A change to a line of a frame file: the field of s is other bytes."""
    def change(data):
        """The frame with the other bytes; place -1 is the last."""
        at = FRAME_LINE * place % len(data) + 4 * s
        return reading.with_bytes(data, at, field)
    return change


def without_zeros(place):
    """A change to a line of a frame file: each penalty 0 is 1 instead."""
    def change(data):
        """The frame without a 0 in that line; place -1 is the last."""
        at = FRAME_LINE * place % len(data)
        line = data[at:at + FRAME_LINE]
        return reading.with_bytes(data, at, line.replace(b"   0", b"   1"))
    return change


# --- The cases ---------------------------------------------------------------

# The folder of the program itself, and that of the other ways to end.
PROGRAM = "decode"
ENDINGS = "endings"

# For each case its name, the number that ends the run (0 for a listing), n,
# what draws the two files, the changes to each of them, and its comment.
CASES = (
    (PROGRAM, 0, 1, worked_files, [], [],
     "the listing of the worked sheet and frame, 2 places"),
    ("listing_256", 0, 8, noisy_files, [], [],
     "the listing of a noisy frame of 256 places"),
    ("sheet_short", 12, 1, draw_files, [instead(b"   9")], [],
     "12, since the sheet has fewer than 5 bytes"),
    ("sheet_first_line", 12, 2, draw_files, [with_line(0, b"  02")], [],
     "12, since the sheet's first line has a leading zero"),
    ("sheet_line", 12, 2, draw_files, [with_line(-1, b"7   ")], [],
     "12, since the number in the sheet's last line is left-justified"),
    ("sheet_long", 12, 1, draw_files, [with_more(b"\n")], [],
     "12, since the sheet is too long by one byte"),
    ("sheet_layers", 1, 1, draw_files, [instead(b"   0\n   0\n")], [],
     "1, since the sheet has n = 0"),
    ("sheet_layers_long", 1, 9, long_sheet, [], [],
     "1, since the sheet has n = 9, though it is longer than any that is "
     "taken"),
    ("sheet_map", 4, 2, draw_files, [with_line(4, b"   2")], [],
     "4, since the sheet has a map byte 2"),
    ("sheet_frozen", 5, 2, draw_files, [all_frozen], [],
     "5, since every place of the sheet is frozen"),
    ("sheet_coefficient", 6, 2, draw_files, [with_line(-1, b"  64")], [],
     "6, since the sheet has a coefficient 64"),
    ("frame_short", 12, 2, draw_files, [], [cut_short(FRAME_LINE)],
     "12, since the frame lacks its last line"),
    ("frame_long", 12, 1, draw_files, [], [with_more(b"\n")],
     "12, since the frame is too long by one byte"),
    ("frame_field", 12, 1, draw_files, [], [with_field(1, 20, b"\t\t\t7")],
     "12, since a field of the frame has tabs for blanks"),
    ("frame_cut", 12, 2, draw_files, [], [cut_short(1)],
     "12, since the frame's last line lacks its line feed"),
    ("frame_penalty", 8, 2, draw_files, [],
     [without_zeros(1), with_field(-1, 63, b"  32")],
     "8, since the frame has a penalty 32, though an earlier vector has no "
     "zero"),
    ("frame_no_zero", 9, 2, draw_files, [], [without_zeros(-1)],
     "9, since the frame's last vector has no zero"),
    ("frame_last_line", 12, 1, draw_files, [],
     [with_field(0, 0, b"  32"), with_field(-1, 63, b"  7\r")],
     "12, since the frame's last line has a carriage return in a field, though "
     "its first line has a penalty 32"),
    ("no_sheet", 12, 1, draw_files, [no_file], [],
     "12, since there is no sheet"),
    ("no_frame", 12, 2, draw_files, [], [no_file],
     "12, since there is no frame"),
    ("sheet_long_256", 12, 8, draw_files, [with_more(b"\n")], [],
     "12, since the sheet of a code of 256 places is too long by one byte"),
    ("written_8", 0, 3, draw_files, [], [],
     "the listing of a drawn frame of 8 places"),
    ("written_32", 0, 5, draw_files, [], [],
     "the listing of a drawn frame of 32 places"),
)


def case_files(generator, n, draw, sheet_changes, frame_changes):
    """The bytes of the two files of a case, None for one that is absent."""
    code, frame = draw(generator, n)
    for change in sheet_changes:
        code = change(code)
    for change in frame_changes:
        frame = change(frame)
    return code, frame


def cases():
    """For each case its name, and the bytes of its two files."""
    generator = Generator(SEED)
    for name, number, n, draw, sheet_changes, frame_changes, comment in CASES:
        code, frame = case_files(
            generator, n, draw, sheet_changes, frame_changes)
        assert reading.returned(code, frame) == number
        yield name, code, frame


def program_files(code, frame):
    """The files of the program itself, by name."""
    return {PROGRAM + "/data/code.txt": code,
            PROGRAM + "/data/frame.txt": frame,
            PROGRAM + "/stdout": reading.run(code, frame)}


def files():
    """The bytes of each file in crates/ by name; None for one that must be
    absent."""
    made = {}
    names = b""
    printed = b""
    for name, code, frame in cases():
        if name == PROGRAM:
            made.update(program_files(code, frame))
            continue
        sheet_name = name + ".code.txt"
        frame_name = name + ".frame.txt"
        made[ENDINGS + "/data/" + sheet_name] = code
        made[ENDINGS + "/data/" + frame_name] = frame
        names += ("%s\n%s\n%s\n" % (name, sheet_name, frame_name)).encode()
        printed += name.encode() + b"\n" + reading.run(code, frame)
    made[ENDINGS + "/stdin"] = names
    made[ENDINGS + "/stdout"] = printed
    return made
