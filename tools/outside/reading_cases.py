"""Records of the readers: sheets, frame lines, frame files fed line by line,
and the lines of a listing.

A frame file is a row of records, one for each line that is fed and one for its
end; it counts as one case.
"""

import pathlib
import sys

# Leave no compiled copies behind in the repository.
sys.dont_write_bytecode = True

sys.path.insert(0, str(pathlib.Path(__file__).resolve().parents[1]))

import calls
import compare_program as damages
import reading
import records

from draws import Generator, code_sizes, draw_map, pick
from pieces import lent
from program_cases import FRAME_LINE, SHEET_LINE, draw_coefs

SEED = 257

# In place of the line whose output is short: no line.
NO_LINE = None

# The damages of compare_program.py: each of those to the form of either file
# and of those to a sheet once; and groups, of each of which one is drawn.
FORM = tuple(dict.fromkeys(damages.FORM))
SHEET_NUMBERS = tuple(dict.fromkeys(damages.SHEET_NUMBERS))
LAYERS = (damages.other_layers, damages.long_sheet, damages.short_sheet,
          damages.other_layers)
MAP = (damages.other_map_byte,)
FROZEN = (damages.all_frozen,)
COEFS = (damages.other_coefficient,)
CONTENT = MAP + FROZEN + COEFS
PENALTY = (damages.other_penalty,)
NO_ZERO = (damages.no_zero,)

# The damages to a sheet that is damaged twice, and to a frame file: one of each
# group, in this order.
TWICE = ((COEFS, COEFS), (LAYERS, CONTENT), (MAP, COEFS), (CONTENT, FORM),
         (FROZEN, COEFS), (LAYERS, FORM), (FROZEN, MAP))
FILES = ((), (NO_ZERO,), (PENALTY,), (NO_ZERO, PENALTY), (FORM,), (NO_ZERO,),
         (), (PENALTY, FORM), (NO_ZERO, NO_ZERO), (NO_ZERO, FORM))

# Numbers at the limits of one to four digits.
WIDTHS = (0, 1, 9, 10, 11, 99, 100, 101, 999, 1000, 1001, 9999)

# Short sheets: fewer than five bytes; n out of range, with nothing, a part of a
# line or a bad line after it; and first lines that the paper names.
FIRST_LINES = (b"", b"\n", b"   9", b"   0", b"9999", b"   1", b"   9\n",
               b"   0\n", b"9999\n", b"   9\n   ", b"   0\n  01\n", b"   9\r",
               b"   8\n", b"  08\n")

# Lengths.  For the two buffers of the sheet reader what is added to the length
# needed, None for an empty one: long enough, and too short.  And the lengths of
# the output for a frame line that are refused.
ROOMY = ((0, 0), (1, 1), (0, 7), (30, 0), (44, 76))
SHORT = ((-1, 0), (0, -1), (-1, -1), (None, 0), (0, None), (None, None),
         (5, -1), (-1, 5))
OUTPUTS = (63, 65, 0)


def damaged(generator, data, width, groups):
    """The data with one damage of each group."""
    for group in groups:
        data = pick(generator, group)(generator, data, width)
    return data


# --- Sheets ------------------------------------------------------------------

def draw_sheet(generator, n):
    """The bytes of a sheet that is taken."""
    map = draw_map(generator, 2 ** n)
    return reading.sheet_bytes(n, map, draw_coefs(generator, n))


def lent_length(needed, added):
    """The length of a buffer as lent."""
    return 0 if added is None else needed + added


def sheet_case(generator, n, data, added):
    """A record of the sheet reader, with buffers for n layers that are longer
    or shorter by these."""
    size, count = code_sizes(n)
    return [records.record("h", dict(
        text=records.written(data),
        map=lent(generator, "map", lent_length(size, added[0])),
        coefs=lent(generator, "coefs", lent_length(count, added[1]))))]


def small_layers(generator):
    """An n from 1 to 4, mostly below 4."""
    return pick(generator, (1, 1, 2, 2, 3, 3, 4))


def taken_sheets(generator):
    """Sheets that are taken: of each n from 1 to 8, and more of the small n."""
    for i in range(200):
        n = i + 1 if i < 8 else small_layers(generator)
        yield sheet_case(generator, n, draw_sheet(generator, n),
                         ROOMY[i % len(ROOMY)])


def short_sheets(generator):
    """Sheets whose numbers would be refused by 4, 5 or 6, or would be taken,
    with buffers that are too short in each way; one of them of the largest
    n."""
    kinds = ((MAP,), (FROZEN,), (COEFS,), ())
    for i in range(len(kinds) * len(SHORT)):
        n = 8 if i == 7 else small_layers(generator)
        data = damaged(generator, draw_sheet(generator, n), SHEET_LINE,
                       kinds[i % 4])
        yield sheet_case(generator, n, data, SHORT[i // 4])


def broken_sheets(generator):
    """Sheets with one field that breaks the form: the first, or another one."""
    for i in range(2 * len(damages.BREAKS)):
        n = small_layers(generator)
        data = draw_sheet(generator, n)
        at = 0
        if i % 2 == 1:
            at = pick(
                generator, range(SHEET_LINE, len(data), SHEET_LINE))
        data = damages.break_at(data, at, damages.BREAKS[i // 2])
        yield sheet_case(generator, n, data, pick(generator, ROOMY + SHORT))


def damaged_sheets(generator):
    """Sheets with one damage, each kind of damage four times; a damage to form
    at times with buffers that are too short."""
    for i in range(4 * len(FORM + SHEET_NUMBERS)):
        n = small_layers(generator)
        damage = (FORM + SHEET_NUMBERS)[i // 4]
        data = damage(generator, draw_sheet(generator, n), SHEET_LINE)
        lengths = SHORT if i % 4 == 3 and damage in FORM else ROOMY
        yield sheet_case(generator, n, data, pick(generator, lengths))


def twice_damaged_sheets(generator):
    """Sheets with two damages; of ten of a kind three have buffers that are too
    short."""
    for i in range(10 * len(TWICE)):
        n = small_layers(generator)
        data = damaged(generator, draw_sheet(generator, n), SHEET_LINE,
                       TWICE[i // 10])
        lengths = SHORT if i % 10 < 3 else ROOMY
        yield sheet_case(generator, n, data, pick(generator, lengths))


def limit_sheets(generator):
    """Sheets with one number out of range: each of those that
    compare_program.py has for n, for the map, and for the coefficients; in the
    map and among the coefficients it is the first, the last, or any one."""
    lines = [(0, x) for x in damages.LAYERS]
    lines += [(1, x) for x in damages.MAP_BYTES]
    lines += [(2, x) for x in damages.COEFFICIENTS]
    for i, (part, number) in enumerate(dict.fromkeys(lines)):
        n = small_layers(generator)
        size, count = code_sizes(n)
        first, length = ((0, 1), (1, size), (1 + size, count))[part]
        line = first + (0, length - 1, generator.draw() % length)[i % 3]
        data = damages.put_number(
            draw_sheet(generator, n), SHEET_LINE * line, number)
        yield sheet_case(generator, n, data, pick(generator, ROOMY))


def first_lines(generator):
    """Sheets of a first line and little else."""
    for i, data in enumerate(FIRST_LINES):
        yield sheet_case(generator, 1, data,
                         ROOMY[0] if i % 2 == 0 else (None, None))


# --- Frame lines -------------------------------------------------------------

def draw_number(generator, mode):
    """A number: below 10, below 100, up to 9999, or at a limit."""
    drawn = generator.draw()
    return (drawn % 10, drawn % 100, drawn % 10000,
            WIDTHS[drawn % len(WIDTHS)])[mode % 4]


def draw_line(generator, mode):
    """The bytes of a frame line of the form."""
    return reading.frame_line_bytes(
        [draw_number(generator, mode) for _ in range(64)])


def line_case(generator, length, data):
    """A record of the call that reads one frame line, with an output of that
    length."""
    return [records.record("l", dict(
        text=records.written(data),
        frame=lent(generator, "frame", length)))]


def formed_lines(generator):
    """Lines of the form: 140 with an output of 64 numbers, 15 with another."""
    for i in range(155):
        length = 64 if i < 140 else OUTPUTS[i % 3]
        yield line_case(generator, length, draw_line(generator, i))


def broken_lines(generator):
    """Lines with one field that breaks the form: the first, the last, or
    another one."""
    for i in range(3 * len(damages.BREAKS)):
        data = draw_line(generator, i // 3)
        any_field = 4 + 4 * (generator.draw() % 62)
        at = (0, any_field, 4 * 63)[i % 3]
        # A number of one digit, so that there is room before and after it.
        data = damages.put_number(data, at, generator.draw() % 10)
        data = damages.break_at(data, at, damages.BREAKS[i // 3])
        yield line_case(generator, 64, data)


def damaged_lines(generator):
    """Lines with a damage to the form, each kind three times with an output of
    64 numbers; then with another output."""
    for i in range(3 * len(FORM) + 15):
        length = 64 if i < 3 * len(FORM) else OUTPUTS[i % 3]
        data = draw_line(generator, i)
        data = FORM[i % len(FORM)](generator, data, FRAME_LINE)
        yield line_case(generator, length, data)


# --- Frame files -------------------------------------------------------------

def draw_file(generator, lines):
    """The bytes of a frame file of so many lines that is taken."""
    data = b""
    for _ in range(lines):
        penalties = [generator.draw() % 32 for _ in range(64)]
        penalties[generator.draw() % 64] = 0
        data = data + reading.frame_line_bytes(penalties)
    return data


def fed_record(generator, verdict, data, length):
    """The record of one line that is fed."""
    return records.record("f", dict(
        verdict=verdict, text=records.written(data),
        frame=lent(generator, "frame", length)))


def end_record(verdict, left):
    """The record of the end of a file."""
    return records.record("g", dict(verdict=verdict, left=left))


def verdict_after(verdict, data, length):
    """The verdict after one line more."""
    numbers, _ = calls.fed_line(
        dict(verdict=verdict, text=list(data), frame=[0] * length))
    return numbers[0]


def file_case(generator, lines, short, data):
    """The records of a frame file of so many lines; the output for the line
    `short` has 63 numbers."""
    found = []
    verdict = 0
    for i in range(lines):
        part = data[FRAME_LINE * i:FRAME_LINE * (i + 1)]
        length = 63 if i == short else 64
        found.append(fed_record(generator, verdict, part, length))
        verdict = verdict_after(verdict, part, length)
    left = 1 if len(data) > FRAME_LINE * lines else 0
    if short is NO_LINE:
        # Fed line by line a file has the verdict that the whole of it has.
        assert (calls.joined(verdict, 12 * left)
                == reading.read_frame(data, lines)[0])
    return found + [end_record(verdict, left)]


def fed_files(generator):
    """Frame files of 1 to 4 lines: 60 with outputs of 64 numbers, then 20 in
    which the output for one line has 63, and 60 that are taken."""
    for i in range(140):
        lines = 1 + generator.draw() % 4
        groups = FILES[i % len(FILES)] if i < 80 else ()
        data = damaged(generator, draw_file(generator, lines), FRAME_LINE,
                       groups)
        short = generator.draw() % lines if 60 <= i < 80 else NO_LINE
        yield file_case(generator, lines, short, data)


def limit_files(generator):
    """Frame files of two lines, each with one of the penalties at or above the
    limit that compare_program.py has, at the start or the end of a line."""
    for i, penalty in enumerate(damages.PENALTIES):
        at = (0, FRAME_LINE - 5, FRAME_LINE, 2 * FRAME_LINE - 5)[i % 4]
        penalties = [1 + s % 31 for s in range(64)]
        # The zeros of both lines are in the middle.
        penalties[30] = 0
        data = damages.put_number(
            reading.frame_bytes(2 * penalties), at, penalty)
        yield file_case(generator, 2, NO_LINE, data)


# Verdicts before a line: each there is, and some that count as none.
BEFORE = (0, 2, 12, 8, 9, 1, 3, 7, 10, 11, 13, 255)

# Damages to the one line that is fed after each of them.
LINES = ((), (NO_ZERO,), (PENALTY,), (FORM,), (NO_ZERO, PENALTY),
         (PENALTY, FORM))


def verdict_lines(generator):
    """One line fed after each verdict: taken, and refused in each way; with an
    output of 64 numbers and now and then of another length."""
    for i in range(len(BEFORE) * len(LINES)):
        data = damaged(generator, draw_file(generator, 1), FRAME_LINE,
                       LINES[i // len(BEFORE)])
        length = pick(generator, (64, 64, 64, 63, 65))
        yield [fed_record(generator, BEFORE[i % len(BEFORE)], data, length)]


def long_lines(generator):
    """Lines fed with more bytes after them: each of them has a verdict without
    these."""
    for i in range(12):
        data = damaged(generator, draw_file(generator, 1), FRAME_LINE,
                       ((PENALTY,), (NO_ZERO,), ())[i % 3])
        more = (b"\n", b" ", data)[i // 3 % 3]
        yield [fed_record(generator, 0, data + more, 64)]


def file_ends(generator):
    """The end of a file for each verdict, with a byte left and without."""
    for verdict in BEFORE:
        for left in (0, 1):
            yield [end_record(verdict, left)]


# --- The lines of a listing --------------------------------------------------

PLACES = (0, 1, 9, 10, 99, 100, 127, 128, 254, 255)
SYMBOLS = (0, 63, 1, 62, 9, 10, 31, 32)
HELD = (0, 1, 9, 10, 99, 100, 255, 256, 999, 1000, 8190, 8191, 65535)
NUMBERS = (0, 1, 9, 10, 11, 12, 99, 100, 999, 1000, 9999, 10000, 65535, 65536,
           99998, 99999)


def near_symbol(symbol):
    """Values other than the symbol: the first and the last, and those next to
    it."""
    last = 62 if symbol == 63 else 63
    first = 1 if symbol == 0 else 0
    return (first, last, max(symbol - 1, first), min(symbol + 1, last))


def draw_held(generator, i, symbol):
    """The 64 numbers held: the symbol's own the least of all; one other
    value's below all the rest; these two the same and the least; all the same,
    or all but the symbol's own; or the two largest in turn, but for one other
    value."""
    mode = i // len(SYMBOLS) % 5
    other = near_symbol(symbol)[(i + mode) % 4]
    held = [2 + generator.draw() % 8190 for _ in range(64)]
    least = generator.draw() % 2
    limit = pick(generator, HELD)
    if mode in (0, 2):
        held[symbol] = least
    if mode in (1, 2):
        held[other] = least
    if mode == 3:
        own = pick(generator, HELD) if i % 2 == 0 else limit
        held = [limit] * 64
        held[symbol] = own
    if mode == 4:
        held = [HELD[-1 - s % 2] for s in range(64)]
        held[other] = limit
    return held


def place_lines(generator):
    """Lines of places, with the 64 numbers held."""
    for i in range(5 * len(SYMBOLS)):
        symbol = SYMBOLS[i % len(SYMBOLS)]
        held = draw_held(generator, i, symbol)
        yield [records.record("i", dict(
            place=PLACES[i // 4 % len(PLACES)], symbol=symbol,
            frame=records.written(held, 4)))]


def number_lines(generator):
    """Lines of one number."""
    for i in range(40):
        number = (generator.draw() * 65536 + generator.draw()) % 100000
        if i < len(NUMBERS):
            number = NUMBERS[i]
        yield [records.record("n", dict(number=number))]


# --- Calls to be changed at will ---------------------------------------------

def any_sheet_call(generator):
    """A call of the sheet reader."""
    n = generator.draw() % 3 + 1
    size, count = code_sizes(n)
    return dict(text=records.written(draw_sheet(generator, n)),
                map=lent(generator, "map", size + generator.draw() % 3),
                coefs=lent(generator, "coefs", count + generator.draw() % 3))


def any_line_call(generator):
    """A call that reads one frame line."""
    data = draw_line(generator, generator.draw() % 4)
    return dict(text=records.written(data),
                frame=lent(generator, "frame", 64))


def any_fed_call(generator):
    """A call that is fed one line."""
    return dict(verdict=0, text=records.written(draw_file(generator, 1)),
                frame=lent(generator, "frame", 64))


# --- All of them -------------------------------------------------------------

GROUPS = (taken_sheets, short_sheets, broken_sheets, damaged_sheets,
          twice_damaged_sheets, limit_sheets, first_lines,
          formed_lines, broken_lines, damaged_lines,
          fed_files, limit_files, verdict_lines, long_lines, file_ends,
          place_lines, number_lines)


def blocks():
    """The records of all cases."""
    generator = Generator(SEED)
    for group in GROUPS:
        yield from group(generator)
