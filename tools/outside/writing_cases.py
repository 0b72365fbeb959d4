"""Records of the writers: sheets and frame lines that are written and refused,
rows of records in which what is written is read and what is read is written,
and the files of the pairs that the program takes.

A row of records counts as one case.
"""

import itertools

import program_cases
import reading
import records
import writing

from draws import Generator, code_sizes, pick
from pieces import (
    CODE_BYTES,
    CODE_LENGTHS,
    LAYERS,
    Damage,
    coefs_slice,
    damaged,
    freeze_all,
    length_damage,
    lengths,
    lent,
    map_slice,
    number_damage,
    pairs,
)
from program_cases import FRAME_LINE, SHEET_LINE
from reading_cases import (
    ROOMY,
    draw_file,
    draw_line,
    draw_sheet,
    end_record,
    verdict_after,
)

SEED = 101

# The byte that an output is filled with before a call: none that is written,
# and each kind of byte that is.
FILLS = (255, 0, 32, 48, 10, 49, 255, 13)

# Each n that is refused, and the n of the code whose slices it comes with.
# Some of them, cut to 5, 6, 8, 16, 32 or 63 bits, would be taken.
REFUSED_LAYERS = (
    (0, 1), (0, 8), (9, 8), (9, 1), (10, 2), (16, 4), (32, 1), (33, 1),
    (63, 3), (64, 2), (65, 1), (128, 1), (255, 8), (256, 1), (257, 1),
    (258, 2), (264, 8), (300, 4), (2 ** 16, 1), (2 ** 16 + 1, 1),
    (2 ** 32, 1), (2 ** 32 + 1, 1), (2 ** 32 + 8, 8), (2 ** 63, 1),
    (2 ** 63 + 1, 1), (2 ** 63 + 2, 2), (2 ** 64 - 1, 1), (2 ** 64 - 8, 8),
)

# Bytes that are refused in a map and among coefficients.
MAP_BYTES = (2, 3, 255)
COEFFICIENTS = (0, 64, 65, 255)

# Counts of penalties and lengths of an output that are refused; and both at
# once, among them those that belong together.
COUNTS = (63, 65, 0, 128, 1, 32, 256)
OUTPUTS = (256, 258, 0, 5, 514, 1, 253, 261, 320)
BOTH = ((63, 253), (65, 261), (128, 513), (128, 514), (0, 0), (0, 1), (1, 5),
        (63, 256), (65, 258), (63, 258), (65, 256))

# Penalties that are refused.
HIGH = (32, 33, 63, 255, 256, 257, 9999, 32768, 65535)

# The pairs of files that are taken: those that are written.
TAKEN_PAIRS = (program_cases.PROGRAM, "listing_256", "written_8", "written_32")


# --- Parts of calls ----------------------------------------------------------

def sheet_length(n):
    """The length of a sheet for n layers."""
    size, count = code_sizes(n)
    return SHEET_LINE * (1 + size + count)


def filled(generator, length):
    """A lent output with the same byte throughout, or with any bytes."""
    if generator.draw() % 8 == 0:
        return records.drawn(length, generator.draw(), 0, 256, 255)
    return records.repeated(length, pick(generator, FILLS))


def output(generator, length):
    """A lent output: filled, or with what the record before left."""
    if generator.draw() % 8 == 0:
        return records.same(length)
    return filled(generator, length)


def any_map(generator, mode, size):
    """A map: one message place, the first, the last or another one; all of
    them; or drawn."""
    place = (0, size - 1, generator.draw() % size)
    if mode < 3:
        return records.repeated(size, 1).with_entry(place[mode], 0)
    if mode == 3:
        return records.repeated(size, 0)
    return map_slice(generator, size)


def any_coefs(generator, mode, count):
    """Coefficients: all 1, all 63, each from 1 to 63 in turn, or drawn."""
    if mode < 2:
        return records.repeated(count, (1, 63)[mode])
    if mode == 2:
        first = generator.draw()
        return records.written([1 + (first + i) % 63 for i in range(count)])
    return coefs_slice(generator, count)


def sheet_call(generator, n):
    """A call of the sheet writer that is taken."""
    size, count = code_sizes(n)
    return dict(n=n, map=map_slice(generator, size),
                coefs=coefs_slice(generator, count),
                text=output(generator, sheet_length(n)))


def line_call(generator, penalties):
    """A call of the line writer with these penalties."""
    return dict(frame=penalties, text=output(generator, FRAME_LINE))


def good_penalties(generator, count):
    """So many penalties up to 31; where there is one, the first is 0."""
    return records.drawn(
        count, generator.draw(), 0, 32, 31).with_entry(0, 0)


def no_zero(generator, count):
    """So many penalties from 1 to 31."""
    return records.drawn(count, generator.draw(), 1, 31, 31)


def small_layers(generator):
    """An n from 1 to 5, mostly below 4."""
    return pick(generator, (1, 1, 2, 2, 2, 3, 3, 3, 4, 5))


def ends_and_middle(length):
    """The first, a middle and the last entry of so many."""
    return (0, length // 2, length - 1)


# --- Sheets that are written -------------------------------------------------

def taken_sheets(generator):
    """Sheets that are written: of each n from 1 to 8 four times, then more of
    the small n; each kind of map with each kind of coefficients."""
    for i in range(150):
        n = i % 8 + 1 if i < 32 else small_layers(generator)
        size, count = code_sizes(n)
        call = dict(n=n, map=any_map(generator, i % 5, size),
                    coefs=any_coefs(generator, i // 5 % 4, count),
                    text=output(generator, sheet_length(n)))
        yield [records.record("w", call)]


# --- Sheets that are refused by one number -----------------------------------

def refused_layers(generator):
    """Each n out of range with slices for another one; and n = 0 with slices
    for one place."""
    for n, layers in REFUSED_LAYERS:
        call = dict(sheet_call(generator, layers), n=n)
        yield [records.record("w", call)]
    call = dict(n=0, map=records.repeated(1, 0), coefs=records.repeated(0, 1),
                text=records.repeated(10, 255))
    yield [records.record("w", call)]


def wrong_lengths(name, n):
    """Lengths of a slice that are not the one needed: 0, one less, one more,
    those for another n, and for an output a line less and a line more."""
    def needed(layers):
        """The length that the slice has for so many layers."""
        size, count = code_sizes(layers)
        return dict(map=size, coefs=count, text=sheet_length(layers))[name]
    length = needed(n)
    others = [needed(layers) for layers in (n - 1, n + 1) if 1 <= layers <= 8]
    found = [0, length - 1, length + 1] + others
    if name == "text":
        found += [length - SHEET_LINE, length + SHEET_LINE]
    return sorted(set(found) - {length})


def refused_lengths(generator):
    """Each slice alone with another length than needed."""
    for name in ("map", "coefs", "text"):
        for n in (1, 2, 4, 8):
            for length in wrong_lengths(name, n):
                call = sheet_call(generator, n)
                call[name] = call[name].of_length(length)
                yield [records.record("w", call)]


def traded_lengths(generator):
    """Map and coefficients of other lengths that have as many bytes together,
    so that the output would have room for them."""
    for n in (1, 2, 3):
        for by in (-1, 1):
            call = sheet_call(generator, n)
            call["map"] = call["map"].of_length(call["map"].length + by)
            call["coefs"] = call["coefs"].of_length(call["coefs"].length - by)
            yield [records.record("w", call)]


def refused_bytes(generator, name, values):
    """One byte out of range in the map or among the coefficients: the first, a
    middle one, or the last."""
    for n in (2, 8):
        for value in values:
            size, count = code_sizes(n)
            for at in ends_and_middle(dict(map=size, coefs=count)[name]):
                call = sheet_call(generator, n)
                call[name] = call[name].with_entry(at, value)
                yield [records.record("w", call)]


def refused_map_bytes(generator):
    """One map byte out of range."""
    yield from refused_bytes(generator, "map", MAP_BYTES)


def refused_coefficients(generator):
    """One coefficient out of range."""
    yield from refused_bytes(generator, "coefs", COEFFICIENTS)


def all_frozen(generator):
    """Each place frozen, for each n."""
    for n in range(1, 9):
        call = sheet_call(generator, n)
        freeze_all(generator, call)
        yield [records.record("w", call)]


# --- Sheets that are refused by two numbers ----------------------------------

def first_damage(refusal, name, value):
    """Another value in the first entry."""
    def change(generator, call):
        """Set the entry."""
        call[name] = call[name].with_entry(0, value)
    return Damage(refusal, change, 1)


# Damages in groups: no two of one group are in one call.
GROUPED = (
    (number_damage(1, "n", 9), number_damage(1, "n", 257)),
    (length_damage("map", -1), length_damage("map", 1)),
    (length_damage("coefs", -1), length_damage("coefs", 1)),
    (length_damage("text", -1), length_damage("text", 1)),
    (first_damage(4, "map", 2),),
    (Damage(5, freeze_all, 0),),
    (first_damage(6, "coefs", 0), first_damage(6, "coefs", 64)),
)

DAMAGES = LAYERS + CODE_LENGTHS + lengths(["text"]) + CODE_BYTES
DAMAGES += [number_damage(1, "n", n) for n in (2 ** 32 + 1, 2 ** 63)]


def twice_refused(generator):
    """Two damages, each two of different groups; then drawn ones for each two
    numbers."""
    chosen = [two for groups in itertools.combinations(GROUPED, 2)
              for two in itertools.product(*groups)]
    for two in chosen + list(pairs(generator, DAMAGES, 2)):
        call = sheet_call(generator, 2 + generator.draw() % 3)
        call = damaged(generator, call, two)
        yield [records.record("w", call)]


def often_refused(generator):
    """A damage of each group from one on, so that each number stands before
    all after it."""
    for first in range(len(GROUPED)):
        for last in (0, -1):
            chosen = [group[last] for group in GROUPED[first:]]
            call = damaged(generator, sheet_call(generator, 3), chosen)
            yield [records.record("w", call)]


# --- Lines that are written --------------------------------------------------

def lines_in_turn(generator):
    """Each penalty from 0 to 31 in each place of a line."""
    for first in range(32):
        penalties = [(first + s) % 32 for s in range(64)]
        yield [records.record(
            "x", line_call(generator, records.written(penalties)))]


def lines_of_one_zero(generator):
    """One 0, in each place of a line; all others 31, 1, 10, or drawn."""
    for zero in range(64):
        rest = [records.repeated(64, value) for value in (31, 1, 10)]
        rest += [no_zero(generator, 64)]
        penalties = rest[zero % 4].with_entry(zero, 0)
        yield [records.record("x", line_call(generator, penalties))]


def lines_of_zeros(generator):
    """64 zeros, a few, and many."""
    for i in range(24):
        seed = generator.draw()
        penalties = (records.repeated(64, 0),
                     records.vectors(64, seed, 0, 32, 31),
                     records.drawn(64, seed, 0, 3, 2),
                     records.vectors(64, seed, 0, 100, 31))[i % 4]
        yield [records.record("x", line_call(generator, penalties))]


# --- Lines that are refused --------------------------------------------------

def line_lengths():
    """Counts of penalties and lengths of the output, not both right."""
    found = [(count, FRAME_LINE) for count in COUNTS]
    found += [(64, length) for length in OUTPUTS]
    return found + list(BOTH)


def short_lines(generator):
    """Lines refused by 2: with penalties that would be taken; and with one
    that is too large, without a 0, or both."""
    for i, (count, length) in enumerate(line_lengths()):
        good = good_penalties(generator, count)
        none = no_zero(generator, count)
        other = (good.with_entry(count // 2, 32), none,
                 none.with_entry(0, 256))[i % 3]
        for penalties in (good, other):
            call = dict(frame=penalties, text=output(generator, length))
            yield [records.record("x", call)]


def high_lines(generator):
    """Lines refused by 8: one penalty too large, the first, a middle one or
    the last; with a 0 and without any."""
    for i, value in enumerate(HIGH):
        for at in ends_and_middle(64):
            for zero in (0, 1):
                penalties = no_zero(generator, 64)
                if zero == 1:
                    penalties = penalties.with_entry((at + 1 + i) % 64, 0)
                penalties = penalties.with_entry(at, value)
                yield [records.record("x", line_call(generator, penalties))]


def lines_without_zero(generator):
    """Lines refused by 9."""
    for i in range(16):
        penalties = no_zero(generator, 64)
        if i < 4:
            penalties = records.repeated(64, (1, 31, 10, 16)[i])
        yield [records.record("x", line_call(generator, penalties))]


# --- Rows of records: sheets -------------------------------------------------

def read_record(generator, n, added):
    """The record that reads the sheet which the record before left, with
    buffers for n layers that are longer by these."""
    size, count = code_sizes(n)
    return records.record("h", dict(
        text=records.same(sheet_length(n)),
        map=lent(generator, "map", size + added[0]),
        coefs=lent(generator, "coefs", count + added[1])))


def written_and_read(generator):
    """A sheet written and then read, of each n from 1 to 8 twice and of the
    small n."""
    for i in range(40):
        n = i % 8 + 1 if i < 16 else small_layers(generator)
        call = sheet_call(generator, n)
        call["text"] = filled(generator, sheet_length(n))
        yield [records.record("w", call),
               read_record(generator, n, ROOMY[i % len(ROOMY)])]


def refused_and_read(generator):
    """A sheet written, then another one refused in each way, and then the
    first one read: it is still there."""
    for group in GROUPED:
        for damage in group:
            n = 2 + generator.draw() % 3
            call = dict(sheet_call(generator, n),
                        text=filled(generator, sheet_length(n)))
            other = dict(sheet_call(generator, n),
                         text=records.same(sheet_length(n)))
            yield [records.record("w", call),
                   records.record("w", damaged(generator, other, [damage])),
                   read_record(generator, n, ROOMY[0])]


def code_of(data):
    """n, map and coefficients of a sheet that is taken."""
    number, found = reading.read_sheet(data, 256, 1024)
    assert number == reading.ACCEPTED
    return found


def write_record(generator, data):
    """The record that writes a sheet: what is read of these bytes, which are
    the bytes that the rules write."""
    n, map, coefs = code_of(data)
    assert writing.write_sheet(n, map, coefs, len(data)) == (0, data)
    return records.record("w", dict(
        n=n, map=records.written(map, 1), coefs=records.written(coefs),
        text=filled(generator, len(data))))


def read_and_written(generator):
    """A sheet read, what is read of it written, and that read again."""
    for i in range(32):
        n = i + 1 if i < 8 else small_layers(generator)
        size, count = code_sizes(n)
        data = draw_sheet(generator, n)
        first = records.record("h", dict(
            text=records.written(data), map=lent(generator, "map", size),
            coefs=lent(generator, "coefs", count)))
        yield [first, write_record(generator, data),
               read_record(generator, n, ROOMY[i % len(ROOMY)])]


# --- Rows of records: frames -------------------------------------------------

# What the output of a line's numbers holds before it is read: no penalty.
UNREAD = records.repeated(64, 47110)


def line_read_record():
    """The record that reads the line which the record before left."""
    return records.record(
        "l", dict(text=records.same(FRAME_LINE), frame=UNREAD))


def line_fed_record(verdict):
    """The record that is fed the line which the record before left."""
    return records.record("f", dict(
        verdict=verdict, text=records.same(FRAME_LINE), frame=UNREAD))


def draw_lines(generator, size):
    """The penalties of so many places."""
    return [records.vectors(64, generator.draw(), 0, 32, 31)
            for _ in range(size)]


def spoiled(generator, penalties):
    """The penalties of a place with one that is too large, or without a 0."""
    if generator.draw() % 2 == 0:
        return penalties.with_entry(generator.draw() % 64, 32)
    return no_zero(generator, 64)


def frame_case(lines, read):
    """The records of a frame file: each line is written, then fed, and before
    that also read, if asked; then the end of the file.  A line that is refused
    leaves the text as it came: the bytes of the line before it, or for the
    first line what was there."""
    found = []
    verdict = 0
    text = records.repeated(FRAME_LINE, 255)
    data = bytes(text.entries())
    for penalties in lines:
        found.append(records.record("x", dict(frame=penalties, text=text)))
        text = records.same(FRAME_LINE)
        number, line = writing.write_frame_line(
            penalties.entries(), FRAME_LINE)
        data = data if line is None else line
        if read:
            found.append(line_read_record())
        found.append(line_fed_record(verdict))
        verdict = verdict_after(verdict, data, 64)
    return found + [end_record(verdict, 0)]


def written_frames(generator):
    """Frames of 2 to 16 places written line by line and fed, all their lines
    taken; each second one also read by the call for one line."""
    for i in range(12):
        size = 2 ** (1 + i % 4)
        lines = draw_lines(generator, size)
        data = b"".join(
            writing.write_frame_line(line.entries(), FRAME_LINE)[1]
            for line in lines)
        frame = [entry for line in lines for entry in line.entries()]
        assert reading.read_frame(data, size) == (0, frame)
        yield frame_case(lines, i % 2 == 1)


def spoiled_frames(generator):
    """Frames of 4 places of which one line is refused: each of the four, and
    the first one twice more."""
    for place in (0, 1, 2, 3, 0, 0):
        lines = draw_lines(generator, 4)
        lines[place] = spoiled(generator, lines[place])
        yield frame_case(lines, False)


def line_written_record(generator):
    """The record that writes what the record before read of a line."""
    return records.record("x", dict(
        frame=records.same(64), text=filled(generator, FRAME_LINE)))


def lines_read_and_written(generator):
    """A line read, what is read of it written, and that read again: 30 that
    are written as the same bytes, 8 of any numbers, and 8 without a 0.  Where
    nothing is written, the last record reads what the output was filled
    with."""
    for i in range(46):
        data = draw_file(generator, 1)
        if i >= 30:
            data = draw_line(generator, i)
        if i >= 38:
            data = reading.frame_line_bytes(no_zero(generator, 64).entries())
        number, penalties = reading.read_frame_line(data, 64)
        if i < 30:
            assert (writing.write_frame_line(penalties, FRAME_LINE)
                    == (0, data))
        yield [records.record("l", dict(text=records.written(data),
                                        frame=UNREAD)),
               line_written_record(generator), line_read_record()]


# --- The files that the program is run on ------------------------------------

def frame_records(generator, data):
    """The records that write each line of a frame file; the lines are, one
    after the other, these bytes."""
    found = []
    written = b""
    number, frame = reading.read_frame(data, len(data) // FRAME_LINE)
    assert number == reading.ACCEPTED
    for at in range(0, len(frame), 64):
        penalties = frame[at:at + 64]
        found.append(records.record("x", dict(
            frame=records.written(penalties),
            text=filled(generator, FRAME_LINE))))
        written += writing.write_frame_line(penalties, FRAME_LINE)[1]
    assert written == data
    return found


def program_files(generator):
    """The sheet and the frame of each pair that the program takes, all records
    of a pair in one row."""
    names = []
    for name, code, frame in program_cases.cases():
        if reading.returned(code, frame) == reading.ACCEPTED:
            names.append(name)
            yield ([write_record(generator, code)]
                   + frame_records(generator, frame))
    assert tuple(names) == TAKEN_PAIRS


# --- Calls to be changed at will ---------------------------------------------

def any_sheet_call(generator):
    """A call of the sheet writer."""
    return sheet_call(generator, generator.draw() % 3 + 1)


def any_line_call(generator):
    """A call of the line writer."""
    return line_call(generator, good_penalties(generator, 64))


# --- All of them -------------------------------------------------------------

GROUPS = (taken_sheets, refused_layers, refused_lengths, traded_lengths,
          refused_map_bytes, refused_coefficients, all_frozen, twice_refused,
          often_refused, lines_in_turn, lines_of_one_zero, lines_of_zeros,
          short_lines, high_lines, lines_without_zero, written_and_read,
          refused_and_read, read_and_written, written_frames, spoiled_frames,
          lines_read_and_written, program_files)


def blocks():
    """The records of all cases."""
    generator = Generator(SEED)
    for group in GROUPS:
        yield from group(generator)
