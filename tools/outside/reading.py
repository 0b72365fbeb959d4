"""Reader of code sheets and frame files, and the program, written literally
from the paper's section "The code sheet and the program" and its table
"Refused". Plain and slow on purpose.

Decoding is taken from decoding.py, the field and the shared refusals from
scms.py. A lent buffer is given by its length alone, and a file by its bytes.

Open points in the paper, and the reading chosen for each:

 1. "Blanks" are not given as a byte, while the line feed is. A blank is byte
    32 and nothing else; a tab (byte 9) breaks the form.
 2. "Decimal number" might have a sign. Its bytes are the digits 48 to 57
    only, at least one of them, so a plus, a minus or a field of four blanks
    breaks the form.
 3. "No leading zeros" against the number 0. A single digit 0 is taken, as the
    worked sheet has it; 0 before another digit breaks the form.
 4. "Right-justified" is exact: nothing stands after the last digit but the
    next field or the line feed. Four digits with no blank are taken.
 5. A carriage return (byte 13) before the line feed is not of the form. The
    line feed must also end the last line; its lack is a wrong length.
 6. Numbers of a sheet can be up to 9999, though the paper speaks of map bytes
    and lends bytes for both. A number above 255 keeps the form: it gives 1 as
    n, 4 in the map, 6 among the coefficients. It is never cut to 8 bits.
 7. Fewer than 5 bytes give 12 whatever they are, so `   9` without its line
    feed gives 12 and not 1. The line feed is part of the first line, so a
    first line of five bytes that ends in another byte is a bad one.
 8. n outside 1 to 8 gives 1 whatever follows the first line, also nothing.
 9. "A first sheet line `   8` is taken" speaks of that line alone. A sheet
    that has no other line has a wrong total length and gives 12.
10. "A bad line" is any line after the first, so a bad coefficient line comes
    before 2 and before 4. Which line is bad makes no difference.
11. For the sheet reader 2 is only for a buffer shorter than needed; a longer
    one is taken. The lengths are not looked at before n and the form are.
12. 5 is tried when no map byte is above 1, so a map of 1 and 2 gives 4.
13. The table has "the lowest number that fits", the sheet reader its own
    order. Its own order counts, so 12 can come before 1, 2, 4, 5 and 6.
14. The call for one frame line has 64 penalties but gives only 2 and 12, as
    it has no Qc. Its numbers can be up to 9999; 8 and 9 are left to the
    frame.
15. "Then 8 and 9" is in that order over the whole frame: a penalty above 31
    in any line gives 8, even if an earlier line has no zero.
16. "One line read at a time" against "tried for 12 first". All N lines and the
    end of the file are tried for 12 before any line is tried for 8 or 9.
17. A frame file of fewer than N lines is not named. It breaks its form: 12.
18. "8" for a frame file does not name Qc. It is the program's, 5, so the
    greatest penalty taken is 31.
19. The lengths of the program's own buffers are not said. They are those for
    n = 8, 256 and 1024, so the program never prints 2.
20. Which refusal is printed when both files are bad is not said. The frame's
    form needs N, so the sheet's number alone is printed.
21. A refusal "ends the run": the printed bytes are that one line of six bytes
    and no part of a listing. What the program returns to its caller is not
    said and not modelled.
22. The lines of a listing are said to have columns, not a line feed. Each
    ends with one line feed, also the last.
23. "That symbol" of a frozen place is 0, so its third field is the penalty
    held for 0, and its fourth the least of the 63 others; this one can be
    the smaller.
24. A file that can't be opened counts as empty; both an empty sheet and an
    empty frame file give 12. A file that opens but can't be read to its end
    is not spoken of and not modelled.
25. "Buffers unchanged" is shown by the result None. What is beyond the first
    N and n * N/2 bytes of the buffers is not shown.
"""

import random

from scms import (
    ACCEPTED,
    REFUSED_COEFFICIENT,
    REFUSED_LENGTH,
    REFUSED_MAP_BYTE,
    REFUSED_N,
    REFUSED_NO_MESSAGE_PLACE,
    coefficients_are_valid,
    encode,
    map_bytes_are_valid,
    message_places,
    n_is_valid,
)
from decoding import (
    REFUSED_NO_ZERO,
    REFUSED_PENALTY,
    decode,
    listing,
    penalties_are_valid,
    random_frame,
    spike,
    vectors_have_zeros,
)


# The number of the paper's table for a file that breaks its form.
REFUSED_FORM = 12

# The precisions that the program decodes with, and how many values its check
# nodes try: all.
PROGRAM_QC = 5
PROGRAM_QM = 13
PROGRAM_M = 64

# The lengths of the program's own map and coefficient buffers: those for n = 8.
PROGRAM_MAP_LENGTH = 256
PROGRAM_COEFS_LENGTH = 1024

# Bytes that have a meaning in a sheet or a frame file.
LINE_FEED = 10
BLANK = 32
DIGIT_0 = 48
DIGIT_9 = 57


# --- Fields and lines --------------------------------------------------------

def field_number(field):
    """The number in a field of four columns, or None if it breaks the form."""
    if len(field) != 4:
        return None
    blanks = 0
    while blanks < 4 and field[blanks] == BLANK:
        blanks = blanks + 1
    digits = field[blanks:]
    if len(digits) == 0:
        return None
    for byte in digits:
        if byte < DIGIT_0 or byte > DIGIT_9:
            return None
    # The number 0 is one digit 0; before another digit it is a leading zero.
    if len(digits) > 1 and digits[0] == DIGIT_0:
        return None
    number = 0
    for byte in digits:
        number = 10 * number + (byte - DIGIT_0)
    return number


def line_number(line):
    """The number of a sheet line of four columns and a line feed, or None."""
    if len(line) != 5:
        return None
    if line[4] != LINE_FEED:
        return None
    return field_number(line[0:4])


# --- Sheet reader ------------------------------------------------------------

def sheet_numbers(data, count):
    """The numbers of a sheet of that many lines, or None for a wrong total
    length or a bad line."""
    if len(data) != 5 * count:
        return None
    numbers = []
    for i in range(count):
        number = line_number(data[5 * i:5 * i + 5])
        if number is None:
            return None
        numbers.append(number)
    return numbers


def read_sheet(data, map_length, coefs_length):
    """The sheet reader: (0, (n, map, coefs)), or (refusal, None)."""
    if len(data) < 5:
        return (REFUSED_FORM, None)
    n = line_number(data[0:5])
    if n is None:
        return (REFUSED_FORM, None)
    if not n_is_valid(n):
        return (REFUSED_N, None)
    N = 2 ** n
    coefs_needed = n * (N // 2)
    numbers = sheet_numbers(data, 1 + N + coefs_needed)
    if numbers is None:
        return (REFUSED_FORM, None)
    if map_length < N or coefs_length < coefs_needed:
        return (REFUSED_LENGTH, None)
    map = numbers[1:1 + N]
    coefs = numbers[1 + N:]
    if not map_bytes_are_valid(map):
        return (REFUSED_MAP_BYTE, None)
    if message_places(map) == 0:
        return (REFUSED_NO_MESSAGE_PLACE, None)
    if not coefficients_are_valid(coefs):
        return (REFUSED_COEFFICIENT, None)
    return (ACCEPTED, (n, map, coefs))


# --- Frame files -------------------------------------------------------------

def read_frame_line(data, output_length):
    """The call that reads one frame line: (0, 64 numbers), or (refusal,
    None)."""
    if output_length != 64:
        return (REFUSED_LENGTH, None)
    if len(data) != 257:
        return (REFUSED_FORM, None)
    if data[256] != LINE_FEED:
        return (REFUSED_FORM, None)
    numbers = []
    for s in range(64):
        number = field_number(data[4 * s:4 * s + 4])
        if number is None:
            return (REFUSED_FORM, None)
        numbers.append(number)
    return (ACCEPTED, numbers)


def read_frame(data, N):
    """The verdict on a whole frame file for a code of N places: (0, 64 * N
    penalties), or (refusal, None)."""
    frame = []
    for place in range(N):
        # A line that the file does not have, or has in part, comes out short.
        line = data[257 * place:257 * place + 257]
        number, penalties = read_frame_line(line, 64)
        if number != ACCEPTED:
            return (number, None)
        frame.extend(penalties)
    if len(data) > 257 * N:
        return (REFUSED_FORM, None)
    if not penalties_are_valid(frame, PROGRAM_QC):
        return (REFUSED_PENALTY, None)
    if not vectors_have_zeros(N, frame):
        return (REFUSED_NO_ZERO, None)
    return (ACCEPTED, frame)


# --- Program -----------------------------------------------------------------

def bytes_of_file(file):
    """The bytes of a file; one that can't be opened counts as empty."""
    if file is None:
        return b""
    return file


def five_columns(number):
    """A number right-justified in five columns."""
    return str(number).rjust(5).encode("ascii")


def read_files(code, frame):
    """Both files read, the sheet first: (0, (n, map, coefs, penalties)), or
    (refusal, None)."""
    number, sheet = read_sheet(bytes_of_file(code), PROGRAM_MAP_LENGTH,
                               PROGRAM_COEFS_LENGTH)
    if number != ACCEPTED:
        return (number, None)
    n, map, coefs = sheet
    number, penalties = read_frame(bytes_of_file(frame), 2 ** n)
    if number != ACCEPTED:
        return (number, None)
    return (ACCEPTED, (n, map, coefs, penalties))


def returned(code, frame):
    """The number that the run prints as a refusal, or 0 for a listing."""
    number, found = read_files(code, frame)
    return number


def run(code, frame):
    """The bytes that the program prints."""
    number, found = read_files(code, frame)
    if number != ACCEPTED:
        return five_columns(number) + b"\n"
    n, map, coefs, penalties = found
    N = 2 ** n
    number, symbols, report, totals, count = decode(
        n, map, coefs, PROGRAM_QC, PROGRAM_QM, PROGRAM_M, penalties, 65 * N,
        N, 64 * N, N)
    # What the two readers take, the decoder takes.
    assert number == ACCEPTED
    printed = b""
    for row in listing(symbols, report):
        for field in row:
            printed = printed + five_columns(field)
        printed = printed + b"\n"
    return printed + five_columns(count) + b"\n"


# --- Files for the tests -----------------------------------------------------

def four_columns(number):
    """A number right-justified in four columns."""
    return str(number).rjust(4).encode("ascii")


def sheet_bytes(n, map, coefs):
    """The bytes of a sheet."""
    data = b""
    for number in [n] + list(map) + list(coefs):
        data = data + four_columns(number) + b"\n"
    return data


def frame_line_bytes(penalties):
    """The bytes of one frame line."""
    data = b""
    for penalty in penalties:
        data = data + four_columns(penalty)
    return data + b"\n"


def frame_bytes(frame):
    """The bytes of a frame file; the frame has whole vectors of 64."""
    data = b""
    for place in range(len(frame) // 64):
        data = data + frame_line_bytes(frame[64 * place:64 * place + 64])
    return data


def with_bytes(data, at, new):
    """The data with the bytes from one index on replaced by others."""
    return data[:at] + new + data[at + len(new):]


# The worked sheet and frame of the paper.
WORKED_SHEET = b"   1\n   1\n   0\n   2\n"
WORKED_FRAME = frame_bytes(spike(33, 3) + spike(1, 3))

# Fields that break the form, each of four bytes.
BAD_FIELDS = [b"    ", b"  08", b"  00", b" 000", b"0000", b"0001", b" 1  ",
              b"1   ", b"  1 ", b" 1 1", b"  -1", b"  +1", b"\t\t\t1",
              b"   \t", b"\x00\x00\x001", b"  \n1", b" 1\r ", b" 0x1", b" 1.0",
              b"   a", b"   /", b"   :", b"   \xb1", b"\xa0\xa0\xa01"]


# --- Tests -------------------------------------------------------------------

def test_fields():
    """Fields: exactly the numbers 0 to 9999 in four columns have the form."""
    form = {}
    for number in range(10000):
        form[four_columns(number)] = number
    for field in form:
        assert field_number(field) == form[field]
    # All fields of these bytes.
    some = [9, 10, 13, 32, 43, 45, 47, 48, 49, 57, 58, 160]
    for a in some:
        for b in some:
            for c in some:
                for d in some:
                    field = bytes([a, b, c, d])
                    assert field_number(field) == form.get(field)
    for field in BAD_FIELDS:
        assert len(field) == 4
        assert field_number(field) is None


def test_worked():
    """The paper's worked sheet, frame and first lines."""
    assert read_sheet(WORKED_SHEET, 2, 1) == (0, (1, [1, 0], [2]))
    assert read_frame(WORKED_FRAME, 2) == (0, spike(33, 3) + spike(1, 3))
    assert run(WORKED_SHEET, WORKED_FRAME) == (b"    0    0    0    3\n"
                                               b"    1   33    0    6\n"
                                               b"    0\n")
    assert returned(WORKED_SHEET, WORKED_FRAME) == 0
    # `   8` is taken, `   9` gives 1, `  08` gives 12.
    rest = sheet_bytes(8, [0] * 256, [1] * 1024)[5:]
    assert read_sheet(b"   8\n" + rest, 256, 1024) == (
        0, (8, [0] * 256, [1] * 1024))
    assert read_sheet(b"   9\n" + rest, 256, 1024) == (1, None)
    assert read_sheet(b"  08\n" + rest, 256, 1024) == (12, None)
    # The other worked frame: the tie is decided for 4.
    assert run(sheet_bytes(1, [1, 0], [1]),
               frame_bytes(spike(5, 1) + spike(4, 1))) == (
        b"    0    0    1    0\n    1    4    0    0\n    0\n")


def test_first_line():
    """Fewer than 5 bytes, a bad first line, and n outside 1 to 8."""
    for length in range(5):
        assert read_sheet(WORKED_SHEET[:length], 2, 1) == (12, None)
        assert read_sheet(b"   9\n"[:length], 0, 0) == (12, None)
        assert read_sheet(b"\n" * length, 0, 0) == (12, None)
    for field in BAD_FIELDS:
        assert read_sheet(field + WORKED_SHEET[4:], 2, 1) == (12, None)
        assert read_sheet(field + b"\n", 0, 0) == (12, None)
    for byte in (0, 9, 13, 32, 48, 49):
        assert read_sheet(b"   9" + bytes([byte]), 2, 1) == (12, None)
        assert read_sheet(with_bytes(WORKED_SHEET, 4, bytes([byte])),
                          2, 1) == (12, None)
    # 1 comes before the total length, the other lines and the lent buffers.
    for n in (0, 9, 10, 11, 16, 18, 64, 255, 256, 257, 264, 1000, 9999):
        first = four_columns(n) + b"\n"
        for rest in (b"", b"\n", b"  08\n", WORKED_SHEET[5:], b"x" * 7000):
            assert read_sheet(first + rest, 0, 0) == (1, None)
            assert read_sheet(first + rest, 256, 1024) == (1, None)
    # n from 1 to 8 with nothing after it is a wrong total length.
    for n in range(1, 9):
        assert read_sheet(four_columns(n) + b"\n", 256, 1024) == (12, None)


def test_sheet_form():
    """A wrong total length or a bad line, for each n."""
    draw = random.Random(12)
    for n in range(1, 9):
        N = 2 ** n
        needed = n * (N // 2)
        map = [0] + [draw.randrange(2) for place in range(N - 1)]
        coefs = [draw.randrange(1, 64) for number in range(needed)]
        data = sheet_bytes(n, map, coefs)
        assert len(data) == 5 * (1 + N + needed)
        assert read_sheet(data, N, needed) == (0, (n, map, coefs))
        assert read_sheet(data, N + 1, needed + 7) == (0, (n, map, coefs))
        # Wrong lengths, also by a whole line; 12 comes before 2.
        for wrong in (data[:-1], data[:-5], data[:5], data + b"\n",
                      data + b" ", data + b"   1\n", data + data):
            assert read_sheet(wrong, N, needed) == (12, None)
            assert read_sheet(wrong, 0, 0) == (12, None)
        # Bad lines: the first and last of the map and of the coefficients.
        for line in (1, N, N + 1, N + needed):
            for field in BAD_FIELDS:
                wrong = with_bytes(data, 5 * line, field)
                assert read_sheet(wrong, N, needed) == (12, None)
                assert read_sheet(wrong, 0, 0) == (12, None)
            for byte in (0, 13, 32, 49):
                wrong = with_bytes(data, 5 * line + 4, bytes([byte]))
                assert read_sheet(wrong, N, needed) == (12, None)


def test_sheet_values():
    """2, 4, 5 and 6 of the sheet reader, and their order."""
    for value in (2, 3, 9, 10, 63, 255, 256, 257, 512, 1024, 9999):
        for map in ([value, 0], [0, value], [value, 1], [1, value]):
            assert read_sheet(sheet_bytes(1, map, [1]), 2, 1) == (4, None)
            # 4 comes before 6, and 2 before 4.
            assert read_sheet(sheet_bytes(1, map, [0]), 2, 1) == (4, None)
            assert read_sheet(sheet_bytes(1, map, [0]), 1, 1) == (2, None)
    for value in (0, 64, 65, 100, 255, 256, 257, 320, 1025, 9999):
        data = sheet_bytes(1, [1, 0], [value])
        assert read_sheet(data, 2, 1) == (6, None)
        assert read_sheet(data, 2, 0) == (2, None)
        # 5 comes before 6, and 2 before 5.
        data = sheet_bytes(1, [1, 1], [value])
        assert read_sheet(data, 2, 1) == (5, None)
        assert read_sheet(data, 1, 1) == (2, None)
    for value in range(1, 64):
        assert read_sheet(sheet_bytes(1, [1, 0], [value]), 2, 1) == (
            0, (1, [1, 0], [value]))
    for at in range(4):
        coefs = [1, 63, 2, 62]
        coefs[at] = 64
        assert read_sheet(sheet_bytes(2, [0] * 4, coefs), 4, 4) == (6, None)
        map = [1] * 4
        assert read_sheet(sheet_bytes(2, map, [1] * 4), 4, 4) == (5, None)
        map[at] = 0
        assert read_sheet(sheet_bytes(2, map, [1] * 4), 4, 4) == (
            0, (2, map, [1] * 4))


def test_sheet_lengths():
    """2 of the sheet reader: each buffer shorter than needed, not longer."""
    for n in range(1, 9):
        N = 2 ** n
        needed = n * (N // 2)
        data = sheet_bytes(n, [0] * N, [1] * needed)
        for map_length in (0, N - 1, N, N + 1, 10000):
            for coefs_length in (0, needed - 1, needed, needed + 1, 10000):
                number, found = read_sheet(data, map_length, coefs_length)
                if map_length < N or coefs_length < needed:
                    assert (number, found) == (2, None)
                else:
                    assert (number, found) == (
                        0, (n, [0] * N, [1] * needed))
    # A bad last line comes before 2.
    data = sheet_bytes(1, [2, 2], [0])
    assert read_sheet(data, 0, 0) == (2, None)
    assert read_sheet(with_bytes(data, 15, b"  00"), 0, 0) == (12, None)


def test_frame_line():
    """2 and 12 of the call for one frame line; it has no 8 and no 9."""
    line = frame_line_bytes(range(64))
    assert len(line) == 257
    assert read_frame_line(line, 64) == (0, list(range(64)))
    for numbers in ([9999] * 64, [0] * 64, [1] * 64, [1000 + s
                                                      for s in range(64)]):
        assert read_frame_line(frame_line_bytes(numbers), 64) == (0, numbers)
    for output_length in (0, 1, 63, 65, 128):
        assert read_frame_line(line, output_length) == (2, None)
        assert read_frame_line(b"", output_length) == (2, None)
        assert read_frame_line(b"x" * 257, output_length) == (2, None)
    for length in range(257):
        assert read_frame_line(line[:length], 64) == (12, None)
    for wrong in (line + b"\n", line + line, b"\n" + line[:256],
                  line[:256] + b"\r", line[:256] + b" ", line[:256] + b"0",
                  line[:255] + b"\n\n", line[:256] + b"\r\n",
                  line[4:], b"   0" + line, line[1:] + b"\n"):
        assert read_frame_line(wrong, 64) == (12, None)
    for s in range(64):
        for field in BAD_FIELDS:
            wrong = with_bytes(line, 4 * s, field)
            assert read_frame_line(wrong, 64) == (12, None)


def test_frame_form():
    """12 of a frame file: too short, too long, or a bad line."""
    draw = random.Random(257)
    for N in (2, 4, 8, 256):
        frame = random_frame(draw, N, 5)
        data = frame_bytes(frame)
        assert len(data) == 257 * N
        assert read_frame(data, N) == (0, frame)
        assert read_frame(data, 2 * N) == (12, None)
        assert read_frame(data, N // 2) == (12, None)
        for wrong in (b"", data[:1], data[:-1], data[:-257], data + b"\n",
                      data + b"\x00", data + data[:257], data + data,
                      data[1:], b"\n" + data, data[257:]):
            assert read_frame(wrong, N) == (12, None)
        for place in (0, 1, N - 1):
            for field in BAD_FIELDS:
                wrong = with_bytes(data, 257 * place + 4 * (place % 64), field)
                assert read_frame(wrong, N) == (12, None)
            wrong = with_bytes(data, 257 * place + 256, b" ")
            assert read_frame(wrong, N) == (12, None)


def test_frame_values():
    """8 and 9 of a frame file, and the order 12, 8, 9."""
    good = spike(7, 31)
    no_zero = [1] * 64
    for high in (32, 33, 63, 64, 255, 256, 288, 9999):
        over = spike(7, 31)
        over[63] = high
        for vectors in ([over, good], [good, over], [over, over],
                        [over, no_zero], [no_zero, over], [[high] * 64, good]):
            frame = vectors[0] + vectors[1]
            data = frame_bytes(frame)
            assert read_frame(data, 2) == (8, None)
            # 12 comes before 8 and 9, also when found last.
            assert read_frame(data + b"\n", 2) == (12, None)
            assert read_frame(data[:-1], 2) == (12, None)
            assert read_frame(data[:257], 2) == (12, None)
            assert read_frame(with_bytes(data, 256 + 253, b"  00"), 2) == (
                12, None)
    for vectors in ([no_zero, good], [good, no_zero], [[31] * 64] * 2):
        data = frame_bytes(vectors[0] + vectors[1])
        assert read_frame(data, 2) == (9, None)
        assert read_frame(data + b"\n", 2) == (12, None)
        assert read_frame(data[:-1], 2) == (12, None)
    # A zero in any one entry is enough, and zeros alone are taken.
    for s in range(64):
        frame = spike(s, 31) + [0] * 64
        assert read_frame(frame_bytes(frame), 2) == (0, frame)


def assert_refused(code, frame, number, line):
    """Assert that a run prints that one line and no more."""
    assert returned(code, frame) == number
    assert run(code, frame) == line


def test_run_refused():
    """Runs that end with a refusal: the sheet's number, else the frame's."""
    high = frame_bytes(spike(0, 32) + spike(0, 1))
    none = frame_bytes(spike(0, 1) + [1] * 64)
    for frame in (None, b"", WORKED_FRAME, WORKED_FRAME + b"\n", high, none):
        assert_refused(None, frame, 12, b"   12\n")
        assert_refused(b"", frame, 12, b"   12\n")
        assert_refused(b"   1", frame, 12, b"   12\n")
        assert_refused(b"   0\n", frame, 1, b"    1\n")
        assert_refused(b"   9\n", frame, 1, b"    1\n")
        assert_refused(b"   8\n", frame, 12, b"   12\n")
        assert_refused(WORKED_SHEET + b"\n", frame, 12, b"   12\n")
        assert_refused(sheet_bytes(1, [1, 2], [0]), frame, 4, b"    4\n")
        assert_refused(sheet_bytes(1, [1, 1], [0]), frame, 5, b"    5\n")
        assert_refused(sheet_bytes(1, [1, 0], [64]), frame, 6, b"    6\n")
        # The longest sheet, and one line more than it.
        longest = sheet_bytes(8, [1] * 256, [1] * 1024)
        assert_refused(longest, frame, 5, b"    5\n")
        assert_refused(longest + b"   1\n", frame, 12, b"   12\n")
    for frame in (None, b"", WORKED_FRAME[:257], WORKED_FRAME[:-1],
                  WORKED_FRAME + b"\n", high + b" ", none[:-1]):
        assert_refused(WORKED_SHEET, frame, 12, b"   12\n")
    assert_refused(WORKED_SHEET, high, 8, b"    8\n")
    assert_refused(WORKED_SHEET, none, 9, b"    9\n")
    # A frame of two lines for a code of four places, and the other way round.
    four = sheet_bytes(2, [0] * 4, [1] * 4)
    assert_refused(four, WORKED_FRAME, 12, b"   12\n")
    assert_refused(WORKED_SHEET, WORKED_FRAME * 2, 12, b"   12\n")


def columns(printed):
    """The numbers of a listing, a row for each line, the form asserted."""
    assert printed.endswith(b"\n")
    rows = []
    for line in printed[:-1].split(b"\n"):
        assert len(line) % 5 == 0
        row = []
        for i in range(len(line) // 5):
            field = line[5 * i:5 * i + 5]
            assert field == b"%5d" % int(field)
            row.append(int(field))
        rows.append(row)
    return rows


def test_run_listing():
    """Listings of words sent without noise, N from 2 to 256."""
    draw = random.Random(5)
    for n in range(1, 9):
        N = 2 ** n
        map = [1] * (N // 2) + [0] * (N // 2)
        draw.shuffle(map)
        coefs = [draw.randrange(1, 64) for number in range(n * (N // 2))]
        message = [draw.randrange(64) for number in range(N // 2)]
        number, word = encode(n, map, coefs, message, N)
        assert number == ACCEPTED
        frame = []
        for symbol in word:
            frame.extend(spike(symbol, 31))
        code = sheet_bytes(n, map, coefs)
        rows = columns(run(code, frame_bytes(frame)))
        assert returned(code, frame_bytes(frame)) == 0
        assert len(rows) == N + 1
        assert rows[N] == [0]
        sent = list(message)
        for place in range(N):
            assert len(rows[place]) == 4
            symbol = 0
            if map[place] == 0:
                symbol = sent.pop(0)
            # No other value of a place is nearer than one sent symbol.
            assert rows[place][0:3] == [place, symbol, 0]
            assert rows[place][3] >= 31
        # Another value at the last place changes all N sent symbols.
        assert rows[N - 1][3] == 31 * N


def test_run_all_zero():
    """All penalties 0, and a frozen place whose 0 is not the least."""
    code = sheet_bytes(2, [0] * 4, [1] * 4)
    assert run(code, frame_bytes([0] * 256)) == (
        b"    0    0    0    0\n    1    0    0    0\n"
        b"    2    0    0    0\n    3    0    0    0\n    0\n")
    # Place 0 frozen: it holds 31 for its symbol 0 and 0 for the value 1.
    code = sheet_bytes(1, [1, 0], [1])
    assert run(code, frame_bytes(spike(1, 31) + spike(0, 31))) == (
        b"    0    0   31    0\n    1    0    0    0\n    0\n")


def self_test():
    """Assert the paper's worked rows on sheets, frame files and the program,
    and edge cases of each refusal and of their order."""
    test_fields()
    test_worked()
    test_first_line()
    test_sheet_form()
    test_sheet_values()
    test_sheet_lengths()
    test_frame_line()
    test_frame_form()
    test_frame_values()
    test_run_refused()
    test_run_listing()
    test_run_all_zero()


if __name__ == "__main__":
    self_test()
    print("worked rows and refusals of the readers and the program hold")
