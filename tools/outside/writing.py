"""Writers of code sheets and frame lines, written literally from request 01
and from the paper's section "The code sheet and the program". Plain and slow
on purpose.

The numbers of the refusals are those of scms.py and decoding.py; the
conditions and the bytes are worked out here, and nothing here reads a sheet or
a line but the tests. A lent output is given by its length alone. n can be any
number that is not negative, map bytes and coefficients are bytes, penalties
are 16-bit numbers.

Open points in the papers, and the reading chosen for each:

 1. "The checks that apply to their inputs" are, for the sheet writer, 1, 2, 4,
    5 and 6, and for the line writer 2, 8 and 9, each in this rising order, as
    the request's own notes say. The sheet reader's order has 12 in it; the
    writers have no 12, as they are given no text.
 2. With n outside 1 to 8 there is no N, so the lengths, the map and the
    coefficients are not looked at. n is a number of 64 bits and is never cut:
    257 and 2^32 + 1 give 1.
 3. Every length is exact. A longer map, coefficient or output slice gives 2
    like a shorter one, though the sheet reader takes longer buffers. Which of
    the lengths is wrong makes no difference.
 4. 5 is tried when no map byte is above 1, so a map of 1 and 2 gives 4.
 5. "Frame writing with Qc = 5": the greatest penalty that is written is 31. A
    penalty has 16 bits and is never cut, so 256 gives 8.
 6. "Then 8, 9" is over the whole line: a penalty above 31 gives 8, also where
    the line has no 0.
 7. The line writer is given one place's penalties and neither n nor a place. A
    frame file is its lines one after the other, nothing between or after them;
    there is no call that writes a whole frame.
 8. The form is that of the readers: a blank is byte 32, a digit is 48 to 57,
    the number 0 is one digit 0, a line feed is byte 10. No number written has
    more than two digits, so each field begins with two blanks.
 9. In a sheet the line feed ends each line, also the last; in a frame line it
    stands once, after the 64 fields. No carriage return is written.
10. "Must be taken by the readers" is for buffers that are long enough: exact
    ones or longer for a sheet, 64 numbers for a line.
11. "An accepted sheet" is one that the sheet reader takes. It has one form for
    its numbers, so what is written of them is the same bytes.
12. A line that the reader takes can have numbers up to 9999 and no 0. The
    writer refuses these by 8 and 9, as the request's notes say; of the others
    it writes the same bytes.
13. On a refusal the output is as it came, which is shown by the result None.
    Else every byte of it is written, whatever it held.
"""

import random

from scms import (
    ACCEPTED,
    REFUSED_COEFFICIENT,
    REFUSED_LENGTH,
    REFUSED_MAP_BYTE,
    REFUSED_N,
    REFUSED_NO_MESSAGE_PLACE,
)
from decoding import (
    REFUSED_NO_ZERO,
    REFUSED_PENALTY,
    random_frame,
    spike,
)
import reading


# The precision that a frame is written with.
WRITER_QC = 5

# Bytes of a sheet or a frame line.
LINE_FEED = b"\n"
BLANK = 32
DIGIT_0 = 48


# --- Fields and lines --------------------------------------------------------

def digits_of(number):
    """The bytes of a number's digits, with no leading zero; 0 has one."""
    digits = bytes([DIGIT_0 + number % 10])
    number = number // 10
    while number > 0:
        digits = bytes([DIGIT_0 + number % 10]) + digits
        number = number // 10
    return digits


def field(number):
    """Four columns: blanks, and the digits of the number at the right."""
    digits = digits_of(number)
    return bytes([BLANK] * (4 - len(digits))) + digits


def sheet_line(number):
    """One line of a sheet."""
    return field(number) + LINE_FEED


# --- Sheet writer ------------------------------------------------------------

def sheet_refusal(n, map, coefs, output_length):
    """The number by which the sheet writer refuses, or 0."""
    if n < 1 or n > 8:
        return REFUSED_N
    N = 2 ** n
    if len(map) != N:
        return REFUSED_LENGTH
    if len(coefs) != n * (N // 2):
        return REFUSED_LENGTH
    if output_length != 5 * (1 + N + n * (N // 2)):
        return REFUSED_LENGTH
    for byte in map:
        if byte > 1:
            return REFUSED_MAP_BYTE
    if 0 not in map:
        return REFUSED_NO_MESSAGE_PLACE
    for h in coefs:
        if h == 0 or h > 63:
            return REFUSED_COEFFICIENT
    return ACCEPTED


def write_sheet(n, map, coefs, output_length):
    """The sheet writer: (0, the bytes of the output), or (refusal, None)."""
    refusal = sheet_refusal(n, map, coefs, output_length)
    if refusal != ACCEPTED:
        return (refusal, None)
    data = sheet_line(n)
    for byte in map:
        data = data + sheet_line(byte)
    for h in coefs:
        data = data + sheet_line(h)
    return (ACCEPTED, data)


# --- Line writer -------------------------------------------------------------

def line_refusal(penalties, output_length):
    """The number by which the line writer refuses, or 0."""
    if len(penalties) != 64:
        return REFUSED_LENGTH
    if output_length != 257:
        return REFUSED_LENGTH
    for penalty in penalties:
        if penalty > 2 ** WRITER_QC - 1:
            return REFUSED_PENALTY
    if 0 not in penalties:
        return REFUSED_NO_ZERO
    return ACCEPTED


def write_frame_line(penalties, output_length):
    """The line writer: (0, the bytes of the output), or (refusal, None)."""
    refusal = line_refusal(penalties, output_length)
    if refusal != ACCEPTED:
        return (refusal, None)
    line = b""
    for penalty in penalties:
        line = line + field(penalty)
    return (ACCEPTED, line + LINE_FEED)


# --- Codes and frames for the tests ------------------------------------------

def sizes(n):
    """The lengths of map, coefficients and output for n layers."""
    N = 2 ** n
    needed = n * (N // 2)
    return N, needed, 5 * (1 + N + needed)


def random_code(draw, n):
    """Map and coefficients of a code: any, or at their limits."""
    N, needed, length = sizes(n)
    map = [draw.randrange(2) for place in range(N)]
    if draw.randrange(3) == 0:
        map = [1] * N
    map[draw.randrange(N)] = 0
    coefs = [draw.choice([1, 9, 10, 63, draw.randrange(1, 64)])
             for number in range(needed)]
    return map, coefs


def written_frame(frame):
    """The bytes of all lines of a frame, each of them taken."""
    data = b""
    for place in range(len(frame) // 64):
        number, line = write_frame_line(frame[64 * place:64 * place + 64], 257)
        assert number == ACCEPTED
        data = data + line
    return data


# --- Tests -------------------------------------------------------------------

def test_fields():
    """A field has four bytes and is read as the number that it is of."""
    for number in range(10000):
        assert len(field(number)) == 4
        assert reading.field_number(field(number)) == number
    assert field(0) == b"   0"
    assert field(9) == b"   9"
    assert field(10) == b"  10"
    assert field(63) == b"  63"


def test_worked():
    """The paper's worked sheet and frame."""
    assert write_sheet(1, [1, 0], [2], 20) == (
        0, b"   1\n   1\n   0\n   2\n")
    assert write_frame_line(spike(33, 3), 257) == (
        0, b"   3" * 33 + b"   0" + b"   3" * 30 + b"\n")
    assert write_frame_line(spike(1, 3), 257) == (
        0, b"   3   0" + b"   3" * 62 + b"\n")
    number, code = write_sheet(1, [1, 0], [2], 20)
    assert reading.run(code, written_frame(spike(33, 3) + spike(1, 3))) == (
        b"    0    0    0    3\n    1   33    0    6\n    0\n")
    # `   8` is taken, 9 gives 1.
    number, code = write_sheet(8, [0] * 256, [1] * 1024, 6405)
    assert (number, code[:5]) == (0, b"   8\n")
    assert write_sheet(9, [0] * 256, [1] * 1024, 6405) == (1, None)


def test_sheet_read_back():
    """What is written is read back to the same numbers, for each n."""
    draw = random.Random(1)
    for n in range(1, 9):
        N, needed, length = sizes(n)
        for i in range(6):
            map, coefs = random_code(draw, n)
            number, data = write_sheet(n, map, coefs, length)
            assert number == ACCEPTED
            assert len(data) == length
            for more in (0, 1, 70):
                assert reading.read_sheet(data, N + more, needed + more) == (
                    0, (n, map, coefs))


def test_sheet_same_bytes():
    """An accepted sheet, read and written, is the same bytes."""
    draw = random.Random(2)
    sheets = [reading.WORKED_SHEET]
    for n in range(1, 9):
        for i in range(6):
            map, coefs = random_code(draw, n)
            sheets.append(reading.sheet_bytes(n, map, coefs))
    for data in sheets:
        number, found = reading.read_sheet(data, 256, 1024)
        assert number == ACCEPTED
        n, map, coefs = found
        assert write_sheet(n, map, coefs, len(data)) == (0, data)


def test_sheet_as_read():
    """For exact lengths the writer's number is the reader's for the sheet that
    the numbers would make."""
    draw = random.Random(3)
    for i in range(3000):
        n = draw.choice([1, 1, 1, 2, 2, 3, 0, 9, 255, 257])
        N, needed, length = sizes(n if 1 <= n <= 8 else 1)
        map = [draw.choice([0, 1, 1, 1]) for place in range(N)]
        coefs = [draw.randrange(1, 64) for number in range(needed)]
        if draw.randrange(3) == 0:
            map[draw.randrange(N)] = draw.choice([2, 3, 48, 255])
        if draw.randrange(3) == 0:
            coefs[draw.randrange(needed)] = draw.choice([0, 64, 65, 255])
        wanted, found = reading.read_sheet(
            reading.sheet_bytes(n, map, coefs), N, needed)
        number, data = write_sheet(n, map, coefs, length)
        assert number == wanted
        assert (data is None) == (number != ACCEPTED)


def test_sheet_layers():
    """1, whatever else there is."""
    for n in (0, 9, 10, 255, 256, 257, 264, 300, 65537, 2 ** 32 + 1, 2 ** 63,
              2 ** 64 - 1):
        for map, coefs, length in (([1, 0], [2], 20), ([0], [], 10),
                                   ([], [], 0), ([2, 2], [0], 20),
                                   ([1, 1], [64], 19)):
            assert write_sheet(n, map, coefs, length) == (1, None)


def test_sheet_lengths():
    """2 for each length that is not exact, also by what would give 4, 5, 6."""
    for n in range(1, 9):
        N, needed, length = sizes(n)
        for map_length in (0, N - 1, N, N + 1, 2 * N):
            for coefs_length in (0, needed - 1, needed, needed + 1):
                for output in (0, length - 5, length - 1, length, length + 1):
                    exact = (map_length, coefs_length, output) == (
                        N, needed, length)
                    number, data = write_sheet(
                        n, [0] * map_length, [1] * coefs_length, output)
                    assert number == (0 if exact else 2)
                    for byte, wanted in ((2, 4), (1, 5)):
                        number, data = write_sheet(
                            n, [byte] * map_length, [0] * coefs_length, output)
                        assert number == (wanted if exact else 2)


def test_sheet_values():
    """4, 5 and 6 at each place and kernel, and their order."""
    for n in (1, 2, 3):
        N, needed, length = sizes(n)
        for place in range(N):
            map = [1] * N
            map[place] = 0
            assert write_sheet(n, map, [63] * needed, length)[0] == 0
            for byte in (2, 3, 255):
                for rest in (0, 1):
                    for h in (0, 1):
                        map = [rest] * N
                        map[place] = byte
                        assert write_sheet(n, map, [h] * needed, length) == (
                            4, None)
        for h in (0, 1, 64):
            assert write_sheet(n, [1] * N, [h] * needed, length) == (5, None)
        for kernel in range(needed):
            for h in range(256):
                coefs = [1] * needed
                coefs[kernel] = h
                number, data = write_sheet(n, [0] * N, coefs, length)
                assert number == (0 if h in range(1, 64) else 6)


def test_line_read_back():
    """What is written is read back to the same penalties."""
    draw = random.Random(4)
    for i in range(100):
        penalties = random_frame(draw, 1, 5)
        number, line = write_frame_line(penalties, 257)
        assert number == ACCEPTED
        assert len(line) == 257
        assert reading.read_frame_line(line, 64) == (0, penalties)
    for s in range(64):
        for most in (1, 9, 10, 31):
            number, line = write_frame_line(spike(s, most), 257)
            assert reading.read_frame_line(line, 64) == (0, spike(s, most))


def test_line_same_bytes():
    """A line that is read, with no number above 31 and with a 0, is written as
    the same bytes; another one is refused as a frame file of it would be."""
    draw = random.Random(5)
    for i in range(600):
        most = draw.choice([0, 1, 9, 31, 32, 100, 9999])
        low = draw.choice([0, 0, 1])
        numbers = [draw.randrange(low, most + 2) for s in range(64)]
        numbers = [min(number, 9999) for number in numbers]
        data = reading.frame_line_bytes(numbers)
        assert reading.read_frame_line(data, 64) == (0, numbers)
        wanted, frame = reading.read_frame(data, 1)
        if max(numbers) <= 31 and 0 in numbers:
            assert wanted == 0
            assert write_frame_line(numbers, 257) == (0, data)
        else:
            assert wanted in (8, 9)
            assert write_frame_line(numbers, 257) == (wanted, None)


def test_line_refusals():
    """2, 8 and 9 of the line writer, and their order."""
    for count in (0, 1, 63, 64, 65, 128):
        for length in (0, 5, 4 * count + 1, 256, 257, 258, 514):
            exact = count == 64 and length == 257
            for entry, wanted in ((0, 0), (1, 9), (31, 9), (32, 8), (256, 8),
                                  (65535, 8)):
                number, line = write_frame_line([entry] * count, length)
                assert number == (wanted if exact else 2)
    for s in range(64):
        for high in (32, 33, 63, 255, 256, 257, 9999, 65535):
            for rest in (0, 1, 31):
                penalties = [rest] * 64
                penalties[s] = high
                assert write_frame_line(penalties, 257) == (8, None)


def test_frames():
    """Whole frames: the lines one after the other are the frame file."""
    draw = random.Random(6)
    for n in range(1, 9):
        frame = random_frame(draw, 2 ** n, 5)
        data = written_frame(frame)
        assert data == reading.frame_bytes(frame)
        assert reading.read_frame(data, 2 ** n) == (0, frame)


def self_test():
    """Assert the paper's worked rows for what is written, that what is written
    is read back, and edge cases of each refusal and of their order."""
    test_fields()
    test_worked()
    test_sheet_read_back()
    test_sheet_same_bytes()
    test_sheet_as_read()
    test_sheet_layers()
    test_sheet_lengths()
    test_sheet_values()
    test_line_read_back()
    test_line_same_bytes()
    test_line_refusals()
    test_frames()


if __name__ == "__main__":
    self_test()
    print("worked rows and refusals of the writers hold")
