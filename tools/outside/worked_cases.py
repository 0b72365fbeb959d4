"""Records of the rows that the paper works by hand, with what it says of each.

What the rules give for a row is compared with the paper's own numbers before
its record is used, so the recorded line stands for them.
"""

import calls
import records

from records import repeated, written

# N = 4 with each place a message place.
FOUR = dict(n=2, map=repeated(4, 0), symbols=repeated(4, 255))

# N = 2 with place 0 frozen.
TWO = dict(n=1, map=written([1, 0]))

# What the lent buffers of a call for N = 2 hold before it.
LENT = dict(work=repeated(130, 4711), symbols=repeated(2, 255),
            report=repeated(128, 4711), totals=repeated(2, 65535))


def spike(value, rest):
    """The 64 penalties of a place: 0 at a value, the same at all others."""
    return [0 if b == value else rest for b in range(64)]


def encode_rows():
    """The two transforms of N = 4."""
    for coefs, message, word in (((1, 1, 1, 1), (0, 1, 2, 3), (0, 2, 1, 3)),
                                 ((2, 1, 1, 1), (0, 0, 0, 7), (7, 7, 14, 7))):
        call = dict(FOUR, coefs=written(coefs), message=written(message))
        yield "e", call, [0], dict(symbols=word)


def spread_rows():
    """Base 1, by which symbol 1 has only chip 63 set, and base 2^32 + 1."""
    call = dict(symbols=written([1]), numbers=repeated(1, 4711))
    yield "s", dict(call, base=1), [0], dict(numbers=[2 ** 63])
    yield "s", dict(call, base=2 ** 32 + 1), [10], {}


def weigh_rows():
    """Base 1, samples +10 except chip 0 at -10, Qc 3, and three gains."""
    samples = repeated(64, 10).with_entry(0, -10 % 256)
    for bottom, penalty in ((4, 5), (40, 0), (20, 1)):
        call = dict(base=1, samples=samples, top=1, bottom=bottom, Qc=3,
                    frame=repeated(64, 4711))
        yield "d", call, [0], dict(frame=spike(0, penalty))


def lost_rows():
    """The same with gain 1/4 and chip 0 lost, and with all samples lost."""
    for samples, penalty in ((repeated(64, 10).with_entry(0, -128 % 256), 2),
                             (repeated(64, -128 % 256), 0)):
        call = dict(base=1, samples=samples, top=1, bottom=4, Qc=3,
                    frame=repeated(64, 4711))
        yield "d", call, [0], dict(frame=spike(0, penalty))


def decode_rows():
    """The two frames of N = 2; the second clips at Qc = Qm = 2.

    With 0 decided at place 0 the sums of place 1 are, in the first frame, 2,
    but 1 at 4 and 5: 1 is taken off.  In the second they are 6, but 0 at 33,
    as 2 times 33 is 1: nothing is taken off, clipped or not."""
    frame = written(spike(5, 1) + spike(4, 1))
    last = [0 if b in (4, 5) else 1 for b in range(64)]
    for Qm in (1, 13):
        call = dict(TWO, coefs=written([1]), Qc=1, Qm=Qm, m=64, frame=frame,
                    **LENT)
        yield "D", call, [0, 0], dict(
            work=[0] * 130, symbols=[0, 4], report=spike(1, 1) + last,
            totals=[0, 1])
    frame = written(spike(33, 3) + spike(1, 3))
    for Qc, Qm, count, far in ((5, 13, 0, 6), (2, 2, 63, 3)):
        call = dict(TWO, coefs=written([2]), Qc=Qc, Qm=Qm, m=64, frame=frame,
                    **LENT)
        yield "D", call, [0, count], dict(
            work=[0] * 130, symbols=[0, 33],
            report=spike(0, 3) + spike(33, far), totals=[0, 0])


# N = 4 with all coefficients 1 and place 3 alone a message place, and what the
# lent buffers of a call for it hold.
LAST = dict(n=2, map=written([1, 1, 1, 0]), coefs=repeated(4, 1), m=64,
            work=repeated(260, 4711), symbols=repeated(4, 255),
            report=repeated(256, 4711), totals=repeated(4, 65535))


def penalties(others, rest):
    """64 penalties: some by value, the same at all others."""
    return [others.get(b, rest) for b in range(64)]


def apart_row(Qc, Qm):
    """Four vectors that are 0 at 1, 2, 4 and 8, else 1, 2, 3 and 4.

    Layer 1, kernels of places 0 and 2, 1 and 3.  Check nodes: 0 at 5, else
    1; and 0 at 10, else 2.
    Layer 2, place 0: 0 at 15, else 1.  It is frozen, so it is 0.
    Layer 2, place 1: the sums are 2 at 5, 1 at 10, else 3; 1 is taken off.
    Layer 1, variable nodes with 0 and 0 before them: the sums are 3 at 1, 1
    at 4, else 4, and 1 is taken off; 4 at 2, 2 at 8, else 6, and 2 is taken
    off.  That is 3 for places 2 and 3.
    Layer 2, place 2, of (2 at 1, 0 at 4, else 3) and (2 at 2, 0 at 8, else
    4): 0 at 12, 2 at 6 and 9, else 3.
    Layer 2, place 3: the sums are 6 at 1, 5 at 2, 4 at 4, 3 at 8, else 7; 3
    is taken off, which is 6 with the 3 before.
    """
    frame = spike(1, 1) + spike(2, 2) + spike(4, 3) + spike(8, 4)
    report = spike(15, 1) + penalties({5: 1, 10: 0}, 2)
    report += penalties({12: 0, 6: 2, 9: 2}, 3)
    report += penalties({1: 3, 2: 2, 4: 1, 8: 0}, 4)
    call = dict(LAST, Qc=Qc, Qm=Qm, frame=written(frame))
    return "D", call, [0, 0], dict(
        work=[0] * 260, symbols=[0, 0, 0, 8], report=report,
        totals=[0, 1, 3, 6])


def beside_row(Qc, Qm):
    """Four vectors that are 0 at 1, 2, 4 and 2, else 3.

    Check nodes of layer 1: 0 at 5, else 3; 0 at 0, else 3.  Place 0: 0 at 5,
    else 3.  Place 1: the sums are 3 at 0 and 5, else 6; 3 is taken off.
    Variable nodes of layer 1: the sums are 3 at 1 and 4, else 6, and 3 is
    taken off; 0 at 2, else 6, and nothing is taken off.  With Qm = 2 these 63
    entries are clipped to 3.
    Place 2, of (0 at 1 and 4, else 3) and of what is 0 at 2: 0 at 3 and 6,
    else 3.  It has 3 and nothing.
    Place 3, clipped: the sums are 3 at 1, 2 and 4, else 6.  Not clipped: 6 at
    1, 3 at 2, 6 at 4, else 9.  3 is taken off in either, which is 6.
    """
    frame = spike(1, 3) + spike(2, 3) + spike(4, 3) + spike(2, 3)
    report = spike(5, 3) + penalties({0: 0, 5: 0}, 3)
    report += penalties({3: 0, 6: 0}, 3)
    if Qm == 2:
        report += penalties({1: 0, 2: 0, 4: 0}, 3)
    else:
        report += penalties({1: 3, 2: 0, 4: 3}, 6)
    call = dict(LAST, Qc=Qc, Qm=Qm, frame=written(frame))
    return "D", call, [0, 63 if Qm == 2 else 0], dict(
        work=[0] * 260, symbols=[0, 0, 0, 1 if Qm == 2 else 2],
        report=report, totals=[0, 3, 3, 6])


def clipped_row(Qc, Qm):
    """Four vectors that are 0 at 1, 2, 1 and 2, else 3.

    Check nodes of layer 1: 0 at 0, else 3, both.  Place 0: the same.  Place
    1: 0 at 0, else 6, and nothing is taken off.
    Variable nodes of layer 1: 0 at 1, else 6; 0 at 2, else 6; nothing is
    taken off.  With Qm = 2 each of these three 6 is a 3, for 63 entries.
    Place 2: 0 at 3, else 6 or 3.
    Place 3: the sums are 6 at 1 and 2, else 12, and 6 is taken off; clipped
    they are 3 at 1 and 2, else 6, and 3 is taken off.
    """
    frame = spike(1, 3) + spike(2, 3) + spike(1, 3) + spike(2, 3)
    far = 3 if Qm == 2 else 6
    report = spike(0, 3) + spike(0, far) + spike(3, far)
    report += penalties({1: 0, 2: 0}, far)
    call = dict(LAST, Qc=Qc, Qm=Qm, frame=written(frame))
    return "D", call, [0, 189 if Qm == 2 else 0], dict(
        work=[0] * 260, symbols=[0, 0, 0, 1], report=report,
        totals=[0, 0, 0, far])


def totals_rows():
    """Frames of N = 4, which the paper does not have, worked by hand for the
    sake of their totals, at two precisions each."""
    for Qm in (3, 13):
        yield apart_row(3, Qm)
    for Qm in (2, 13):
        yield beside_row(2, Qm)
        yield clipped_row(2, Qm)


def shorter_rows():
    """A frame of N = 2 with coefficient 2, which the paper does not have,
    worked by hand for some m.

    The first vector is 0 at 0, else 3; the second is 0 at 1, 1 at 3 and 4,
    else 3.  2 times 33 is 1, 2 times 2 is 4 and 2 times 32 is 3, so the values
    in order are 33 with 0, then 2 and 32 with 1, 2 before 32 as it is smaller,
    then all others with 3.
    Place 0: 33 gives 0 at 33, else 3; 2 gives 1 at 2, 32 gives 1 at 32, if
    they are tried; the others give nothing below 3.  So it is 33.
    Place 1: the sums are 0 at 33, 4 at 2 and 32, else 6, whatever m is.  With
    Qm = 2 all but one are clipped to 3.
    """
    frame = written(spike(0, 3) + penalties({1: 0, 3: 1, 4: 1}, 3))
    for m, others in ((1, {33: 0}), (2, {33: 0, 2: 1}),
                      (3, {33: 0, 2: 1, 32: 1}), (4, {33: 0, 2: 1, 32: 1}),
                      (64, {33: 0, 2: 1, 32: 1})):
        for Qm, count, last in ((13, 0, penalties({33: 0, 2: 4, 32: 4}, 6)),
                                (2, 63, spike(33, 3))):
            call = dict(n=1, map=repeated(2, 0), coefs=written([2]), Qc=2,
                        Qm=Qm, m=m, frame=frame, **LENT)
            yield "D", call, [0, count], dict(
                work=[0] * 130, symbols=[33, 33],
                report=penalties(others, 3) + last, totals=[0, 0])


def listing_rows():
    """What the program prints for the second frame."""
    printed = b"    0    0    0    3\n    1   33    0    6\n    0\n"
    call = dict(TWO, coefs=written([2]), text=repeated(48, 255),
                frame=written(spike(33, 3) + spike(1, 3)))
    yield "o", call, [0], dict(text=list(printed))


def trip_rows():
    """The message 33 sent with base 1 such that the frame is that one; with a
    gain for which the premise of the noiseless statement fails; and with an
    amplitude that is out of range."""
    lent = dict(LENT, samples=repeated(128, 128), frame=repeated(128, 4711),
                text=repeated(1, 255))
    for amplitude, top, bottom, Qc, Qm, numbers, left in (
            (10, 3, 20, 5, 13, [0, 0], dict(text=[33], totals=[0, 0])),
            (10, 3, 20, 2, 2, [0, 63], dict(text=[33], totals=[0, 0])),
            (10, 1, 40, 3, 13, [0, 0], dict(text=[0], totals=[0, 0])),
            (128, 3, 20, 5, 13, [19], {})):
        call = dict(TWO, coefs=written([2]), message=written([33]), base=1,
                    amplitude=amplitude, top=top, bottom=bottom, Qc=Qc, Qm=Qm,
                    m=64, **lent)
        yield "t", call, numbers, left


def sheet_rows():
    """First lines of a sheet for n = 8, and the worked sheet."""
    rest = b"   0\n" * 256 + b"   1\n" * 1024
    for data, numbers, left in (
            (b"   8\n" + rest, [0, 8], dict(map=[0] * 256, coefs=[1] * 1024)),
            (b"   9\n" + rest, [1], {}),
            (b"  08\n" + rest, [12], {}),
            (b"   1\n   1\n   0\n   2\n", [0, 1],
             dict(map=[1, 0], coefs=[2]))):
        yield "h", dict(text=written(data), map=repeated(256, 255),
                        coefs=repeated(1024, 255)), numbers, left


def written_sheet_rows():
    """The worked sheet written; then a code of n = 8, which is taken, and the
    same with n = 9, which gives 1."""
    rest = b"   0\n" * 256 + b"   1\n" * 1024
    call = dict(TWO, coefs=written([2]), text=repeated(20, 255))
    yield "w", call, [0], dict(text=list(b"   1\n   1\n   0\n   2\n"))
    call = dict(n=8, map=repeated(256, 0), coefs=repeated(1024, 1),
                text=repeated(6405, 255))
    yield "w", call, [0], dict(text=list(b"   8\n" + rest))
    yield "w", dict(call, n=9), [1], {}


def written_line_rows():
    """The two lines of the worked frame written."""
    for value, line in (
            (33, b"   3" * 33 + b"   0" + b"   3" * 30 + b"\n"),
            (1, b"   3" + b"   0" + b"   3" * 62 + b"\n")):
        call = dict(frame=written(spike(value, 3)), text=repeated(257, 255))
        yield "x", call, [0], dict(text=list(line))


def premise_rows():
    """Base 1 and amplitude 10: gain 1/40, for which the premise of the
    noiseless statement fails, and 1/20, for which it holds."""
    for bottom, holds in ((40, 0), (20, 1)):
        call = dict(base=1, amplitude=10, top=1, bottom=bottom)
        yield "k", call, [0, holds], {}


def compare_products():
    """Compare the four products with what both calls give.  They have no
    records of their own; field_cases.py has those of all products."""
    for x, y, product in ((2, 32, 3), (2, 33, 1), (32, 32, 48), (63, 63, 42)):
        assert calls.product(x, y) == product
        assert calls.worked_out_product(x, y) == product


def rows():
    """All rows: the letter, the call, the numbers answered, what is left."""
    for part in (encode_rows, spread_rows, weigh_rows, lost_rows, decode_rows,
                 listing_rows, trip_rows, sheet_rows, written_sheet_rows,
                 written_line_rows):
        yield from part()


def compared(found_rows):
    """The records of rows, each compared with what is said of it."""
    for letter, call, numbers, left in found_rows:
        line = records.record(letter, call)
        found, entries = calls.CALLS[letter](records.Buffers().expand(line)[1])
        assert found == numbers, line
        for name in left:
            assert list(entries[name]) == list(left[name]), line
        yield [line]


def blocks():
    """The records of the rows of the paper; those of totals_rows() are used
    in totals_cases.py, those of shorter_rows() in shorter_cases.py, those of
    premise_rows() in distance_cases.py."""
    yield from compared(rows())
