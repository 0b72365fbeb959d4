"""Records of calls of the decoder and of round trips for the sake of their
totals.

First come calls that are refused: the totals have another length than N, alone
and with each other refusal of the call; or a length of N, and the call is
refused for something else.  The totals lent to these have drawn numbers above
0, so that it shows where one is written.  Frames worked by hand are among
them.  Then come calls that are taken, for every n.
"""

import calls
import link_cases
import records
import worked_cases

from decode_cases import DAMAGES, code_call, draw_call
from draws import Generator, draw_base, halves_alike, pick
from pieces import (
    codeword,
    coefs_slice,
    damaged,
    fit_to_map,
    frame_slice,
    near_frame,
    pick_of,
    places,
    plain_frame,
    symbols_slice,
)
from scms import transform

REFUSED_SEED = 303
TAKEN_SEED = 7812

# Slices of each call that have a wrong length together with the totals.
DECODE_SLICES = ("map", "coefs", "frame", "work", "symbols", "report")
TRIP_SLICES = ("samples", "symbols", "message")


# --- Totals of another length ------------------------------------------------

def full(generator, length):
    """Totals of drawn numbers, none of them 0."""
    return records.drawn(length, generator.draw(), 1, 65535, 65535)


def other_lengths(size):
    """Lengths of the totals that are refused for so many places; one of them
    has the lowest byte of the right one."""
    lengths = (size - 1, size + 1, 0, 2 * size, size + 256, 599)
    return tuple(sorted(set(lengths)))


def small_code(generator):
    """The n of a refused call, from 1 to 3."""
    return generator.draw() % 3 + 1


def any_other_length(generator, n):
    """One of the lengths that are refused, or that for one layer less."""
    return pick(generator, other_lengths(2 ** n) + (2 ** (n - 1),))


def damages_of_slice(name, damages):
    """The damages that give a slice another length."""
    return [damage for damage in damages if damage.slice == name]


def twice_chosen(generator, damages, slices):
    """A damage of each refusal other than 2, and of each slice's length."""
    numbers = sorted({damage.refusal for damage in damages} - {2})
    for number in numbers:
        yield pick_of(generator, damages, number)
    for name in slices:
        yield pick(generator, damages_of_slice(name, damages))


# --- Refused calls of the decoder --------------------------------------------

def decode_with(generator, n, damages, length):
    """The record of a call with damages, and totals of a length; the frame of
    a long one is of a kind that is short to write."""
    call = draw_call(generator, n, generator.draw() % 4 if n < 5 else 0)
    call = damaged(generator, call, damages)
    call["totals"] = full(generator, length)
    return [records.record("D", call)]


def decode_alone(generator, layers):
    """Totals of each other length and nothing else."""
    for n in layers:
        for length in other_lengths(2 ** n):
            yield decode_with(generator, n, [], length)


def decode_twice(generator):
    """Totals of another length, and one refusal more."""
    for _ in range(2):
        for damage in twice_chosen(generator, DAMAGES, ()):
            n = small_code(generator)
            yield decode_with(generator, n, [damage],
                              any_other_length(generator, n))
    for damage in twice_chosen(generator, DAMAGES, DECODE_SLICES):
        n = small_code(generator)
        yield decode_with(generator, n, [damage], 2 ** n - 1)


def decode_otherwise(generator):
    """Totals of the right length, and something else that is refused."""
    for damage in twice_chosen(generator, DAMAGES, DECODE_SLICES):
        n = small_code(generator)
        yield decode_with(generator, n, [damage], 2 ** n)


def exchanged(generator):
    """Totals and another slice of wrong lengths that add up to the right one;
    and lengths that would fit a code of one layer less, or of one more."""
    for name, other, length in (("symbols", 9, 7), ("symbols", 7, 9),
                                ("report", 8, 512)):
        call = draw_call(generator, 3, 0)
        call[name] = call[name].of_length(other)
        call["totals"] = full(generator, length)
        yield [records.record("D", call)]
    for n, more in ((2, -1), (3, -1), (2, 1), (7, 1)):
        yield decode_with(generator, n, [], 2 ** (n + more))
    call = draw_call(generator, 1, 0)
    call["n"] = 9
    call["totals"] = full(generator, 512)
    yield [records.record("D", call)]


# --- Refused round trips -----------------------------------------------------

def trip_with(generator, n, damages, length):
    """The record of a round trip with damages, and totals of a length."""
    call = link_cases.draw_call(generator, n)
    call = damaged(generator, call, damages, ["message", "text"])
    call["totals"] = full(generator, length)
    return [records.record("t", call)]


def trip_alone(generator):
    """Totals of each other length and nothing else."""
    for n in (1, 2):
        for length in other_lengths(2 ** n):
            yield trip_with(generator, n, [], length)


def trip_twice(generator):
    """Totals of another length, and one refusal more."""
    for damage in twice_chosen(generator, link_cases.DAMAGES, TRIP_SLICES):
        n = small_code(generator)
        yield trip_with(generator, n, [damage],
                        any_other_length(generator, n))


def longest(generator):
    """A round trip with each lent slice as long as its buffer, all zeros but
    the totals.  Those of the buffers that keep their contents are all zeros
    after it."""
    call = link_cases.draw_call(generator, 2)
    fit_to_map(call, ["message"])
    for name in records.lent_names("t"):
        call[name] = records.repeated(records.BUFFERS[name][1], 0)
    call["totals"] = full(generator, records.BUFFERS["totals"][1])
    return [records.record("t", call)]


def first_blocks():
    """The records of short calls, most of them refused.  They come before all
    others; the last one leaves the buffers as they are at the start, so that
    the lines of the records after these don't depend on them."""
    generator = Generator(REFUSED_SEED)
    yield from decode_alone(generator, (1, 2, 3))
    yield from trip_alone(generator)
    yield from decode_twice(generator)
    yield from decode_otherwise(generator)
    yield from exchanged(generator)
    yield from trip_twice(generator)
    yield from worked_cases.compared(worked_cases.totals_rows())
    yield longest(generator)


# --- Maps and frames of calls that are taken ---------------------------------

def half_frozen(generator, size):
    """The first places frozen, about half of them."""
    first = max(1, size // 2 - generator.draw() % (size // 4 + 1))
    return records.written([1] * first + [0] * (size - first), 1)


def scattered(generator, size):
    """Any places frozen, but for one."""
    free = generator.draw() % size
    return records.drawn(
        size, generator.draw(), 0, 2, 1).with_entry(free, 0)


def all_but_one(generator, size):
    """All places frozen but one."""
    return records.repeated(size, 1).with_entry(generator.draw() % size, 0)


def all_but_last(generator, size):
    """All places frozen but the last."""
    return records.repeated(size, 1).with_entry(size - 1, 0)


def none_frozen(generator, size):
    """No place frozen."""
    return records.repeated(size, 0)


MAPS = (half_frozen, scattered, all_but_one, all_but_last)


def far_frame(generator, most, word):
    """Each penalty the largest but for one 0 in each vector: what is taken
    off is the most."""
    return records.vectors(64 * len(word), generator.draw(), most, 1, most)


def any_frame(generator, most, word):
    """Any penalties."""
    return plain_frame(generator, 0, len(word), most)


def tied_frame(generator, most, word):
    """Penalties 0 and 1, and a few others."""
    return frame_slice(generator, 1, most, word)


def large_frame(generator, most, word):
    """Penalties from half the largest on, but for one 0 in each vector."""
    return records.vectors(64 * len(word), generator.draw(),
                           (most + 1) // 2, most // 2 + 1, most)


def zero_frame(generator, most, word):
    """No penalty above 0."""
    return records.repeated(64 * len(word), 0)


FRAMES = (any_frame, far_frame, near_frame, tied_frame, large_frame)


def taken(generator, n, draw_map, draw_frame, Qc, Qm):
    """The record of a call that is taken."""
    map = draw_map(generator, 2 ** n)
    coefs = coefs_slice(generator, n * 2 ** n // 2)
    message = symbols_slice(generator, places(map))
    word = codeword(n, map, coefs, message)
    frame = draw_frame(generator, 2 ** Qc - 1, word)
    call = code_call(generator, n, map, coefs, Qc, Qm, frame)
    return [records.record("D", call)]


def each_blocks(generator):
    """Each kind of frame for every n, with Qm = 13 and with a low Qm."""
    for n in range(1, 9):
        for i, draw_frame in enumerate(FRAMES):
            Qc = (i + 2 * n) % 5 + 1
            yield taken(generator, n, MAPS[(i + n) % len(MAPS)], draw_frame,
                        Qc, 13)
            Qc = (i + n) % 5 + 1
            yield taken(generator, n, MAPS[(i + n // 2) % len(MAPS)],
                        draw_frame, Qc, Qc + i // 4)


def far_blocks(generator):
    """The largest penalties for each Qc, with Qm = Qc and with Qm = 13."""
    for Qc in range(1, 6):
        for n, Qm in ((2, Qc), (4, Qc), (6, Qc), (4, 13)):
            draw_map = MAPS[(Qc + n // 2) % len(MAPS)]
            yield taken(generator, n, draw_map, far_frame, Qc, Qm)


def low_blocks(generator):
    """Short codes with Qm = Qc, where the clipped ones have totals above 0."""
    for n, Qc in ((1, 5), (1, 3), (2, 5), (3, 4)):
        yield taken(generator, n, all_but_last, large_frame, Qc, Qc)


def zero_blocks(generator):
    """Frames of zeros, and maps with no frozen place: unclipped, all totals
    are 0."""
    for n, Qc, Qm in ((1, 1, 1), (3, 5, 13), (6, 3, 4), (8, 5, 13)):
        yield taken(generator, n, scattered, zero_frame, Qc, Qm)
    for n, Qc, Qm in ((1, 5, 13), (3, 4, 4), (4, 5, 13), (5, 2, 3)):
        yield taken(generator, n, none_frozen, large_frame, Qc, Qm)


# --- The largest totals ------------------------------------------------------

def even_frame(n, coefs, most):
    """A frame for which the words with 0 in all places but the last have
    totals as large as can be.

    Each place has its one 0 for one of the 64 values of the last symbol, each
    value in as many places as each other one, as far as it goes.  So with up
    to 64 places each word has the penalty 0 in at most one place, and with 256
    each has it in 4.  It can't be in less: in each place one of the 64 words
    has it.  The least of their totals is then the largest that there is, and
    that is what is taken off at the last place; no other total is above it.
    """
    size = 2 ** n
    words = [transform(n, coefs.entries(), [0] * (size - 1) + [last])
             for last in range(64)]
    frame = records.repeated(64 * size, most)
    for place in range(size):
        symbol = words[(place * 37 + 11) % 64][place]
        frame = frame.with_entry(64 * place + symbol, 0)
    return frame


def largest_blocks(generator):
    """Such frames for every n, unclipped; some of them clipped as well, or for
    a lower Qc."""
    for n, Qc, Qm in ([(n, 5, 13) for n in range(1, 9)]
                      + [(3, 5, 5), (5, 5, 6), (6, 5, 8), (7, 5, 7),
                         (8, 5, 5), (4, 3, 13), (5, 1, 1)]):
        coefs = coefs_slice(generator, n * 2 ** n // 2)
        call = code_call(generator, n, all_but_last(generator, 2 ** n), coefs,
                         Qc, Qm, even_frame(n, coefs, 2 ** Qc - 1))
        yield [records.record("D", call)]


# --- Round trips that are taken ----------------------------------------------

def tied_trip(generator, n, Qm):
    """A round trip in which each sent symbol and the one turned by 32 chips
    have the penalty 0, so that another word than the one sent is decoded, and
    frozen places can be at odds with it."""
    call = link_cases.draw_call(generator, n)
    bit = 2 ** (generator.draw() % 64)
    amplitude = generator.draw() % 127 + 1
    call.update(
        map=scattered(generator, 2 ** n),
        base=halves_alike(draw_base(generator)) ^ bit,
        amplitude=amplitude, top=1, bottom=2 * amplitude + 1, Qm=Qm,
        Qc=min(call["Qc"], Qm))
    fit_to_map(call, ["message", "text"])
    return records.record("t", call)


def has_totals(line):
    """Whether a round trip, which is taken, leaves a total above 0."""
    worked = next(calls.worked_out([line]))
    assert worked.numbers[0] == 0
    return max(worked.left["totals"]) > 0


def trip_blocks(generator):
    """Round trips for every n; all but the one with N = 2, where it can't be,
    have a total above 0."""
    for n, Qm in ((1, 13), (2, 13), (2, 2), (3, 13), (3, 3), (3, 1), (4, 13),
                  (4, 5), (5, 13), (5, 3), (6, 13), (7, 4), (8, 13)):
        line = tied_trip(generator, n, Qm)
        while n > 1 and not has_totals(line):
            line = tied_trip(generator, n, Qm)
        yield [line]


def blocks():
    """The records of longer calls; they come after all others."""
    generator = Generator(TAKEN_SEED)
    yield from decode_alone(generator, (5, 8))
    yield from each_blocks(generator)
    yield from far_blocks(generator)
    yield from low_blocks(generator)
    yield from zero_blocks(generator)
    yield from largest_blocks(generator)
    yield from trip_blocks(generator)
