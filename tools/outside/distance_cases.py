"""Records of calls on the chip distances of a base: the distance of one shift,
the least distance, the shifts within d chips, and whether the premise of the
noiseless statement holds.

The bases are near to one that is refused, or far from it, and of many kinds
between.  Each call has those that are refused too, and the list and the
premise have each refusal alone and with another.  The bytes lent to the list
are drawn and above 0, so that it shows where one is written, and none is what
a record before left there.

distance_check.py looks at all of them a second way.
"""

import distances
import records
import worked_cases

from draws import Generator, draw_base, halves_alike, pick

SEED = 6306

ALL = 2 ** 64 - 1


# --- Bases -------------------------------------------------------------------

def stepped(step, count):
    """A base with so many chips 1, each by a step after the one before; turned
    by an odd step it differs in two chips."""
    return sum(2 ** (i * step % 64) for i in range(count))


def repeats(part, length):
    """The base of period `length` that has these chips first."""
    return sum(part * 2 ** at for at in range(0, 64, length))


def complemented(lower):
    """The base with these lower 32 chips, whose upper ones are their
    complement: turned by 32 it differs in each chip."""
    return lower + (2 ** 32 - 1 - lower) * 2 ** 32


# Each turn of this one but by a multiple of 64 differs in 30 chips or more.
SPREAD_OUT = 0xFAB376938BCA3085

# Its turns by 5, 10 and so on to 160 chips differ in 2, 4 and so on to 64.
ALL_DISTANCES = stepped(5, 32)

# One chip 1, and one chip 0.
ONE_CHIP = [1, 2, 2 ** 31, 2 ** 32, 2 ** 63]
ONE_CHIP += [ALL - 1, ALL - 2 ** 17, ALL - 2 ** 63]

# Distance 64 at shift 32.
OPPOSITE = [complemented(lower)
            for lower in (0, 2 ** 32 - 1, 0x9A3F1C70, 0x0F1E2D3C)]

# Of period 2, 4, 8 and 16 with one chip changed.
NEAR_PERIOD = [repeats(1, 2) ^ 2 ** 9, repeats(1, 2) ^ 1,
               repeats(2, 2) ^ 2 ** 63, repeats(3, 4) ^ 2 ** 34,
               repeats(0xB1, 8) ^ 2 ** 20, repeats(0xF0, 8) ^ 2 ** 63,
               repeats(0x1D6B, 16) ^ 2 ** 47, repeats(0x8001, 16) ^ 2 ** 5]

# Halves that differ in one chip.
NEAR_HALVES = [halves_alike(0x9E3779B9) ^ 2 ** at
               for at in (0, 15, 16, 31, 32, 47, 48, 63)]
NEAR_HALVES += [2 ** 32 + 3, 2 ** 63 + 2 ** 31 + 2 ** 30]

# Halves that differ in 2, 3, 4, 5 and 8 chips; the least is twice as many.
BETWEEN = [halves_alike(0x9E3779B9) ^ chips for chips in (
    2 ** 3 + 2 ** 50, 2 ** 63 + 2 ** 20 + 1, 0x100000000A010,
    0x3000000700000000, 0x8000400020011111)]

# Many small distances, and the least at one shift and its opposite alone.
CLOSE = [3, 2 ** 63 + 1, 2 ** 8 - 1, 2 ** 63 + 7, 2 ** 40 - 1, ALL - 5]
CLOSE += [stepped(step, count)
          for step, count in ((3, 32), (31, 32), (29, 19), (13, 7), (21, 40),
                              (2, 9), (16, 3))]

FAR = [SPREAD_OUT, ALL - SPREAD_OUT, SPREAD_OUT % 2 ** 49 * 2 ** 15
       + SPREAD_OUT // 2 ** 49]

# What is refused.
REFUSED = [0, ALL, 2 ** 32 + 1, 2 ** 63 + 2 ** 31, 2 ** 48 + 2 ** 16]
REFUSED += [repeats(part, length) for part, length in (
    (1, 2), (2, 2), (3, 4), (0xB1, 8), (1, 16), (0x1D6B, 16), (0xFFFE, 16),
    (0x9E3779B9, 32), (0x80000000, 32), (0x7FFFFFFF, 32))]

# How many bases are drawn, and how many of these have chip 63 set.
DRAWN = 12
DRAWN_HIGH = 6


def taken_bases(generator):
    """All bases that are taken, drawn ones last."""
    found = (ONE_CHIP + OPPOSITE + NEAR_PERIOD + NEAR_HALVES + BETWEEN
             + CLOSE + FAR + [ALL_DISTANCES])
    found += [draw_base(generator) for _ in range(DRAWN)]
    found += [draw_base(generator) | 2 ** 63 for _ in range(DRAWN_HIGH)]
    assert all(distances.base_refusal(base) == 0 for base in found)
    assert all(distances.base_refusal(base) == 10 for base in REFUSED)
    return found


# --- One shift ---------------------------------------------------------------

# Multiples of 64 and others at the limits, and such that a part of their bits
# is another shift.
SHIFTS = (63, 64, 65, 127, 128, 129, 255, 256, 256 + 32, 2 ** 16 + 7,
          2 ** 31 + 2, 2 ** 32 - 1, 2 ** 32, 2 ** 32 + 1, 2 ** 63,
          2 ** 63 + 17, 2 ** 64 - 65, 2 ** 64 - 64, 2 ** 64 - 63,
          2 ** 64 - 32, 2 ** 64 - 1)


def shift_block(base, s):
    """The record of the distance of one shift."""
    return [records.record("a", dict(base=base, s=s))]


def shift_blocks(generator, bases):
    """Each shift of one base, shifts at the limits of two, shift 32 where it
    is the farthest or the nearest, a drawn shift of each base, and refused
    ones."""
    for s in range(67):
        yield shift_block(ALL_DISTANCES, s)
    for s in SHIFTS:
        yield shift_block(ALL_DISTANCES, s)
        yield shift_block(pick(generator, bases), s)
    for base in OPPOSITE + NEAR_HALVES:
        yield shift_block(base, 32)
    for i, base in enumerate(bases):
        s = draw_base(generator)
        yield shift_block(base, s if i % 3 == 0 else s % 64)
    for i, base in enumerate(REFUSED):
        yield shift_block(base, (0, 64, 32, draw_base(generator), 1)[i % 5])


# --- The least ---------------------------------------------------------------

def least_blocks(bases):
    """The least of each base, and refused ones."""
    for base in bases + REFUSED:
        yield [records.record("b", dict(base=base))]


# --- The list ----------------------------------------------------------------

# Beyond each distance, and such that a part of their bits is below one.
BEYOND = (66, 127, 128, 255, 256, 257, 258, 2 ** 16, 2 ** 16 + 2, 2 ** 31,
          2 ** 31 + 10, 2 ** 32 - 1)

# The lengths that are refused.
LENGTHS = (0, 1, 62, 64, 126, 600, 319)

# How many bases have d next to their distances.
BESIDE = 24


def list_block(generator, base, d, length=63):
    """The record of a list; the bytes lent are from 1 to 255."""
    text = records.drawn(length, generator.draw(), 1, 255, 255)
    return [records.record("j", dict(base=base, d=d, text=text))]


def occurring(generator, base, i):
    """A distance that a base has: the least, the largest, or any."""
    found = sorted({distances.distance(base, s) for s in range(1, 64)})
    return (found[0], found[-1], pick(generator, found))[i % 3]


def beside_blocks(generator, bases):
    """Lists with a d that is a distance of the base, one less and one more."""
    for i in range(BESIDE):
        base = bases[(i * 5 + 3) % len(bases)]
        d = occurring(generator, base, i)
        for by in (0, -1, 1):
            yield list_block(generator, base, d + by)


def refused_list_blocks(generator, bases):
    """Lists that are refused by 10, by 2, and by both."""
    for i, base in enumerate(REFUSED):
        yield list_block(generator, base, (0, 2, 64, 2 ** 32 - 1, 33)[i % 5])
    for i, length in enumerate(LENGTHS):
        for base in (ALL_DISTANCES, pick(generator, bases), REFUSED[i],
                     pick(generator, REFUSED)):
            yield list_block(generator, base, generator.draw() % 66, length)


def list_blocks(generator, bases):
    """Each d up to 65 for one base, d beyond all distances, d next to one of
    the base, and refused ones."""
    for d in range(66):
        yield list_block(generator, ALL_DISTANCES, d)
    for d in BEYOND:
        yield list_block(generator, ALL_DISTANCES, d)
        yield list_block(generator, pick(generator, bases), d)
    yield from beside_blocks(generator, bases)
    yield from refused_list_blocks(generator, bases)


# --- The premise -------------------------------------------------------------

# Amplitudes at the limits and beyond, and such that a part of their bits is an
# amplitude that gets a yes.
AMPLITUDES = (0, 1, 127, 128, 129, 255, 256, 257, 256 + 100, 2 ** 16 + 100,
              2 ** 31, 2 ** 31 + 100, 2 ** 32 - 100, 2 ** 32 - 1)
OUTSIDE = tuple(A for A in AMPLITUDES if A < 1 or A > 127)

# Tops and bottoms at the limits and beyond; the last are refused.
GAINS = (1, 2, 254, 255)
REFUSED_GAINS = (0, 256, 257, 511, 2 ** 16, 2 ** 16 + 1, 2 ** 31 + 1,
                 2 ** 32 - 1)

# Amplitude and top for which a base of the least distance 2 has an edge.
EDGES_OF_TWO = ((1, 1), (127, 1), (1, 127), (10, 1), (5, 2), (2, 5), (11, 11))

# Limits of the bits of a product.
LIMITS = (2 ** 8, 2 ** 15, 2 ** 16)

# How many bases have gains at an edge, and how many calls are drawn.
EDGES = 26
DRAWN_CALLS = 40


def premise_block(base, amplitude, top, bottom):
    """The record of the premise."""
    return [records.record("k", dict(base=base, amplitude=amplitude, top=top,
                                     bottom=bottom))]


def edge_blocks(base, amplitude, top):
    """The bottom for which the smallest penalty is 1 before rounding, and the
    two beside it."""
    edge = amplitude * top * distances.least(base)
    for bottom in (edge - 1, edge, edge + 1):
        if 1 <= bottom <= 255:
            yield premise_block(base, amplitude, top, bottom)


def draw_edge(generator, base):
    """Amplitude and top with an edge at a bottom that is taken."""
    most = 254 // distances.least(base)
    amplitude = generator.draw() % min(most, 127) + 1
    top = generator.draw() % (most // amplitude) + 1
    return amplitude, top


def all_edge_blocks(generator, bases):
    """Gains at the edge of bases of each kind."""
    for amplitude, top in EDGES_OF_TWO:
        yield from edge_blocks(1, amplitude, top)
    for i in range(EDGES):
        base = bases[(i * 7 + 2) % len(bases)]
        yield from edge_blocks(base, *draw_edge(generator, base))
    for base in FAR + OPPOSITE + BETWEEN:
        yield from edge_blocks(base, *draw_edge(generator, base))


def beyond(base, limit):
    """The first amplitude, and top, whose product with the least distance is
    a limit or above it by less than 255; None if there are none."""
    least = distances.least(base)
    for amplitude in range(1, 128):
        for top in range(1, 256):
            if limit <= amplitude * top * least < limit + 255:
                return amplitude, top
    return None


def product_blocks():
    """Products at a limit of their bits: of their lower bits alone, or with a
    sign, they would be below the bottom."""
    for base in [1, SPREAD_OUT] + BETWEEN:
        for limit in LIMITS:
            found = beyond(base, limit)
            if found is not None:
                yield premise_block(base, *found, 255)


def amplitude_blocks(generator, bases):
    """Each amplitude with the highest gain, with 1, and with a drawn one."""
    for amplitude in AMPLITUDES:
        yield premise_block(1, amplitude, 255, 1)
        yield premise_block(SPREAD_OUT, amplitude, 1, 1)
        yield premise_block(pick(generator, bases), amplitude,
                            generator.draw() % 255 + 1,
                            generator.draw() % 255 + 1)


def gain_blocks(generator, bases):
    """Tops and bottoms at the limits; and those that are refused, one of the
    two and both."""
    for gain in GAINS:
        for amplitude, other in ((1, 1), (127, 255)):
            yield premise_block(1, amplitude, gain, other)
            yield premise_block(1, amplitude, other, gain)
    for gain in REFUSED_GAINS:
        yield premise_block(1, 127, gain, 1)
        yield premise_block(pick(generator, bases), 1, 1, gain)
        yield premise_block(SPREAD_OUT, 50, pick(generator, REFUSED_GAINS),
                            gain)


def refused_premise_blocks(generator, bases):
    """Refused by 10 alone, with 11, with an amplitude outside, and with both;
    by 11 with an amplitude outside."""
    for i, base in enumerate(REFUSED):
        yield premise_block(base, generator.draw() % 127 + 1, 255, 1)
        bad = REFUSED_GAINS[i % len(REFUSED_GAINS)]
        top, bottom = ((bad, 1), (1, bad), (bad, bad))[i % 3]
        outside = OUTSIDE[i % len(OUTSIDE)]
        yield premise_block(base, 100, top, bottom)
        if i % 2 == 0:
            yield premise_block(base, outside, 1, 20)
            yield premise_block(pick(generator, bases), outside, top, bottom)
        else:
            yield premise_block(base, outside, top, bottom)


def premise_blocks(generator, bases):
    """The paper's rows, gains at the edge, products, amplitudes and gains at
    the limits, refused ones, and drawn ones."""
    yield from worked_cases.compared(worked_cases.premise_rows())
    yield from all_edge_blocks(generator, bases)
    yield from product_blocks()
    yield from amplitude_blocks(generator, bases)
    yield from gain_blocks(generator, bases)
    yield from refused_premise_blocks(generator, bases)
    for _ in range(DRAWN_CALLS):
        yield premise_block(pick(generator, bases),
                            pick(generator, (1, 2, 3, 5, 10, 40)),
                            generator.draw() % 12 + 1,
                            generator.draw() % 255 + 1)


# --- All of them -------------------------------------------------------------

def blocks():
    """The records of all cases; they come after all others."""
    generator = Generator(SEED)
    bases = taken_bases(generator)
    yield from shift_blocks(generator, bases)
    yield from least_blocks(bases)
    yield from list_blocks(generator, bases)
    yield from premise_blocks(generator, bases)
