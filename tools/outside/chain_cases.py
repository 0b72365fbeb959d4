"""Records of encoding, spreading, a channel, weighing and decoding one after
the other, for every pair of Qc and Qm that is not refused and every n from 1
to 8, with m = 64: 440 cases.

In each a code, a message, a base, noise and a gain are drawn; each call gets
what the one before left.
"""

import records

from draws import Generator, code_sizes, draw_base
from pieces import (
    coefs_slice,
    lent,
    map_slice,
    places,
    symbols_slice,
    totals_slice,
)

# The state from which all cases are drawn, one after the other.
FIRST_STATE = 440

# In a quarter of the cases one sample of about so many is lost: it is -128.
LOST = 127


def precision_pairs():
    """Every Qc and Qm that is not refused."""
    for Qc in range(1, 6):
        for Qm in range(Qc, 14):
            yield Qc, Qm


def frozen(generator, map):
    """The map with its first places frozen, as many as are drawn; the last
    place is a message place then.  Where none is drawn, place 0 of a map with
    no frozen place."""
    size = map.length
    first = generator.draw() % size
    if first > 0:
        rest = map.entries()[first:size - 1]
        return records.written([1] * first + rest + [0], 1)
    if places(map) == size:
        return map.with_entry(0, 1)
    return map


def draw_channel(generator, Qc):
    """Amplitude, noise, lost, top and bottom for a frame at Qc.

    The amplitude is small in most frames, and the gain such that the penalties
    are mostly neither all 0 nor all at the cap.  In a frame of large samples
    many reach -127 and 127; -128 is only written for a lost one.
    """
    large = generator.draw() % 4 == 0
    amplitude = generator.draw() % 6 + 1
    if large:
        amplitude = 16 * amplitude
    factor = generator.draw() % 5 + 1
    noise = min(amplitude * factor + generator.draw() % 4, 127)
    lost = LOST if generator.draw() % 4 == 0 else 0
    drawn = generator.draw()
    top = 1 if large else drawn % 2 ** (Qc - 1) + 1
    factor = generator.draw() % 8 + 1
    bottom = min((amplitude + noise) * factor, 255)
    return amplitude, noise, lost, top, bottom


def case_calls(generator, n, Qc, Qm):
    """The calls of one case in order, each with its letter."""
    size, count = code_sizes(n)
    map = frozen(generator, map_slice(generator, size))
    base = draw_base(generator)
    amplitude, noise, lost, top, bottom = draw_channel(generator, Qc)
    same = records.same
    coefs = coefs_slice(generator, count)
    encode = dict(n=n, map=map, coefs=coefs,
                  message=symbols_slice(generator, places(map)),
                  symbols=lent(generator, "symbols", size))
    spread = dict(base=base, symbols=same(size),
                  numbers=lent(generator, "numbers", size))
    channel = dict(amplitude=amplitude, noise=noise, lost=lost,
                   seed=generator.draw(), numbers=same(size),
                   samples=lent(generator, "samples", 64 * size))
    weigh = dict(base=base, samples=same(64 * size), top=top, bottom=bottom,
                 Qc=Qc, frame=lent(generator, "frame", 64 * size))
    decode = dict(n=n, map=map, coefs=coefs, Qc=Qc, Qm=Qm, m=64,
                  frame=same(64 * size),
                  work=lent(generator, "work", 65 * size),
                  symbols=lent(generator, "symbols", size),
                  report=lent(generator, "report", 64 * size),
                  totals=totals_slice(generator, size))
    return [("e", encode), ("s", spread), ("c", channel), ("d", weigh),
            ("D", decode)]


def block(generator, n, Qc, Qm):
    """The records of one case."""
    return [records.record(letter, call)
            for letter, call in case_calls(generator, n, Qc, Qm)]


def blocks():
    """The records of all cases."""
    generator = Generator(FIRST_STATE)
    for n in range(1, 9):
        for Qc, Qm in precision_pairs():
            yield block(generator, n, Qc, Qm)
