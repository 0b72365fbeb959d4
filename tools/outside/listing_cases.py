"""Records of 216 calls for a whole listing: 90 that are taken, 118 with each
damage alone and with two, and 8 for words sent without noise."""

import records

from decode_cases import draw_code
from draws import Generator
from pieces import (
    CODE_BYTES,
    CODE_LENGTHS,
    LAYERS,
    PENALTIES,
    damaged,
    frame_slice,
    length_pairs,
    lengths,
    lent,
    pairs,
    sent_frame,
)

CASES = 208
TAKEN = 90

DAMAGES = LAYERS + CODE_LENGTHS + lengths(["frame", "text"])
DAMAGES += CODE_BYTES + PENALTIES


def code_call(generator, n, map, coefs, frame):
    """A call for a code and a frame."""
    return dict(
        n=n,
        map=map,
        coefs=coefs,
        frame=frame,
        text=lent(generator, "text", 21 * 2 ** n + 6),
    )


def draw_call(generator, n, mode):
    """A call that is taken; the mode is that of its frame."""
    map, coefs, word = draw_code(generator, n)
    frame = frame_slice(generator, mode, 31, word)
    return code_call(generator, n, map, coefs, frame)


def sent_blocks(generator):
    """Listings for words sent without noise, with numbers up to 31 N."""
    for n in range(1, 9):
        map, coefs, word = draw_code(generator, n)
        call = code_call(generator, n, map, coefs, sent_frame(31, word))
        yield [records.record("o", call)]


def taken_layers(i):
    """The n of a call that is taken: each from 1 to 8 three times, then those
    from 1 to 4."""
    return i % 8 + 1 if i < 24 else i % 4 + 1


def chosen(generator):
    """The damages of each damaged call."""
    for damage in DAMAGES + PENALTIES:
        yield [damage]
    yield from length_pairs(generator, DAMAGES)
    while True:
        yield from pairs(generator, DAMAGES, 1)


def blocks():
    """The records of all cases."""
    generator = Generator(21)
    for i in range(TAKEN):
        call = draw_call(generator, taken_layers(i), (i + i // 8) % 4)
        yield [records.record("o", call)]
    damages = chosen(generator)
    for i in range(CASES - TAKEN):
        call = draw_call(generator, generator.draw() % 4 + 1, i % 4)
        call = damaged(generator, call, next(damages))
        yield [records.record("o", call)]
    yield from sent_blocks(generator)
