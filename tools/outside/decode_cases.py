"""Records of calls of the decoder with m = 64: 60 that are taken, 78 with one
damage, 240 with up to two, and 16 frames of words sent without noise."""

import records

from draws import Generator, code_sizes
from encode_cases import small_layers
from pieces import (
    CODE_BYTES,
    CODE_LENGTHS,
    LAYERS,
    PENALTIES,
    PRECISIONS,
    codeword,
    coefs_slice,
    damaged,
    frame_slice,
    length_pairs,
    lengths,
    lent,
    map_slice,
    pairs,
    places,
    precisions,
    sent_frame,
    symbols_slice,
    totals_slice,
    up_to_two,
)

TAKEN = 60
ALONE = 78
TWICE = 240

DAMAGES = LAYERS + CODE_LENGTHS
DAMAGES += lengths(["frame", "work", "symbols", "report"])
DAMAGES += PRECISIONS + CODE_BYTES + PENALTIES


def draw_code(generator, n):
    """Map and coefficients of a code, and one of its words."""
    size, count = code_sizes(n)
    map = map_slice(generator, size)
    coefs = coefs_slice(generator, count)
    message = symbols_slice(generator, places(map))
    return map, coefs, codeword(n, map, coefs, message)


def code_call(generator, n, map, coefs, Qc, Qm, frame):
    """A call for a code and a frame."""
    return dict(
        n=n,
        map=map,
        coefs=coefs,
        Qc=Qc,
        Qm=Qm,
        m=64,
        frame=frame,
        work=lent(generator, "work", 65 * 2 ** n),
        symbols=lent(generator, "symbols", 2 ** n),
        report=lent(generator, "report", 64 * 2 ** n),
        totals=totals_slice(generator, 2 ** n),
    )


def draw_call(generator, n, mode):
    """A call that is taken; the mode is that of its frame."""
    map, coefs, word = draw_code(generator, n)
    Qc, Qm = precisions(generator)
    frame = frame_slice(generator, mode, 2 ** Qc - 1, word)
    return code_call(generator, n, map, coefs, Qc, Qm, frame)


def sent_blocks(generator):
    """Frames of words sent without noise.  The largest total is 31 N: it is
    clipped at the first Qm and is just not at the second."""
    for n in range(1, 9):
        for Qm in (n + 4, n + 5):
            map, coefs, word = draw_code(generator, n)
            call = code_call(
                generator, n, map, coefs, 5, Qm, sent_frame(31, word))
            yield [records.record("D", call)]


def taken_layers(i):
    """The n of a call that is taken: each from 1 to 8 five times, then those
    from 1 to 4 again."""
    return i % 8 + 1 if i < 40 else i % 4 + 1


def chosen(generator):
    """The damages of each damaged call."""
    for damage in DAMAGES + 3 * PENALTIES:
        yield [damage]
    yield from pairs(generator, DAMAGES, 4)
    yield from length_pairs(generator, DAMAGES)
    yield from up_to_two(generator, DAMAGES, TWICE)


def blocks():
    """The records of all cases."""
    generator = Generator(55)
    for i in range(TAKEN):
        # The modes change with every n.
        call = draw_call(generator, taken_layers(i), (i + i // 8) % 4)
        yield [records.record("D", call)]
    damages = chosen(generator)
    for i in range(ALONE + TWICE):
        call = draw_call(generator, small_layers(generator), i % 4)
        call = damaged(generator, call, next(damages))
        yield [records.record("D", call)]
    yield from sent_blocks(generator)
