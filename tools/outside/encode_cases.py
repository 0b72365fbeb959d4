"""Records of 400 calls of the encoder: taken, with each damage alone, and with
two."""

import records

from draws import Generator, code_sizes
from pieces import (
    CODE_BYTES,
    CODE_LENGTHS,
    LAYERS,
    coefs_slice,
    damaged,
    entry_damage,
    length_pairs,
    lengths,
    lent,
    map_slice,
    pairs,
    symbols_slice,
    up_to_two,
)

CASES = 400
TAKEN = 120

DAMAGES = LAYERS + CODE_LENGTHS + lengths(["symbols"])
DAMAGES += lengths(["message"], 3) + CODE_BYTES
DAMAGES += [entry_damage(7, "message", x) for x in (64, 65, 128, 255)]


def draw_call(generator, n):
    """A call that is taken, but for the length of its message."""
    size, count = code_sizes(n)
    return dict(
        n=n,
        map=map_slice(generator, size),
        coefs=coefs_slice(generator, count),
        message=symbols_slice(generator, size),
        symbols=lent(generator, "symbols", size),
    )


def small_layers(generator):
    """The n of a damaged call: mostly small."""
    drawn = generator.draw()
    return 8 if drawn % 24 == 0 else drawn % 5 + 1


def block(generator, n, damages):
    """The record of one call."""
    call = damaged(generator, draw_call(generator, n), damages, ["message"])
    return [records.record("e", call)]


def chosen(generator):
    """The damages of each damaged call."""
    for damage in DAMAGES:
        yield [damage]
    yield from pairs(generator, DAMAGES, 6)
    yield from length_pairs(generator, DAMAGES)
    yield from up_to_two(generator, DAMAGES, CASES)


def blocks():
    """The records of all cases."""
    generator = Generator(1)
    for i in range(TAKEN):
        yield block(generator, i % 8 + 1, [])
    damages = chosen(generator)
    for _ in range(CASES - TAKEN):
        yield block(generator, small_layers(generator), next(damages))
