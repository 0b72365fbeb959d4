"""Records of round trips without noise with m = 64: 170 that are taken, 97
with one damage or none, and 171 with two."""

import records

from draws import Generator, code_sizes
from decode_cases import taken_layers
from pieces import (
    BASES,
    CODE_BYTES,
    CODE_LENGTHS,
    GAINS,
    LAYERS,
    PRECISIONS,
    coefs_slice,
    damaged,
    entry_damage,
    length_pairs,
    lengths,
    lent,
    map_slice,
    number_damage,
    pairs,
    precisions,
    sent_base,
    symbols_slice,
    totals_slice,
)

TAKEN = 60
MORE = 110
ALONE = 97
PAIRS = 171

DAMAGES = LAYERS + CODE_LENGTHS
DAMAGES += lengths(["samples", "frame", "work", "symbols", "report"])
DAMAGES += lengths(["message", "text"], 3)
DAMAGES += PRECISIONS + CODE_BYTES
DAMAGES += [entry_damage(7, "message", symbol) for symbol in (64, 128, 255)]
DAMAGES += BASES + GAINS
DAMAGES += [number_damage(19, "amplitude", amplitude)
            for amplitude in (0, 128, 129, 256, 257, 2 ** 32 - 1)]


def draw_amplitude(generator):
    """An amplitude: 1, 127, a small one, or any."""
    mode = generator.draw() % 4
    drawn = generator.draw()
    return [1, 127, drawn % 8 + 1, drawn % 127 + 1][mode]


def draw_gain(generator, amplitude):
    """Top and bottom: any; low; mostly one over a few times the amplitude, so
    that it takes a few chips that differ to make a penalty of 1; or such that
    two chips that differ make a penalty of 1, or of just below it."""
    mode = generator.draw() % 4
    first = generator.draw()
    second = generator.draw()
    if mode == 0:
        return first % 255 + 1, second % 255 + 1
    if mode == 1:
        return first % 3 + 1, second % 156 + 100
    if mode == 2:
        return 1, min(3 * amplitude + second % 100, 255)
    return 1, 2 * amplitude + second % 2


def draw_call(generator, n):
    """A call that is taken, but for the lengths of the two messages."""
    size, count = code_sizes(n)
    amplitude = draw_amplitude(generator)
    top, bottom = draw_gain(generator, amplitude)
    Qc, Qm = precisions(generator)
    return dict(
        n=n,
        map=map_slice(generator, size),
        coefs=coefs_slice(generator, count),
        message=symbols_slice(generator, size),
        base=sent_base(generator),
        amplitude=amplitude,
        top=top,
        bottom=bottom,
        Qc=Qc,
        Qm=Qm,
        m=64,
        samples=lent(generator, "samples", 64 * size),
        frame=lent(generator, "frame", 64 * size),
        work=lent(generator, "work", 65 * size),
        symbols=lent(generator, "symbols", size),
        report=lent(generator, "report", 64 * size),
        totals=totals_slice(generator, size),
        text=lent(generator, "text", size),
    )


def block(generator, n, damages):
    """The record of one call."""
    call = damaged(
        generator, draw_call(generator, n), damages, ["message", "text"])
    return [records.record("t", call)]


def chosen(generator):
    """The damages of each damaged call."""
    for i in range(ALONE):
        yield [] if i == 0 else [DAMAGES[(i - 1) % len(DAMAGES)]]
    yield from pairs(generator, DAMAGES, 2)
    yield from length_pairs(generator, DAMAGES)


def blocks():
    """The records of all cases."""
    generator = Generator(646)
    for i in range(TAKEN):
        yield block(generator, taken_layers(i), [])
    for i in range(MORE):
        yield block(generator, i % 4 + 1, [])
    damages = chosen(generator)
    for _ in range(ALONE + PAIRS):
        yield block(generator, generator.draw() % 4 + 1, next(damages))
