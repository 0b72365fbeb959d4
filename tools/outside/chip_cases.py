"""Records of 200 calls each of spreading and of weighing, and of the part of
one place after each weighing."""

import records

from draws import Generator, pick
from pieces import (
    BASES,
    GAINS,
    damaged,
    entry_damage,
    length_pairs,
    lengths,
    lent,
    number_damage,
    pairs,
    sent_base,
    symbols_slice,
    up_to_two,
)

CASES = 200
TAKEN = 60

SPREAD = lengths(["symbols", "numbers"]) + BASES
SPREAD += [entry_damage(7, "symbols", symbol) for symbol in (64, 65, 128, 255)]

WEIGH = lengths(["samples", "frame"]) + BASES + GAINS
WEIGH += [number_damage(3, "Qc", Qc) for Qc in (0, 6, 257)]

# The gains that are drawn most often: low, so that few penalties are capped.
BOTTOMS = (10, 40, 100, 200, 255)

# Lengths that are no whole count of symbols.
UNEVEN = (1, 32, 63, 65, 96, 100, 127, 129, 192 + 32, 4000, 16383, 16385)

# Counts of symbols at the limits, and past them.
LIMITS = (0, 1, 2, 255, 256, 257, 258, 300)

# What is made before some calls of weighing: samples near 0, samples of
# symbols sent without noise, and with some.
SMALL = 2
SENT = 3
NOISY = 4


def symbol_count(generator):
    """How many symbols a case has: mostly few, and at the limits."""
    drawn = generator.draw()
    limits = {0: 0, 1: 255, 2: 256, 3: 257, 4: drawn // 40 % 250 + 1}
    return limits.get(drawn % 40, drawn % 4 + 1)


def chosen(generator, damages):
    """The damages of each call."""
    for _ in range(TAKEN):
        yield []
    for damage in damages:
        yield [damage]
    yield from pairs(generator, damages, 3)
    yield from length_pairs(generator, damages)
    yield from up_to_two(generator, damages, CASES)


# --- Spreading ---------------------------------------------------------------

def spread_call(generator, count):
    """A call of spreading."""
    return dict(
        base=sent_base(generator),
        symbols=symbols_slice(generator, count),
        numbers=lent(generator, "numbers", count),
    )


def spread_blocks(generator):
    """The records of spreading."""
    damages = chosen(generator, SPREAD)
    for _ in range(CASES):
        call = spread_call(generator, symbol_count(generator))
        call = damaged(generator, call, next(damages))
        yield [records.record("s", call)]


# --- Weighing ----------------------------------------------------------------

def draw_samples(generator, mode, length):
    """Samples: any signed bytes, -128 for a lost sample among them; or those
    at the limits, a quarter of them lost; or what was made before."""
    if mode == 0:
        return records.drawn(length, generator.draw(), 0, 256, 255)
    if mode == 1:
        return records.drawn(length, generator.draw(), 127, 4, 130)
    return records.same(length)


def made_before(generator, mode, count, base):
    """The records that make samples of symbols spread by this base."""
    if mode < SMALL or count == 0 or count > 256:
        return []
    spread = spread_call(generator, count)
    spread["base"] = base
    sent = mode >= SENT
    amplitude = generator.draw() % 127 + 1 if sent else 0
    noise = amplitude + generator.draw() % 20 if mode == NOISY else 0
    channel = dict(
        amplitude=amplitude,
        noise=min(noise, 127) if sent else 3,
        lost=generator.draw() % 2 * 41 if mode == NOISY else 0,
        seed=generator.draw(),
        numbers=records.same(count),
        samples=lent(generator, "samples", 64 * count),
    )
    return [records.record("s", spread), records.record("c", channel)]


def draw_gain(generator):
    """Top and bottom: any, or a low gain."""
    first = generator.draw()
    second = generator.draw()
    if first % 2 == 0:
        return first // 2 % 255 + 1, second % 255 + 1
    return first // 2 % 4 + 1, BOTTOMS[second % len(BOTTOMS)]


def weigh_call(generator, mode, count, base):
    """A call of weighing."""
    top, bottom = draw_gain(generator)
    return dict(
        base=base,
        samples=draw_samples(generator, mode, 64 * count),
        top=top,
        bottom=bottom,
        Qc=generator.draw() % 5 + 1,
        frame=lent(generator, "frame", 64 * count),
    )


def part_record(generator, length):
    """The record of the part of a place of the first entries of the frame."""
    size = length // 64
    place = pick(generator, (0, 1, size, max(size - 1, 0), size + 1,
                             generator.draw() % 7))
    return records.record("p", dict(frame=records.same(length), place=place))


def weigh_blocks(generator):
    """The records of weighing, each with the part of one place."""
    damages = chosen(generator, WEIGH)
    for i in range(CASES):
        count = symbol_count(generator)
        base = sent_base(generator)
        call = weigh_call(generator, i % 5, count, base)
        call = damaged(generator, call, next(damages))
        yield (made_before(generator, i % 5, count, base)
               + [records.record("d", call),
                  part_record(generator, call["frame"].length)])


def uneven_blocks(generator):
    """Weighing of samples that are no whole count of symbols, with as long a
    frame, and the part of one place of it."""
    for length in UNEVEN:
        call = weigh_call(generator, 0, 1, sent_base(generator))
        call["samples"] = call["samples"].of_length(length)
        call["frame"] = call["frame"].of_length(length)
        yield [records.record("d", call), part_record(generator, length)]


def limit_blocks(generator):
    """Spreading and weighing of symbols at and past the limits of their count,
    and the part of a place after it."""
    for count in LIMITS:
        yield [records.record("s", spread_call(generator, count))]
        call = weigh_call(generator, 0, count, sent_base(generator))
        yield [records.record("d", call), part_record(generator, 64 * count)]


def blocks():
    """The records of all cases."""
    yield from spread_blocks(Generator(2))
    yield from weigh_blocks(Generator(3))
    yield from uneven_blocks(Generator(4))
    yield from limit_blocks(Generator(5))
