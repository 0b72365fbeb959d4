"""Records of weighing where samples were lost: one of a symbol's 64, many of
them, or all.  Some of these calls come twice, with -128 for each lost sample
and with 0 there.

After them come calls of weighing with lost samples that are refused, and rows
of records from encoding to decoding in which samples or symbols are lost.
"""

import chips
import records

from chain_cases import case_calls
from chip_cases import WEIGH, draw_gain
from draws import Generator, draw_base, pick
from pieces import damaged, lent, pairs, pick_of, precisions, sent_base

SEED = 128

# What is written for a lost sample.
LOST = -128

# The samples next to it, the largest, and those at 0.
LIMITS = (-127, -126, 127, 1, -1, 0)

# How the samples that are not lost are drawn.
KINDS = 5

# How many cases have one lost sample, and many of a symbol's.
ONE = 36
MANY = 32

# One of so many cases comes twice, with -128 and then with 0.
PAIRED = 7

# Which sample of a symbol is the one that is lost.
PLACES = (0, 63, 31, 1, 63, 0, 62, 32, 17)

# How many of a symbol's samples are lost where neither one is nor all are.
COUNTS = (2, 3, 4, 6, 9, 16, 31, 32, 33, 48, 61, 62, 63)

# How many symbols there are, and of which of them all samples are lost.
ALL = (
    (1, (0,)), (2, (0,)), (2, (1,)), (3, (1,)), (1, (0,)), (4, (0,)),
    (4, (3,)), (3, (0, 2)), (2, (0, 1)), (4, (2,)), (1, (0,)), (3, (2,)),
    (3, (0,)), (4, (1, 2)), (2, (1,)), (3, (0, 1, 2)), (1, (0,)), (4, (1,)),
    (2, (0,)), (4, (0, 1, 2)), (4, (1, 2, 3)), (3, (1,)), (1, (0,)),
    (4, (0, 3)), (2, (1,)), (4, (0, 1, 2, 3)), (3, (1, 2)), (2, (0,)),
    (4, (1,)), (4, (3,)), (3, (0, 1)), (4, (0, 2)),
)

# In a row of records from encoding to decoding: n, and one of how many samples
# is lost.
RATES = ((1, 2), (2, 3), (3, 4), (4, 2), (2, 6), (3, 10), (1, 5), (4, 20),
         (5, 3), (2, 2))

# In such a row: n, and the places from the first to before the second number
# of which all samples are lost.
DROPOUTS = ((1, 0, 1), (1, 1, 2), (3, 7, 8), (3, 2, 5), (3, 0, 4), (4, 9, 10),
            (4, 10, 16), (3, 1, 3), (2, 0, 4), (4, 0, 16))


# --- Samples that are not lost -----------------------------------------------

def sent_samples(generator, base, amplitude, noise):
    """The samples of a drawn symbol, with noise, held within -127 to 127."""
    symbol = generator.draw() % 64
    samples = []
    for k in range(64):
        sent = 1 - 2 * chips.chip_of_symbol(base, symbol, k)
        more = generator.draw() % (2 * noise + 1) - noise
        samples.append(max(-127, min(127, sent * amplitude + more)))
    return samples


def with_limits(generator, samples):
    """The samples with each of the limits at a drawn place."""
    samples = list(samples)
    for limit in LIMITS:
        samples[generator.draw() % 64] = limit
    return samples


def symbol_samples(generator, kind, base):
    """The 64 samples of a symbol: one sent without noise; one sent with some,
    the limits among them; the limits alone; mostly -1, 0 and 1; or any."""
    amplitude = pick(generator, (1, 3, 126, 127, generator.draw() % 127 + 1))
    if kind == 0:
        return sent_samples(generator, base, amplitude, 0)
    if kind == 1:
        noise = min(amplitude + generator.draw() % 30, 127)
        return with_limits(
            generator, sent_samples(generator, base, amplitude, noise))
    if kind == 2:
        return [pick(generator, LIMITS) for _ in range(64)]
    if kind == 3:
        drawn = [generator.draw() % 3 - 1 for _ in range(64)]
        if generator.draw() % 2 == 0:
            drawn[generator.draw() % 64] = pick(generator, LIMITS)
        return drawn
    return [generator.draw() % 255 - 127 for _ in range(64)]


def draw_samples(generator, kind, base, count):
    """The samples of so many symbols."""
    samples = []
    for _ in range(count):
        samples += symbol_samples(generator, kind, base)
    return samples


# --- Calls of weighing -------------------------------------------------------

def any_base(generator):
    """A base: mostly any, at times one of which a turn differs in two chips
    only."""
    if generator.draw() % 4 == 0:
        return sent_base(generator)
    return draw_base(generator)


def base_with_chip(generator, k, wanted):
    """A base with the wanted chip k: a drawn one, or each chip of it the other
    one."""
    base = any_base(generator)
    return base if chips.chip(base, k) == wanted else 2 ** 64 - 1 - base


def with_value(samples, lost, value):
    """The samples, by their bytes, with the same value in the lost places."""
    return records.written([
        (value if i in lost else sample) % 256
        for i, sample in enumerate(samples)])


def fitting_gain(generator, samples, lost, Qc):
    """Top and bottom: such that the penalties are mostly neither 0 nor at the
    cap, as far as there is such a gain; or any."""
    if generator.draw() % 6 == 0:
        return draw_gain(generator)
    left = [abs(sample) for i, sample in enumerate(samples) if i not in lost]
    most = 64 * sum(left) // len(samples)
    wanted = max(1, most // 2 ** (Qc + pick(generator, (0, 1, 1, 3))))
    top = min(generator.draw() % 9 + 1, max(1, 255 // wanted))
    return top, min(top * wanted + generator.draw() % top, 255)


def weigh_call(generator, i, base, samples, lost):
    """Call number i of its kind."""
    Qc = (i + i // KINDS) % 5 + 1
    top, bottom = fitting_gain(generator, samples, lost, Qc)
    return dict(base=base, samples=with_value(samples, lost, LOST), top=top,
                bottom=bottom, Qc=Qc,
                frame=lent(generator, "frame", len(samples)))


def block(generator, i, base, samples, lost):
    """The record of call number i of its kind; and, for one of so many, that
    of the same call with 0 for each lost sample."""
    call = weigh_call(generator, i, base, samples, lost)
    found = [records.record("d", call)]
    if i % PAIRED == PAIRED - 1:
        call["samples"] = with_value(samples, lost, 0)
        found.append(records.record("d", call))
    return found


# --- One, many and all samples of a symbol -----------------------------------

def one_blocks(generator):
    """One sample is lost: at each of the places, with base chip 0 there and
    with base chip 1; in every third case one of each symbol."""
    for i in range(ONE):
        at = PLACES[i % len(PLACES)]
        base = base_with_chip(generator, at, i // len(PLACES) % 2)
        count = generator.draw() % 3 + 1
        samples = draw_samples(generator, i % KINDS, base, count)
        symbol = i // 2 % count
        lost = {64 * symbol + at}
        if i % 3 == 2:
            lost |= {64 * other + generator.draw() % 64
                     for other in range(count) if other != symbol}
        yield block(generator, i, base, samples, lost)


def scattered(generator, count):
    """So many of 64 places, drawn one by one."""
    left = list(range(64))
    return {left.pop(generator.draw() % len(left)) for _ in range(count)}


def neighbours(generator, count):
    """So many of 64 places, one after the other."""
    first = generator.draw() % (65 - count)
    return set(range(first, first + count))


def many_lost(generator, i, count):
    """The lost places of case i: scattered or neighbours in one symbol, some
    in each symbol, or neighbours from one symbol into the next."""
    most = COUNTS[i % len(COUNTS)]
    if i % 4 == 3:
        first = 64 * (i // 4 % (count - 1)) + 63
        first -= generator.draw() % min(most - 1, 32)
        return set(range(first, first + most))
    symbol = i // 4 % count
    if i % 4 == 0:
        return {64 * symbol + k for k in scattered(generator, most)}
    if i % 4 == 1:
        return {64 * symbol + k for k in neighbours(generator, most)}
    return {64 * each + k for each in range(count)
            for k in scattered(generator, pick(generator, COUNTS))}


def many_blocks(generator):
    """From 2 to 63 samples of a symbol are lost, of one symbol or of more."""
    for i in range(MANY):
        base = any_base(generator)
        count = generator.draw() % 3 + (2 if i % 4 == 3 else 1)
        samples = draw_samples(generator, i % KINDS, base, count)
        yield block(generator, i, base, samples,
                    many_lost(generator, i, count))


def all_blocks(generator):
    """All samples of a symbol are lost: of the only one, of some, of all, and
    of 256; in every second case some of the other symbols' samples, too."""
    for i, (count, symbols) in enumerate(ALL):
        base = any_base(generator)
        samples = draw_samples(generator, i % KINDS, base, count)
        lost = {64 * symbol + k for symbol in symbols for k in range(64)}
        if i % 2 == 1:
            lost |= {64 * other + k for other in range(count)
                     for k in scattered(generator, generator.draw() % 20 + 1)}
        yield block(generator, i, base, samples, lost)
    call = weigh_call(generator, 0, any_base(generator), [0] * 64, set())
    yield [records.record("d", dict(
        call, samples=records.repeated(64 * 256, LOST % 256),
        frame=lent(generator, "frame", 64 * 256)))]


# --- Refused calls -----------------------------------------------------------

def refused_call(generator, i):
    """A call with one or more lost samples, in some with none but these."""
    base = any_base(generator)
    count = generator.draw() % 2 + 1
    samples = draw_samples(generator, i % KINDS, base, count)
    lost = {generator.draw() % 64, 64 * count - 1}
    if i % 3 == 2:
        lost = set(range(64 * count))
    return weigh_call(generator, i, base, samples, lost)


def refused_blocks(generator):
    """Calls with one damage or with two, and lost samples only that are no
    whole count of symbols, or too many."""
    chosen = [[pick_of(generator, WEIGH, number)]
              for number in (2, 2, 3, 3, 10, 10, 11, 11)]
    chosen += list(pairs(generator, WEIGH, 1))
    for i, damages in enumerate(chosen):
        call = damaged(generator, refused_call(generator, i), damages)
        yield [records.record("d", call)]
    for length in (63, 65, 64 * 257):
        call = refused_call(generator, 2)
        yield [records.record("d", dict(
            call, samples=records.repeated(length, LOST % 256),
            frame=call["frame"].of_length(length)))]


# --- Rows from encoding to decoding ------------------------------------------

def row_calls(generator, i, n):
    """The calls of a row; every second is without noise."""
    row = case_calls(generator, n, *precisions(generator))
    if i % 2 == 0:
        row[2][1]["noise"] = 0
    return row


def rate_blocks(generator):
    """Rows in which one of so many samples is lost."""
    for i, (n, rate) in enumerate(RATES):
        row = row_calls(generator, i, n)
        row[2][1]["lost"] = rate
        yield [records.record(letter, call) for letter, call in row]


def dropout_calls(channel, first, end, rate):
    """Channels one after the other, which lose all samples of the places from
    the first to before the end, and of the others one of so many.

    The samples of all places come through the first channel; those before the
    end are lost in the second; those before the first come through the third
    as they came through the first."""
    places = channel["numbers"].length
    steps = [(places, rate)] if end < places else []
    steps += [(end, 1)]
    steps += [(first, rate)] if first > 0 else []
    return [("c", dict(channel, lost=lost,
                       samples=channel["samples"].of_length(64 * count)))
            for count, lost in steps]


def dropout_blocks(generator):
    """Rows in which all samples of some places are lost, or of all places."""
    for i, (n, first, end) in enumerate(DROPOUTS):
        row = row_calls(generator, i, n)
        rate = pick(generator, (0, 8, 15))
        row[2:3] = dropout_calls(row[2][1], first, end, rate)
        yield [records.record(letter, call) for letter, call in row]


# --- All of them -------------------------------------------------------------

def blocks():
    """The records of all cases."""
    generator = Generator(SEED)
    for group in (one_blocks, many_blocks, all_blocks, refused_blocks,
                  rate_blocks, dropout_blocks):
        yield from group(generator)
