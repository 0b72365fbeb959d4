"""Records of calls of the decoder and of round trips with other m than 64, the
number of values that a check node tries; and some with 64.

Calls that are taken: a frame worked by hand, one frame at each m from 1 to 64,
codes and frames of several kinds for every n at each m of a list and at drawn
m, and round trips.  Calls that are refused: m is outside 1 to 64, alone and
with each other refusal of the call.  The totals lent to these have drawn
numbers above 0, so that it shows where one is written.

shorter_check.py counts what these records tell apart.
"""

import calls
import decode_cases
import link_cases
import records
import shorter_check
import totals_cases
import worked_cases

from draws import Generator, draw_base, halves_alike, pick
from pieces import (
    codeword,
    coefs_slice,
    damaged,
    fit_to_map,
    lengths,
    near_frame,
    pick_of,
    places,
    plain_frame,
    precisions,
    symbols_slice,
)
from totals_cases import any_frame, far_frame, full, large_frame, tied_frame

SEED = 1364

# The m that every n has.
EACH_M = (1, 2, 3, 8, 16, 32, 63, 64)

# For each n how often it has each of these, and how many drawn m it has.
EACH_TIMES = {1: 5, 2: 5, 3: 4, 4: 3, 5: 2, 6: 1, 7: 1, 8: 1}
DRAWN_TIMES = {1: 24, 2: 30, 3: 30, 4: 18, 5: 8, 6: 4, 7: 1, 8: 1}

# Qc and Qm, None for drawn ones.
PRECISIONS = ((3, 4), (5, 13), (1, 1), (5, 5), None, (2, 2), (4, 4))

# The m that are refused: next to the limits, and such that a part of their
# bits is an m that is taken.
REFUSED_M = (0, 65, 66, 127, 128, 129, 255, 256, 257, 256 + 16, 2 ** 16,
             2 ** 16 + 16, 2 ** 24, 2 ** 24 + 1, 2 ** 31 + 16, 2 ** 31,
             2 ** 32 - 1)

# The refusals that count before that of m; all others count after it.
BEFORE_M = (1, 2, 3)


def draw_m(generator):
    """An m from 1 to 64."""
    return generator.draw() % 64 + 1


# --- Codes and frames --------------------------------------------------------

MAPS = totals_cases.MAPS + (totals_cases.none_frozen,)


def draw_coefs(generator, count):
    """Coefficients: mostly any, at times one for all kernels."""
    mode = generator.draw() % 6
    if mode == 0:
        return records.repeated(count, generator.draw() % 63 + 1)
    return coefs_slice(generator, count)


def written_frame(most, entries):
    """A frame written out; its penalties are at most so large."""
    return records.written(entries, 1 if most < 16 else 2)


def zero_one_frame(generator, most, word):
    """Penalties 0 and 1 alone."""
    return plain_frame(generator, 1, len(word), most)


def few_frame(generator, most, word):
    """Penalties 0, but for 1 to 30 of each vector."""
    entries = [0] * (64 * len(word))
    for place in range(len(word)):
        for _ in range(generator.draw() % 30 + 1):
            at = 64 * place + generator.draw() % 64
            entries[at] = generator.draw() % most + 1
        entries[64 * place + generator.draw() % 64] = 0
    return written_frame(most, entries)


def run_frame(generator, most, word):
    """Long runs of the same penalty, by value; one run of each vector is 0."""
    entries = []
    for _ in word:
        vector = []
        while len(vector) < 64:
            length = pick(generator, (3, 5, 8, 11, 16, 21, 32))
            vector += [generator.draw() % (most + 1)] * length
        vector = vector[:64]
        lowest = min(vector)
        entries += [penalty - lowest for penalty in vector]
    return written_frame(most, entries)


def level_frame(generator, most, word):
    """In each vector 0 and one or two penalties more, each about as often."""
    entries = []
    for _ in word:
        levels = [0] + [generator.draw() % most + 1
                        for _ in range(generator.draw() % 2 + 1)]
        vector = [pick(generator, levels) for _ in range(64)]
        vector[generator.draw() % 64] = 0
        entries += vector
    return written_frame(most, entries)


# The kinds of frames; those of long codes are short to write.
FRAMES = (any_frame, zero_one_frame, run_frame, large_frame, few_frame,
          near_frame, level_frame, tied_frame, far_frame)
LONG_FRAMES = (any_frame, large_frame, zero_one_frame, near_frame)
MOST_WRITTEN = 4


def frame_kind(n, i):
    """The kind of frame of number i for a code of n layers."""
    kinds = FRAMES if n <= MOST_WRITTEN else LONG_FRAMES
    return kinds[i % len(kinds)]


def taken(generator, n, m, draw_frame, pair):
    """The record of a call that is taken."""
    Qc, Qm = precisions(generator) if pair is None else pair
    map = pick(generator, MAPS)(generator, 2 ** n)
    coefs = draw_coefs(generator, n * 2 ** n // 2)
    word = codeword(n, map, coefs, symbols_slice(generator, places(map)))
    frame = draw_frame(generator, 2 ** Qc - 1, word)
    call = decode_cases.code_call(generator, n, map, coefs, Qc, Qm, frame)
    return [records.record("D", dict(call, m=m))]


# --- Calls of the decoder that are taken -------------------------------------

def each_blocks(generator):
    """Each m of the list for every n."""
    for n, times in EACH_TIMES.items():
        for i in range(times):
            for j, m in enumerate(EACH_M):
                # The kind changes with m, the precisions with both.
                pair = PRECISIONS[(i + j + n) % len(PRECISIONS)]
                yield taken(generator, n, m, frame_kind(n, 2 * i + j), pair)


def drawn_blocks(generator):
    """Drawn m for every n."""
    for n, times in DRAWN_TIMES.items():
        for i in range(times):
            pair = PRECISIONS[(i + n) % len(PRECISIONS)]
            yield taken(generator, n, draw_m(generator), frame_kind(n, i),
                        pair)


def step_frame(generator):
    """A frame of N = 2 for which each m gives another penalty at place 0.

    Theta has 0 at one value, else 31; phi has 0 to 6, so there are many ties.
    A value c that is tried gives phi's penalty at theta's value + c, which is
    31 else."""
    at_theta = worked_cases.spike(generator.draw() % 64, 31)
    at_phi = [generator.draw() % 7 for _ in range(64)]
    at_phi[generator.draw() % 64] = 0
    return records.written(at_theta + at_phi)


def step_block(generator):
    """The records of such a frame at each m from 1 to 64, each with its own
    coefficient; the frame is written once.  It is compared that one value
    fewer gives another report."""
    frame = step_frame(generator)
    found = []
    for m in range(1, 65):
        call = decode_cases.code_call(
            generator, 1, records.repeated(2, 0), coefs_slice(generator, 1),
            5, 13, frame)
        found.append(records.record("D", dict(call, m=m)))
        frame = records.same(128)
    for worked in list(calls.worked_out(found))[1:]:
        assert shorter_check.shows(worked, shorter_check.one_fewer)
    return found


# --- Frames that differ from m = 64 in a certain way -------------------------

def clips_at_m(given, answer, by_full):
    """Whether a frame is clipped at m and not at 64."""
    return answer.count > 0 and by_full.count == 0


def clips_at_64(given, answer, by_full):
    """Whether a frame is clipped at 64 and not at m."""
    return answer.count == 0 and by_full.count > 0


def other_symbols(given, answer, by_full):
    """Whether other symbols are decided, at Qm = 13."""
    return given["Qm"] == 13 and answer.symbols != by_full.symbols


def falling_totals(given, answer, by_full):
    """Whether a total is below the one before, which is never so at 64."""
    return answer.totals != sorted(answer.totals)


def above_decoded(given, answer, by_full):
    """Whether a total is above that of the decoded word, which is never so at
    64."""
    return shorter_check.above_decoded(given, answer)


# How many records there are of each, for N = 4 and for N = 8.
FOUND = ((clips_at_m, 5, 9), (clips_at_64, 5, 9), (other_symbols, 4, 8),
         (falling_totals, 3, 6), (above_decoded, 3, 6))

# The kinds of frames that these are drawn from.
FOUND_FRAMES = (run_frame, level_frame, any_frame, large_frame, near_frame)


def found_precisions(generator, n, holds):
    """Qc and Qm: such that what is clipped is just above the limit, where that
    is looked for; else 13 for Qm, or such."""
    Qc = generator.draw() % 4 + 2
    if holds in (clips_at_m, clips_at_64) or generator.draw() % 2 == 0:
        return Qc, Qc + n - 1
    return Qc, 13


def found(generator, n, holds):
    """The record of a call for which something holds; calls with a low m are
    drawn until it does."""
    while True:
        block = taken(generator, n, generator.draw() % 7 + 1,
                      pick(generator, FOUND_FRAMES),
                      found_precisions(generator, n, holds))
        worked = next(calls.worked_out(block))
        if holds(worked.given, shorter_check.answer_of(worked),
                 shorter_check.full_answer(worked.given)):
            return block


def found_blocks(generator):
    """The records of these."""
    for holds, shorter, longer in FOUND:
        for n, times in ((2, shorter), (3, longer)):
            for _ in range(times):
                yield found(generator, n, holds)


# --- Round trips that are taken ----------------------------------------------

def sure_trip(generator, call):
    """A gain by which two chips that differ make a penalty of at least 1.  No
    two symbols differ in less, so the premise of the noiseless statement
    holds."""
    amplitude = call["amplitude"]
    top = generator.draw() % 9 + 1
    most = min(2 * amplitude * top, 255)
    low = most // 2 + 1
    call.update(top=top, bottom=low + generator.draw() % (most - low + 1))


def tied_trip(generator, call):
    """A base and a gain by which each sent symbol and the one turned by 32
    chips have the penalty 0, so that the premise fails."""
    bit = 2 ** (generator.draw() % 64)
    call.update(base=halves_alike(draw_base(generator)) ^ bit, top=1,
                bottom=2 * call["amplitude"] + 1)


def drawn_trip(generator, call):
    """Base and gain as they are."""


TRIPS = (sure_trip, tied_trip, drawn_trip)


def trip(generator, n, m, change):
    """The record of a round trip that is taken."""
    call = link_cases.draw_call(generator, n)
    change(generator, call)
    fit_to_map(call, ["message", "text"])
    return [records.record("t", dict(call, m=m))]


def trip_blocks(generator):
    """Round trips: each m of the list for N from 2 to 16, drawn m for the
    same, and a few for longer codes."""
    for n in (1, 2, 3, 4):
        for j, m in enumerate(EACH_M):
            yield trip(generator, n, m, TRIPS[(n + j) % len(TRIPS)])
    for i in range(21):
        yield trip(generator, i % 4 + 1, draw_m(generator), TRIPS[i % 3])
    for n, m, change in ((5, 1, tied_trip), (5, 3, sure_trip),
                         (6, 2, tied_trip), (6, 40, sure_trip),
                         (7, 1, sure_trip), (7, 8, tied_trip),
                         (8, 1, tied_trip), (8, 16, sure_trip)):
        yield trip(generator, n, m, change)


# --- Refused calls -----------------------------------------------------------

# The damages of each call; the totals have a wrong length too.
DECODE_DAMAGES = decode_cases.DAMAGES + lengths(["totals"])
TRIP_DAMAGES = link_cases.DAMAGES + lengths(["totals"])


def number_of(line):
    """The number that a record's call gives."""
    return next(calls.worked_out([line])).numbers[0]


def decode_call(generator, n):
    """A call of the decoder that is taken."""
    call = decode_cases.draw_call(generator, n, generator.draw() % 4)
    return dict(call, totals=full(generator, call["totals"].length))


def trip_call(generator, n):
    """A round trip that is taken, but for the lengths of the two messages."""
    call = link_cases.draw_call(generator, n)
    return dict(call, totals=full(generator, call["totals"].length))


# For each call its letter, what draws it, and the slices that have K entries.
DECODE = ("D", decode_call, ())
TRIP = ("t", trip_call, ("message", "text"))


def small_code(generator):
    """The n of a refused call, from 1 to 4."""
    return generator.draw() % 4 + 1


def alone(generator, kind, n, m):
    """The record of a call with that m, and nothing else that is refused."""
    letter, draw, fitted = kind
    call = damaged(generator, draw(generator, n), [], fitted)
    line = records.record(letter, dict(call, m=m))
    assert number_of(line) == 13
    return [line]


def alone_blocks(generator, kind):
    """Each m that is refused; two of them for a long code."""
    for m in REFUSED_M:
        yield alone(generator, kind, small_code(generator), m)
    for n, m in ((8, 0), (6, 65)):
        yield alone(generator, kind, n, m)


def damaged_call(generator, kind, damage):
    """A call that is refused for the damage.  One to an entry of a message may
    be past its K entries; then another call is drawn."""
    letter, draw, fitted = kind
    for _ in range(20):
        call = damaged(generator, draw(generator, small_code(generator)),
                       [damage], fitted)
        if number_of(records.record(letter, call)) == damage.refusal:
            return call
    raise AssertionError("no call is refused for %d" % damage.refusal)


def paired(generator, kind, m, damage):
    """The record of a call with that m and a damage; it is compared which of
    the two counts."""
    letter, _, _ = kind
    call = damaged_call(generator, kind, damage)
    line = records.record(letter, dict(call, m=m))
    first = damage.refusal if damage.refusal in BEFORE_M else 13
    assert number_of(line) == first
    return [line]


def trip_chosen(generator):
    """The damages of round trips that come together with an m: three of each
    refusal but 2, and one of each slice's length."""
    numbers = sorted({damage.refusal for damage in TRIP_DAMAGES} - {2})
    for number in numbers:
        for _ in range(3):
            yield pick_of(generator, TRIP_DAMAGES, number)
    names = sorted({damage.slice for damage in TRIP_DAMAGES
                    if damage.slice is not None})
    for name in names:
        yield pick(generator, totals_cases.damages_of_slice(
            name, TRIP_DAMAGES))


def paired_blocks(generator, kind, damages):
    """An m that is refused with each of the damages."""
    for i, damage in enumerate(damages):
        yield paired(generator, kind, REFUSED_M[i % len(REFUSED_M)], damage)


# --- All of them -------------------------------------------------------------

def blocks():
    """The records of all cases; they come after all others."""
    generator = Generator(SEED)
    yield from worked_cases.compared(worked_cases.shorter_rows())
    yield from each_blocks(generator)
    yield from drawn_blocks(generator)
    yield step_block(generator)
    yield from found_blocks(generator)
    yield from trip_blocks(generator)
    yield from alone_blocks(generator, DECODE)
    yield from alone_blocks(generator, TRIP)
    yield from paired_blocks(generator, DECODE, DECODE_DAMAGES)
    yield from paired_blocks(generator, TRIP, trip_chosen(generator))
