"""Records of calls with any contents and any lengths.

Each number and slice of a call is now and then another one: any entries up to
the largest, any length up to the capacity, any number.  What is left is as in
the calls of the other modules, so that many numbers of refusals occur.  The
totals and m are left as they are; totals_cases.py has other lengths of them,
and shorter_cases.py other m.
"""

import chip_cases
import decode_cases
import encode_cases
import link_cases
import listing_cases
import reading_cases
import records
import writing_cases

from draws import Generator, draw_base, pick
from pieces import fit_to_map

CASES = 60

# The longest slice of another length that is written out.
MOST_WRITTEN = 600

# Numbers for n, Qc, Qm, the gain and the amplitude.
NUMBERS = (0, 1, 2, 3, 4, 5, 6, 8, 9, 13, 14, 127, 128, 255, 256, 257, 260,
           1000, 4096, 65535)

LENGTHS = (0, 1, 2, 63, 64, 65, 128, 256, 257)


def any_length(generator, capacity):
    """A length: at a limit, or up to the capacity."""
    drawn = generator.draw()
    if drawn % 2 == 0:
        return min(pick(generator, LENGTHS), capacity)
    return drawn % (capacity + 1)


def any_slice(generator, name, length):
    """A slice of any entries; the larger half of them in some."""
    bits, _ = records.BUFFERS[name]
    low = generator.draw() % 4 // 3 * 2 ** (min(bits, 16) - 1)
    most = 2 ** min(bits, 16) - 1
    return records.drawn(length, generator.draw(), low, most + 1, most)


def any_number(generator, name):
    """A number for any of a call's numbers."""
    if name == "base":
        return draw_base(generator)
    if name == "verdict":
        return pick(generator, (0, 2, 8, 9, 12, generator.draw() % 256))
    if name == "place":
        return pick(generator, NUMBERS + (2 ** 20, 2 ** 26, 2 ** 32 - 1))
    return pick(generator, NUMBERS)


def with_any_length(generator, name, part):
    """The slice with any length; a long one is not written out."""
    length = any_length(generator, records.BUFFERS[name][1])
    if part.rule[0] == "x" and length > MOST_WRITTEN:
        return any_slice(generator, name, length)
    return part.of_length(length)


def changed(generator, letter, call, mode):
    """The call with some of its fields any: in mode 0 contents alone, in mode
    1 numbers and lengths, in mode 2 all; at least one slice that is not lent,
    and one length."""
    call = dict(call)
    names = [name for name in records.field_names(letter)
             if name not in ("totals", "m")]
    slices = [name for name in names if name in records.BUFFERS]
    lent = records.lent_names(letter)
    content = pick(generator, [name for name in slices if name not in lent])
    longer = pick(generator, slices)
    for name in names:
        hit = generator.draw() % 4 == 0
        if name not in slices:
            if hit and mode > 0:
                call[name] = any_number(generator, name)
            continue
        if mode > 0 and (hit or name == longer):
            call[name] = with_any_length(generator, name, call[name])
        if mode != 1 and (hit or name == content):
            call[name] = any_slice(generator, name, call[name].length)
    return call


# --- A call of each kind that is taken ---------------------------------------

def encode_call(generator):
    """A call of the encoder."""
    call = encode_cases.draw_call(generator, generator.draw() % 4 + 1)
    fit_to_map(call, ["message"])
    return call


def spread_call(generator):
    """A call of spreading."""
    return chip_cases.spread_call(generator, generator.draw() % 9 + 1)


def weigh_call(generator):
    """A call of weighing."""
    return chip_cases.weigh_call(generator, generator.draw() % 2,
                                 generator.draw() % 4 + 1,
                                 draw_base(generator))


def part_call(generator):
    """A call for the part of a place."""
    size = generator.draw() % 6 + 1
    return dict(frame=any_slice(generator, "frame", 64 * size),
                place=generator.draw() % size)


def decode_call(generator):
    """A call of the decoder."""
    return decode_cases.draw_call(generator, generator.draw() % 3 + 1,
                                  generator.draw() % 4)


def link_call(generator):
    """A round trip."""
    call = link_cases.draw_call(generator, generator.draw() % 3 + 1)
    fit_to_map(call, ["message", "text"])
    return call


def listing_call(generator):
    """A call for a whole listing."""
    return listing_cases.draw_call(generator, generator.draw() % 3 + 1,
                                   generator.draw() % 4)


CALLS = (
    ("e", encode_call),
    ("s", spread_call),
    ("d", weigh_call),
    ("p", part_call),
    ("D", decode_call),
    ("t", link_call),
    ("h", reading_cases.any_sheet_call),
    ("l", reading_cases.any_line_call),
    ("f", reading_cases.any_fed_call),
    ("o", listing_call),
    ("w", writing_cases.any_sheet_call),
    ("x", writing_cases.any_line_call),
)


# The length of each slice for a code of one place, which is refused.
ONE_PLACE = {"map": 1, "coefs": 0, "message": 1, "symbols": 1, "samples": 64,
             "frame": 64, "work": 65, "report": 64, "totals": 1}


def one_place_blocks(generator):
    """Calls with n = 0 and slices of the lengths that a code of one place
    would need; the text of a round trip, of a whole listing and of a sheet has
    its own length in each."""
    for letter, draw, text in (("e", encode_call, 0), ("D", decode_call, 0),
                               ("t", link_call, 1), ("o", listing_call, 27),
                               ("w", writing_cases.any_sheet_call, 10)):
        call = draw(generator)
        call["n"] = 0
        for name in records.field_names(letter):
            if name in records.BUFFERS:
                length = ONE_PLACE.get(name, text)
                call[name] = call[name].of_length(length)
        yield [records.record(letter, call)]


def blocks():
    """The records of all cases."""
    yield from one_place_blocks(Generator(1))
    generator = Generator(255)
    for letter, draw in CALLS:
        for i in range(CASES):
            call = changed(generator, letter, draw(generator), i % 3)
            yield [records.record(letter, call)]
