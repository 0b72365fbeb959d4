"""The parts that drawn calls are made of: slices by their rules, bases, gains
and precisions; and damages to calls.

A call is a dict with a number or a Slice for each name of records.FIELDS.
"""

import collections

import records
import scms

from draws import Generator, draw_base, halves_alike, pick

# What lent slices hold before a call: nothing that the call would write there.
UNTOUCHED = {"map": 255, "coefs": 255, "symbols": 255, "text": 255,
             "frame": 47110, "work": 4711, "report": 47110, "numbers": 4711,
             "samples": 128}

# What makes the state of a generator that of another, for the totals.
TOTALS_STATE = 303303303


# --- Slices ------------------------------------------------------------------

def lent(generator, name, length):
    """A lent slice: mostly the same entry throughout, at times drawn entries
    that no call writes, or what the record before left."""
    mode = generator.draw() % 8
    value = UNTOUCHED[name]
    if mode == 0 and name != "samples":
        return records.drawn(length, generator.draw(), value - 99, 100, value)
    if mode == 1:
        return records.same(length)
    return records.repeated(length, value)


def own_generator(generator):
    """Another generator, which begins where the state of the given one says;
    the given one draws nothing for it."""
    return Generator(generator.state ^ TOTALS_STATE)


def totals_slice(generator, size):
    """The totals lent: mostly any 16-bit numbers, at times the largest
    throughout, or 0.

    They came after the other slices of a call, so they are drawn from a
    generator of their own, and what the others draw is as it was."""
    own = own_generator(generator)
    mode = own.draw() % 8
    if mode < 2:
        return records.repeated(size, 65535)
    if mode == 2:
        return records.repeated(size, 0)
    return records.drawn(size, own.draw(), 0, 65536, 65535)


def map_slice(generator, size):
    """A map with a message place: all of them, frozen places first, or any."""
    mode = generator.draw() % 4
    place = generator.draw() % size
    if mode == 0:
        return records.repeated(size, 0)
    if mode == 1:
        return records.written([1] * place + [0] * (size - place), 1)
    return records.drawn(
        size, generator.draw(), 0, 2, 1).with_entry(place, 0)


def coefs_slice(generator, count):
    """Coefficients from 1 to 63."""
    return records.drawn(count, generator.draw(), 1, 63, 63)


def symbols_slice(generator, count):
    """Symbols from 0 to 63."""
    return records.drawn(count, generator.draw(), 0, 64, 63)


def places(part):
    """K of a map."""
    return scms.message_places(part.entries())


def codeword(n, map, coefs, message):
    """The codeword of a code and a message given by their slices."""
    refusal, word = scms.encode(n, map.entries(), coefs.entries(),
                                message.entries(), map.length)
    assert refusal == scms.ACCEPTED
    return word


def plain_frame(generator, mode, size, most):
    """A frame of any penalties, of 0 and 1, or mostly of the largest."""
    seed = generator.draw()
    span = (most + 1, 2, 40 * most)[mode]
    top = (most, 1, most)[mode]
    return records.vectors(64 * size, seed, 0, span, top)


def near_frame(generator, most, word):
    """A frame near that of a word: mostly the largest, and mostly 0 for what
    was sent."""
    frame = records.vectors(
        64 * len(word), generator.draw(), most // 2, 9 * most + 1, most)
    if generator.draw() % 2 == 0:
        frame = records.repeated(64 * len(word), most)
    for place, symbol in enumerate(word):
        other = generator.draw()
        zero = symbol if other % 29 != 0 else other % 64
        frame = frame.with_entry(64 * place + zero, 0)
        if other % 5 == 0:
            frame = frame.with_entry(64 * place + other // 5 % 64, 0)
    return frame


def sent_frame(most, word):
    """The frame of a word sent without noise, all others' penalties alike."""
    frame = records.repeated(64 * len(word), most)
    for place, symbol in enumerate(word):
        frame = frame.with_entry(64 * place + symbol, 0)
    return frame


def frame_slice(generator, mode, most, word):
    """A frame that is taken, in one of four modes."""
    if mode == 3:
        return near_frame(generator, most, word)
    frame = plain_frame(generator, mode, len(word), most)
    if mode == 1:
        entries = frame.entries()
        for place in range(len(word)):
            # The first zero stays, so that each vector has one.
            zero = entries[64 * place:64 * place + 64].index(0)
            at = generator.draw() % 64
            if at != zero:
                frame = frame.with_entry(
                    64 * place + at, generator.draw() % (most + 1))
    return frame


# --- Numbers -----------------------------------------------------------------

def precisions(generator):
    """Qc from 1 to 5, and Qm: Qc itself, one more, 13, or any between."""
    Qc = generator.draw() % 5 + 1
    mode = generator.draw() % 4
    drawn = generator.draw()
    return Qc, [Qc, Qc + 1, 13, Qc + drawn % (14 - Qc)][mode]


def sent_base(generator):
    """A base: any; or a row of chips of period 32, 2 or 1 with one chip
    changed, where a turn by the period differs in two chips only."""
    base = draw_base(generator)
    bit = 2 ** (generator.draw() % 64)
    rows = [None, halves_alike(base), (2 ** 64 - 1) // 3 * 2, 0]
    row = rows[generator.draw() % 4]
    return base if row is None else row ^ bit


# --- Damages -----------------------------------------------------------------

# A damage has the refusal that it leads to, a change to a call, when it is
# made: before the contents of others (0), to contents (1), to numbers and
# lengths (2), or to a length that depends on K (3); and the name of the slice
# whose length it is made to.
Damage = collections.namedtuple(
    "Damage", ["refusal", "change", "stage", "slice"], defaults=[None])


def number_damage(refusal, name, value):
    """Another number."""
    def change(generator, call):
        """Give the number its value."""
        call[name] = value
    return Damage(refusal, change, 2)


def length_damage(name, by, stage=2):
    """A slice longer or shorter by so many entries."""
    def change(generator, call):
        """Change the length; none is below 0 or above the capacity."""
        most = records.BUFFERS[name][1]
        length = min(max(call[name].length + by, 0), most)
        call[name] = call[name].of_length(length)
    return Damage(2, change, stage, name)


def entry_damage(refusal, name, value):
    """Another value in one entry: the first, the last, or any."""
    def change(generator, call):
        """Set the entry, if there is any."""
        length = call[name].length
        drawn = generator.draw()
        if length > 0:
            at = (0, length - 1, drawn % length)[generator.draw() % 3]
            call[name] = call[name].with_entry(at, value)
    return Damage(refusal, change, 1)


def base_damage(change_base):
    """Another base, made of the one there is."""
    def change(generator, call):
        """Change the base."""
        call["base"] = change_base(call["base"])
    return Damage(10, change, 2)


def freeze_all(generator, call):
    """Freeze each place."""
    call["map"] = records.repeated(call["map"].length, 1)


def lower_Qm(generator, call):
    """Make Qm one less than Qc."""
    call["Qm"] = max(call["Qc"] - 1, 0)


def most_penalty(call):
    """The largest penalty that a call takes."""
    return 2 ** call.get("Qc", 5) - 1


def raise_penalty(by):
    """A change of one penalty to so much above the largest."""
    def change(generator, call):
        """Set the penalty."""
        at = generator.draw() % call["frame"].length
        value = min(most_penalty(call) + by, 65535)
        call["frame"] = call["frame"].with_entry(at, value)
    return Damage(8, change, 1)


def no_zero(where):
    """A change of each 0 of a vector to 1 or more: the first, the last, or
    any."""
    def change(generator, call):
        """Raise the zeros."""
        frame = call["frame"]
        size = frame.length // 64
        place = (0, size - 1, generator.draw() % size)[where]
        value = 1 + generator.draw() % most_penalty(call)
        for s, entry in enumerate(frame.entries()[64 * place:][:64]):
            if entry == 0:
                frame = frame.with_entry(64 * place + s, value)
        call["frame"] = frame
    return Damage(9, change, 1)


LAYERS = [number_damage(1, "n", n)
          for n in (0, 9, 10, 255, 256, 257, 258, 264)]
CODE_LENGTHS = [length_damage(name, by)
                for name in ("map", "coefs") for by in (-1, 1)]
CODE_BYTES = [entry_damage(4, "map", byte) for byte in (2, 3, 128, 255)]
CODE_BYTES += [Damage(5, freeze_all, 0)]
CODE_BYTES += [entry_damage(6, "coefs", h) for h in (0, 64, 65, 128, 255)]
PRECISIONS = [number_damage(3, "Qc", Qc) for Qc in (0, 6, 7, 257)]
PRECISIONS += [number_damage(3, "Qm", Qm) for Qm in (0, 14, 261)]
PRECISIONS += [Damage(3, lower_Qm, 2)]
PENALTIES = [raise_penalty(by) for by in (1, 2, 256, 32768, 65535)]
PENALTIES += [no_zero(where) for where in range(3)]
BASES = [base_damage(halves_alike), number_damage(10, "base", 0),
         number_damage(10, "base", 2 ** 64 - 1),
         number_damage(10, "base", 2 ** 32 + 1),
         number_damage(10, "base", (2 ** 64 - 1) // 3)]
GAINS = [number_damage(11, name, value) for name in ("top", "bottom")
         for value in (0, 256, 257, 65535)]


def lengths(names, stage=2):
    """Each of these slices one too short and one too long, and by more."""
    return [length_damage(name, by, stage)
            for name in names for by in (-1, 1, -64, 64)]


def fit_to_map(call, names):
    """Give slices the length K."""
    for name in names:
        call[name] = call[name].of_length(places(call["map"]))


def damaged(generator, call, damages, fitted=()):
    """The call with damages; the slices `fitted` have K entries before those
    of the last stage are made."""
    call = dict(call)
    for damage in sorted(damages, key=lambda damage: damage.stage):
        if damage.stage < 3:
            damage.change(generator, call)
    fit_to_map(call, fitted)
    for damage in damages:
        if damage.stage == 3:
            damage.change(generator, call)
    return call


def pairs_of(damages):
    """Two refusals of these damages, each two that differ once."""
    numbers = sorted({damage.refusal for damage in damages})
    return [(a, b) for a in numbers for b in numbers if a < b]


def pick_of(generator, damages, refusal):
    """One of the damages that lead to a refusal."""
    return pick(generator,
                [damage for damage in damages if damage.refusal == refusal])


def pairs(generator, damages, times):
    """Two damages for each two refusals, so often."""
    for _ in range(times):
        for a, b in pairs_of(damages):
            yield [pick_of(generator, damages, a),
                   pick_of(generator, damages, b)]


def length_pairs(generator, damages):
    """Two damages for each slice and each refusal other than 2: the slice has
    another length, and there is one of that refusal."""
    numbers = sorted({damage.refusal for damage in damages} - {2})
    names = sorted({damage.slice for damage in damages} - {None}, key=str)
    for name in names:
        lengths = [damage for damage in damages if damage.slice == name]
        for number in numbers:
            yield [pick(generator, lengths),
                   pick_of(generator, damages, number)]


def up_to_two(generator, damages, count):
    """So many draws of none, one or two damages; each refusal is as likely."""
    numbers = sorted({damage.refusal for damage in damages})
    for _ in range(count):
        times = pick(generator, (0, 0, 1, 1, 2))
        yield [pick_of(generator, damages, pick(generator, numbers))
               for _ in range(times)]
