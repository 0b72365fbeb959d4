"""The whole chain for a message sent without noise: encode, spread, samples,
weigh, decode and read the message, written literally from the paper. Plain
and slow on purpose. Encoding, spreading, weighing and decoding are the calls
of scms.py, chips.py and decoding.py.

Open points in the paper, and the reading chosen for each:

 1. The paper has no call that does the whole chain, so its numbers are not
    listed. It has the inputs of 1, 2, 3, 13, 4, 5, 6, 7, 10 and 11, tried in
    that order. 8 and 9 speak of penalties given to a call; here the penalties
    are made by weighing, which gives none too large and a zero in each
    vector. 12 speaks of files, and there are none.
 2. The amplitude has no number in the table. Any value outside 1 to 127, also
    0 and values below 0, gives 19. It comes after all of the table, so it is
    returned only where nothing else fits.
 3. The needed lengths are not gathered in one place. Each must be met
    exactly: map N, coefficients n * N/2, message K, samples 64 * N, frame
    64 * N, work buffer 65 * N, symbols N, report 64 * N, totals N, decoded
    message K. No buffer is lent for the codeword or for the numbers it is
    spread to, so none can have a wrong length. With n refused no length is
    looked at.
 4. K is the count of 0 bytes, also where the map has bytes above 1 or another
    length than N. Message and decoded message are measured by that K.
 5. With K = 0 the needed message is empty, so 5 and 7 never fit together
    unless 2 fits as well.
 6. Refusal 3 is tried once, for both halves: weighing and decoding are given
    the same Qc.
 7. The limit of 1 to 256 symbols in spreading and weighing always holds, as N
    is from 2 to 256.
 8. Map bytes, coefficients, symbols, base and gain are taken as numbers that
    can't be below 0, and the base as below 2^64. Only the amplitude is
    looked at below 0, and n, Qc, Qm and the gain are refused there too.
 9. "A message sent" is read as its whole codeword: the samples are those of
    all N sent symbols, in order of places, and of chips 0 to 63 in each.
10. Reading the message is not described. The decoded message has the
    decoder's symbols at the message places in rising order, as the encoder
    fills them. Only a 0 byte marks a message place.
11. The noiseless statement is named in the paper (by a row worked by hand)
    but not stated. It is read as: where each wrong symbol's penalty at each
    sent symbol is still at least 1 after rounding, the decoder's symbols are
    the word before the transform, and the decoded message is the message. It
    is read for every Qm that is not refused, clipped or not.
12. "Wrong symbol" is read as each of the 63 values other than the sent one.
    The cap comes after the rounding, but is at least 1, so it is the same
    whether the premise is looked at before or after the cap.
13. A codeword without symbols has no wrong symbol, so the premise holds of it.
14. Where the premise fails no number of the table fits. The call then takes
    its input and answers what the decoder decides.
15. The count is the decoder's count of clipped entries alone. Penalties
    capped in weighing are not counted.
16. What lent buffers hold before the call is never looked at, and the work
    buffer, all zeros afterwards, is no part of the answer. "Buffers
    unchanged" is shown by the answer None.
17. The order of what is answered is open. Symbols, report, totals and count
    follow each other as in decode, with samples and frame before them and
    the decoded message after them.
18. The frame printed by the program in the paper names no samples. It is that
    of a sent word, the transform of (0, 33), and is reached here with base 1,
    amplitude 10 and gain 3/20.
19. By request 02 a sample -128 is a lost one. The samples here are +A and -A,
    A being at most 127, so none of them is lost, and the noiseless statement
    is read as before.
20. Request 03 speaks of the decoder and of its callers. The chain lends the
    same buffer of N totals and hands on what the decoder leaves there. The
    least that weighing subtracts is no part of it; that of a sent symbol is 0
    here anyway. Where the premise holds each total is 0, as the sent word has
    penalty 0 at each place.
21. Request 05 keeps the noiseless statement for all m. The chain takes the
    decoder's m and hands it on. That each total is 0 where the premise holds
    is read for all m too: the one value with phi's penalty 0 is always tried.
"""

import collections
import random

from chips import (
    chip,
    equals_itself_turned_by_32,
    place_penalties,
    spread,
    spread_refusal,
    weigh,
    weigh_refusal,
)
from decoding import (
    decode,
    decode_refusal,
    listing,
    m_is_valid,
    precisions_are_valid,
    spike,
)
from scms import (
    coefficients_are_valid,
    encode,
    encode_refusal,
    map_bytes_are_valid,
    message_places,
    n_is_valid,
    place_message,
    symbols_are_valid,
)


# --- Samples, message and premise --------------------------------------------

def sent_samples(numbers, amplitude):
    """The samples sent without noise: +A at each chip 0, -A at each chip 1."""
    samples = []
    for number in numbers:
        for k in range(64):
            if chip(number, k) == 0:
                samples.append(amplitude)
            else:
                samples.append(-amplitude)
    return samples


def message_of(map, symbols):
    """The symbols at the message places, in rising order of places."""
    message = []
    for place in range(len(map)):
        if map[place] == 0:
            message.append(symbols[place])
    return message


def premise_holds(base, amplitude, top, bottom, Qc, codeword):
    """Whether each wrong symbol has a penalty of at least 1 at each place."""
    for sent in codeword:
        number, numbers = spread(base, [sent], 1)
        assert number == 0
        samples = sent_samples(numbers, amplitude)
        number, penalties = weigh(base, samples, top, bottom, Qc, 64)
        assert number == 0
        for s in range(64):
            if s != sent and penalties[s] < 1:
                return False
    return True


# --- Refusals ----------------------------------------------------------------

# The numbers of the call of the whole chain in the order in which they count.
ORDER = [1, 2, 3, 13, 4, 5, 6, 7, 10, 11, 19]


def link_refusal(n, map, coefs, message, base, amplitude, top, bottom, Qc, Qm,
                 m, samples_length, frame_length, work_length, symbols_length,
                 report_length, totals_length, decoded_length):
    """The first number that fits the call of the whole chain, or 0."""
    if not n_is_valid(n):
        return 1
    N = 2 ** n
    K = message_places(map)
    if len(map) != N:
        return 2
    if len(coefs) != n * (N // 2):
        return 2
    if len(message) != K:
        return 2
    if samples_length != 64 * N:
        return 2
    if frame_length != 64 * N:
        return 2
    if work_length != 65 * N:
        return 2
    if symbols_length != N:
        return 2
    if report_length != 64 * N:
        return 2
    if totals_length != N:
        return 2
    if decoded_length != K:
        return 2
    if not precisions_are_valid(Qc, Qm):
        return 3
    if not m_is_valid(m):
        return 13
    if not map_bytes_are_valid(map):
        return 4
    if K == 0:
        return 5
    if not coefficients_are_valid(coefs):
        return 6
    if not symbols_are_valid(message):
        return 7
    if equals_itself_turned_by_32(base):
        return 10
    if top < 1 or top > 255 or bottom < 1 or bottom > 255:
        return 11
    if amplitude < 1 or amplitude > 127:
        return 19
    return 0


# --- The whole chain ---------------------------------------------------------

# What the call answers when it takes its input, each a list but the count.
Answer = collections.namedtuple(
    "Answer", ["samples", "frame", "symbols", "report", "totals", "count",
               "message"])


def link(n, map, coefs, message, base, amplitude, top, bottom, Qc, Qm, m,
         samples_length, frame_length, work_length, symbols_length,
         report_length, totals_length, decoded_length):
    """The whole chain: (0, the namedtuple Answer), or (refusal, None)."""
    refusal = link_refusal(n, map, coefs, message, base, amplitude, top,
                           bottom, Qc, Qm, m, samples_length, frame_length,
                           work_length, symbols_length, report_length,
                           totals_length, decoded_length)
    if refusal != 0:
        return (refusal, None)
    N = 2 ** n
    number, codeword = encode(n, map, coefs, message, N)
    assert number == 0
    number, numbers = spread(base, codeword, N)
    assert number == 0
    samples = sent_samples(numbers, amplitude)
    number, frame = weigh(base, samples, top, bottom, Qc, frame_length)
    assert number == 0
    number, symbols, report, totals, count = decode(
        n, map, coefs, Qc, Qm, m, frame, work_length, symbols_length,
        report_length, totals_length)
    assert number == 0
    decoded = message_of(map, symbols)
    # Each lent buffer is filled exactly.
    assert len(samples) == samples_length
    assert len(frame) == frame_length
    assert len(symbols) == symbols_length
    assert len(report) == report_length
    assert len(totals) == totals_length
    assert len(decoded) == decoded_length
    return (0, Answer(samples, frame, symbols, report, totals, count,
                      decoded))


# --- Worked rows -------------------------------------------------------------

def arguments(n, map, coefs, message, base, amplitude, top, bottom, Qc, Qm,
              m=64):
    """The arguments of the call by name, with buffers of the needed lengths."""
    N = 2 ** n
    K = message_places(map)
    return dict(n=n, map=map, coefs=coefs, message=message, base=base,
                amplitude=amplitude, top=top, bottom=bottom, Qc=Qc, Qm=Qm, m=m,
                samples_length=64 * N, frame_length=64 * N,
                work_length=65 * N, symbols_length=N, report_length=64 * N,
                totals_length=N, decoded_length=K)


def test_worked_rows():
    """Assert the paper's rows worked by hand that concern the chain."""
    # Base 1: symbol 1 has only chip 63 set.
    number, numbers = spread(1, [1], 1)
    assert sent_samples(numbers, 127) == [127] * 63 + [-127]
    assert sent_samples([1, 2 ** 63], 10) == (
        [-10] + [10] * 63 + [10] * 63 + [-10])

    # Base 1, samples +10 except chip 0 at -10, are those sent for symbol 0.
    number, numbers = spread(1, [0], 1)
    samples = sent_samples(numbers, 10)
    assert samples == [-10] + [10] * 63
    assert weigh(1, samples, 1, 4, 3, 64) == (0, spike(0, 5))
    assert weigh(1, samples, 1, 40, 3, 64) == (0, [0] * 64)
    assert weigh(1, samples, 1, 20, 3, 64) == (0, spike(0, 1))
    # Gain 1/40 gives 0 for all, so the premise fails; 1/20 gives 1.
    for codeword in ([0], [5], [0, 5, 63], list(range(64))):
        assert premise_holds(1, 10, 1, 4, 3, codeword)
        assert not premise_holds(1, 10, 1, 40, 3, codeword)
        assert premise_holds(1, 10, 1, 20, 3, codeword)
    assert premise_holds(1, 10, 1, 40, 3, [])

    # Base 2^32 + 1 is refused by 10.
    assert link(**arguments(1, [1, 0], [1], [4], 2 ** 32 + 1, 10, 1, 4, 3,
                            3)) == (10, None)

    # The transform's rows: all coefficients 1, and layer 1 with 2 and 1.
    for map, coefs, message, u, codeword in (
            ([0, 0, 0, 0], [1, 1, 1, 1], [0, 1, 2, 3], [0, 1, 2, 3],
             [0, 2, 1, 3]),
            ([1, 1, 1, 0], [2, 1, 1, 1], [7], [0, 0, 0, 7], [7, 7, 14, 7])):
        for Qm, m in ((3, 64), (13, 64), (3, 1), (13, 1), (3, 2)):
            number, answer = link(**arguments(2, map, coefs, message, 1, 10,
                                              1, 4, 3, Qm, m))
            assert number == 0
            samples = []
            frame = []
            for x in codeword:
                # Chip k of symbol x is base chip (k + x) mod 64, so that of
                # base 1 is 1 at k = -x mod 64 alone.
                for k in range(64):
                    samples.append(-10 if (k + x) % 64 == 0 else 10)
                frame.extend(spike(x, 5))
            assert answer.samples == samples
            assert answer.frame == frame
            assert answer.symbols == u
            assert answer.message == message

    # The same with gain 1/40: a frame of zeros, so all symbols are 0.
    number, answer = link(**arguments(2, [1, 1, 1, 0], [2, 1, 1, 1], [7], 1,
                                      10, 1, 40, 3, 3))
    assert number == 0
    assert answer.frame == [0] * 256
    assert answer.symbols == [0, 0, 0, 0]
    assert answer.report == [0] * 256
    assert answer.totals == [0] * 4
    assert answer.count == 0
    assert answer.message == [0]

    # The row that ties 4 and 5 is not that of a sent word: symbols alone.
    assert message_of([1, 0], [0, 4]) == [4]
    assert message_of([0, 1, 1, 0, 0], [9, 8, 7, 6, 5]) == [9, 6, 5]

    # The printed frame is that of a sent word, the transform of (0, 33).
    number, answer = link(**arguments(1, [1, 0], [2], [33], 1, 10, 3, 20, 5,
                                      13))
    assert number == 0
    assert answer.frame == spike(33, 3) + spike(1, 3)
    assert listing(answer.symbols, answer.report) == [
        (0, 0, 0, 3), (1, 33, 0, 6)]
    assert answer.totals == [0, 0]
    assert answer.count == 0
    assert answer.message == [33]
    # With Qc = Qm = 2 the 6 becomes 3 and the count is 63.  The cap of 3 lets
    # a higher gain make the same frame.
    for top, bottom in ((3, 20), (1, 4), (255, 1)):
        number, answer = link(**arguments(1, [1, 0], [2], [33], 1, 10, top,
                                          bottom, 2, 2))
        assert number == 0
        assert answer.frame == spike(33, 3) + spike(1, 3)
        assert listing(answer.symbols, answer.report) == [
            (0, 0, 0, 3), (1, 33, 0, 3)]
        assert answer.totals == [0, 0]
        assert answer.count == 63
        assert answer.message == [33]


# --- Random cases ------------------------------------------------------------

def least_distance(base):
    """The least number of chips in which the base differs from a turn of it."""
    least = 64
    for s in range(1, 64):
        differing = 0
        for k in range(64):
            if chip(base, k) != chip(base, (k + s) % 64):
                differing = differing + 1
        least = min(least, differing)
    return least


def random_base(draw):
    """A base that is not refused: any, of few chips, or close to refused."""
    while True:
        kind = draw.randrange(4)
        if kind == 0:
            base = draw.getrandbits(64)
        elif kind == 1:
            base = 0
            for chips in range(draw.randrange(1, 5)):
                base = base | 2 ** draw.randrange(64)
        elif kind == 2:
            base = (2 ** 64 - 1) ^ 2 ** draw.randrange(64)
        else:
            # A row of chips of a short period, with one chip changed.
            period = 2 ** draw.randrange(6)
            row = draw.getrandbits(period)
            base = 0
            for k in range(64):
                base = base + chip(row, k % period) * 2 ** k
            base = base ^ 2 ** draw.randrange(64)
        if not equals_itself_turned_by_32(base):
            return base


def random_gain(draw, base, amplitude):
    """Top and bottom: any, low, or at the border of the premise."""
    kind = draw.randrange(4)
    if kind == 0:
        return (draw.randrange(1, 256), draw.randrange(1, 256))
    if kind == 1:
        return (draw.randrange(1, 4), draw.randrange(100, 256))
    # The least raw penalty of a wrong symbol, less the least of the 64.
    raw = least_distance(base) * amplitude
    tops = []
    for top in range(1, 256):
        if raw * top + 1 <= 255:
            tops.append(top)
    if tops == []:
        return (1, 255)
    top = draw.choice(tops)
    if kind == 2:
        return (top, raw * top)
    return (top, raw * top + 1)


def random_arguments(draw, n):
    """Arguments, with buffers of the needed lengths, that are not refused."""
    N = 2 ** n
    while True:
        map = [draw.randrange(2) for place in range(N)]
        if message_places(map) > 0:
            break
    coefs = [draw.randrange(1, 64) for number in range(n * (N // 2))]
    message = [draw.randrange(64) for number in range(message_places(map))]
    base = random_base(draw)
    amplitude = draw.choice([1, 2, draw.randrange(1, 9),
                             draw.randrange(1, 128), 127])
    top, bottom = random_gain(draw, base, amplitude)
    Qc = draw.randrange(1, 6)
    Qm = draw.choice([Qc, draw.randrange(Qc, 14), 13])
    m = draw.choice([1, 64, draw.randrange(1, 8), draw.randrange(1, 65)])
    return arguments(n, map, coefs, message, base, amplitude, top, bottom, Qc,
                     Qm, m)


def test_random_case(given, tally):
    """Assert one case that is taken, and add what it is to the tally."""
    n = given["n"]
    map = given["map"]
    coefs = given["coefs"]
    message = given["message"]
    N = 2 ** n
    number, answer = link(**given)
    assert number == 0
    u = place_message(map, message)
    number, codeword = encode(n, map, coefs, message, N)
    assert number == 0

    # Each sent symbol has penalty 0 and each vector keeps to the cap.
    for place in range(N):
        penalties = place_penalties(answer.frame, place)
        assert penalties[codeword[place]] == 0
        assert max(penalties) <= 2 ** given["Qc"] - 1
    assert set(answer.samples) == {given["amplitude"], -given["amplitude"]}
    # Frozen places are 0, and the message and the map give the symbols back.
    assert place_message(map, answer.message) == answer.symbols
    # With Qm = 13 nothing clips.
    if given["Qm"] == 13:
        assert answer.count == 0

    holds = premise_holds(given["base"], given["amplitude"], given["top"],
                          given["bottom"], given["Qc"], codeword)
    # The chips in which two symbols differ depend on their difference modulo
    # 64 alone, so the premise is one inequality, whatever codeword and Qc.
    raw = least_distance(given["base"]) * given["amplitude"]
    assert holds == (raw * given["top"] >= given["bottom"])

    tally["cases"] += 1
    if holds:
        tally["premise holds"] += 1
        assert answer.symbols == u
        assert answer.message == message
        assert answer.totals == [0] * N
        for place in range(N):
            penalties = place_penalties(answer.report, place)
            assert penalties[u[place]] == 0
            assert penalties.count(0) == 1
        if answer.count > 0:
            tally["premise holds, clipped"] += 1
        if given["Qm"] == given["Qc"]:
            tally["premise holds, Qm = Qc"] += 1
            if answer.count > 0:
                tally["premise holds, Qm = Qc and clipped"] += 1
        if raw * given["top"] // given["bottom"] == 1:
            tally["premise holds, least penalty of a wrong symbol 1"] += 1
        if given["m"] == 1:
            tally["premise holds, m = 1"] += 1
        if 1 < given["m"] < 64:
            tally["premise holds, m from 2 to 63"] += 1
    else:
        tally["premise fails"] += 1
        if link(**dict(given, m=65 - given["m"])) != (0, answer):
            tally["premise fails, another m another answer"] += 1
        if max(answer.totals) > 0:
            tally["premise fails, a total above 0"] += 1
        if max(answer.frame) == 0:
            tally["premise fails, frame all zeros"] += 1
        if answer.count > 0:
            tally["premise fails, clipped"] += 1
        if given["Qm"] == given["Qc"]:
            tally["premise fails, Qm = Qc"] += 1
        if answer.message == message:
            tally["premise fails, same message"] += 1
        else:
            tally["premise fails, other message"] += 1
            if max(answer.frame) > 0:
                tally["premise fails, other message, frame not all zeros"] += 1
            # With m = 64, up to the first symbol that differs the sent one
            # has penalty 0, so only a smaller value can have been taken before
            # it.  With a lower m what makes its penalty 0 need not be tried.
            place = 0
            while answer.symbols[place] == u[place]:
                place = place + 1
            if given["m"] == 64:
                assert answer.symbols[place] < u[place]
            elif answer.symbols[place] > u[place]:
                tally["premise fails, a larger symbol at a lower m"] += 1


def test_random_cases():
    """Assert the noiseless statement in random cases; returns the tally."""
    draw = random.Random(6401)
    tally = collections.Counter()
    for n, cases in ((1, 200), (2, 120), (3, 70), (4, 40)):
        for case in range(cases):
            test_random_case(random_arguments(draw, n), tally)
    for name in ("premise holds", "premise holds, clipped",
                 "premise holds, Qm = Qc",
                 "premise holds, Qm = Qc and clipped",
                 "premise holds, least penalty of a wrong symbol 1",
                 "premise holds, m = 1", "premise holds, m from 2 to 63",
                 "premise fails, another m another answer",
                 "premise fails, a larger symbol at a lower m",
                 "premise fails", "premise fails, a total above 0",
                 "premise fails, clipped",
                 "premise fails, same message",
                 "premise fails, other message",
                 "premise fails, other message, frame not all zeros"):
        assert tally[name] > 0, name
    return tally


# --- Refusals, one and more at a time ----------------------------------------

# Arguments that are taken, from which each fault starts.
GOOD = arguments(2, [1, 0, 1, 0], [2, 1, 1, 63], [7, 63], 1, 10, 1, 4, 3, 3)

# The names of the seven lengths of lent buffers.
LENGTHS = ["samples_length", "frame_length", "work_length", "symbols_length",
           "report_length", "totals_length", "decoded_length"]


def value_fault(name, value):
    """A fault that gives one argument another value."""
    def alter(given):
        """Give the argument its value."""
        given[name] = value
    return alter


def entry_fault(name, index, value):
    """A fault that gives one entry of a list another value."""
    def alter(given):
        """Give the entry its value, if the list has any."""
        if given[name] == []:
            return
        given[name] = list(given[name])
        given[name][index] = value
    return alter


def length_fault(name, change):
    """A fault that makes a length greater or smaller."""
    def alter(given):
        """Change the length."""
        given[name] = given[name] + change
    return alter


def longer_fault(name, value):
    """A fault that puts one entry more at the end of a list."""
    def alter(given):
        """Put the entry at the end."""
        given[name] = given[name] + [value]
    return alter


def shorter_fault(name):
    """A fault that takes away the first entry of a list."""
    def alter(given):
        """Take away the first entry."""
        given[name] = given[name][1:]
    return alter


def message_place_fault(given):
    """A fault that makes the last message place a byte 2, with K one less."""
    given["map"] = list(given["map"])
    given["map"][3] = 2
    given["message"] = given["message"][:-1]
    given["decoded_length"] = given["decoded_length"] - 1


def no_message_fault(given):
    """A fault that leaves no 0 byte in the map, and an empty message."""
    given["map"] = [1 if byte == 0 else byte for byte in given["map"]]
    given["message"] = []
    given["decoded_length"] = 0


def all_faults():
    """Pairs of a number and a fault, in an order in which they can be made."""
    # The map and message come first, wrong lengths last, so that no fault
    # takes back another.
    faults = []
    faults.append((4, message_place_fault))
    faults.append((4, entry_fault("map", 0, 2)))
    faults.append((4, entry_fault("map", 2, 255)))
    faults.append((5, no_message_fault))
    faults.append((7, entry_fault("message", 0, 64)))
    faults.append((7, entry_fault("message", -1, 255)))
    faults.append((1, value_fault("n", 0)))
    faults.append((1, value_fault("n", 9)))
    faults.append((1, value_fault("n", 255)))
    faults.append((3, value_fault("Qc", 0)))
    faults.append((3, value_fault("Qc", 6)))
    faults.append((3, value_fault("Qm", 2)))
    faults.append((3, value_fault("Qm", 14)))
    for m in (0, 65, 256 + 16, 2 ** 32 + 16, 2 ** 64 - 1):
        faults.append((13, value_fault("m", m)))
    faults.append((6, entry_fault("coefs", 0, 0)))
    faults.append((6, entry_fault("coefs", 3, 0)))
    faults.append((6, entry_fault("coefs", 1, 64)))
    faults.append((6, entry_fault("coefs", 3, 255)))
    for base in (0, 2 ** 64 - 1, 2 ** 32 + 1, (2 ** 64 - 1) // 3):
        faults.append((10, value_fault("base", base)))
    for name in ("top", "bottom"):
        faults.append((11, value_fault(name, 0)))
        faults.append((11, value_fault(name, 256)))
        faults.append((11, value_fault(name, 65535)))
    for amplitude in (0, 128, 255, -1, -10, -128):
        faults.append((19, value_fault("amplitude", amplitude)))
    for name in LENGTHS:
        faults.append((2, length_fault(name, 1)))
        faults.append((2, length_fault(name, -1)))
        faults.append((2, length_fault(name, 64)))
        # With K = 0 a decoded length of 0 is right.
        if name != "decoded_length":
            faults.append((2, value_fault(name, 0)))
    faults.append((2, longer_fault("map", 1)))
    faults.append((2, longer_fault("map", 0)))
    faults.append((2, shorter_fault("map")))
    faults.append((2, longer_fault("coefs", 1)))
    faults.append((2, shorter_fault("coefs")))
    faults.append((2, longer_fault("message", 0)))
    faults.append((2, longer_fault("message", 64)))
    faults.append((2, shorter_fault("message")))
    return faults


def refusal_of_parts(n, map, coefs, message, base, amplitude, top, bottom, Qc,
                     Qm, m, samples_length, frame_length, work_length,
                     symbols_length, report_length, totals_length,
                     decoded_length):
    """The first refusal of the calls of the chain and of what only it has."""
    if n < 1 or n > 8:
        return 1
    N = 2 ** n
    numbers = []
    numbers.append(encode_refusal(n, map, coefs, message, N))
    numbers.append(spread_refusal(base, [0] * N, N))
    numbers.append(weigh_refusal(base, [0] * samples_length, top, bottom, Qc,
                                 frame_length))
    numbers.append(decode_refusal(n, map, coefs, Qc, Qm, m,
                                  [0] * frame_length, work_length,
                                  symbols_length, report_length,
                                  totals_length))
    if samples_length != 64 * N:
        numbers.append(2)
    if decoded_length != map.count(0):
        numbers.append(2)
    if amplitude not in range(1, 128):
        numbers.append(19)
    fitting = [number for number in numbers if number != 0]
    if fitting == []:
        return 0
    return first_of(fitting)


def first_of(numbers):
    """The number that counts before all others of these."""
    return min(numbers, key=ORDER.index)


def refusal_with(faults):
    """The number that the call gives for the good arguments with faults."""
    given = dict(GOOD)
    for number, alter in faults:
        alter(given)
    refusal = link_refusal(**given)
    assert refusal == refusal_of_parts(**given)
    if refusal != 0:
        assert link(**given) == (refusal, None)
    return refusal


def test_refusals():
    """Assert each refusal alone and with others; returns how many of each."""
    numbers = ORDER
    faults = all_faults()
    assert refusal_with([]) == 0

    # One at a time.
    alone = collections.Counter()
    for fault in faults:
        refusal = refusal_with([fault])
        assert refusal == fault[0]
        alone[refusal] += 1
    assert sorted(alone) == sorted(numbers)

    # Two at a time: the first in order wins.  With 5 the message is empty, so
    # it can neither have a symbol above 63 nor be shorter.
    pairs = collections.Counter()
    for i in range(len(faults)):
        for j in range(i + 1, len(faults)):
            first = faults[i]
            second = faults[j]
            if first[0] == second[0]:
                continue
            winner = first_of([first[0], second[0]])
            loser = first[0] + second[0] - winner
            if (winner, loser) == (5, 7):
                assert refusal_with([first, second]) == 5
                continue
            if first[0] == 5 and second is faults[-1]:
                assert refusal_with([first, second]) == 5
                continue
            assert refusal_with([first, second]) == winner
            pairs[(winner, loser)] += 1
    for i in range(len(numbers)):
        for j in range(i + 1, len(numbers)):
            pair = (numbers[i], numbers[j])
            assert (pairs[pair] > 0) == (pair != (5, 7))
    # 5 and 7 fit together only where the message is longer than K.
    given = dict(GOOD)
    no_message_fault(given)
    given["message"] = [64]
    assert link(**given) == (2, None)

    # More at a time, without 5, 7 and the shorter message, each of which can
    # take back another: the first in order wins.
    draw = random.Random(19)
    sure = [fault for fault in faults[:-1] if fault[0] not in (5, 7)]
    several = collections.Counter()
    for case in range(3000):
        count = draw.randrange(2, 7)
        chosen = sorted(draw.sample(range(len(sure)), count))
        made = [sure[i] for i in chosen]
        given = dict(GOOD)
        for number, alter in made:
            alter(given)
        refusal = link_refusal(**given)
        assert refusal == refusal_of_parts(**given)
        # Two faults of the same argument can be made one after the other, and
        # then only the parts tell what fits.
        if len({number for number, alter in made}) == len(made):
            assert refusal == first_of([number for number, alter in made])
            several[refusal] += 1
    return (alone, pairs, several)


def test_borders():
    """Assert that the values at the ends of each range are taken."""
    for name, values in (("amplitude", (1, 127)), ("top", (1, 255)),
                         ("bottom", (1, 255)), ("Qm", (3, 13)),
                         ("m", (1, 2, 63, 64)),
                         ("coefs", ([1] * 4, [63] * 4)),
                         ("message", ([0, 0], [63, 63])),
                         ("base", (1, 2 ** 64 - 2, 2 ** 63))):
        for value in values:
            given = dict(GOOD)
            given[name] = value
            assert link_refusal(**given) == 0
            number, answer = link(**given)
            assert number == 0
    for Qc, Qm in ((1, 1), (1, 13), (5, 5), (5, 13)):
        given = dict(GOOD)
        given["Qc"] = Qc
        given["Qm"] = Qm
        number, answer = link(**given)
        assert number == 0
        assert answer.message == GOOD["message"]
    # Every n is taken, n = 8 with its 256 symbols to spread too.
    for n in range(1, 9):
        N = 2 ** n
        given = arguments(n, [1] * (N - 1) + [0], [1] * (n * (N // 2)), [9],
                          1, 127, 255, 1, 5, 13)
        assert link_refusal(**given) == 0
        given["n"] = n + 1
        assert link_refusal(**given) == (1 if n == 8 else 2)


# --- All of it ---------------------------------------------------------------

def self_test():
    """Assert worked rows, random cases and refusals; returns the tallies."""
    test_worked_rows()
    test_borders()
    alone, pairs, several = test_refusals()
    tally = test_random_cases()
    return (tally, alone, pairs, several)


if __name__ == "__main__":
    tally, alone, pairs, several = self_test()
    for name in sorted(tally):
        print("%6d %s" % (tally[name], name))
    for number in sorted(alone):
        print("refusal %2d: %3d alone, %4d as the first of two, %4d as the "
              "first of several"
              % (number, alone[number],
                 sum(pairs[pair] for pair in pairs if pair[0] == number),
                 several[number]))
    print("linking.py: worked rows, noiseless cases and refusals hold")
