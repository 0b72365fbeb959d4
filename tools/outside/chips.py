"""CCSK chips and penalties, written literally from the paper's section
"Chips and penalties" and its table "Refused", and from request 02, by which
-128 is a lost sample and has magnitude 0. Plain and slow on purpose.

Open points in the paper and the request, and the reading chosen for each:

1. Length of a lent buffer. "A slice has a length other than needed" is read
   as exact: a longer buffer is refused by 2 just as a shorter one (the
   looser "shorter than needed" is said of the sheet reader only). Needed is
   one number a symbol for spread, and 64 penalties a symbol for weigh, which
   is as many as there are samples.
2. Sample count not a multiple of 64. The paper names only "another count" of
   symbols. Such a slice is no whole count of symbols: refused by 2.
3. Which calls have which input. Spreading has symbols, base and a buffer:
   2, 7, 10. Weighing has samples, base, gain, Qc and a buffer: 2, 3, 10, 11.
   The base is input of both calls, so 10 applies to both.
4. Refusal 3 in weighing. The call has no Qm, so only the Qc half applies.
5. Refusals 8 and 9 speak of penalties given to a call. Weighing makes
   penalties and is given none, so they do not apply to it.
6. "Turned by 32 chips" is read as chip k against chip (k + 32) mod 64, for
   all k. So the bases 0 and 2^64 - 1 are refused too.
7. Order of multiplying and rounding. The gain is the exact fraction
   top / bottom; the product is exact and rounded down once, and the cap comes
   after the rounding.
8. "Subtract the least of the 64" is done for each symbol by itself, not over
   the whole slice.
9. A sample 0 has hard chip 0 (it is not below 0) and magnitude 0.
10. Handing out one place. The limit of 256 symbols is said of spreading and
    weighing, so a longer slice of whole vectors is still handed out from. An
    empty slice has no place, and a negative place is outside: both give the
    empty part. The part is a copy here, not a part of the caller's list.
11. "Buffers unchanged" is shown by the result None.
12. Which samples are lost. Only -128 is; -127 has magnitude 127, as before.
13. The hard chip of -128. By its rule it is 1, as -128 is below 0. With
    magnitude 0 the sample adds nothing, whatever chip it is compared with,
    so its hard chip doesn't matter, and -128 and 0 give the same penalties.
14. "Adds nothing" is said of the raw penalty. The other samples of the symbol
    count as they do without a lost one: they keep their chips, and neither
    they nor the gain are raised for the samples that are missing.
15. A symbol all of whose 64 samples were lost. Each raw penalty is 0, so are
    the least and each penalty, for every base, gain and Qc. No number of the
    table fits, so the call is taken, also where all samples of all symbols
    were lost.
16. Lost samples in a call that is refused change nothing: no number of the
    table depends on what the samples are.
"""


def chip(number, k):
    """Chip k of a 64-bit number is its bit k."""
    return (number >> k) & 1


def chip_of_symbol(base, s, k):
    """Chip k of symbol s is base chip (k + s) mod 64."""
    return chip(base, (k + s) % 64)


def sent_number(base, s):
    """The number that symbol s is sent as."""
    number = 0
    for k in range(64):
        number = number + chip_of_symbol(base, s, k) * 2 ** k
    return number


def equals_itself_turned_by_32(base):
    """The condition of refusal 10."""
    for k in range(64):
        if chip(base, k) != chip(base, (k + 32) % 64):
            return False
    return True


def hard_chip(sample):
    """1 where the sample is below 0, else 0."""
    if sample < 0:
        return 1
    return 0


def magnitude(sample):
    """Magnitude of a sample; -128, a lost sample, has 0."""
    if sample == -128:
        return 0
    if sample < 0:
        return -sample
    return sample


def raw_penalty(base, samples_of_symbol, s):
    """Sum of magnitudes of the samples whose hard chip differs from the chip
    of s."""
    total = 0
    for k in range(64):
        sample = samples_of_symbol[k]
        if hard_chip(sample) != chip_of_symbol(base, s, k):
            total = total + magnitude(sample)
    return total


def penalties_of_symbol(base, samples_of_symbol, top, bottom, Qc):
    """The 64 penalties of one symbol: least subtracted, times the gain,
    rounded down, capped at 2^Qc - 1."""
    raw = []
    for s in range(64):
        raw.append(raw_penalty(base, samples_of_symbol, s))
    least = min(raw)
    cap = 2 ** Qc - 1
    penalties = []
    for s in range(64):
        penalty = ((raw[s] - least) * top) // bottom
        if penalty > cap:
            penalty = cap
        penalties.append(penalty)
    return penalties


def spread_refusal(base, symbols, output_length):
    """The lowest number of the table that fits a spreading call, or 0."""
    if len(symbols) < 1 or len(symbols) > 256:
        return 2
    if output_length != len(symbols):
        return 2
    for symbol in symbols:
        if symbol > 63:
            return 7
    if equals_itself_turned_by_32(base):
        return 10
    return 0


def spread(base, symbols, output_length):
    """The spreading call: (0, one 64-bit number a symbol), or (refusal,
    None)."""
    number = spread_refusal(base, symbols, output_length)
    if number != 0:
        return number, None
    result = []
    for s in symbols:
        result.append(sent_number(base, s))
    return 0, result


def weigh_refusal(base, samples, top, bottom, Qc, output_length):
    """The lowest number of the table that fits a weighing call, or 0."""
    if len(samples) % 64 != 0:
        return 2
    if len(samples) // 64 < 1 or len(samples) // 64 > 256:
        return 2
    if output_length != len(samples):
        return 2
    if Qc < 1 or Qc > 5:
        return 3
    if equals_itself_turned_by_32(base):
        return 10
    if top == 0 or top > 255 or bottom == 0 or bottom > 255:
        return 11
    return 0


def weigh(base, samples, top, bottom, Qc, output_length):
    """The weighing call: (0, 64 penalties for each symbol in order of value),
    or (refusal, None)."""
    number = weigh_refusal(base, samples, top, bottom, Qc, output_length)
    if number != 0:
        return number, None
    result = []
    for i in range(len(samples) // 64):
        samples_of_symbol = samples[64 * i:64 * i + 64]
        result.extend(
            penalties_of_symbol(base, samples_of_symbol, top, bottom, Qc))
    return 0, result


def place_penalties(penalties, place):
    """The 64 penalties of one place; the empty part for a place outside the
    slice or a slice that isn't whole vectors of 64."""
    if len(penalties) % 64 != 0:
        return []
    if place < 0 or place >= len(penalties) // 64:
        return []
    return penalties[64 * place:64 * place + 64]


def test_worked_rows():
    """Assert the paper's rows worked by hand on base, chips and gain."""
    # Base 1: symbol 1 has only chip 63 set.
    assert spread(1, [1], 1) == (0, [2 ** 63])

    # Base 2^32 + 1 is refused by 10.
    assert spread(2 ** 32 + 1, [1], 1) == (10, None)
    assert weigh(2 ** 32 + 1, [10] * 64, 1, 4, 3, 64) == (10, None)

    # Base 1, samples +10 except chip 0 at -10, Qc 3.
    samples = [-10] + [10] * 63
    # Gain 1/4 gives 0 for symbol 0 and 5 for all others.
    number, result = weigh(1, samples, 1, 4, 3, 64)
    assert number == 0
    assert result == [0] + [5] * 63
    assert place_penalties(result, 0) == [0] + [5] * 63
    # Gain 1/40 gives 0 for all.
    assert weigh(1, samples, 1, 40, 3, 64) == (0, [0] * 64)
    # Gain 1/20 gives 1 (for all others than symbol 0).
    assert weigh(1, samples, 1, 20, 3, 64) == (0, [0] + [1] * 63)


def test_magnitudes():
    """Assert the magnitude of every sample."""
    for sample in range(128):
        assert magnitude(sample) == sample
    for sample in range(-127, 0):
        assert magnitude(sample) == -sample
    assert magnitude(-128) == 0


def test_one_lost():
    """Assert the worked samples with one of them lost, and with -127 there.

    Base 1: symbol 0 has only chip 0 set, symbol 63 only chip 1, and symbol 1
    only chip 63.  Symbol 0 differs from none of the worked samples, any other
    from that of chip 0 and from that of its own chip: 10 and 10.
    """
    for bottom, one, both in ((4, 2, 5), (20, 0, 1), (10, 1, 2),
                              (1, 7, 7)):
        # Chip 0 lost: any other symbol than 0 differs at its own chip alone.
        samples = [-128] + [10] * 63
        assert weigh(1, samples, 1, bottom, 3, 64) == (0, [0] + [one] * 63)
        # Chip 1 lost: symbol 63 differs at chip 0 alone.
        samples = [-10, -128] + [10] * 62
        assert weigh(1, samples, 1, bottom, 3, 64) == (
            0, [0] + [both] * 62 + [one])
        # Chip 63 lost: symbol 1 differs at chip 0 alone.
        samples = [-10] + [10] * 62 + [-128]
        assert weigh(1, samples, 1, bottom, 3, 64) == (
            0, [0] + [one] + [both] * 62)
    # -127 at chip 0 is not lost: each other symbol differs by 127 and 10.
    samples = [-127] + [10] * 63
    assert weigh(1, samples, 1, 20, 5, 64) == (0, [0] + [6] * 63)
    # At chip 1: symbol 0 differs by 127, symbol 63 by 10 at chip 0 alone, the
    # others by 10, 127 and 10.
    samples = [-10, -127] + [10] * 62
    assert weigh(1, samples, 1, 10, 5, 64) == (0, [11] + [13] * 62 + [0])


def test_all_lost():
    """Assert 64 zeros for a symbol all of whose samples were lost, alone and
    among others, and the penalties where one of 64 was not."""
    worked = [-10] + [10] * 63
    lost = [-128] * 64
    zeros = [0] * 64
    for base in (1, 2, 2 ** 64 - 2, 0x9A3F1C70E5B2D486):
        for top, bottom in ((1, 255), (1, 1), (255, 1)):
            for Qc in range(1, 6):
                assert weigh(base, lost, top, bottom, Qc, 64) == (0, zeros)
    fives = [0] + [5] * 63
    for samples, penalties in (
            (lost + worked, zeros + fives),
            (worked + lost, fives + zeros),
            (worked + lost + worked, fives + zeros + fives),
            (lost + worked + lost, zeros + fives + zeros),
            (lost * 256, zeros * 256)):
        assert weigh(1, samples, 1, 4, 3, len(samples)) == (0, penalties)
    # One sample that was not lost: symbol 0 alone agrees with it.
    for at in range(64):
        samples = [-128] * at + [-1] + [-128] * (63 - at)
        number, result = weigh(2 ** at, samples, 9, 1, 5, 64)
        assert (number, result) == (0, [0] + [9] * 63)


def test_lost_refused():
    """Assert that calls with lost samples are refused like others."""
    lost = [-128] * 64
    for length in (0, 63, 65, 64 * 257):
        assert weigh(1, [-128] * length, 1, 4, 3, length) == (2, None)
    assert weigh(1, lost, 1, 4, 3, 63) == (2, None)
    assert weigh(1, lost, 1, 4, 0, 64) == (3, None)
    assert weigh(2 ** 32 + 1, lost, 1, 4, 3, 64) == (10, None)
    assert weigh(1, lost, 0, 4, 3, 64) == (11, None)


def weighed_with(samples, places, value):
    """What weighing answers for the samples of the test below with the same
    value in each of these places."""
    changed = list(samples)
    for at in places:
        changed[at] = value
    number, result = weigh(0x9A3F1C70E5B2D486, changed, 1, 120, 5, 192)
    assert number == 0
    return result


def test_lost_as_zero():
    """Assert that -128 and 0 in the same places give the same penalties, and
    that -127 there gives others."""
    number, numbers = spread(0x9A3F1C70E5B2D486, [0, 21, 63], 3)
    samples = []
    for i in range(64 * 3):
        # From 1 to 127, and negative for chip 1.
        sample = 1 + 37 * i % 127
        if chip(numbers[i // 64], i % 64) == 1:
            sample = -sample
        samples.append(sample)
    for places in ([0], [63], [64], [100], [191], [0, 64, 128], [5, 6, 7],
                   range(0, 192, 3), range(60, 70), range(1, 64),
                   range(50, 150)):
        lost = weighed_with(samples, places, -128)
        assert lost == weighed_with(samples, places, 0)
        assert lost != weighed_with(samples, places, -127)
    # Whole symbols: the same sample 64 times differs from each symbol alike.
    for places in (range(64), range(64, 128), range(128, 192), range(192)):
        lost = weighed_with(samples, places, -128)
        assert lost == weighed_with(samples, places, 0)
        assert lost == weighed_with(samples, places, -127)


def self_test():
    """The paper's rows worked by hand on base, chips and gain, and what
    request 02 says of lost samples."""
    test_worked_rows()
    test_magnitudes()
    test_one_lost()
    test_all_lost()
    test_lost_refused()
    test_lost_as_zero()


if __name__ == "__main__":
    self_test()
    print("chips.py: the paper's rows on base, chips and gain hold, and "
          "request 02")
