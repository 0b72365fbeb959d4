"""Chip distances of a base, written literally from request 06 and from the
paper's section "Chips and penalties". Plain and slow on purpose: distances are
counted chip by chip, and whether the premise of the noiseless statement holds
is found by weighing what is sent.

Open points in the paper and the request, and the reading chosen for each:

1. Which calls have which input. All four have the base, so 10 applies to each;
   the list has a buffer: 2, then 10; the premise has a gain: 10, then 11.
2. Length of the lent buffer. "A lent buffer of 63 bytes (else 2)" is read as
   exact: a longer one is refused just as a shorter one.
3. "Another s: as s mod 64". A multiple of 64 is then shift 0, which differs
   from itself in no chip: its distance is 0, and the call is taken.
4. The least is over the shifts 1 to 63, and these alone are listed. Shift 0
   is not, whatever d is.
5. "Within d chips" is a distance of at most d. Any d is taken. Where no shift
   lies within d the count is 0 and the buffer has 63 zeros.
6. A base that is not refused differs from each of its shifts 1 to 63: one that
   equals itself turned by s chips does so by 32 too. So the least is above 0.
7. The premise of the noiseless statement is that each wrong symbol's penalty
   is at least 1 after rounding, for a message sent without noise. The call has
   no message: it must hold for each symbol that can be sent. It has no Qc
   either: no cap is below 1, so with any Qc the answer is the same. Here Qc is
   5.
8. An amplitude outside 1 to 127 has no number of the table. It gets its no
   after the refusals are tried.
9. "Buffers unchanged" is shown by the result None.
"""

from chips import (
    chip_of_symbol,
    equals_itself_turned_by_32,
    penalties_of_symbol,
)

# The Qc with which what is sent is weighed.
PREMISE_QC = 5


# --- Distances ---------------------------------------------------------------

def distance(base, s):
    """The number of chips in which shift s differs from shift 0."""
    count = 0
    for k in range(64):
        if chip_of_symbol(base, s, k) != chip_of_symbol(base, 0, k):
            count = count + 1
    return count


def least(base):
    """The least distance of the shifts 1 to 63."""
    found = []
    for s in range(1, 64):
        found.append(distance(base, s))
    return min(found)


def within(base, d):
    """The shifts from 1 to 63 whose distance is at most d, rising."""
    shifts = []
    for s in range(1, 64):
        if distance(base, s) <= d:
            shifts.append(s)
    return shifts


# --- Premise -----------------------------------------------------------------

def sent_without_noise(base, amplitude, s):
    """The 64 samples of symbol s: +A at each chip 0 and -A at each chip 1."""
    samples = []
    for k in range(64):
        if chip_of_symbol(base, s, k) == 1:
            samples.append(-amplitude)
        else:
            samples.append(amplitude)
    return samples


def premise(base, amplitude, top, bottom):
    """Whether each wrong symbol has a penalty of at least 1, whichever symbol
    is sent."""
    for sent in range(64):
        samples = sent_without_noise(base, amplitude, sent)
        penalties = penalties_of_symbol(base, samples, top, bottom, PREMISE_QC)
        for s in range(64):
            if s != sent and penalties[s] < 1:
                return False
    return True


# --- Refusals ----------------------------------------------------------------

def base_refusal(base):
    """The lowest number of the table that fits a call with a base alone, or
    0."""
    if equals_itself_turned_by_32(base):
        return 10
    return 0


def list_refusal(base, output_length):
    """The lowest number of the table that fits a call of the list, or 0."""
    if output_length != 63:
        return 2
    if equals_itself_turned_by_32(base):
        return 10
    return 0


def premise_refusal(base, top, bottom):
    """The lowest number of the table that fits a call of the premise, or 0."""
    if equals_itself_turned_by_32(base):
        return 10
    if top == 0 or top > 255 or bottom == 0 or bottom > 255:
        return 11
    return 0


# --- Calls -------------------------------------------------------------------

def shift_distance(base, s):
    """The call for one shift: (0, its distance), or (refusal, None)."""
    number = base_refusal(base)
    if number != 0:
        return number, None
    return 0, distance(base, s % 64)


def least_distance(base):
    """The call for the least: (0, the least distance), or (refusal, None)."""
    number = base_refusal(base)
    if number != 0:
        return number, None
    return 0, least(base)


def shifts_within(base, d, output_length):
    """The call for the list: (0, the count, the buffer), or (refusal, None,
    None)."""
    number = list_refusal(base, output_length)
    if number != 0:
        return number, None, None
    shifts = within(base, d)
    unused = output_length - len(shifts)
    return 0, len(shifts), shifts + [0] * unused


def premise_holds(base, amplitude, top, bottom):
    """The call for the premise: (0, 1 for yes and 0 for no), or (refusal,
    None)."""
    number = premise_refusal(base, top, bottom)
    if number != 0:
        return number, None
    if amplitude < 1 or amplitude > 127:
        return 0, 0
    if premise(base, amplitude, top, bottom):
        return 0, 1
    return 0, 0


# --- Worked by hand ----------------------------------------------------------

def test_distances():
    """Assert the distances of bases that are worked out by hand."""
    # Base 1: shift s has chip -s mod 64 alone, so two chips differ.
    for s in range(1, 64):
        assert shift_distance(1, s) == (0, 2)
    # 32 chips 1 in a row: turned by s up to 32, s chips differ at either end.
    row = 2 ** 32 - 1
    for s in range(65):
        assert shift_distance(row, s) == (0, 2 * min(s, 64 - s))
    # Chips 1 and 0 in turn, but for one: turned by an even s the chip that is
    # changed and the one that it is turned to differ, by an odd s all but
    # these.
    changed = (2 ** 64 - 1) // 3 ^ 2 ** 9
    for s in range(1, 64):
        assert shift_distance(changed, s) == (0, 62 if s % 2 == 1 else 2)
    for s in (0, 64, 128, 2 ** 32, 2 ** 64 - 64):
        assert shift_distance(row, s) == (0, 0)
    assert shift_distance(row, 2 ** 64 - 1) == (0, 2)
    assert shift_distance(row, 2 ** 32 + 5) == (0, 10)
    assert least_distance(1) == (0, 2)
    assert least_distance(row) == (0, 2)
    assert least_distance(changed) == (0, 2)
    # Each four chips in turn 0 and 1, but for the last: by 8 chips and by its
    # multiples two chips differ.
    fours = 0xF0F0F0F0F0F0F0F0 ^ 2 ** 63
    assert within(fours, 2) == [8, 16, 24, 32, 40, 48, 56]


def test_lists():
    """Assert what the list has for bases that are worked out by hand."""
    row = 2 ** 32 - 1
    for d in range(2):
        assert shifts_within(row, d, 63) == (0, 0, [0] * 63)
    for d in range(2, 64):
        # Up to d div 2 at either end.
        most = d // 2
        shifts = list(range(1, most + 1)) + list(range(64 - most, 64))
        assert shifts_within(row, d, 63) == (
            0, 2 * most, shifts + [0] * (63 - 2 * most))
    for d in (64, 65, 256, 2 ** 32 - 1):
        assert shifts_within(row, d, 63) == (0, 63, list(range(1, 64)))


def test_premise():
    """Assert the paper's rows: base 1 and amplitude 10, with gain 1/40 and
    with 1/20; and some beside these."""
    assert premise_holds(1, 10, 1, 40) == (0, 0)
    assert premise_holds(1, 10, 1, 20) == (0, 1)
    assert premise_holds(1, 10, 1, 21) == (0, 0)
    assert premise_holds(1, 10, 2, 40) == (0, 1)
    assert premise_holds(1, 9, 1, 20) == (0, 0)
    assert premise_holds(1, 127, 1, 254) == (0, 1)
    assert premise_holds(1, 127, 1, 255) == (0, 0)
    for amplitude in (0, 128, 129, 255, 256, 257, 2 ** 32 - 1):
        assert premise_holds(1, amplitude, 255, 1) == (0, 0)


def test_refused():
    """Assert the refusals and their order."""
    alike = 2 ** 32 + 1
    for base in (0, 2 ** 64 - 1, alike, (2 ** 64 - 1) // 3):
        assert shift_distance(base, 0) == (10, None)
        assert least_distance(base) == (10, None)
        assert shifts_within(base, 2, 63) == (10, None, None)
        assert premise_holds(base, 10, 1, 20) == (10, None)
    for length in (0, 62, 64, 126):
        assert shifts_within(1, 2, length) == (2, None, None)
        assert shifts_within(alike, 2, length) == (2, None, None)
    for top, bottom in ((0, 1), (1, 0), (256, 1), (1, 256), (0, 0)):
        assert premise_holds(1, 10, top, bottom) == (11, None)
        assert premise_holds(1, 0, top, bottom) == (11, None)
        assert premise_holds(alike, 10, top, bottom) == (10, None)
        assert premise_holds(alike, 0, top, bottom) == (10, None)


def self_test():
    """What request 06 says, and the paper's rows on the premise."""
    test_distances()
    test_lists()
    test_premise()
    test_refused()


if __name__ == "__main__":
    self_test()
    print("distances.py: what request 06 says holds, and the paper's rows on "
          "the premise")
