"""The recorded calls on chip distances looked at a second way.

What is compared, of each record that is taken; what differs ends the run by an
assertion:

- The distance of a shift: that between each two symbols whose difference is
  the shift, by the numbers that they are sent as.
- The least: that between any two symbols.
- The list: a shift is in it where symbol 0 and the shift are as near as said;
  it rises, its count is right, and zeros follow.
- The premise, for an amplitude from 1 to 127: it holds where amplitude times
  top times least distance is at least bottom.  For each fourth of these it is
  found with each symbol sent alone and each Qc from 1 to 5, too.

What is counted are the kinds of records that there must be some of.
"""

from chips import chip, sent_number
from distances import least
from linking import premise_holds

# One of so many records has the premise found with each symbol and each Qc.
EACH_SENT = 4

# How many records of each kind there must be.
LEAST = 5


# --- Second way --------------------------------------------------------------

def sent_chips(base):
    """The 64 chips that each of the 64 symbols is sent as."""
    numbers = [sent_number(base, s) for s in range(64)]
    return [[chip(number, k) for k in range(64)] for number in numbers]


def differing(first, second):
    """In how many chips two symbols differ."""
    return sum(x != y for x, y in zip(first, second))


def compare_shift(given, found):
    """Compare the distance of one shift."""
    sent = sent_chips(given["base"])
    for x in range(64):
        other = (x + given["s"]) % 64
        assert differing(sent[x], sent[other]) == found, "distance"


def compare_least(given, found):
    """Compare the least distance."""
    sent = sent_chips(given["base"])
    assert found == min(differing(sent[x], sent[y])
                        for x in range(64) for y in range(x)), "least"


def compare_list(given, count, left):
    """Compare the shifts of a list."""
    sent = sent_chips(given["base"])
    shifts = left[:count]
    assert shifts == sorted(set(shifts)), "rising"
    assert left[count:] == [0] * (63 - count), "unused end"
    for s in range(64):
        near = s > 0 and differing(sent[0], sent[s]) <= given["d"]
        assert (s in shifts) == near, "shift %d" % s


def compare_sent(given, found):
    """Compare the premise with what each symbol alone gives, by each Qc."""
    for Qc in range(1, 6):
        for s in range(64):
            holds = premise_holds(given["base"], given["amplitude"],
                                  given["top"], given["bottom"], Qc, [s])
            assert holds == (found == 1), "symbol %d with Qc %d" % (s, Qc)


# --- All records -------------------------------------------------------------

# What is counted.
SHIFT_0 = "shifts with distance 0"
SHIFT_2 = "shifts with distance 2"
SHIFT_64 = "shifts with distance 64"
LEAST_2 = "least distances of 2"
LEAST_MORE = "least distances above 2"
LIST_0 = "lists of none"
LIST_63 = "lists of all"
LIST_SOME = "lists of some"
YES = "premises that hold"
NO = "premises that fail"
NO_OUTSIDE = "premises with an amplitude outside"
EQUAL = "premises at the edge"
ABOVE = "premises one above the edge"
BELOW = "premises one below the edge"
SENT = "premises found with each symbol and Qc"

COUNTED = [SHIFT_0, SHIFT_2, SHIFT_64, LEAST_2, LEAST_MORE, LIST_0, LIST_63,
           LIST_SOME, YES, NO, NO_OUTSIDE, EQUAL, ABOVE, BELOW, SENT]

SHIFT_KINDS = {0: SHIFT_0, 2: SHIFT_2, 64: SHIFT_64}
LIST_KINDS = {0: LIST_0, 63: LIST_63}
EDGE_KINDS = {0: EQUAL, 1: ABOVE, -1: BELOW}


class Check:
    """Looks at one record after the other and counts its kind."""

    def __init__(self):
        self.counts = {name: 0 for name in COUNTED}

    def look(self, worked):
        """Look at a record that was worked out."""
        if worked.letter not in "abjk" or worked.numbers[0] != 0:
            return
        given, value = worked.given, worked.numbers[1]
        if worked.letter == "a":
            compare_shift(given, value)
            self.count(SHIFT_KINDS.get(value))
        elif worked.letter == "b":
            compare_least(given, value)
            self.count(LEAST_2 if value == 2 else LEAST_MORE)
        elif worked.letter == "j":
            compare_list(given, value, worked.left["text"])
            self.count(LIST_KINDS.get(value, LIST_SOME))
        else:
            self.look_at_premise(given, value)

    def count(self, kind):
        """Count a record of a kind; None is not counted."""
        if kind is not None:
            self.counts[kind] += 1

    def look_at_premise(self, given, value):
        """Compare the premise and count it."""
        amplitude, bottom = given["amplitude"], given["bottom"]
        if not 1 <= amplitude <= 127:
            assert value == 0, "amplitude %d" % amplitude
            self.count(NO_OUTSIDE)
            return
        reached = amplitude * given["top"] * least(given["base"])
        assert value == (1 if reached >= bottom else 0), "premise"
        self.count(YES if value == 1 else NO)
        self.count(EDGE_KINDS.get(bottom - reached))
        if (self.counts[YES] + self.counts[NO]) % EACH_SENT == 0:
            compare_sent(given, value)
            self.count(SENT)

    def lines(self, names):
        """What was counted of these."""
        return ["chip distances: %d %s" % (self.counts[name], name)
                for name in names]

    def complaints(self):
        """What there is too little of."""
        return self.lines(name for name in COUNTED
                          if self.counts[name] < LEAST)

    def text(self):
        """What was counted, in lines."""
        return "\n".join(self.lines(COUNTED))
