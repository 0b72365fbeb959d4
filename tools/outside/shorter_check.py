"""What the recorded calls with other m than 64 tell apart, and what is
compared of the recorded calls by the full rule and by what was sent.

What is compared, of each record of the decoder and of a round trip that is
taken; what differs ends the run by an assertion:

- With m = 64 and up to 8 places: what it answers is what the full rule gives.
- A round trip for which the premise of the noiseless statement holds: the
  decoded message is the one sent, and each total is 0.  The premise holds
  where each vector of the frame has one 0 alone, as the sent symbol has it.

What is counted, of the records of the decoder with m below 64: how many have
another answer with m = 64; and, for up to 16 places, how many have another
report where a mistake is made in the values that are tried.  There must be
some of each, so that no such mistake is left unseen.
"""

import collections

from decoding import (
    PRODUCTS,
    check_node,
    check_node_of,
    decoded,
    least_over,
    values_tried,
    vector,
)
from scms import FIELD_SIZE
from totals_check import word_total

# The most layers of a code that is compared with the full rule, and of one
# that is decoded with mistakes.
MOST_FULL = 3
MOST_MISTAKEN = 4

# How many records of each kind there must be.
LEAST = 10


# --- Values that are tried by mistake ----------------------------------------

def ordered(key, m):
    """The first m values by a key."""
    return sorted(range(FIELD_SIZE), key=key)[:m]


def ties_by_product(h, m, at_phi):
    """Ties to the smaller h * c."""
    return ordered(lambda c: (at_phi[PRODUCTS[h][c]], PRODUCTS[h][c]), m)


def ties_to_larger(h, m, at_phi):
    """Ties to the larger c."""
    return ordered(lambda c: (at_phi[PRODUCTS[h][c]], -c), m)


def counted_at_c(h, m, at_phi):
    """Phi's penalty counted at c to choose the values."""
    return ordered(lambda c: (at_phi[c], c), m)


def one_fewer(h, m, at_phi):
    """m - 1 values, at least one."""
    return values_tried(h, max(m - 1, 1), at_phi)


def one_more(h, m, at_phi):
    """m + 1 values."""
    return values_tried(h, m + 1, at_phi)


def with_ties(h, m, at_phi):
    """All values that have the penalty of the last one tried, too."""
    last = values_tried(h, m, at_phi)[-1]
    most = at_phi[PRODUCTS[h][last]]
    return [c for c in range(FIELD_SIZE) if at_phi[PRODUCTS[h][c]] <= most]


def smallest_c(h, m, at_phi):
    """The values 0 to m - 1, whatever their penalties; and one with penalty
    0, without which a vector could be left with none."""
    return list(range(m)) + values_tried(h, 1, at_phi)


MISTAKES = {
    "ties by h * c": ties_by_product,
    "ties to the larger c": ties_to_larger,
    "penalties at c": counted_at_c,
    "m - 1 values": one_fewer,
    "m + 1 values": one_more,
    "all ties tried": with_ties,
    "values by c alone": smallest_c,
}


def mistaken_node(choose, m):
    """The check node that tries the values chosen by mistake."""
    def node(h, at_theta, at_phi):
        """The 64 penalties for theta."""
        return least_over(h, choose(h, m, at_phi), at_theta, at_phi)
    return node


# --- One record --------------------------------------------------------------

# What a call of the decoder answers.
Answer = collections.namedtuple(
    "Answer", ["symbols", "report", "totals", "count"])


def answer_by(given, node):
    """What the decoder answers with check nodes by `node`."""
    return Answer(*decoded(given["n"], given["map"], given["coefs"],
                           given["Qm"], given["frame"], node))


def answer_of(worked):
    """What a record's call, which was taken, answered."""
    left = worked.left
    return Answer(left["symbols"], left["report"], left["totals"],
                  worked.numbers[1])


def full_answer(given):
    """What the decoder answers with m = 64."""
    return answer_by(given, check_node_of(FIELD_SIZE))


def above_decoded(given, answer):
    """Whether a total is above that of the decoded word."""
    return max(answer.totals) > word_total(given, answer.symbols)


def premise_holds(n, frame):
    """Whether each vector of a round trip's frame has one 0 alone."""
    return all(vector(frame, place).count(0) == 1 for place in range(2 ** n))


def compare_sent(worked):
    """Compare a round trip for which the premise holds with what was sent."""
    assert worked.left["text"] == worked.given["message"], "decoded message"
    assert max(worked.left["totals"]) == 0, "a total of a message sent"


def shows(worked, choose):
    """Whether a record of the decoder has another report where the values
    tried are chosen by mistake."""
    given = worked.given
    by_mistake = answer_by(given, mistaken_node(choose, given["m"]))
    return worked.left["report"] != by_mistake.report


# --- All records -------------------------------------------------------------

# What is counted.
FULL = "m = 64 as by the full rule"
HOLDS = "round trips with m below 64 and the premise holds"
FAILS = "round trips with m below 64 and the premise fails"
SHORTER = "calls of the decoder with m below 64"
CLIPPED = "of these clipped"
ANOTHER = "of these with another answer at 64"
ANOTHER_LONG = "of these with another answer at 64 and N above 16"
OTHER = {name: "of these with other %s at 64" % name
         for name in Answer._fields}
CLIPPED_HERE = "of these clipped at m and not at 64"
CLIPPED_THERE = "of these clipped at 64 and not at m"
FALLING = "of these with a total below the one before"
ABOVE = "of these with a total above the decoded word's"
SHOWN = {name: "of these with another report for " + name
         for name in MISTAKES}

COUNTED = [FULL, HOLDS, FAILS, SHORTER, CLIPPED, ANOTHER, ANOTHER_LONG]
COUNTED += list(OTHER.values()) + [CLIPPED_HERE, CLIPPED_THERE, FALLING, ABOVE]
COUNTED += list(SHOWN.values())


class Check:
    """Looks at one record after the other and counts what it tells apart."""

    def __init__(self):
        self.counts = {name: 0 for name in COUNTED}

    def look(self, worked):
        """Look at a record that was worked out."""
        if worked.letter not in "Dt" or worked.numbers[0] != 0:
            return
        given = dict(worked.given)
        # A round trip makes its frame itself.
        given["frame"] = worked.left.get("frame", given["frame"])
        if worked.letter == "t":
            self.look_at_trip(worked, given)
        if given["m"] == FIELD_SIZE and given["n"] <= MOST_FULL:
            assert answer_of(worked) == answer_by(given, check_node)
            self.counts[FULL] += 1
        if worked.letter == "D" and given["m"] < FIELD_SIZE:
            self.counts[SHORTER] += 1
            self.look_at_full(given, answer_of(worked))
            if given["n"] <= MOST_MISTAKEN:
                self.look_at_mistakes(worked)

    def look_at_trip(self, worked, given):
        """Compare a round trip and count it."""
        holds = premise_holds(given["n"], given["frame"])
        if holds:
            compare_sent(worked)
        if given["m"] < FIELD_SIZE:
            self.counts[HOLDS if holds else FAILS] += 1

    def look_at_full(self, given, answer):
        """Count in what an answer differs from that with m = 64."""
        by_full = full_answer(given)
        self.counts[ANOTHER] += answer != by_full
        self.counts[ANOTHER_LONG] += (given["n"] > MOST_MISTAKEN
                                      and answer != by_full)
        for name, found, other in zip(Answer._fields, answer, by_full):
            self.counts[OTHER[name]] += found != other
        clips, full_clips = answer.count > 0, by_full.count > 0
        self.counts[CLIPPED] += clips
        self.counts[CLIPPED_HERE] += clips and not full_clips
        self.counts[CLIPPED_THERE] += full_clips and not clips
        self.counts[FALLING] += answer.totals != sorted(answer.totals)
        self.counts[ABOVE] += above_decoded(given, answer)

    def look_at_mistakes(self, worked):
        """Count the mistakes by which there is another report."""
        for name, choose in MISTAKES.items():
            self.counts[SHOWN[name]] += shows(worked, choose)

    def lines(self, names):
        """What was counted of these."""
        return ["shorter check nodes: %d %s" % (self.counts[name], name)
                for name in names]

    def complaints(self):
        """What there is too little of."""
        return self.lines(name for name in COUNTED
                          if self.counts[name] < LEAST)

    def text(self):
        """What was counted, in lines."""
        return "\n".join(self.lines(COUNTED))
