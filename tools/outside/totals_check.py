"""The totals of the recorded calls looked at a second way: by trying words.

By the paper the least total of a row of symbols is the least of the totals of
all words whose places before the transform begin with that row.  In a frame
that is unclipped, number i of the totals is that of the i symbols decided
before place i, and with the penalty reported for a value b it is that of these
and b.  Here words are made by the transform and their totals added up from the
frame's own penalties; no node of the decoder is worked out.

All this is for m = 64.  With a lower m check nodes leave words out, and of
what is said below only the first sentence holds.

What is looked at:

- Each record that is taken: there are N totals, and the first is 0.  With m =
  64 none is below the one before it, and none is above the total of the
  decoded word, clipped or not.
- Each that is unclipped: the total of a place and the penalty reported for its
  own symbol are together the total of the next place, and at the last place
  the total of the decoded word.
- Each call of the decoder with N = 2 that is unclipped: all 64 * 64 words.
- Some with N = 4: all words of the two symbols decided first, so that places 2
  and 3 are compared; and a few in which the totals of places 1, 2 and 3 are
  above 0: all 64 * 64 * 64 words of the first symbol, so that place 1 is
  compared too.

What differs ends the run by an assertion.
"""

import collections
import itertools

from scms import FIELD_SIZE, transform

# How many calls with N = 4 have places 2 and 3 compared, and how many place 1.
MOST_PLACE_2 = 40
MOST_PLACE_1 = 3


# --- Words -------------------------------------------------------------------

def word_total(given, symbols):
    """The total of the word of N symbols, from a record's frame."""
    word = transform(given["n"], given["coefs"], symbols)
    return sum(given["frame"][FIELD_SIZE * place + symbol]
               for place, symbol in enumerate(word))


def least_by_row(given, row, more):
    """The least total of the row, and of each longer one with up to so many
    symbols more, over all words that begin with the row."""
    found = {}
    free = 2 ** given["n"] - len(row)
    for rest in itertools.product(range(FIELD_SIZE), repeat=free):
        total = word_total(given, list(row) + list(rest))
        for count in range(more + 1):
            longer = tuple(row) + rest[:count]
            found[longer] = min(found.get(longer, total), total)
    return found


def compare_place(least, left, place):
    """Compare the total of a place, and the penalties reported there, with
    the least totals of the rows."""
    row = tuple(left["symbols"][:place])
    total = left["totals"][place]
    assert total == least[row], "total of place %d" % place
    for b in range(FIELD_SIZE):
        penalty = left["report"][FIELD_SIZE * place + b]
        assert total + penalty == least[row + (b,)], (
            "penalty of %d at place %d" % (b, place))


# --- One record --------------------------------------------------------------

def compare_taken(n, left):
    """Compare what holds of each record that is taken."""
    assert len(left["totals"]) == 2 ** n
    assert left["totals"][0] == 0, "total of place 0"


def compare_decoded(given, left, unclipped):
    """Compare the totals with each other, and with that of the decoded
    word."""
    assert left["totals"] == sorted(left["totals"]), "a total below another"
    decoded = word_total(given, left["symbols"])
    assert max(left["totals"]) <= decoded, "a total above the decoded word's"
    if not unclipped:
        return
    following = left["totals"][1:] + [decoded]
    for place, symbol in enumerate(left["symbols"]):
        own = left["report"][FIELD_SIZE * place + symbol]
        assert left["totals"][place] + own == following[place], (
            "total after place %d" % place)


class Check:
    """Looks at one record after the other and counts what was compared."""

    def __init__(self):
        self.counts = collections.Counter()
        self.largest = 0

    def look(self, worked):
        """Look at a record that was worked out."""
        if worked.letter not in "Dt" or worked.numbers[0] != 0:
            return
        given = dict(worked.given)
        # A round trip makes its frame itself.
        given["frame"] = worked.left.get("frame", given["frame"])
        unclipped = worked.numbers[1] == 0
        compare_taken(given["n"], worked.left)
        if given["m"] < FIELD_SIZE:
            self.counts["with m below 64"] += 1
            return
        compare_decoded(given, worked.left, unclipped)
        self.counts["taken"] += 1
        self.counts["unclipped"] += unclipped
        self.largest = max(self.largest, *worked.left["totals"])
        if worked.letter == "D" and unclipped:
            self.try_words(given, worked.left)

    def try_words(self, given, left):
        """Compare with the words tried, if the code is as short."""
        if given["n"] == 1:
            least = least_by_row(given, [], 2)
            compare_place(least, left, 0)
            compare_place(least, left, 1)
            self.counts["by all words of N = 2"] += 1
        if given["n"] == 2 and self.counts["by words of N = 4"] < MOST_PLACE_2:
            least = least_by_row(given, left["symbols"][:2], 2)
            compare_place(least, left, 2)
            compare_place(least, left, 3)
            self.counts["by words of N = 4"] += 1
        if (given["n"] == 2 and min(left["totals"][1:]) > 0
                and self.counts["from place 1 on"] < MOST_PLACE_1):
            least = least_by_row(given, left["symbols"][:1], 1)
            compare_place(least, left, 1)
            self.counts["from place 1 on"] += 1

    def complaints(self):
        """Nothing: what is wrong has ended the run."""
        return []

    def text(self):
        """What was compared, in a line."""
        counts = ", ".join("%d %s" % (self.counts[name], name)
                           for name in self.counts)
        return "totals: %s; the largest is %d" % (counts, self.largest)
