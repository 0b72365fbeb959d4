"""Decoder of SC-MS over GF(64), written directly from the scope paper.

The decoder works layer by layer, layer 1 being next to the channel, and keeps
the paper's names: layers l, kernels t, places theta and phi, the coefficient
number (l - 1) * N/2 + t, the precisions Qc and Qm, and m, the number of values
that a check node tries.  Nothing here tries to be fast, but that the products
are worked out once.  Field, transform and the refusals shared with the encoder
are taken from scms.py.

Two arrangements recur:
- held[l][place] is the list of 64 penalties that a place has on the message
  side of layer l; held[0] is the frame and held[n] is what decisions look at.
- a lent buffer is given by its length alone, because its contents before the
  call have no effect on the answer.

Open points in the paper, and the reading chosen for each:

 1. Which numbers of the table the decoding call can give is not listed.  It
    has the inputs of 1, 2, 3, 13, 4, 5, 6, 8 and 9, tried in that order; 7
    speaks of symbols to encode or spread, and 10 to 12 of inputs it does not
    have.
 2. The needed lengths are not gathered in one place.  Each must be met
    exactly: map N, coefficients n * N/2, frame 64 * N, work buffer 65 * N,
    symbols N, report 64 * N, totals N; a longer buffer is refused like a
    shorter one.
 3. Whether the work buffer must hold zeros before the call is not said.  What
    lent buffers hold beforehand is never looked at.
 4. Conditions 8 and 9 might be tried vector by vector.  The lowest number
    that fits the whole frame counts, so a too large penalty anywhere gives 8
    even if an earlier vector has no zero.
 5. The penalties "theta's" and "phi's" that a node of layer l reads are not
    traced between layers.  They are those of the same two places after layer
    l - 1, the frame's own for layer 1; the check node gives theta's vector
    after layer l, the variable node phi's.
 6. Formula 10 of 001 is only cited.  The u of a variable node of layer l is
    the symbol at theta on the message side of that layer: the decided symbols
    taken through the kernels of layers n down to l + 1, as in encoding.
 7. When a node is worked out is left open.  Each is worked out once, as soon
    as the place to decide next depends on it, and so each variable node
    enters the count once.
 8. "What exceeds" is read strictly: an entry equal to 2^Qm - 1 after the
    subtraction is kept and not counted.
 9. The report of a frozen place might be taken as special.  It is the same
    vector held[n][place] as for a message place, and the place becoming 0
    changes nothing in it.
10. "Demand 3" is not defined in the paper.  "Demand 3's penalty" is read as
    the penalty in the report, also at frozen places, with b over all 64
    values.
11. The worked frame with vectors of 0 and 1 names neither Qc nor Qm.  It is
    checked for every pair of them that is not refused.
12. Request 03 names neither "line of nodes" nor "all kernels of a node".  A
    node of layer l has the 2^(n-l) kernels of one block of 2 * 2^(n-l)
    places, and half of the block hangs on it.  The variable node's half is
    that of the phi: each of its places gets what all these kernels took off.
    The other half, that of the theta, hangs on the check node and gets
    nothing from this layer.  A place's number is the sum over the layers 1
    to n, so that of place 0, which is in the first half in each, is 0.
13. What a variable node takes off is the least of the 64 sums, before what
    exceeds is clipped.  It is counted the same in a frame that is clipped;
    what the clipping itself takes away is no part of it.
14. A check node has nothing subtracted from it.  Its least is 0 in any case,
    so it would add nothing.
15. The totals are no part of the program's listing.  The program lends N
    numbers for them all the same.
16. Request 05 says "the m values c".  There are exactly m of them, also where
    the next one has the same penalty as the last that is tried.  Values of
    the same penalty are ordered by c itself, not by h * c.
17. The mode is for each check node of each layer alike, with the same m, and
    the h that counts is that of the kernel, so the kernels of a node each have
    their own values that are tried.
18. What a value that is not tried would give is left out altogether.  The
    vector of phi is not changed for it: the variable node reads it whole.
19. Request 03's sum of what was taken off is filled in for each m, as it is;
    only what it says of the words is for m = 64.
20. "After 3 and before 4" is an order in which the refusals are tried: with 13
    and 4 both fitting the answer is 13, though 4 is the lower number.
21. The program is not named in request 05.  It decodes with m = 64.
"""

import itertools
import random

from scms import (
    ACCEPTED,
    FIELD_SIZE,
    REFUSED_COEFFICIENT,
    REFUSED_LENGTH,
    REFUSED_MAP_BYTE,
    REFUSED_N,
    REFUSED_NO_MESSAGE_PLACE,
    coefficients_are_valid,
    gf_product,
    gf_sum,
    map_bytes_are_valid,
    message_places,
    n_is_valid,
    transform,
)


# --- Refusals ----------------------------------------------------------------

# Numbers of the paper's table that only calls with a frame or a Qc can return.
REFUSED_PRECISION = 3
REFUSED_PENALTY = 8
REFUSED_NO_ZERO = 9
REFUSED_M = 13


def vector(frame, place):
    """The 64 penalties of one place of a frame, or of a report."""
    return frame[FIELD_SIZE * place:FIELD_SIZE * (place + 1)]


def precisions_are_valid(Qc, Qm):
    """Whether Qc is from 1 to 5 and Qm from Qc to 13."""
    return 1 <= Qc <= 5 and Qc <= Qm <= 13


def m_is_valid(m):
    """Whether m is from 1 to 64."""
    return 1 <= m <= FIELD_SIZE


def penalties_are_valid(frame, Qc):
    """Whether no penalty of the frame is above 2^Qc - 1."""
    for penalty in frame:
        if penalty > 2 ** Qc - 1:
            return False
    return True


def vectors_have_zeros(N, frame):
    """Whether each of the N vectors of the frame has a 0 in it."""
    for place in range(N):
        if 0 not in vector(frame, place):
            return False
    return True


def decode_refusal(n, map, coefs, Qc, Qm, m, frame, work_length,
                   symbols_length, report_length, totals_length):
    """The refusal number that fits, or 0 if the frame is taken; of more than
    one the lowest, but 13 comes between 3 and 4."""
    if not n_is_valid(n):
        return REFUSED_N
    N = 2 ** n
    if len(map) != N:
        return REFUSED_LENGTH
    if len(coefs) != n * (N // 2):
        return REFUSED_LENGTH
    if len(frame) != 64 * N:
        return REFUSED_LENGTH
    if work_length != 65 * N:
        return REFUSED_LENGTH
    if symbols_length != N:
        return REFUSED_LENGTH
    if report_length != 64 * N:
        return REFUSED_LENGTH
    if totals_length != N:
        return REFUSED_LENGTH
    if not precisions_are_valid(Qc, Qm):
        return REFUSED_PRECISION
    if not m_is_valid(m):
        return REFUSED_M
    if not map_bytes_are_valid(map):
        return REFUSED_MAP_BYTE
    if message_places(map) == 0:
        return REFUSED_NO_MESSAGE_PLACE
    if not coefficients_are_valid(coefs):
        return REFUSED_COEFFICIENT
    if not penalties_are_valid(frame, Qc):
        return REFUSED_PENALTY
    if not vectors_have_zeros(N, frame):
        return REFUSED_NO_ZERO
    return ACCEPTED


# --- Nodes -------------------------------------------------------------------

# The product of h and c in row h, column c, worked out once: the nodes ask for
# them again and again.
PRODUCTS = [[gf_product(h, c) for c in range(FIELD_SIZE)]
            for h in range(FIELD_SIZE)]


def kernel(n, coefs, l, t):
    """The two places theta and phi and the coefficient h of a kernel."""
    N = 2 ** n
    theta = 2 * t - (t % 2 ** (n - l))
    phi = theta + 2 ** (n - l)
    h = coefs[(l - 1) * (N // 2) + t]
    return (theta, phi, h)


def check_node(h, at_theta, at_phi):
    """The 64 penalties that a check node gives for its theta, by the full
    rule: all values are tried."""
    # phi's penalty at h * c depends on c alone, so it is looked up once per c.
    phi_part = [at_phi[gf_product(h, c)] for c in range(FIELD_SIZE)]
    given = []
    for b in range(FIELD_SIZE):
        given.append(min(at_theta[gf_sum(b, c)] + phi_part[c]
                         for c in range(FIELD_SIZE)))
    return given


def values_tried(h, m, at_phi):
    """The m values c whose phi penalty, counted at h * c, is smallest, ties
    to the smaller c."""
    in_order = sorted(range(FIELD_SIZE),
                      key=lambda c: (at_phi[PRODUCTS[h][c]], c))
    return in_order[:m]


def least_over(h, tried, at_theta, at_phi):
    """For each value b the least, over the values tried, of theta's penalty
    at b + c plus phi's at h * c."""
    phi_part = [(c, at_phi[PRODUCTS[h][c]]) for c in tried]
    given = []
    for b in range(FIELD_SIZE):
        # The sum of b and c is their bitwise exclusive or.
        given.append(min([at_theta[b ^ c] + penalty
                          for c, penalty in phi_part]))
    return given


def shorter_check_node(h, m, at_theta, at_phi):
    """The 64 penalties that a check node gives for its theta, with m values
    tried."""
    return least_over(h, values_tried(h, m, at_phi), at_theta, at_phi)


def check_node_of(m):
    """The check node with m values tried, as decoded() takes it."""
    def node(h, at_theta, at_phi):
        """The 64 penalties for theta."""
        return shorter_check_node(h, m, at_theta, at_phi)
    return node


def variable_node(h, u, Qm, at_theta, at_phi):
    """The 64 penalties that one kernel of a variable node gives, how many it
    clipped, and the least of the sums, which it took off."""
    sums = []
    for c in range(FIELD_SIZE):
        sums.append(at_theta[gf_sum(u, c)] + at_phi[PRODUCTS[h][c]])
    least = min(sums)
    top = 2 ** Qm - 1
    given = []
    clipped = 0
    for c in range(FIELD_SIZE):
        penalty = sums[c] - least
        if penalty > top:
            penalty = top
            clipped = clipped + 1
        given.append(penalty)
    return (given, clipped, least)


# --- Layers ------------------------------------------------------------------

def symbols_before_layer(n, coefs, decided, l):
    """The decided symbols taken through the layers n down to l + 1."""
    # With l = n no layer is applied.  Kernels that reach a place not yet
    # decided are left out.
    x = list(decided)
    for later in range(n, l, -1):
        for t in range(2 ** n // 2):
            theta, phi, h = kernel(n, coefs, later, t)
            if phi < len(x):
                p = x[theta]
                r = x[phi]
                x[theta] = gf_sum(p, r)
                x[phi] = gf_product(h, r)
    return x


def add_taken(n, l, phi, least, totals):
    """Add what a kernel of layer l took off to each place on its node's line:
    those of the half of the kernel's block that its phi is in."""
    distance = 2 ** (n - l)
    first = phi - phi % distance
    for place in range(first, first + distance):
        totals[place] = totals[place] + least


def work_out_layer(n, coefs, Qm, node, held, totals, decided, l):
    """Work out the nodes of layer l now due, the check nodes by `node`, with
    what they take off added to the totals; returns the entries clipped."""
    # The place to decide next is the count of decided symbols.  In layer l it
    # depends on the 2^(n-l) places of its block, blocks beginning at multiples
    # of 2^(n-l), so the nodes are due when that place is the first of a block.
    # The block's places are either all theta or all phi of their kernels.
    place = len(decided)
    distance = 2 ** (n - l)
    if place % distance != 0:
        return 0
    clipped = 0
    u = symbols_before_layer(n, coefs, decided, l)
    for t in range(2 ** n // 2):
        theta, phi, h = kernel(n, coefs, l, t)
        at_theta = held[l - 1][theta]
        at_phi = held[l - 1][phi]
        if place <= theta < place + distance:
            held[l][theta] = node(h, at_theta, at_phi)
        if place <= phi < place + distance:
            held[l][phi], more, least = variable_node(h, u[theta], Qm,
                                                      at_theta, at_phi)
            clipped = clipped + more
            add_taken(n, l, phi, least, totals)
    return clipped


# --- Decoder -----------------------------------------------------------------

def decision(byte, penalties):
    """The symbol of a place: 0 if frozen, else the first of least penalty."""
    if byte == 1:
        return 0
    return penalties.index(min(penalties))


def decoded(n, map, coefs, Qm, frame, node):
    """Symbols, report, totals and count of a frame that is taken, with check
    nodes by `node`: a function of h and of the penalties of theta and phi."""
    N = 2 ** n
    held = [[None] * N for l in range(n + 1)]
    for place in range(N):
        held[0][place] = vector(frame, place)
    symbols = []
    report = []
    totals = [0] * N
    count = 0
    for place in range(N):
        for l in range(1, n + 1):
            more = work_out_layer(n, coefs, Qm, node, held, totals, symbols,
                                  l)
            count = count + more
        report.extend(held[n][place])
        symbols.append(decision(map[place], held[n][place]))
    return (symbols, report, totals, count)


def decode(n, map, coefs, Qc, Qm, m, frame,
           work_length, symbols_length, report_length, totals_length):
    """Decode a frame; returns (refusal number, symbols, report, totals,
    count)."""
    refusal = decode_refusal(n, map, coefs, Qc, Qm, m, frame, work_length,
                             symbols_length, report_length, totals_length)
    if refusal != ACCEPTED:
        return (refusal, None, None, None, None)
    return (ACCEPTED,) + decoded(n, map, coefs, Qm, frame, check_node_of(m))


# --- Least totals by enumeration ---------------------------------------------

def total(frame, word):
    """The total of a word: the frame's penalties of its N sent symbols."""
    return sum(vector(frame, place)[word[place]] for place in range(len(word)))


def least_totals_brute(n, coefs, frame, row):
    """The least total of a row, over every choice of the places after it."""
    least = None
    free = 2 ** n - len(row)
    for rest in itertools.product(range(FIELD_SIZE), repeat=free):
        found = total(frame, transform(n, coefs, list(row) + list(rest)))
        if least is None or found < least:
            least = found
    return least


# --- Worked rows -------------------------------------------------------------

def spike(value, elsewhere):
    """64 penalties that are 0 at one value and the same at all others."""
    penalties = [elsewhere] * FIELD_SIZE
    penalties[value] = 0
    return penalties


def decode_lent(n, map, coefs, Qc, Qm, frame, m=FIELD_SIZE):
    """Decode with buffers of the needed lengths; the frame must be taken."""
    N = 2 ** n
    number, symbols, report, totals, count = decode(
        n, map, coefs, Qc, Qm, m, frame, 65 * N, N, 64 * N, N)
    assert number == ACCEPTED
    assert totals[0] == 0
    return (symbols, report, totals, count)


def listing(symbols, report):
    """For each place: place, symbol, its penalty, least penalty of another."""
    rows = []
    for place in range(len(symbols)):
        penalties = vector(report, place)
        symbol = symbols[place]
        others = penalties[:symbol] + penalties[symbol + 1:]
        rows.append((place, symbol, penalties[symbol], min(others)))
    return rows


def random_frame(draw, N, Qc):
    """A frame of random penalties up to 2^Qc - 1 with a 0 in each vector."""
    frame = []
    for place in range(N):
        penalties = [draw.randrange(2 ** Qc) for s in range(FIELD_SIZE)]
        penalties[draw.randrange(FIELD_SIZE)] = 0
        frame.extend(penalties)
    return frame


def random_unclipped(draw, n, map):
    """Coefficients, frame, symbols, report and totals of a random unclipped
    frame."""
    N = 2 ** n
    while True:
        coefs = [draw.randrange(1, 64) for number in range(n * (N // 2))]
        Qc = draw.randrange(1, 6)
        Qm = draw.randrange(Qc, 14)
        frame = random_frame(draw, N, Qc)
        symbols, report, totals, count = decode_lent(n, map, coefs, Qc, Qm,
                                                     frame)
        if count == 0:
            return (coefs, frame, symbols, report, totals)


def assert_least_totals(n, coefs, frame, symbols, report, totals, place):
    """Assert one place's reported penalties and its total against the least
    totals."""
    found = []
    for b in range(FIELD_SIZE):
        row = symbols[:place] + [b]
        found.append(least_totals_brute(n, coefs, frame, row))
    least = min(found)
    assert vector(report, place) == [one - least for one in found]
    assert totals[place] == least


# --- Shorter check nodes -----------------------------------------------------

def with_penalties(others, rest):
    """64 penalties: some by value, the same at all others."""
    return [others.get(b, rest) for b in range(FIELD_SIZE)]


def test_node_by_hand():
    """Assert check nodes worked by hand.

    h is 2, and 2 * 33 = 1, 2 * 2 = 4, 2 * 32 = 3.  So with phi's penalties 0
    at 1, 1 at 3 and 4, else 3, the values c in order are 33, then 2 before
    32, though 3 is before 4, and then 0, 1, 3, 4 and so on.  With theta's 0
    at 0, else 3, a value that is tried gives its own phi penalty at b = c,
    and 33 gives 3 at all others."""
    at_theta = spike(0, 3)
    at_phi = with_penalties({1: 0, 3: 1, 4: 1}, 3)
    assert values_tried(2, 7, at_phi) == [33, 2, 32, 0, 1, 3, 4]
    one = spike(33, 3)
    two = with_penalties({33: 0, 2: 1}, 3)
    three = with_penalties({33: 0, 2: 1, 32: 1}, 3)
    assert shorter_check_node(2, 1, at_theta, at_phi) == one
    assert shorter_check_node(2, 2, at_theta, at_phi) == two
    for m in range(3, 65):
        assert shorter_check_node(2, m, at_theta, at_phi) == three

    # All of phi's penalties tie: the values tried are 0 to m - 1, for each h.
    # With theta's penalties b at b, value b gets the least of b + c.
    rising = list(range(FIELD_SIZE))
    for h in (1, 2, 63):
        assert values_tried(h, 5, [0] * FIELD_SIZE) == [0, 1, 2, 3, 4]
        assert shorter_check_node(h, 1, rising, [0] * FIELD_SIZE) == rising
        # With 0 and 1: both of a pair that differ in bit 0 get the even one.
        assert (shorter_check_node(h, 2, rising, [0] * FIELD_SIZE)
                == [b - b % 2 for b in rising])
        # With 0 to 4: the less of b with its two low bits 0, which 0 to 3
        # give, and of b + 4, which is 0 to 3 for b from 4 to 7.
        given = shorter_check_node(h, 5, rising, [0] * FIELD_SIZE)
        assert given[:16] == [0] * 4 + [0, 1, 2, 3] + [8] * 4 + [8, 9, 10, 11]


def random_node(draw, most):
    """h, and the penalties of theta and phi up to the most, each with a 0; at
    times with few different ones."""
    top = draw.choice([1, 2, most, most])
    vectors = []
    for place in range(2):
        penalties = [draw.randrange(min(top, most) + 1)
                     for s in range(FIELD_SIZE)]
        penalties[draw.randrange(FIELD_SIZE)] = 0
        vectors.append(penalties)
    return (draw.randrange(1, FIELD_SIZE), vectors[0], vectors[1])


def one_by_one(h, m, at_phi):
    """The values tried, found a second way: m times the one of least penalty
    of those that are left, which in rising order is found first."""
    found = []
    for count in range(m):
        best = None
        for c in range(FIELD_SIZE):
            if c in found:
                continue
            penalty = at_phi[gf_product(h, c)]
            if best is None or penalty < at_phi[gf_product(h, best)]:
                best = c
        found.append(best)
    return found


def test_values_tried(draw):
    """Assert that the values tried are the same found either way."""
    for case in range(20):
        h, at_theta, at_phi = random_node(draw, draw.choice([1, 3, 31]))
        for m in (1, 2, 13, 63, 64):
            assert values_tried(h, m, at_phi) == one_by_one(h, m, at_phi)


def test_random_nodes(draw):
    """Assert what request 05 says of one node: 64 gives the full rule, a
    larger m never raises an entry, and each result holds a 0 and stays within
    the cap; and that one value more does lower entries."""
    lowered = 0
    for case in range(60):
        most = 2 ** draw.randrange(1, 14) - 1
        h, at_theta, at_phi = random_node(draw, most)
        before = None
        for m in range(1, FIELD_SIZE + 1):
            given = shorter_check_node(h, m, at_theta, at_phi)
            assert min(given) == 0
            assert max(given) <= most
            if before is not None:
                for b in range(FIELD_SIZE):
                    assert given[b] <= before[b]
                lowered = lowered + (given != before)
            before = given
        assert before == check_node(h, at_theta, at_phi)
    assert lowered > 0


def test_full_frames(draw):
    """Assert that frames are decoded alike with m = 64 and by the full rule,
    and that a lower m has another answer in some."""
    others = 0
    for n in (1, 2, 3):
        N = 2 ** n
        for Qc, Qm in ((1, 1), (3, 4), (5, 5), (5, 13)):
            coefs = [draw.randrange(1, 64) for number in range(n * N // 2)]
            map = [draw.randrange(2) for place in range(N - 1)] + [0]
            frame = random_frame(draw, N, Qc)
            full = decoded(n, map, coefs, Qm, frame, check_node)
            assert decode_lent(n, map, coefs, Qc, Qm, frame) == full
            few = decode_lent(n, map, coefs, Qc, Qm, frame, 3)
            others = others + (few != full)
    assert others > 0


def test_m_refused():
    """Assert refusal 13, and its place after 3 and before 4."""
    frame = spike(5, 1) + spike(4, 1)
    for m in (0, 65, 256 + 16, 2 ** 64 - 1):
        for n, map, coefs, Qc, given, number in (
                (1, [1, 0], [1], 1, frame, 13),
                (1, [1, 2], [1], 1, frame, 13),
                (1, [1, 1], [1], 1, frame, 13),
                (1, [1, 0], [0], 1, frame, 13),
                (1, [1, 0], [1], 1, [2] * 128, 13),
                (1, [1, 0], [1], 1, [1] * 128, 13),
                (1, [1, 0], [1], 6, frame, 3),
                (1, [1, 0], [1], 1, frame[1:], 2),
                (0, [1, 0], [1], 1, frame, 1)):
            found = decode(n, map, coefs, Qc, 13, m, given, 130, 2, 128, 2)
            assert found == (number, None, None, None, None)
    for m in (1, 64):
        assert decode_refusal(1, [1, 0], [1], 1, 13, m, frame, 130, 2, 128,
                              2) == ACCEPTED


def self_test():
    """Assert the paper's worked rows of the decoder, its least totals, and
    what request 05 says of check nodes."""
    test_node_by_hand()
    test_values_tried(random.Random(4))
    test_random_nodes(random.Random(5))
    test_full_frames(random.Random(13))
    test_m_refused()

    # N = 2, coefficient 1, place 0 frozen: a tie is decided for the smaller.
    frame = spike(5, 1) + spike(4, 1)
    for Qc in range(1, 6):
        for Qm in range(Qc, 14):
            symbols, report, totals, count = decode_lent(
                1, [1, 0], [1], Qc, Qm, frame)
            assert symbols == [0, 4]
            assert vector(report, 0)[0] == 1
            place_1 = [1] * FIELD_SIZE
            place_1[4] = 0
            place_1[5] = 0
            assert vector(report, 1) == place_1
            # No sum less the least is above 1, so nothing exceeds the cap.
            assert count == 0
            # With 0 before it, place 1 has 2 at all values but 4 and 5, where
            # it has 1.
            assert totals == [0, 1]

    # The printed frame: N = 2, coefficient 2, place 0 frozen.
    frame = spike(33, 3) + spike(1, 3)
    symbols, report, totals, count = decode_lent(1, [1, 0], [2], 5, 13, frame)
    assert listing(symbols, report) == [(0, 0, 0, 3), (1, 33, 0, 6)]
    assert count == 0
    assert totals == [0, 0]
    symbols, report, totals, count = decode_lent(1, [1, 0], [2], 2, 2, frame)
    assert listing(symbols, report) == [(0, 0, 0, 3), (1, 33, 0, 3)]
    assert count == 63
    assert totals == [0, 0]

    draw = random.Random(64)

    # Through all layers the decided symbols become the transform.
    coefs = [draw.randrange(1, 64) for number in range(12)]
    u = [draw.randrange(FIELD_SIZE) for place in range(8)]
    assert symbols_before_layer(3, coefs, u, 0) == transform(3, coefs, u)

    # Unclipped frames, N = 2: both places against the least totals.
    for map in ([1, 0], [0, 0], [0, 1]):
        for trial in range(5):
            found = random_unclipped(draw, 1, map)
            assert_least_totals(1, *found, 0)
            assert_least_totals(1, *found, 1)

    # Unclipped frames, N = 4 and 8: the last two places, whose variable nodes
    # need symbols from one and two later layers.
    for n, map in ((2, [0, 0, 0, 0]), (2, [1, 0, 1, 0]),
                   (3, [1, 0, 0, 0, 1, 0, 0, 0])):
        N = 2 ** n
        found = random_unclipped(draw, n, map)
        assert_least_totals(n, *found, N - 2)
        assert_least_totals(n, *found, N - 1)


if __name__ == "__main__":
    self_test()
    print("worked rows, least totals and shorter check nodes of the decoder "
          "hold")
