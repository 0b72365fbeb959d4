"""SC-MS over GF(64), written directly from the scope paper.

This is a second statement of the rules, written without sight of the proved
code, used to compute expected results for tests; docs/DECISIONS.md says which
readings of open points are its own.  It keeps the paper's own names and indices
and makes no attempt to be fast.  Symbols, map bytes and coefficients are plain
integers in lists.

Sections present: field, transform, frozen map, refusals, encoder, worked rows.
Spreading and weighing are in chips.py, decoding in decoding.py.
"""


# --- Field -------------------------------------------------------------------

# Degree of the extension: a symbol has the coefficients of a^0 to a^5.
SYMBOL_BITS = 6

# Number of symbols in the field.
FIELD_SIZE = 64


def gf_sum(a, b):
    """Sum of two symbols: bitwise exclusive or."""
    return a ^ b


def gf_product(a, b):
    """Product of two symbols, reduced by a^6 = a + 1."""
    # Carry-less product of the two polynomials; its degree is at most 10.
    product = 0
    for i in range(SYMBOL_BITS):
        if (b >> i) & 1 == 1:
            product = product ^ (a << i)

    # Replace a^k by a^(k-5) + a^(k-6), from the highest power down.  Going
    # down matters: a replacement can set a lower power that is still >= 6.
    for k in range(2 * (SYMBOL_BITS - 1), SYMBOL_BITS - 1, -1):
        if (product >> k) & 1 == 1:
            product = product ^ (1 << k)
            product = product ^ (1 << (k - 5))
            product = product ^ (1 << (k - 6))
    return product


def times_a(b):
    """Product of a and a symbol: each power is one more, and a^6 is a + 1."""
    moved = b << 1
    if moved >= FIELD_SIZE:
        moved = moved ^ FIELD_SIZE ^ 0b11
    return moved


def gf_product_by_bits(a, b):
    """Product of two symbols, worked out another way: for each power that the
    first one has, the second times that power is added."""
    product = 0
    for i in range(SYMBOL_BITS):
        if (a >> i) & 1 == 1:
            product = gf_sum(product, b)
        b = times_a(b)
    return product


def symbol_of(byte):
    """The symbol that a byte counts as where it is a factor: its six low
    bits.  The paper says nothing of a factor above 63."""
    return byte % FIELD_SIZE


# --- Transform ---------------------------------------------------------------

def transform(n, coefs, u):
    """Transform of the N = 2^n symbols u; layer n first, layer 1 last.

    coefs holds n * N/2 coefficients, those of layer 1 first.  A new list is
    returned and u is left as it is.
    """
    N = 2 ** n
    x = list(u)
    for l in range(n, 0, -1):
        distance = 2 ** (n - l)
        # The kernels of one layer touch disjoint pairs of places, so their
        # order within the layer has no effect.
        for t in range(N // 2):
            theta = 2 * t - (t % distance)
            phi = theta + distance
            h = coefs[(l - 1) * (N // 2) + t]
            p = x[theta]
            r = x[phi]
            x[theta] = gf_sum(p, r)
            x[phi] = gf_product(h, r)
    return x


# --- Frozen map --------------------------------------------------------------

def message_places(map):
    """K, the number of message places: the count of 0 bytes in the map."""
    K = 0
    for byte in map:
        if byte == 0:
            K = K + 1
    return K


# --- Refusals ----------------------------------------------------------------

# Numbers of the paper's table that the calls below can return.
ACCEPTED = 0
REFUSED_N = 1
REFUSED_LENGTH = 2
REFUSED_MAP_BYTE = 4
REFUSED_NO_MESSAGE_PLACE = 5
REFUSED_COEFFICIENT = 6
REFUSED_SYMBOL = 7


def n_is_valid(n):
    return 1 <= n <= 8


def map_bytes_are_valid(map):
    for byte in map:
        if byte > 1:
            return False
    return True


def coefficients_are_valid(coefs):
    for h in coefs:
        if h == 0 or h > 63:
            return False
    return True


def symbols_are_valid(symbols):
    for symbol in symbols:
        if symbol >= FIELD_SIZE:
            return False
    return True


# --- Encoder -----------------------------------------------------------------

def encode_refusal(n, map, coefs, message, codeword_length):
    """The lowest refusal number that fits, or 0 if encoding is possible.

    The conditions are tried in rising order of their numbers.
    """
    # N is defined only for a valid n, so the lengths are not looked at when n
    # is refused.
    if not n_is_valid(n):
        return REFUSED_N
    N = 2 ** n
    # The needed message length is K as counted here, even if the map holds
    # bytes above 1 that are refused further down.
    if len(map) != N:
        return REFUSED_LENGTH
    if len(coefs) != n * (N // 2):
        return REFUSED_LENGTH
    if len(message) != message_places(map):
        return REFUSED_LENGTH
    if codeword_length != N:
        return REFUSED_LENGTH
    if not map_bytes_are_valid(map):
        return REFUSED_MAP_BYTE
    if message_places(map) == 0:
        return REFUSED_NO_MESSAGE_PLACE
    if not coefficients_are_valid(coefs):
        return REFUSED_COEFFICIENT
    if not symbols_are_valid(message):
        return REFUSED_SYMBOL
    return ACCEPTED


def place_message(map, message):
    """The N symbols before the transform: message symbols in the message
    places in rising order, 0 in the frozen places."""
    u = []
    taken = 0
    for byte in map:
        if byte == 0:
            u.append(message[taken])
            taken = taken + 1
        else:
            u.append(0)
    return u


def encode(n, map, coefs, message, codeword_length):
    """Encode a message; returns (refusal number, codeword or None).

    codeword_length is the length of the buffer that the caller lends for the
    codeword.  On success the refusal number is 0.
    """
    refusal = encode_refusal(n, map, coefs, message, codeword_length)
    if refusal != ACCEPTED:
        return (refusal, None)
    return (ACCEPTED, transform(n, coefs, place_message(map, message)))


# --- Worked rows -------------------------------------------------------------

def self_test():
    """Assert the paper's hand-worked rows for what is implemented here."""
    # Product, worked out either way.
    for product in (gf_product, gf_product_by_bits):
        assert product(2, 32) == 3
        assert product(2, 33) == 1
        assert product(32, 32) == 48
        assert product(63, 63) == 42

    # Transform, N = 4: all coefficients 1.
    assert transform(2, [1, 1, 1, 1], [0, 1, 2, 3]) == [0, 2, 1, 3]
    # Transform, N = 4: layer 1 has 2 and 1, layer 2 has 1 and 1.
    assert transform(2, [2, 1, 1, 1], [0, 0, 0, 7]) == [7, 7, 14, 7]


if __name__ == "__main__":
    self_test()
    print("worked rows agree")
