"""Try the recorded calls on wrong variants of the outside rules.

Each variant is one replacement in one file of a copy of tools/outside.  The
stored records are worked out with it and compared with what is stored as
expected, up to the first line that differs.  A variant for which none differs
is not seen: the records would let that mistake pass.

Named on the command line are the variants to try, or files to try those of;
without any all are tried.  With --word those alone whose name contains it.
"""

import argparse
import pathlib
import shutil
import subprocess
import sys
import tempfile

# Leave no compiled copies behind in the repository.
sys.dont_write_bytecode = True

TOOLS = pathlib.Path(__file__).resolve().parent
STORED = TOOLS.parent / "crates" / "recorded_calls"

# The calls whose records come last and need nothing from those before.
LAST_CALLS = "abjk"

# How many seconds one variant may take.
TIME_LIMIT = 900

SCMS = "scms.py"
CHIPS = "chips.py"
DECODING = "decoding.py"
LINKING = "linking.py"
READING = "reading.py"
WRITING = "writing.py"
DISTANCES = "distances.py"
CALLS = "calls.py"


# --- Refusals in another order -----------------------------------------------

def order(name, file, first, second):
    """A variant in which the second of two conditions is tried first."""
    return (name, file, first + second, second + first)


MAP_4 = """    if not map_bytes_are_valid(map):
        return REFUSED_MAP_BYTE
"""
NONE_5 = """    if message_places(map) == 0:
        return REFUSED_NO_MESSAGE_PLACE
"""
COEFFICIENT_6 = """    if not coefficients_are_valid(coefs):
        return REFUSED_COEFFICIENT
"""
SYMBOL_7 = """    if not symbols_are_valid(message):
        return REFUSED_SYMBOL
"""
PRECISION_3 = """    if not precisions_are_valid(Qc, Qm):
        return REFUSED_PRECISION
"""
M_13 = """    if not m_is_valid(m):
        return REFUSED_M
"""
PENALTY_8 = """    if not penalties_are_valid(frame, Qc):
        return REFUSED_PENALTY
"""
NO_ZERO_9 = """    if not vectors_have_zeros(N, frame):
        return REFUSED_NO_ZERO
"""
BASE_10 = """    if equals_itself_turned_by_32(base):
        return 10
"""
SPREAD_7 = """    for symbol in symbols:
        if symbol > 63:
            return 7
"""
WEIGH_3 = """    if Qc < 1 or Qc > 5:
        return 3
"""
WEIGH_11 = """    if top == 0 or top > 255 or bottom == 0 or bottom > 255:
        return 11
"""
LINK_7 = """    if not symbols_are_valid(message):
        return 7
"""
LINK_11 = """    if top < 1 or top > 255 or bottom < 1 or bottom > 255:
        return 11
"""
LINK_19 = """    if amplitude < 1 or amplitude > 127:
        return 19
"""
SHEET_FORM = """    numbers = sheet_numbers(data, 1 + N + coefs_needed)
    if numbers is None:
        return (REFUSED_FORM, None)
"""
SHEET_2 = """    if map_length < N or coefs_length < coefs_needed:
        return (REFUSED_LENGTH, None)
"""
SHEET_4 = """    if not map_bytes_are_valid(map):
        return (REFUSED_MAP_BYTE, None)
"""
SHEET_5 = """    if message_places(map) == 0:
        return (REFUSED_NO_MESSAGE_PLACE, None)
"""
SHEET_6 = """    if not coefficients_are_valid(coefs):
        return (REFUSED_COEFFICIENT, None)
"""
LINE_2 = """    if output_length != 64:
        return (REFUSED_LENGTH, None)
"""
LINE_257 = """    if len(data) != 257:
        return (REFUSED_FORM, None)
"""
FILE_LONG = """    if len(data) > 257 * N:
        return (REFUSED_FORM, None)
"""
FILE_8 = """    if not penalties_are_valid(frame, PROGRAM_QC):
        return (REFUSED_PENALTY, None)
"""
FILE_9 = """    if not vectors_have_zeros(N, frame):
        return (REFUSED_NO_ZERO, None)
"""
ENCODE_LENGTH_2 = """    if codeword_length != N:
        return REFUSED_LENGTH
"""
SYMBOLS_LENGTH_2 = """    if symbols_length != N:
        return REFUSED_LENGTH
"""
REPORT_LENGTH_2 = """    if report_length != 64 * N:
        return REFUSED_LENGTH
"""
TOTALS_2 = """    if totals_length != N:
        return REFUSED_LENGTH
"""
LINK_LENGTH_2 = """    if decoded_length != K:
        return 2
"""
LINK_3 = """    if not precisions_are_valid(Qc, Qm):
        return 3
"""
LINK_13 = """    if not m_is_valid(m):
        return 13
"""
LINK_4 = """    if not map_bytes_are_valid(map):
        return 4
"""
LINK_5 = """    if K == 0:
        return 5
"""
LINK_6 = """    if not coefficients_are_valid(coefs):
        return 6
"""
WRITE_1 = """    if n < 1 or n > 8:
        return REFUSED_N
"""
WRITE_N = """    N = 2 ** n
"""
WRITE_MAP_2 = """    if len(map) != N:
        return REFUSED_LENGTH
"""
WRITE_COEFS_2 = """    if len(coefs) != n * (N // 2):
        return REFUSED_LENGTH
"""
WRITE_OUTPUT_2 = """    if output_length != 5 * (1 + N + n * (N // 2)):
        return REFUSED_LENGTH
"""
WRITE_2 = WRITE_MAP_2 + WRITE_COEFS_2 + WRITE_OUTPUT_2
WRITE_4 = """    for byte in map:
        if byte > 1:
            return REFUSED_MAP_BYTE
"""
WRITE_5 = """    if 0 not in map:
        return REFUSED_NO_MESSAGE_PLACE
"""
WRITE_6 = """    for h in coefs:
        if h == 0 or h > 63:
            return REFUSED_COEFFICIENT
"""
WRITE_COUNT_2 = """    if len(penalties) != 64:
        return REFUSED_LENGTH
"""
WRITE_LINE_2 = """    if output_length != 257:
        return REFUSED_LENGTH
"""
WRITE_8 = """    for penalty in penalties:
        if penalty > 2 ** WRITER_QC - 1:
            return REFUSED_PENALTY
"""
WRITE_9 = """    if 0 not in penalties:
        return REFUSED_NO_ZERO
"""

ORDERS = [
    order("encoder: 4 before 2", SCMS, ENCODE_LENGTH_2, MAP_4),
    order("encoder: 5 before 4", SCMS, MAP_4, NONE_5),
    order("encoder: 6 before 5", SCMS, NONE_5, COEFFICIENT_6),
    order("encoder: 7 before 6", SCMS, COEFFICIENT_6, SYMBOL_7),
    order("spreading: 10 before 7", CHIPS, SPREAD_7, BASE_10),
    order("weighing: 10 before 3", CHIPS, WEIGH_3, BASE_10),
    order("weighing: 11 before 10", CHIPS, BASE_10, WEIGH_11),
    order("decoder: 3 before 2", DECODING, REPORT_LENGTH_2,
          TOTALS_2 + PRECISION_3),
    order("decoder: 13 before 3", DECODING, PRECISION_3, M_13),
    order("decoder: 4 before 13", DECODING, M_13, MAP_4),
    order("decoder: 4 before 3", DECODING, PRECISION_3 + M_13, MAP_4),
    order("decoder: 5 before 4", DECODING, MAP_4, NONE_5),
    order("decoder: 6 before 5", DECODING, NONE_5, COEFFICIENT_6),
    order("decoder: 8 before 6", DECODING, COEFFICIENT_6, PENALTY_8),
    order("decoder: 9 before 8", DECODING, PENALTY_8, NO_ZERO_9),
    order("round trip: 3 before 2", LINKING, LINK_LENGTH_2, LINK_3),
    order("round trip: 13 before 3", LINKING, LINK_3, LINK_13),
    order("round trip: 4 before 13", LINKING, LINK_13, LINK_4),
    order("round trip: 4 before 3", LINKING, LINK_3 + LINK_13, LINK_4),
    order("round trip: 5 before 4", LINKING, LINK_4, LINK_5),
    order("round trip: 6 before 5", LINKING, LINK_5, LINK_6),
    order("round trip: 7 before 6", LINKING, LINK_6, LINK_7),
    order("round trip: 10 before 7", LINKING, LINK_7, BASE_10),
    order("round trip: 11 before 10", LINKING, BASE_10, LINK_11),
    order("round trip: 19 before 11", LINKING, LINK_11, LINK_19),
    order("sheet: 2 before 12", READING, SHEET_FORM, SHEET_2),
    order("sheet: 5 before 4", READING, SHEET_4, SHEET_5),
    order("sheet: 6 before 5", READING, SHEET_5, SHEET_6),
    order("frame line: 12 before 2", READING, LINE_2, LINE_257),
    order("frame file: 8 before 12", READING, FILE_LONG, FILE_8),
    order("frame file: 9 before 8", READING, FILE_8, FILE_9),
    ("sheet writer: 2 before 1", WRITING, WRITE_1 + WRITE_N + WRITE_2,
     "    N = 2 ** min(n, 9)\n" + WRITE_2 + WRITE_1),
    ("sheet writer: 4 before 1", WRITING, WRITE_1, WRITE_4 + WRITE_1),
    ("sheet writer: 5 before 1", WRITING, WRITE_1, WRITE_5 + WRITE_1),
    ("sheet writer: 6 before 1", WRITING, WRITE_1, WRITE_6 + WRITE_1),
    order("sheet writer: 4 before the 2 of the output", WRITING,
          WRITE_OUTPUT_2, WRITE_4),
    order("sheet writer: 4 before the 2 of the coefficients", WRITING,
          WRITE_COEFS_2, WRITE_OUTPUT_2 + WRITE_4),
    order("sheet writer: 4 before the 2 of the map", WRITING,
          WRITE_MAP_2, WRITE_COEFS_2 + WRITE_OUTPUT_2 + WRITE_4),
    order("sheet writer: 5 before the 2 of the output", WRITING,
          WRITE_OUTPUT_2, WRITE_4 + WRITE_5),
    order("sheet writer: 6 before the 2 of the output", WRITING,
          WRITE_OUTPUT_2, WRITE_4 + WRITE_5 + WRITE_6),
    order("sheet writer: 6 before the 2 of the map", WRITING,
          WRITE_MAP_2, WRITE_COEFS_2 + WRITE_OUTPUT_2 + WRITE_4 + WRITE_5
          + WRITE_6),
    order("sheet writer: 5 before 4", WRITING, WRITE_4, WRITE_5),
    order("sheet writer: 6 before 5", WRITING, WRITE_5, WRITE_6),
    order("sheet writer: 6 before 4", WRITING, WRITE_4, WRITE_5 + WRITE_6),
    order("line writer: 8 before the 2 of the output", WRITING,
          WRITE_LINE_2, WRITE_8),
    order("line writer: 8 before the 2 of the penalties", WRITING,
          WRITE_COUNT_2, WRITE_LINE_2 + WRITE_8),
    order("line writer: 9 before the 2 of the output", WRITING,
          WRITE_LINE_2, WRITE_8 + WRITE_9),
    order("line writer: 9 before the 2 of the penalties", WRITING,
          WRITE_COUNT_2, WRITE_LINE_2 + WRITE_8 + WRITE_9),
    order("line writer: 9 before 8", WRITING, WRITE_8, WRITE_9),
]


# --- Field, transform and encoder --------------------------------------------

ENCODER = [
    ("a^6 = a^5 + 1", SCMS, "(1 << (k - 5))", "(1 << (k - 1))"),
    ("a^6 = a^3 + 1", SCMS, "(1 << (k - 5))", "(1 << (k - 3))"),
    ("encoder: distances of 000", SCMS, "distance = 2 ** (n - l)",
     "distance = 2 ** (l - 1)"),
    ("encoder: layer 1 first", SCMS, "for l in range(n, 0, -1):",
     "for l in range(1, n + 1):"),
    ("encoder: coefficients of layer n first", SCMS,
     "h = coefs[(l - 1) * (N // 2) + t]", "h = coefs[(n - l) * (N // 2) + t]"),
    ("encoder: h on both outputs", SCMS, "x[theta] = gf_sum(p, r)",
     "x[theta] = gf_sum(p, gf_product(h, r))"),
    ("encoder: no coefficient", SCMS, "x[phi] = gf_product(h, r)",
     "x[phi] = r"),
    ("n = 9 is taken", SCMS, "1 <= n <= 8", "1 <= n <= 9"),
    ("n = 0 is taken", SCMS, "1 <= n <= 8", "0 <= n <= 8"),
    ("n = 8 is refused", SCMS, "1 <= n <= 8", "1 <= n <= 7"),
    ("n is cut to a byte", SCMS, "1 <= n <= 8", "1 <= n % 256 <= 8"),
    ("a map byte 2 is taken", SCMS, "if byte > 1:", "if byte > 2:"),
    ("a map byte 255 is taken", SCMS, "if byte > 1:", "if 1 < byte < 255:"),
    ("a coefficient 0 is taken", SCMS, "if h == 0 or h > 63:", "if h > 63:"),
    ("a coefficient 64 is taken", SCMS, "if h == 0 or h > 63:",
     "if h == 0 or h > 64:"),
    ("a coefficient 63 is refused", SCMS, "if h == 0 or h > 63:",
     "if h == 0 or h > 62:"),
    ("encoder: a symbol 64 is taken", SCMS, "if symbol >= FIELD_SIZE:",
     "if symbol > FIELD_SIZE:"),
    ("encoder: a longer message is taken", SCMS,
     "if len(message) != message_places(map):",
     "if len(message) < message_places(map):"),
    ("encoder: a longer codeword buffer is taken", SCMS,
     "if codeword_length != N:", "if codeword_length < N:"),
    ("encoder: a longer map is taken", SCMS, "if len(map) != N:",
     "if len(map) < N:"),
    ("encoder: 5 is not tried", SCMS, NONE_5, ""),
    ("encoder: message in falling order", SCMS, "u.append(message[taken])",
     "u.append(message[-1 - taken])"),
    ("encoder: a frozen place is 1", SCMS, "u.append(0)", "u.append(1)"),
    ("encoder: a refusal changes the buffer", SCMS,
     "return (refusal, None)", "return (refusal, [0] * codeword_length)"),
]


# --- Chips and penalties -----------------------------------------------------

CHIP = [
    ("rotation the other way", CHIPS, "return chip(base, (k + s) % 64)",
     "return chip(base, (k - s) % 64)"),
    ("chips sent in reverse", CHIPS, "chip_of_symbol(base, s, k) * 2 ** k",
     "chip_of_symbol(base, s, k) * 2 ** (63 - k)"),
    ("the sign of a chip", CHIPS, "    if sample < 0:\n        return 1\n",
     "    if sample > 0:\n        return 1\n"),
    ("agreeing chips are weighed", CHIPS,
     "if hard_chip(sample) != chip_of_symbol",
     "if hard_chip(sample) == chip_of_symbol"),
    ("weighing: each differing chip counts 1", CHIPS,
     "total = total + magnitude(sample)", "total = total + 1"),
    ("weighing: the least is not subtracted", CHIPS,
     "((raw[s] - least) * top)", "(raw[s] * top)"),
    ("weighing: the least after the gain", CHIPS,
     "((raw[s] - least) * top) // bottom",
     "raw[s] * top // bottom - least * top // bottom"),
    ("weighing: rounding up", CHIPS, "((raw[s] - least) * top) // bottom",
     "-((least - raw[s]) * top // bottom)"),
    ("weighing: rounding to the nearest", CHIPS,
     "((raw[s] - least) * top) // bottom",
     "(2 * (raw[s] - least) * top + bottom) // (2 * bottom)"),
    ("weighing: the gain upside down", CHIPS,
     "((raw[s] - least) * top) // bottom",
     "((raw[s] - least) * bottom) // top"),
    ("weighing: the cap before the gain", CHIPS,
     "((raw[s] - least) * top) // bottom",
     "min(raw[s] - least, cap) * top // bottom"),
    ("weighing: the cap is 2^Qc", CHIPS, "cap = 2 ** Qc - 1",
     "cap = 2 ** Qc"),
    ("weighing: the cap is 31", CHIPS, "cap = 2 ** Qc - 1", "cap = 31"),
    ("base: turned by 16", CHIPS, "chip(base, (k + 32) % 64)",
     "chip(base, (k + 16) % 64)"),
    ("base: the lower 16 chips alone", CHIPS,
     """    for k in range(64):
        if chip(base, k) != chip""",
     """    for k in range(16):
        if chip(base, k) != chip"""),
    ("spreading: no symbols are taken", CHIPS, "if len(symbols) < 1 or",
     "if"),
    ("spreading: 256 symbols are refused", CHIPS, "len(symbols) > 256",
     "len(symbols) > 255"),
    ("spreading: 257 symbols are taken", CHIPS, "len(symbols) > 256",
     "len(symbols) > 257"),
    ("spreading: a symbol 64 is taken", CHIPS, "if symbol > 63:",
     "if symbol > 64:"),
    ("spreading: a longer buffer is taken", CHIPS,
     "if output_length != len(symbols):", "if output_length < len(symbols):"),
    ("spreading: 10 is not tried", CHIPS,
     SPREAD_7 + BASE_10, SPREAD_7),
    ("spreading: a refusal changes the buffer", CHIPS,
     """    number = spread_refusal(base, symbols, output_length)
    if number != 0:
        return number, None
""",
     """    number = spread_refusal(base, symbols, output_length)
    if number != 0:
        return number, [0] * output_length
"""),
    ("weighing: no samples are taken", CHIPS, "if len(samples) // 64 < 1 or",
     "if"),
    ("weighing: 256 symbols are refused", CHIPS, "len(samples) // 64 > 256",
     "len(samples) // 64 > 255"),
    ("weighing: 257 symbols are taken", CHIPS, "len(samples) // 64 > 256",
     "len(samples) // 64 > 257"),
    ("weighing: a part of a symbol is dropped", CHIPS,
     "    if len(samples) % 64 != 0:\n        return 2\n", ""),
    ("weighing: a longer frame is taken", CHIPS,
     "if output_length != len(samples):", "if output_length < len(samples):"),
    ("weighing: Qc = 6 is taken", CHIPS, "Qc > 5", "Qc > 6"),
    ("weighing: Qc = 0 is taken", CHIPS, "Qc < 1 or ", ""),
    ("weighing: top 0 is taken", CHIPS, "if top == 0 or", "if"),
    ("weighing: top 256 is taken", CHIPS, "top > 255", "top > 256"),
    ("weighing: bottom 256 is taken", CHIPS, "bottom > 255", "bottom > 256"),
    ("weighing: bottom 255 is refused", CHIPS, "bottom > 255",
     "bottom > 254"),
    ("weighing: a refusal changes the frame", CHIPS,
     """Qc, output_length)
    if number != 0:
        return number, None
""",
     """Qc, output_length)
    if number != 0:
        return number, [0] * output_length
"""),
    ("part: of a slice that is not whole vectors", CHIPS,
     "    if len(penalties) % 64 != 0:\n        return []\n", ""),
    ("part: the place before", CHIPS,
     "return penalties[64 * place:64 * place + 64]",
     "return penalties[64 * (place - 1):][:64]"),
    ("part: the last place is outside", CHIPS,
     "place >= len(penalties) // 64", "place >= len(penalties) // 64 - 1"),
]


# --- Lost samples ------------------------------------------------------------

LOST_0 = "    if sample == -128:\n        return 0\n"
DIFFERS = "        if hard_chip(sample) != chip_of_symbol(base, s, k):\n"
TAKE_SAMPLE = "        sample = samples_of_symbol[k]\n"
ALL_RAW = "        raw.append(raw_penalty(base, samples_of_symbol, s))\n"
ONE_SYMBOL = "        samples_of_symbol = samples[64 * i:64 * i + 64]\n"
REFUSAL = "    number = weigh_refusal("
TRIED = "Qc, output_length)\n"
IF_REFUSED = """    if number != 0:
        return number, None
"""
WHOLE_2 = """    if len(samples) % 64 != 0:
        return 2
"""


def magnitudes(name, condition, answer=0):
    """A variant in which other samples have the magnitude of a lost one, or a
    lost one has another."""
    return (name, CHIPS, LOST_0,
            "    if %s:\n        return %d\n" % (condition, answer))


def counted(name, condition, magnitude):
    """A variant in which a lost sample adds a magnitude under a condition."""
    return (name, CHIPS, DIFFERS,
            "        if sample == -128 and %s:\n"
            "            total = total + %d\n" % (condition, magnitude)
            + DIFFERS)


def sample_lines(name, lines):
    """A variant with more lines after each sample is taken."""
    return (name, CHIPS, TAKE_SAMPLE, TAKE_SAMPLE + lines)


def raw_lines(name, lines):
    """A variant with more lines after the raw penalties of a symbol."""
    return (name, CHIPS, ALL_RAW, ALL_RAW + lines)


def symbol_lines(name, lines):
    """A variant with more lines after the samples of a symbol are taken."""
    return (name, CHIPS, ONE_SYMBOL, ONE_SYMBOL + lines)


LOST = [
    ("-128 has magnitude 128", CHIPS, LOST_0, ""),
    magnitudes("-128 has magnitude 127", "sample == -128", 127),
    magnitudes("-128 has magnitude 64", "sample == -128", 64),
    magnitudes("-128 has magnitude 1", "sample == -128", 1),
    magnitudes("-127 is lost too", "sample <= -127"),
    magnitudes("-127 is lost and -128 is not", "sample == -127"),
    magnitudes("127 is lost too", "sample in (-128, 127)"),
    magnitudes("127 is lost and -128 is not", "sample == 127"),
    magnitudes("127 and -127 are lost too", "not -127 < sample < 127"),
    magnitudes("-1 is lost too", "sample in (-128, -1)"),
    magnitudes("1 is lost too", "sample in (-128, 1)"),
    magnitudes("each sample below 0 is lost", "sample < 0"),
    ("a magnitude is the lower seven bits", CHIPS, "return -sample",
     "return sample % 128"),
    ("a magnitude below 0 is one less", CHIPS, "return -sample",
     "return -sample - 1"),
    counted("a lost sample counts 128 for chip 1",
            "chip_of_symbol(base, s, k) == 1", 128),
    counted("a lost sample counts 127 for chip 1",
            "chip_of_symbol(base, s, k) == 1", 127),
    counted("a lost sample counts 1 for chip 1",
            "chip_of_symbol(base, s, k) == 1", 1),
    counted("a lost sample counts 64 for chip 0",
            "chip_of_symbol(base, s, k) == 0", 64),
    counted("a lost sample counts 128 for chip 0 where base chip k is 0",
            "chip(base, k) == 0 and chip_of_symbol(base, s, k) == 0", 128),
    counted("a lost sample counts 128 for chip 0 where base chip k is 1",
            "chip(base, k) == 1 and chip_of_symbol(base, s, k) == 0", 128),
    counted("a lost first sample counts 128 for chip 0",
            "k == 0 and chip_of_symbol(base, s, k) == 0", 128),
    counted("a lost last sample counts 128 for chip 0",
            "k == 63 and chip_of_symbol(base, s, k) == 0", 128),
    counted("a lost sample counts 128 but for the first and the last",
            "0 < k < 63 and chip_of_symbol(base, s, k) == 0", 128),
    counted("a second lost sample of a symbol counts 128 for chip 0",
            "-128 in samples_of_symbol[:k] and "
            "chip_of_symbol(base, s, k) == 0", 128),
    counted("the only lost sample of a symbol counts 128 for chip 0",
            "samples_of_symbol.count(-128) == 1 and "
            "chip_of_symbol(base, s, k) == 0", 128),
    sample_lines("a lost sample is the one before it, or the last",
                 "        if sample == -128:\n"
                 "            sample = samples_of_symbol[k - 1]\n"),
    sample_lines("a lost sample is the one before it, or 0",
                 "        if sample == -128 and k > 0:\n"
                 "            sample = samples_of_symbol[k - 1]\n"),
    sample_lines("a lost sample is the last before it that is not lost",
                 "        for before in samples_of_symbol[:k + 1]:\n"
                 "            if before != -128:\n"
                 "                sample = before\n"),
    sample_lines("a lost sample is the one after it, or the first",
                 "        if sample == -128:\n"
                 "            sample = samples_of_symbol[(k + 1) % 64]\n"),
    sample_lines("the sample after a lost one is lost",
                 "        if -128 in samples_of_symbol[k - 1:k]:\n"
                 "            sample = 0\n"),
    sample_lines("the sample before a lost one is lost",
                 "        if -128 in samples_of_symbol[k + 1:k + 2]:\n"
                 "            sample = 0\n"),
    sample_lines("the samples after a lost one are lost",
                 "        if sample == -128:\n            break\n"),
    sample_lines("the samples before a lost one are lost",
                 "        if sample == -128:\n            total = 0\n"),
    raw_lines("a lost sample makes the penalties of its symbol 0",
              "    if -128 in samples_of_symbol:\n        raw = [0] * 64\n"),
    raw_lines("two lost samples make the penalties of their symbol 0",
              "    if samples_of_symbol.count(-128) > 1:\n"
              "        raw = [0] * 64\n"),
    raw_lines("32 lost samples make the penalties of their symbol 0",
              "    if samples_of_symbol.count(-128) > 31:\n"
              "        raw = [0] * 64\n"),
    raw_lines("63 lost samples make the penalties of their symbol 0",
              "    if samples_of_symbol.count(-128) > 62:\n"
              "        raw = [0] * 64\n"),
    raw_lines("lost samples scale up the others",
              "    left = max(64 - samples_of_symbol.count(-128), 1)\n"
              "    raw = [64 * total // left for total in raw]\n"),
    raw_lines("lost samples scale up the gain",
              "    top = 64 * top\n"
              "    left = max(64 - samples_of_symbol.count(-128), 1)\n"
              "    bottom = left * bottom\n"),
    raw_lines("all lost: the penalties are at the cap",
              "    if samples_of_symbol.count(-128) == 64:\n"
              "        return [2 ** Qc - 1] * 64\n"),
    raw_lines("all lost: symbol 0 is taken as sent",
              "    if samples_of_symbol.count(-128) == 64:\n"
              "        return [0] + [2 ** Qc - 1] * 63\n"),
    raw_lines("all lost: the penalties are 1",
              "    if samples_of_symbol.count(-128) == 64:\n"
              "        return [1] * 64\n"),
    ("the least is not subtracted where a sample was lost", CHIPS,
     "    least = min(raw)\n",
     "    least = 0 if -128 in samples_of_symbol else min(raw)\n"),
    symbol_lines("lost samples are left out and the others move up",
                 "        kept = [x for x in samples_of_symbol if x != -128]\n"
                 "        samples_of_symbol = (kept + [0] * 64)[:64]\n"),
    symbol_lines("a lost sample has the mean of the others, chip 1",
                 "        kept = [x for x in samples_of_symbol if x != -128]\n"
                 "        mean = sum(map(abs, kept)) // max(len(kept), 1)\n"
                 "        samples_of_symbol = [\n"
                 "            -mean if x == -128 else x\n"
                 "            for x in samples_of_symbol]\n"),
    symbol_lines("a chip lost in one symbol is lost in all",
                 "        samples_of_symbol = [\n"
                 "            0 if -128 in samples[k::64] else x\n"
                 "            for k, x in enumerate(samples_of_symbol)]\n"),
    symbol_lines("only the first symbol has lost samples",
                 "        if i > 0:\n"
                 "            samples_of_symbol = [\n"
                 "                max(x, -127) for x in samples_of_symbol]\n"),
    symbol_lines("only the last symbol has lost samples",
                 "        if 64 * i + 64 < len(samples):\n"
                 "            samples_of_symbol = [\n"
                 "                max(x, -127) for x in samples_of_symbol]\n"),
    symbol_lines("a symbol that was all lost is not written at the end",
                 "        if set(samples[64 * i:]) == {-128}:\n"
                 "            break\n"),
    symbol_lines("a symbol that was all lost is as the one before it",
                 "        if set(samples_of_symbol) == {-128} and i > 0:\n"
                 "            result = result + result[-64:]\n"
                 "            continue\n"),
    ("all lost is taken before a refusal is tried", CHIPS, REFUSAL,
     "    if set(samples) == {-128}:\n"
     "        return 0, [0] * output_length\n" + REFUSAL),
    ("all lost is refused by 2", CHIPS, WHOLE_2,
     WHOLE_2 + "    if set(samples) == {-128}:\n        return 2\n"),
    ("a symbol that was all lost is refused by 9", CHIPS, TRIED + IF_REFUSED,
     TRIED + "    for i in range(len(samples) // 64):\n"
     "        if set(samples[64 * i:64 * i + 64]) == {-128}:\n"
     "            number = number or 9\n" + IF_REFUSED),
    ("a lost sample is refused by 8", CHIPS, TRIED + IF_REFUSED,
     TRIED + "    if -128 in samples:\n"
     "        number = number or 8\n" + IF_REFUSED),
]


# --- Decoder -----------------------------------------------------------------

DECODER = [
    ("check node: no coefficient", DECODING,
     "(c, at_phi[PRODUCTS[h][c]]) for", "(c, at_phi[c]) for"),
    ("check node: h on b too", DECODING,
     "at_theta[b ^ c] + penalty",
     "at_theta[b ^ PRODUCTS[h][c]] + penalty"),
    ("check node: the larger in place of the sum", DECODING,
     "at_theta[b ^ c] + penalty", "max(at_theta[b ^ c], penalty)"),
    ("check node: c = 0 is left out", DECODING,
     "for c, penalty in phi_part]",
     "for c, penalty in phi_part if c > 0 or len(tried) == 1]"),
    ("check node: c = 63 is left out", DECODING,
     "for c, penalty in phi_part]",
     "for c, penalty in phi_part if c < 63 or len(tried) == 1]"),
    ("check node: capped at 2^Qc - 1 of 5", DECODING,
     "at_theta[b ^ c] + penalty", "min(31, at_theta[b ^ c] + penalty)"),
    ("variable node: u is not used", DECODING, "at_theta[gf_sum(u, c)]",
     "at_theta[c]"),
    ("variable node: no coefficient", DECODING,
     "+ at_phi[PRODUCTS[h][c]])", "+ at_phi[c])"),
    ("variable node: h divides", DECODING,
     "sums.append(at_theta[gf_sum(u, c)] + at_phi[PRODUCTS[h][c]])",
     "sums.append(at_theta[gf_sum(u, PRODUCTS[h][c])] + at_phi[c])"),
    ("variable node: clipped before the least is subtracted", DECODING,
     "sums.append(at_theta[gf_sum(u, c)] + at_phi[PRODUCTS[h][c]])",
     "sums.append(min(2 ** Qm - 1,\n"
     "            at_theta[gf_sum(u, c)] + at_phi[PRODUCTS[h][c]]))"),
    ("variable node: the least is not subtracted", DECODING,
     "penalty = sums[c] - least", "penalty = sums[c]"),
    ("variable node: not clipped, only counted", DECODING,
     "            penalty = top\n            clipped", "            clipped"),
    ("variable node: the cap is 2^Qm", DECODING, "top = 2 ** Qm - 1",
     "top = 2 ** Qm"),
    ("count: an entry at the cap counts", DECODING, "if penalty > top:",
     "if penalty >= top:"),
    ("count: nodes, not entries", DECODING, "clipped = clipped + 1",
     "clipped = 1"),
    ("count: layer n alone", DECODING, "clipped = clipped + more",
     "clipped = clipped + (more if l == n else 0)"),
    ("count: layer 1 alone", DECODING, "clipped = clipped + more",
     "clipped = clipped + (more if l == 1 else 0)"),
    ("count: not those that feed a frozen place", DECODING,
     "count = count + more",
     "count = count + (more if map[place] == 0 else 0)"),
    ("u is the symbol decided", DECODING,
     "u = symbols_before_layer(n, coefs, decided, l)", "u = decided"),
    ("u without the coefficients", DECODING,
     "                x[phi] = gf_product(h, r)",
     "                x[phi] = r"),
    ("decoder: coefficients of layer n first", DECODING,
     "h = coefs[(l - 1) * (N // 2) + t]", "h = coefs[(n - l) * (N // 2) + t]"),
    ("decision: the last value wins", DECODING,
     "return penalties.index(min(penalties))",
     "return 63 - penalties[::-1].index(min(penalties))"),
    ("decision: a frozen place is decided", DECODING, "if byte == 1:",
     "if byte == 2:"),
    ("decision: the largest penalty wins", DECODING,
     "return penalties.index(min(penalties))",
     "return penalties.index(max(penalties))"),
    ("later frozen places are 0 in the metric", DECODING,
     "count = count + more",
     "count = count + more\n"
     "            if l == n and place % 2 == 0 and map[place + 1] == 1:\n"
     "                least = min(held[n - 1][place])\n"
     "                held[n][place] = [\n"
     "                    x - least for x in held[n - 1][place]]"),
    ("report: zeros at frozen places", DECODING,
     "report.extend(held[n][place])",
     "report.extend(held[n][place] if map[place] == 0 else [0] * 64)"),
    ("report: the frame's own penalties", DECODING,
     "report.extend(held[n][place])", "report.extend(held[0][place])"),
    ("place 0 alone is worked out", DECODING,
     "symbols.append(decision(map[place], held[n][place]))",
     "symbols.append(\n"
     "            decision(map[place], held[n][place]) if place == 0 else 0)"),
    ("Qm = Qc is refused", DECODING, "Qc <= Qm <= 13", "Qc < Qm <= 13"),
    ("Qm = 14 is taken", DECODING, "Qc <= Qm <= 13", "Qc <= Qm <= 14"),
    ("Qm = 13 is refused", DECODING, "Qc <= Qm <= 13", "Qc <= Qm <= 12"),
    ("Qm below Qc is taken", DECODING, "Qc <= Qm <= 13", "1 <= Qm <= 13"),
    ("decoder: Qc = 6 is taken", DECODING, "1 <= Qc <= 5", "1 <= Qc <= 6"),
    ("decoder: Qc = 0 is taken", DECODING, "1 <= Qc <= 5", "0 <= Qc <= 5"),
    ("decoder: a penalty 2^Qc is taken", DECODING,
     "if penalty > 2 ** Qc - 1:", "if penalty > 2 ** Qc:"),
    ("decoder: a penalty 31 is taken at each Qc", DECODING,
     "if penalty > 2 ** Qc - 1:", "if penalty > 31:"),
    ("decoder: 9 but for the last vector", DECODING,
     """    for place in range(N):
        if 0 not in""",
     """    for place in range(max(N - 1, 1)):
        if 0 not in"""),
    ("decoder: 9 but for the first vector", DECODING,
     """    for place in range(N):
        if 0 not in""",
     """    for place in range(1 if N > 1 else 0, N):
        if 0 not in"""),
    ("decoder: a longer work buffer is taken", DECODING,
     "if work_length != 65 * N:", "if work_length < 65 * N:"),
    ("decoder: a shorter work buffer is taken", DECODING,
     "if work_length != 65 * N:", "if work_length > 65 * N:"),
    ("decoder: a longer report is taken", DECODING,
     "if report_length != 64 * N:", "if report_length < 64 * N:"),
    ("decoder: a longer frame is taken", DECODING,
     "if len(frame) != 64 * N:", "if len(frame) < 64 * N:"),
    ("decoder: longer symbols are taken", DECODING,
     "if symbols_length != N:", "if symbols_length < N:"),
    ("decoder: 5 is not tried", DECODING, NONE_5, ""),
    ("decoder: a refusal changes the symbols", DECODING,
     "return (refusal, None, None, None, None)",
     "return (refusal, [0] * symbols_length, None, None, None)"),
    ("decoder: a refusal changes the report", DECODING,
     "return (refusal, None, None, None, None)",
     "return (refusal, None, [0] * report_length, None, None)"),
    ("listing: the symbol's own among the others", DECODING,
     "others = penalties[:symbol] + penalties[symbol + 1:]",
     "others = penalties"),
    ("listing: own and other in each other's place", DECODING,
     "penalties[symbol], min(others)))", "min(others), penalties[symbol]))"),
]


# --- Shorter check nodes -----------------------------------------------------

IN_ORDER = "key=lambda c: (at_phi[PRODUCTS[h][c]], c))"
FIRST_M = "    return in_order[:m]\n"
NODE = "held[l][theta] = node(h, at_theta, at_phi)"
VALID_M = "    return 1 <= m <= FIELD_SIZE\n"


def in_order_by(name, key):
    """A variant in which the values are tried in another order."""
    return (name, DECODING, IN_ORDER, "key=lambda c: %s)" % key)


def tried_by(name, values):
    """A variant in which other values are tried."""
    return (name, DECODING, FIRST_M, "    return %s\n" % values)


def full_where(name, condition):
    """A variant in which some check nodes follow the full rule."""
    return (name, DECODING, NODE,
            "held[l][theta] = (check_node if %s\n"
            "                else node)(h, at_theta, at_phi)" % condition)


def valid_where(name, condition):
    """A variant in which other m are taken."""
    return (name, DECODING, VALID_M, "    return %s\n" % condition)


SHORTER = [
    in_order_by("tried: ties to the larger c", "(at_phi[PRODUCTS[h][c]], -c)"),
    in_order_by("tried: ties by h * c",
                "(at_phi[PRODUCTS[h][c]], PRODUCTS[h][c])"),
    in_order_by("tried: phi's penalty counted at c", "(at_phi[c], c)"),
    in_order_by("tried: the largest penalties",
                "(-at_phi[PRODUCTS[h][c]], c)"),
    in_order_by("tried: the first values", "c"),
    tried_by("tried: m - 1 values", "in_order[:max(m - 1, 1)]"),
    tried_by("tried: m + 1 values", "in_order[:m + 1]"),
    tried_by("tried: all values that are as good as the last",
             "[c for c in in_order if at_phi[PRODUCTS[h][c]]\n"
             "            <= at_phi[PRODUCTS[h][in_order[m - 1]]]]"),
    tried_by("tried: only values better than the next",
             "[c for c in in_order[:m] if m == 64 or\n"
             "            at_phi[PRODUCTS[h][c]] < "
             "at_phi[PRODUCTS[h][in_order[m]]]] or in_order[:1]"),
    tried_by("tried: all 64", "in_order"),
    tried_by("tried: 63 of 64", "in_order[:min(m, 63)]"),
    tried_by("tried: an even number", "in_order[:max(m // 2 * 2, 1)]"),
    tried_by("tried: a multiple of four", "in_order[:(m + 3) // 4 * 4]"),
    full_where("the mode is ignored in the second half",
               "theta >= 2 ** n // 2"),
    full_where("the mode is ignored in the first half", "theta < 2 ** n // 2"),
    full_where("the mode is ignored in layer 1", "l == 1"),
    full_where("the mode is ignored in layer n", "l == n"),
    full_where("the mode is ignored at coefficient 1", "h == 1"),
    full_where("the mode is ignored at other coefficients", "h != 1"),
    valid_where("an m of 0 is taken", "m <= FIELD_SIZE"),
    valid_where("an m of 65 is taken", "1 <= m <= FIELD_SIZE + 1"),
    valid_where("an m of 64 is refused", "1 <= m < FIELD_SIZE"),
    valid_where("an m of 1 is refused", "1 < m <= FIELD_SIZE"),
    valid_where("of m a byte counts", "1 <= m % 256 <= FIELD_SIZE"),
    valid_where("of m 16 bits count", "1 <= m % 65536 <= FIELD_SIZE"),
    valid_where("of m 31 bits count", "1 <= m % 2 ** 31 <= FIELD_SIZE"),
    ("decoder: m is not tried", DECODING, M_13, ""),
    ("decoder: 3 for m", DECODING, M_13, M_13.replace("REFUSED_M", "3")),
    ("round trip: m is not tried", LINKING, LINK_13, ""),
    ("round trip: 3 for m", LINKING, LINK_13, LINK_13.replace("13", "3")),
]


# --- Round trip --------------------------------------------------------------

TRIP = [
    ("round trip: chip 1 is positive", LINKING,
     "            if chip(number, k) == 0:\n",
     "            if chip(number, k) == 1:\n"),
    ("round trip: amplitude 128 is taken", LINKING, "amplitude > 127",
     "amplitude > 128"),
    ("round trip: amplitude 127 is refused", LINKING, "amplitude > 127",
     "amplitude > 126"),
    ("round trip: amplitude 0 is taken", LINKING,
     "    if amplitude < 1 or amplitude > 127:\n",
     "    if amplitude < 0 or amplitude > 127:\n"),
    ("round trip: amplitude is cut to a byte", LINKING,
     "    if amplitude < 1 or amplitude > 127:\n",
     "    if not 1 <= amplitude % 256 <= 127:\n"),
    ("round trip: 19 is not tried", LINKING, LINK_19, ""),
    ("round trip: top 256 is taken", LINKING,
     "    if top < 1 or top > 255 or", "    if top < 1 or top > 256 or"),
    ("round trip: all places are the message", LINKING,
     "        if map[place] == 0:\n            message.append",
     "        if len(message) < list(map).count(0):\n"
     "            message.append"),
    ("round trip: the message sent is answered", LINKING,
     "decoded = message_of(map, symbols)", "decoded = list(message)"),
    ("round trip: a refusal changes the buffers", LINKING,
     """    if refusal != 0:
        return (refusal, None)
""",
     """    if refusal != 0:
        return (refusal, Answer([0] * samples_length, [], [], [], [], 0, []))
"""),
]


# --- Totals ------------------------------------------------------------------

ADD_TAKEN = "            add_taken(n, l, phi, least, totals)\n"
ADD_PLACE = "        totals[place] = totals[place] + least\n"
GIVEN = "    return (given, clipped, least)\n"
DECODED = ("    return (ACCEPTED,) + decoded(n, map, coefs, Qm, frame, "
           "check_node_of(m))\n")
REFUSED_DECODE = "        return (refusal, None, None, None, None)\n"
DECODE_1 = """    if not n_is_valid(n):
        return REFUSED_N
    N = 2 ** n
    if len(map) != N:
        return REFUSED_LENGTH
"""
LINK_1 = """    if not n_is_valid(n):
        return 1
"""
LINK_TOTALS_2 = """    if totals_length != N:
        return 2
"""
REFUSED_TRIP = """    if answer is None:
        return [refusal], {}
"""
DECODE_TOTALS = """                              "totals": totals}
"""
TRIP_TOTALS = """        "report": answer.report, "totals": answer.totals,
"""


def kernels(name, condition):
    """A variant in which a kernel counts under a condition alone."""
    return (name, DECODING, ADD_TAKEN,
            "            if %s:\n    " % condition + ADD_TAKEN)


def all_kernels(name, together):
    """A variant in which a node's kernels, in the list off, count together as
    something else than their sum."""
    return (name, DECODING, ADD_TAKEN,
            "            if phi %% distance == 0:\n"
            "                off = []\n"
            "            off.append(least)\n"
            "            if len(off) == distance:\n"
            "                add_taken(n, l, phi, %s, totals)\n" % together)


def halves(name, lines):
    """A variant in which what was taken off goes to other places."""
    return (name, DECODING, ADD_TAKEN, lines)


def taken_off(name, amount):
    """A variant in which a kernel of a variable node hands back another
    number."""
    return (name, DECODING, GIVEN,
            "    return (given, clipped, %s)\n" % amount)


def handed_out(name, totals):
    """A variant in which other totals are answered in the end."""
    return (name, DECODING, DECODED,
            "    N = 2 ** n\n"
            "    symbols, report, totals, count = decoded(\n"
            "        n, map, coefs, Qm, frame, check_node_of(m))\n"
            "    totals = %s\n"
            "    return (ACCEPTED, symbols, report, totals, count)\n" % totals)


def left_by(name, totals):
    """A variant in which a call of the decoder leaves other totals."""
    return (name, CALLS, DECODE_TOTALS,
            "                              \"totals\": %s}\n" % totals)


def left_by_trip(name, totals):
    """A variant in which a round trip leaves other totals."""
    return (name, CALLS, TRIP_TOTALS,
            "        \"report\": answer.report, \"totals\": %s,\n" % totals)


def decode_length(name, condition):
    """A variant in which the decoder refuses other lengths of the totals."""
    return (name, DECODING, "    if totals_length != N:\n",
            "    if %s:\n" % condition)


def trip_length(name, condition):
    """A variant in which a round trip refuses other lengths of the totals."""
    return (name, LINKING, "    if totals_length != N:\n",
            "    if %s:\n" % condition)


def decode_writes(name, condition):
    """A variant in which the decoder writes zeros where it refuses."""
    return (name, DECODING, REFUSED_DECODE,
            "        if %s:\n" % condition
            + "            return (refusal, None, None, "
            "[0] * totals_length, None)\n" + REFUSED_DECODE)


def trip_writes(name, condition):
    """A variant in which a round trip writes zeros where it refuses."""
    return (name, CALLS, REFUSED_TRIP,
            "    if answer is None and %s:\n" % condition
            + "        return [refusal], {"
            "\"totals\": [0] * len(given[\"totals\"])}\n" + REFUSED_TRIP)


# There is none for what the weigher subtracts in a round trip: that is 0, as
# the samples agree with each chip of the symbol sent.  Nor for the least
# clipped to 2^Qm - 1: it is never above that, as no penalty held is, and one
# of the sums is a penalty of theta's and a 0.
TOTALS = [
    kernels("totals: the first kernel of a node is left out",
            "phi % distance > 0 or distance == 1"),
    kernels("totals: the last kernel of a node is left out",
            "(phi + 1) % distance > 0 or distance == 1"),
    kernels("totals: the first kernel of a node alone", "phi % distance == 0"),
    kernels("totals: the last kernel of a node alone",
            "(phi + 1) % distance == 0"),
    kernels("totals: two kernels of a node at most", "phi % distance < 2"),
    kernels("totals: every second kernel", "t % 2 == 0 or distance == 1"),
    kernels("totals: the kernels of the first block of a layer",
            "phi < 2 * distance"),
    kernels("totals: the kernels of the last block of a layer",
            "phi + distance >= 2 ** n"),
    kernels("totals: layer n alone", "l == n"),
    kernels("totals: all layers but n", "l < n"),
    kernels("totals: layer 1 alone", "l == 1"),
    kernels("totals: all layers but 1", "l > 1"),
    kernels("totals: not with clipped entries", "more == 0"),
    kernels("totals: with clipped entries alone", "more > 0"),
    all_kernels("totals: the least of a node's kernels", "min(off)"),
    all_kernels("totals: the greatest of a node's kernels", "max(off)"),
    all_kernels("totals: the mean of a node's kernels",
                "sum(off) // distance"),
    all_kernels("totals: the first kernel of a node for all",
                "off[0] * distance"),
    all_kernels("totals: the last kernel of a node twice",
                "sum(off) + off[-1]"),
    halves("totals: the check node's half too",
           ADD_TAKEN + ADD_TAKEN.replace("phi", "theta")),
    halves("totals: the check node's half in place of the other",
           ADD_TAKEN.replace("phi", "theta")),
    halves("totals: the check node's half in layer n alone",
           ADD_TAKEN + "            if l == n:\n    "
           + ADD_TAKEN.replace("phi", "theta")),
    halves("totals: the check node's half in layer 1 alone",
           ADD_TAKEN + "            if l == 1:\n    "
           + ADD_TAKEN.replace("phi", "theta")),
    halves("totals: the place of phi alone",
           "            totals[phi] = totals[phi] + least\n"),
    halves("totals: all places from phi's half on",
           "            for i in range(phi - phi % distance, 2 ** n):\n"
           "                totals[i] = totals[i] + least\n"),
    halves("totals: all places",
           "            for i in range(2 ** n):\n"
           "                totals[i] = totals[i] + least\n"),
    halves("totals: the last node alone",
           "            if phi % distance == 0:\n"
           "                for i in range(phi, phi + distance):\n"
           "                    totals[i] = 0\n" + ADD_TAKEN),
    ("totals: the first place of the half alone", DECODING, ADD_PLACE,
     ADD_PLACE.replace("place", "first")
     + "        if place == first:\n            break\n"),
    ("totals: the last place of the half alone", DECODING,
     "    for place in range(first, first + distance):\n",
     "    for place in range(first + distance - 1, first + distance):\n"),
    ("totals: the last place of the half is left out", DECODING,
     "    for place in range(first, first + distance):\n",
     "    for place in range(first, first + max(1, distance - 1)):\n"),
    ("totals: the first place of the half is left out", DECODING,
     "    for place in range(first, first + distance):\n",
     "    for place in range(first + (distance > 1), first + distance):\n"),
    ("totals: cut to a byte at each step", DECODING, ADD_PLACE,
     "        totals[place] = (totals[place] + least) % 256\n"),
    taken_off("totals: the least that is left", "min(given)"),
    taken_off("totals: the greatest of the sums", "max(sums)"),
    taken_off("totals: the greatest that is left", "max(given)"),
    taken_off("totals: what the clipping took away too",
              "least + sum(sums) - 64 * least - sum(given)"),
    taken_off("totals: what the clipping took away from the greatest too",
              "least + max(sums) - least - max(given)"),
    taken_off("totals: the count of clipped entries too", "least + clipped"),
    taken_off("totals: the value that has the least", "sums.index(least)"),
    taken_off("totals: the second least", "sorted(sums)[1]"),
    taken_off("totals: the sum of value 0", "sums[0]"),
    taken_off("totals: the least twice", "2 * least"),
    taken_off("totals: one less", "max(least - 1, 0)"),
    taken_off("totals: at most 31 for each kernel", "min(least, 31)"),
    taken_off("totals: the least without u",
              "min(at_theta[c] + at_phi[gf_product(h, c)]\n"
              "                                for c in range(64))"),
    taken_off("totals: the least without the coefficient",
              "min(at_theta[gf_sum(u, c)] + at_phi[c]\n"
              "                                for c in range(64))"),
    taken_off("totals: theta's part of the least",
              "at_theta[gf_sum(u, sums.index(least))]"),
    taken_off("totals: phi's part of the least",
              "at_phi[gf_product(h, sums.index(least))]"),
    handed_out("totals: those of the next place", "totals[1:] + [0]"),
    handed_out("totals: those of the next place, the last one twice",
               "totals[1:] + totals[-1:]"),
    handed_out("totals: those of the place before", "[0] + totals[:-1]"),
    handed_out("totals: in falling order of places", "totals[::-1]"),
    handed_out("totals: in the order of places of 000",
               "[totals[int(bin(i + N)[:2:-1], 2)] for i in range(N)]"),
    handed_out("totals: mod 256", "[total % 256 for total in totals]"),
    handed_out("totals: mod 4096", "[total % 4096 for total in totals]"),
    handed_out("totals: at most 255", "[min(total, 255) for total in totals]"),
    handed_out("totals: at most 2^Qc - 1",
               "[min(total, 2 ** Qc - 1) for total in totals]"),
    handed_out("totals: at most 2^Qm - 1",
               "[min(total, 2 ** Qm - 1) for total in totals]"),
    handed_out("totals: at most 31 N / 2",
               "[min(total, 31 * N // 2) for total in totals]"),
    handed_out("totals: a running sum over the places",
               "[sum(totals[:i + 1]) for i in range(N)]"),
    handed_out("totals: what is more than at the place before",
               "[b - a for a, b in zip([0] + totals, totals)]"),
    handed_out("totals: 0 at frozen places",
               "[totals[i] if map[i] == 0 else 0 for i in range(N)]"),
    handed_out("totals: 0 at message places",
               "[totals[i] if map[i] == 1 else 0 for i in range(N)]"),
    handed_out("totals: message places alone, moved up",
               "([totals[i] for i in range(N) if map[i] == 0]\n"
               "              + [0] * N)[:N]"),
    handed_out("totals: with the penalty of the place's own symbol",
               "[totals[i] + report[64 * i + symbols[i]] for i in range(N)]"),
    handed_out("totals: the last one at each place", "totals[-1:] * N"),
    handed_out("totals: the last one at each place but the first",
               "[0] + totals[-1:] * (N - 1)"),
    handed_out("totals: the decoded word's at each place but the first",
               "[0] + [total(frame, transform(n, coefs, symbols))] * (N - 1)"),
    handed_out("totals: the frame's penalties of the symbols before",
               "[sum(frame[64 * i + symbols[i]] for i in range(place))\n"
               "              for place in range(N)]"),
    handed_out("totals: the reported penalties of the symbols before",
               "[sum(report[64 * i + symbols[i]] for i in range(place))\n"
               "              for place in range(N)]"),
    handed_out("totals: all 0 where an entry was clipped",
               "[0] * N if count > 0 else totals"),
    handed_out("totals: the least totals where an entry was clipped",
               "decode(n, map, coefs, 5, 13, m, frame, 65 * N, N,\n"
               "                    64 * N, N)[3]"
               "\\\n        if Qm < 13 else totals"),
    handed_out("totals: the last one is 0", "totals[:-1] + [0]"),
    handed_out("totals: the first is 1", "[1] + totals[1:]"),
    left_by("totals: the buffer stays as it came", "[]"),
    left_by("totals: zeros are written", "[0] * len(totals)"),
    left_by("totals: the first entry stays as it came",
            "given[\"totals\"][:1] + totals[1:]"),
    left_by("totals: the last entry stays as it came", "totals[:-1]"),
    left_by("totals: a 0 is not written",
            "[a or b for a, b in zip(totals, given[\"totals\"])]"),
    left_by("totals: added to what was there",
            "[(a + b) % 65536 for a, b in zip(totals, given[\"totals\"])]"),
    left_by_trip("round trip: the totals stay as they came", "[]"),
    left_by_trip("round trip: zeros for totals", "[0] * len(answer.totals)"),
    left_by_trip("round trip: the totals of the message places",
                 "linking.message_of(\n            given[\"map\"], "
                 "answer.totals)"),
    left_by_trip("round trip: the totals of the place before",
                 "[0] + answer.totals[:-1]"),
    left_by_trip("round trip: totals mod 256",
                 "[x % 256 for x in answer.totals]"),
    ("decoder: the totals' length is not tried", DECODING, TOTALS_2, ""),
    decode_length("decoder: longer totals are taken", "totals_length < N"),
    decode_length("decoder: shorter totals are taken", "totals_length > N"),
    decode_length("decoder: N + 1 totals are taken",
                  "totals_length not in (N, N + 1)"),
    decode_length("decoder: N - 1 totals are taken",
                  "totals_length not in (N, N - 1)"),
    decode_length("decoder: no totals are taken",
                  "totals_length not in (N, 0)"),
    decode_length("decoder: 2 N totals are taken",
                  "totals_length not in (N, 2 * N)"),
    decode_length("decoder: N / 2 totals are taken",
                  "totals_length not in (N, N // 2)"),
    decode_length("decoder: 599 totals are taken",
                  "totals_length not in (N, 599)"),
    decode_length("decoder: the length of the totals is cut to a byte",
                  "totals_length % 256 != N % 256"),
    ("decoder: symbols and totals are counted together", DECODING,
     SYMBOLS_LENGTH_2 + REPORT_LENGTH_2 + TOTALS_2,
     REPORT_LENGTH_2 + TOTALS_2.replace(
         "totals_length != N", "symbols_length + totals_length != 2 * N")),
    ("decoder: report and totals are counted together", DECODING,
     REPORT_LENGTH_2 + TOTALS_2,
     TOTALS_2.replace("totals_length != N",
                      "report_length + totals_length != 65 * N")),
    ("decoder: 12 for the length of the totals", DECODING, TOTALS_2,
     TOTALS_2.replace("REFUSED_LENGTH", "12")),
    order("decoder: the totals' 2 after 3", DECODING, TOTALS_2, PRECISION_3),
    order("decoder: the totals' 2 after 9", DECODING, TOTALS_2,
          PRECISION_3 + M_13 + MAP_4 + NONE_5 + COEFFICIENT_6 + PENALTY_8
          + NO_ZERO_9),
    ("decoder: the totals' 2 before 1", DECODING, DECODE_1,
     "    if totals_length != 2 ** min(n, 9):\n"
     "        return REFUSED_LENGTH\n" + DECODE_1),
    decode_writes("decoder: a refusal changes the totals", "True"),
    decode_writes("decoder: 8 and 9 change the totals", "refusal in (8, 9)"),
    decode_writes("decoder: the 2 of the totals changes them",
                  "refusal == 2 and totals_length != 2 ** n"),
    decode_writes("decoder: the 2 of others changes the totals",
                  "refusal == 2 and totals_length == 2 ** n"),
    ("decoder: a refusal changes the first total", DECODING, REFUSED_DECODE,
     "        return (refusal, None, None, [0][:totals_length], None)\n"),
    ("round trip: the totals' length is not tried", LINKING, LINK_TOTALS_2,
     ""),
    trip_length("round trip: longer totals are taken", "totals_length < N"),
    trip_length("round trip: shorter totals are taken", "totals_length > N"),
    trip_length("round trip: no totals are taken",
                "totals_length not in (N, 0)"),
    trip_length("round trip: N / 2 totals are taken",
                "totals_length not in (N, N // 2)"),
    trip_length("round trip: the length of the totals is cut to a byte",
                "totals_length % 256 != N % 256"),
    ("round trip: 12 for the length of the totals", LINKING, LINK_TOTALS_2,
     LINK_TOTALS_2.replace("2", "12")),
    order("round trip: the totals' 2 after 3", LINKING, LINK_TOTALS_2,
          LINK_LENGTH_2 + LINK_3),
    order("round trip: the totals' 2 after 19", LINKING, LINK_TOTALS_2,
          LINK_LENGTH_2 + LINK_3 + LINK_13 + LINK_4 + LINK_5 + LINK_6 + LINK_7
          + BASE_10 + LINK_11 + LINK_19),
    ("round trip: the totals' 2 before 1", LINKING, LINK_1,
     "    if totals_length != 2 ** min(n, 9):\n        return 2\n" + LINK_1),
    trip_writes("round trip: a refusal changes the totals", "True"),
    trip_writes("round trip: the 2 of the totals changes them",
                "refusal == 2\\\n            and "
                "len(given[\"totals\"]) != 2 ** given[\"n\"]"),
    trip_writes("round trip: the 2 of others changes the totals",
                "refusal == 2\\\n            and "
                "len(given[\"totals\"]) == 2 ** given[\"n\"]"),
] + [
    ("decoder: %d before the totals' 2" % number, DECODING, TOTALS_2,
     condition + TOTALS_2)
    for number, condition in (
        (4, MAP_4), (5, NONE_5), (6, COEFFICIENT_6), (8, PENALTY_8),
        (9, NO_ZERO_9))
] + [
    ("round trip: %d before the totals' 2" % number, LINKING, LINK_TOTALS_2,
     condition + LINK_TOTALS_2)
    for number, condition in (
        (4, LINK_4), (5, LINK_5), (6, LINK_6), (7, LINK_7), (10, BASE_10),
        (11, LINK_11), (19, LINK_19))
] + [
    decode_writes("decoder: %d changes the totals" % number,
                  "refusal == %d" % number)
    for number in (1, 3, 4, 5, 6, 8, 9)
] + [
    trip_writes("round trip: %d changes the totals" % number,
                "refusal == %d" % number)
    for number in (1, 3, 4, 5, 6, 7, 10, 11, 19)
]


# --- Readers and program -----------------------------------------------------

READER = [
    ("leading zeros are taken", READING,
     "if len(digits) > 1 and digits[0] == DIGIT_0:", "if False:"),
    ("a number 0 is refused", READING,
     "if len(digits) > 1 and digits[0] == DIGIT_0:",
     "if digits[0] == DIGIT_0:"),
    ("a field of blanks is 0", READING,
     "    if len(digits) == 0:\n        return None\n",
     "    if len(digits) == 0:\n        return 0\n"),
    ("a tab is a blank", READING, "field[blanks] == BLANK",
     "field[blanks] in (BLANK, 9)"),
    ("a byte 0 is a blank", READING, "field[blanks] == BLANK",
     "field[blanks] in (BLANK, 0)"),
    ("a colon is a digit", READING, "byte > DIGIT_9", "byte > DIGIT_9 + 1"),
    ("a slash is a digit", READING, "byte < DIGIT_0", "byte < DIGIT_0 - 1"),
    ("bit 7 of a digit is not looked at", READING,
     "    for byte in digits:\n        if byte <",
     "    for byte in [x % 128 for x in digits]:\n        if byte <"),
    ("numbers are cut to a byte", READING,
     "number = 10 * number + (byte - DIGIT_0)",
     "number = (10 * number + (byte - DIGIT_0)) % 256"),
    ("a sheet line needs no line feed", READING,
     "    if line[4] != LINE_FEED:\n        return None\n", ""),
    ("a sheet line may end in a carriage return", READING,
     "if line[4] != LINE_FEED:", "if line[4] not in (10, 13):"),
    ("a sheet may be longer", READING, "if len(data) != 5 * count:",
     "if len(data) < 5 * count:"),
    ("sheet: 12 in place of 1", READING, "return (REFUSED_N, None)",
     "return (REFUSED_FORM, None)"),
    ("sheet: 1 for fewer than 5 bytes", READING,
     "    if len(data) < 5:\n        return (REFUSED_FORM, None)\n",
     "    if len(data) < 5:\n        return (REFUSED_N, None)\n"),
    ("sheet: 12 before the first line is looked at", READING,
     "    n = line_number(data[0:5])\n",
     "    if len(data) < 20:\n        return (REFUSED_FORM, None)\n"
     "    n = line_number(data[0:5])\n"),
    ("sheet: longer buffers are refused", READING,
     "if map_length < N or coefs_length < coefs_needed:",
     "if map_length != N or coefs_length != coefs_needed:"),
    ("sheet: a short map buffer is taken for short", READING,
     "if map_length < N or coefs_length < coefs_needed:",
     "if map_length < N - 1 or coefs_length < coefs_needed:"),
    ("sheet: the coefficient buffer is not looked at", READING,
     "if map_length < N or coefs_length < coefs_needed:",
     "if map_length < N:"),
    ("sheet: 5 is not tried", READING, SHEET_5, ""),
    ("sheet: 6 is not tried", READING, SHEET_6, ""),
    ("frame line: 65 outputs are taken", READING, "if output_length != 64:",
     "if output_length < 64:"),
    ("frame line: more bytes are taken", READING, "if len(data) != 257:",
     "if len(data) < 257:"),
    ("frame line: no line feed is asked", READING,
     "    if data[256] != LINE_FEED:\n        return (REFUSED_FORM, None)\n",
     ""),
    ("frame line: the last field is not read", READING,
     "        number = field_number(data[4 * s:4 * s + 4])\n",
     "        number = field_number(data[4 * s:4 * s + 4])\n"
     "        if s == 63:\n            number = number or 0\n"),
    ("frame file: bytes after it are taken", READING, FILE_LONG, ""),
    ("frame file: 8 is not tried", READING, FILE_8, ""),
    ("frame file: 9 is not tried", READING, FILE_9, ""),
    ("the program decodes with Qc = 4", READING, "PROGRAM_QC = 5",
     "PROGRAM_QC = 4"),
    ("the program decodes with Qc = 6", READING, "PROGRAM_QC = 5",
     "PROGRAM_QC = 6"),
    ("the program decodes with Qm = 8", READING, "PROGRAM_QM = 13",
     "PROGRAM_QM = 8"),
    ("the program decodes with Qm = 12", READING, "PROGRAM_QM = 13",
     "PROGRAM_QM = 12"),
    ("listing: left-justified", READING, "str(number).rjust(5)",
     "str(number).ljust(5)"),
    ("listing: zeros before a number", READING, "str(number).rjust(5)",
     "str(number).zfill(5)"),
    ("listing: no count", READING,
     "return printed + five_columns(count) + b\"\\n\"",
     "return printed"),
]


# --- Writers -----------------------------------------------------------------

SHEET_START = """    data = sheet_line(n)
"""
SHEET_MAP = """    for byte in map:
        data = data + sheet_line(byte)
"""
SHEET_COEFS = """    for h in coefs:
        data = data + sheet_line(h)
"""
SHEET_REFUSED = """    refusal = sheet_refusal(n, map, coefs, output_length)
    if refusal != ACCEPTED:
"""
LINE_REFUSED = """    refusal = line_refusal(penalties, output_length)
    if refusal != ACCEPTED:
"""
NOTHING = """        return (refusal, None)
"""
FIELD = "bytes([BLANK] * (4 - len(digits))) + digits"


def changing(number):
    """What makes a refusal by this number change the start of an output."""
    return ("        if refusal == %d:\n" % number
            + "            return (refusal, b\"   1\"[:output_length])\n")


WRITER = [
    ("sheet writer: n = 0 is taken", WRITING, "if n < 1 or n > 8:",
     "if n > 8:"),
    ("sheet writer: n = 9 is taken", WRITING, "if n < 1 or n > 8:",
     "if n < 1 or n > 9:"),
    ("sheet writer: n = 8 is refused", WRITING, "if n < 1 or n > 8:",
     "if n < 1 or n > 7:"),
    ("sheet writer: n = 1 is refused", WRITING, "if n < 1 or n > 8:",
     "if n < 2 or n > 8:"),
    ("sheet writer: n is cut to a byte", WRITING, WRITE_1,
     "    n = n % 256\n" + WRITE_1),
    ("sheet writer: n is cut to 32 bits", WRITING, WRITE_1,
     "    n = n % 2 ** 32\n" + WRITE_1),
    ("sheet writer: n is cut to 63 bits", WRITING, WRITE_1,
     "    n = n % 2 ** 63\n" + WRITE_1),
    ("sheet writer: a longer map is taken", WRITING, "if len(map) != N:",
     "if len(map) < N:"),
    ("sheet writer: a shorter map is taken", WRITING, "if len(map) != N:",
     "if len(map) > N:"),
    ("sheet writer: more coefficients are taken", WRITING,
     "if len(coefs) != n * (N // 2):", "if len(coefs) < n * (N // 2):"),
    ("sheet writer: fewer coefficients are taken", WRITING,
     "if len(coefs) != n * (N // 2):", "if len(coefs) > n * (N // 2):"),
    ("sheet writer: map and coefficients are counted together", WRITING,
     WRITE_MAP_2 + WRITE_COEFS_2,
     "    if len(map) + len(coefs) != N + n * (N // 2):\n"
     "        return REFUSED_LENGTH\n"),
    ("sheet writer: a longer output is taken", WRITING,
     "if output_length != 5 *", "if output_length < 5 *"),
    ("sheet writer: a shorter output is taken", WRITING,
     "if output_length != 5 *", "if output_length > 5 *"),
    ("sheet writer: an output longer by a part of a line is taken", WRITING,
     "if output_length != 5 * (1 + N + n * (N // 2)):",
     "if output_length // 5 != 1 + N + n * (N // 2):"),
    ("sheet writer: a map byte 2 is taken", WRITING, "if byte > 1:",
     "if byte > 2:"),
    ("sheet writer: a map byte 255 is taken", WRITING, "if byte > 1:",
     "if 1 < byte < 255:"),
    ("sheet writer: 4 is not tried", WRITING, WRITE_4, ""),
    ("sheet writer: the first map byte is not looked at", WRITING,
     "    for byte in map:\n        if",
     "    for byte in map[1:]:\n        if"),
    ("sheet writer: the last map byte is not looked at", WRITING,
     "    for byte in map:\n        if",
     "    for byte in map[:-1]:\n        if"),
    ("sheet writer: 5 is not tried", WRITING, WRITE_5, ""),
    ("sheet writer: 5 without a frozen place", WRITING, "if 0 not in map:",
     "if 1 not in map:"),
    ("sheet writer: 5 looks at all places but the first", WRITING,
     "if 0 not in map:", "if 0 not in map[1:]:"),
    ("sheet writer: 5 looks at all places but the last", WRITING,
     "if 0 not in map:", "if 0 not in map[:-1]:"),
    ("sheet writer: a coefficient 0 is taken", WRITING,
     "if h == 0 or h > 63:", "if h > 63:"),
    ("sheet writer: a coefficient 1 is refused", WRITING,
     "if h == 0 or h > 63:", "if h < 2 or h > 63:"),
    ("sheet writer: a coefficient 63 is refused", WRITING,
     "if h == 0 or h > 63:", "if h == 0 or h > 62:"),
    ("sheet writer: a coefficient 64 is taken", WRITING,
     "if h == 0 or h > 63:", "if h == 0 or h > 64:"),
    ("sheet writer: a coefficient 255 is taken", WRITING,
     "if h == 0 or h > 63:", "if h == 0 or 63 < h < 255:"),
    ("sheet writer: the first coefficient is not looked at", WRITING,
     "    for h in coefs:\n        if",
     "    for h in coefs[1:]:\n        if"),
    ("sheet writer: the last coefficient is not looked at", WRITING,
     "    for h in coefs:\n        if",
     "    for h in coefs[:-1]:\n        if"),
    ("sheet writer: 6 is not tried", WRITING, WRITE_6, ""),
    order("sheet writer: the coefficients before the map", WRITING,
          SHEET_MAP, SHEET_COEFS),
    ("sheet writer: the map before n", WRITING, SHEET_START + SHEET_MAP,
     "    data = b\"\"\n" + SHEET_MAP + "    data = data + sheet_line(n)\n"),
    ("sheet writer: N in place of n", WRITING, SHEET_START,
     "    data = sheet_line(2 ** n)\n"),
    ("sheet writer: map bytes 0 and 1 exchanged", WRITING,
     "data + sheet_line(byte)", "data + sheet_line(1 - byte)"),
    ("sheet writer: the map in falling order", WRITING,
     "    for byte in map:\n        data",
     "    for byte in map[::-1]:\n        data"),
    ("sheet writer: the coefficients in falling order", WRITING,
     "    for h in coefs:\n        data",
     "    for h in coefs[::-1]:\n        data"),
    ("sheet writer: the coefficients less 1", WRITING, "data + sheet_line(h)",
     "data + sheet_line(h - 1)"),
    ("sheet writer: no line feed at the end", WRITING,
     "return (ACCEPTED, data)", "return (ACCEPTED, data[:-1])"),
    ("sheet writer: the last number is left out", WRITING,
     "return (ACCEPTED, data)", "return (ACCEPTED, data[:-5])"),
    ("sheet writer: nothing is written", WRITING,
     "return (ACCEPTED, data)", "return (ACCEPTED, b\"\")"),
    ("sheet writer: a refusal changes the output", WRITING,
     SHEET_REFUSED + NOTHING,
     SHEET_REFUSED + "        return (refusal, bytes(output_length))\n"),
    ("a field is left-justified", WRITING, FIELD,
     "digits + bytes([BLANK] * (4 - len(digits)))"),
    ("a field has zeros before its number", WRITING, FIELD,
     "bytes([DIGIT_0] * (4 - len(digits))) + digits"),
    ("a field has tabs before its number", WRITING, FIELD,
     "bytes([9] * (4 - len(digits))) + digits"),
    ("a field has two digits always", WRITING, FIELD,
     "b\"  \" + bytes([DIGIT_0] * (2 - len(digits))) + digits"),
    ("a field has three columns", WRITING, "(4 - len(digits))",
     "(3 - len(digits))"),
    ("a field has five columns", WRITING, "(4 - len(digits))",
     "(5 - len(digits))"),
    ("the number 0 is four blanks", WRITING,
     "digits = bytes([DIGIT_0 + number % 10])\n    number",
     "digits = bytes([DIGIT_0 + number % 10] if number else [BLANK])\n"
     "    number"),
    ("the last digit comes first", WRITING,
     "digits = bytes([DIGIT_0 + number % 10]) + digits",
     "digits = digits + bytes([DIGIT_0 + number % 10])"),
    ("the last digit alone is written", WRITING, "while number > 0:",
     "while number > 9:"),
    ("a carriage return ends a line", WRITING, "LINE_FEED = b\"\\n\"",
     "LINE_FEED = b\"\\r\""),
    ("a carriage return stands before the line feed", WRITING,
     "LINE_FEED = b\"\\n\"", "LINE_FEED = b\"\\r\\n\""),
    ("a blank ends a line", WRITING, "LINE_FEED = b\"\\n\"",
     "LINE_FEED = b\" \""),
    ("line writer: 65 penalties are taken", WRITING,
     "if len(penalties) != 64:", "if len(penalties) < 64:"),
    ("line writer: 63 penalties are taken", WRITING,
     "if len(penalties) != 64:", "if len(penalties) > 64:"),
    ("line writer: a longer output is taken", WRITING,
     "if output_length != 257:", "if output_length < 257:"),
    ("line writer: an output of 256 bytes is taken", WRITING,
     "if output_length != 257:", "if output_length not in (256, 257):"),
    ("line writer: lengths that belong together are taken", WRITING,
     WRITE_COUNT_2 + WRITE_LINE_2,
     "    if output_length != 4 * len(penalties) + 1:\n"
     "        return REFUSED_LENGTH\n"),
    ("line writer: a penalty 32 is taken", WRITING,
     "if penalty > 2 ** WRITER_QC - 1:", "if penalty > 2 ** WRITER_QC:"),
    ("line writer: a penalty 31 is refused", WRITING,
     "if penalty > 2 ** WRITER_QC - 1:", "if penalty > 2 ** WRITER_QC - 2:"),
    ("line writer: Qc = 4", WRITING, "WRITER_QC = 5", "WRITER_QC = 4"),
    ("line writer: Qc = 6", WRITING, "WRITER_QC = 5", "WRITER_QC = 6"),
    ("line writer: numbers up to 9999 are taken", WRITING,
     "if penalty > 2 ** WRITER_QC - 1:", "if penalty > 9999:"),
    ("line writer: a penalty is cut to a byte", WRITING,
     "if penalty > 2 ** WRITER_QC - 1:",
     "if penalty % 256 > 2 ** WRITER_QC - 1:"),
    ("line writer: 8 is not tried", WRITING, WRITE_8, ""),
    ("line writer: 8 looks at all penalties but the first", WRITING,
     "    for penalty in penalties:\n        if",
     "    for penalty in penalties[1:]:\n        if"),
    ("line writer: 8 looks at all penalties but the last", WRITING,
     "    for penalty in penalties:\n        if",
     "    for penalty in penalties[:-1]:\n        if"),
    ("line writer: 9 is not tried", WRITING, WRITE_9, ""),
    ("line writer: 9 looks at all penalties but the first", WRITING,
     "if 0 not in penalties:", "if 0 not in penalties[1:]:"),
    ("line writer: 9 looks at all penalties but the last", WRITING,
     "if 0 not in penalties:", "if 0 not in penalties[:-1]:"),
    ("line writer: 9 for more than one zero", WRITING,
     "if 0 not in penalties:", "if list(penalties).count(0) != 1:"),
    ("line writer: the penalties in falling order", WRITING,
     "    for penalty in penalties:\n        line",
     "    for penalty in penalties[::-1]:\n        line"),
    ("line writer: no line feed", WRITING,
     "return (ACCEPTED, line + LINE_FEED)", "return (ACCEPTED, line)"),
    ("line writer: the line feed first", WRITING,
     "return (ACCEPTED, line + LINE_FEED)",
     "return (ACCEPTED, LINE_FEED + line)"),
    ("line writer: the last number is left out", WRITING,
     "return (ACCEPTED, line + LINE_FEED)",
     "return (ACCEPTED, line[:-4] + LINE_FEED)"),
    ("line writer: nothing is written", WRITING,
     "return (ACCEPTED, line + LINE_FEED)", "return (ACCEPTED, b\"\")"),
    ("line writer: a refusal changes the output", WRITING,
     LINE_REFUSED + NOTHING,
     LINE_REFUSED + "        return (refusal, bytes(output_length))\n"),
] + [
    ("sheet writer: %d changes the output" % number, WRITING,
     SHEET_REFUSED + NOTHING, SHEET_REFUSED + changing(number) + NOTHING)
    for number in (1, 2, 4, 5, 6)
] + [
    ("line writer: %d changes the output" % number, WRITING,
     LINE_REFUSED + NOTHING, LINE_REFUSED + changing(number) + NOTHING)
    for number in (2, 8, 9)
]


# --- Products ----------------------------------------------------------------

FIRST_CALL = ("    return scms.gf_product(scms.symbol_of(x), "
              "scms.symbol_of(y))\n")
SECOND_CALL = "return scms.gf_product_by_bits(scms.symbol_of(x), "
EACH_BYTE = "for y in range(256)]"
BOTH_CALLS = "for call in (product, worked_out_product)]"
POWERS_6 = "moved = moved ^ FIELD_SIZE ^ 0b11"
BIT_OF_FIRST = "if (a >> i) & 1 == 1:"
ADD_SECOND = "product = gf_sum(product, b)"


def given_by(name, expression):
    """A variant in which the first call gives something else for x and y."""
    return (name, CALLS, FIRST_CALL, "    return %s\n" % expression)


def taken_as(name, x, y):
    """A variant in which the first call takes x and y as other factors."""
    return given_by(name, "worked_out_product(%s, %s)" % (x, y))


def unless(name, condition, expression="0"):
    """A variant in which the first call gives something else under a
    condition."""
    return (name, CALLS, FIRST_CALL,
            "    if %s:\n        return %s\n" % (condition, expression)
            + FIRST_CALL)


def powers(a_6, low):
    """A variant in which the first call has another sum of powers for a^6; its
    bits are those of a number."""
    return ("product: a^6 = " + a_6, CALLS, FIRST_CALL,
            "    product = 0\n"
            "    for i in range(6):\n"
            "        product = product ^ (x >> i & 1) * (y % 64)\n"
            "        y = 2 * (y % 32) ^ y // 32 % 2 * {}\n"
            "    return product\n".format(low))


# There is none for the two factors exchanged, nor for the two calls: neither
# makes another line.  Of its second factor gf_product looks at six bits alone,
# so one that is not cut is handed to it as the first.
PRODUCT = [
    powers("a^3 + 1", 0b001001),
    powers("a^5 + 1", 0b100001),
    powers("a^4 + a^3 + a + 1", 0b011011),
    powers("a^4 + a^2 + a + 1", 0b010111),
    powers("a^5 + a^2 + a + 1", 0b100111),
    powers("a^5 + a^3 + a^2 + 1", 0b101101),
    powers("a^5 + a^4 + a + 1", 0b110011),
    powers("a^5 + a^4 + a^2 + 1", 0b110101),
    powers("a", 0b000010),
    powers("1", 0b000001),
    powers("0", 0b000000),
    given_by("product: the sum", "(x ^ y) % 64"),
    given_by("product: the bits that both have", "(x & y) % 64"),
    given_by("product: that of the numbers", "x * y % 64"),
    given_by("product: the second factor alone", "y % 64"),
    given_by("product: the first factor is not cut",
             "scms.gf_product(x, scms.symbol_of(y))"),
    given_by("product: the second factor is not cut",
             "scms.gf_product(y, scms.symbol_of(x))"),
    taken_as("product: the first factor is cut to five bits", "x % 32", "y"),
    taken_as("product: the second factor is cut to five bits", "x", "y % 32"),
    taken_as("product: the first factor is at most 63", "min(x, 63)", "y"),
    taken_as("product: the second factor is at most 63", "x", "min(y, 63)"),
    taken_as("product: the first factor mod 63", "x % 63", "y"),
    taken_as("product: the second factor mod 63", "x", "y % 63"),
    taken_as("product: the first factor is reduced, not cut",
             "x ^ x // 64 * 3", "y"),
    taken_as("product: the second factor is reduced, not cut", "x",
             "y ^ y // 64 * 3"),
    taken_as("product: row of the factor one more", "x + 1", "y"),
    taken_as("product: row of the factor one less", "x - 1", "y"),
    taken_as("product: column of the factor one more", "x", "y + 1"),
    taken_as("product: column of the factor one less", "x", "y - 1"),
    taken_as("product: a column beyond 63 is in the next row", "x + y // 64",
             "y"),
    taken_as("product: rows 2 and 3 exchanged",
             "x ^ (x % 64 in (2, 3))", "y"),
    taken_as("product: rows 62 and 63 exchanged",
             "x ^ (x % 64 in (62, 63))", "y"),
    taken_as("product: rows 0 and 1 exchanged beyond 63",
             "x ^ (x in (64, 65))", "y"),
    taken_as("product: columns 2 and 3 exchanged", "x",
             "y ^ (y % 64 in (2, 3))"),
    taken_as("product: columns 62 and 63 exchanged in row 63", "x",
             "y ^ (x % 64 == 63 and y % 64 > 61)"),
    taken_as("product: a factor 0 counts as 1", "x % 64 or 1", "y % 64 or 1"),
    unless("product: rows beyond 63 are 0", "x > 63"),
    unless("product: rows beyond 127 are 0", "x > 127"),
    unless("product: columns beyond 63 are 0", "y > 63"),
    unless("product: columns beyond 127 are 0", "y > 127"),
    unless("product: two factors beyond 63 have 0", "x > 63 and y > 63"),
    unless("product: the last row is 0", "x % 64 == 63"),
    unless("product: the last column is 0", "y % 64 == 63"),
    unless("product: 0 times 0 is 1", "x % 64 == 0 and y % 64 == 0", "1"),
    unless("product: 37 times 53 is one bit off",
           "x % 64 == 37 and y % 64 == 53", "worked_out_product(x, y) ^ 1"),
    unless("product: 63 times 63 is 43", "x % 64 == 63 and y % 64 == 63",
           "43"),
    unless("product: 255 times 255 alone is 43", "x == 255 and y == 255",
           "43"),
    ("worked-out product: a^6 = a^3 + 1", SCMS, POWERS_6,
     "moved = moved ^ FIELD_SIZE ^ 0b1001"),
    ("worked-out product: a^6 = a^5 + 1", SCMS, POWERS_6,
     "moved = moved ^ FIELD_SIZE ^ 0b100001"),
    ("worked-out product: a^6 = 0", SCMS, POWERS_6,
     "moved = moved ^ FIELD_SIZE"),
    ("worked-out product: a^6 stays", SCMS, POWERS_6,
     "moved = moved ^ 0b11"),
    ("worked-out product: the first factor without a^0", SCMS, BIT_OF_FIRST,
     "if i > 0 and (a >> i) & 1 == 1:"),
    ("worked-out product: the first factor without a^5", SCMS, BIT_OF_FIRST,
     "if i < 5 and (a >> i) & 1 == 1:"),
    ("worked-out product: each power one more", SCMS, ADD_SECOND,
     "product = gf_sum(product, times_a(b))"),
    ("worked-out product: added as numbers", SCMS, ADD_SECOND,
     "product = (product + b) % 64"),
    ("worked-out product: the last power alone", SCMS, ADD_SECOND,
     "product = b"),
    ("worked-out product: the second factor is not cut", CALLS,
     SECOND_CALL + "scms.symbol_of(y))", SECOND_CALL + "y)"),
    ("worked-out product: the second factor is cut to five bits", CALLS,
     SECOND_CALL + "scms.symbol_of(y))", SECOND_CALL + "y % 32)"),
    ("products: a factor is cut to five bits", SCMS,
     "return byte % FIELD_SIZE", "return byte % 32"),
    ("products: a factor is cut to seven bits", SCMS,
     "return byte % FIELD_SIZE", "return byte % 128"),
    ("products: a factor above 63 is 0", SCMS,
     "return byte % FIELD_SIZE", "return byte if byte < FIELD_SIZE else 0"),
    ("products: with 64 bytes alone", CALLS, EACH_BYTE, "for y in range(64)]"),
    ("products: with all bytes but 255", CALLS, EACH_BYTE,
     "for y in range(255)]"),
    ("products: in falling order", CALLS, EACH_BYTE,
     "for y in range(255, -1, -1)]"),
    ("products: the second checksum is left out", CALLS, BOTH_CALLS,
     "for call in (product,)]"),
    ("products: the second checksum is that of the sums", CALLS, BOTH_CALLS,
     "for call in (product, scms.gf_sum)]"),
    ("products: a third checksum", CALLS, BOTH_CALLS,
     "for call in (product, worked_out_product, product)]"),
]


# --- Chip distances ----------------------------------------------------------

CHIP_DIFFERS = ("        if chip_of_symbol(base, s, k) != "
                "chip_of_symbol(base, 0, k):\n")
COUNT_CHIPS = "    for k in range(64):\n" + CHIP_DIFFERS
COUNT_GIVEN = "            count = count + 1\n    return count\n"
BASE_REFUSAL = "def base_refusal(base):\n"
ALONE_10 = """    number = base_refusal(base)
    if number != 0:
        return number, None
"""
ONE_SHIFT = "    return 0, distance(base, s % 64)\n"
THE_LEAST = "    return 0, least(base)\n"
LEAST_SHIFTS = """    for s in range(1, 64):
        found.append(distance(base, s))
"""
LIST_SHIFTS = """    for s in range(1, 64):
        if distance(base, s) <= d:
            shifts.append(s)
"""
LIST_2 = """    if output_length != 63:
        return 2
"""
LIST_REFUSED = """    if number != 0:
        return number, None, None
"""
LIST_GIVEN = "    return 0, len(shifts), shifts + [0] * unused\n"
PREMISE_REFUSED = """    number = premise_refusal(base, top, bottom)
    if number != 0:
        return number, None
"""
PREMISE_NO = """    if amplitude < 1 or amplitude > 127:
        return 0, 0
"""
PREMISE_YES = "    if premise(base, amplitude, top, bottom):\n"
PREMISE_WEIGHED = "penalties_of_symbol(base, samples, top, bottom, PREMISE_QC)"
PREMISE_1 = "            if s != sent and penalties[s] < 1:\n"
PREMISE_11 = "    if top == 0 or top > 255 or bottom == 0 or bottom > 255:\n"


def chips_counted(name, lines):
    """A variant in which other chips are counted for a distance."""
    return ("chip distance: " + name, DISTANCES, COUNT_CHIPS, lines)


def base_tried(name, condition):
    """A variant with another condition for 10 in the calls for one shift and
    for the least."""
    return ("chip distance: " + name, DISTANCES, BASE_REFUSAL,
            BASE_REFUSAL + "    if not (%s):\n        return 0\n"
            "    return 10\n" % condition)


def shift_taken(name, s):
    """A variant in which the call for one shift takes another shift."""
    return ("one shift: " + name, DISTANCES, ONE_SHIFT,
            "    return 0, distance(base, %s)\n" % s)


def one_shift(name, lines):
    """A variant with other lines in the call for one shift."""
    return ("one shift: " + name, DISTANCES, ALONE_10 + ONE_SHIFT, lines)


def least_of(name, shifts):
    """A variant in which the least is over other shifts."""
    return ("least distance: " + name, DISTANCES, LEAST_SHIFTS,
            LEAST_SHIFTS.replace("range(1, 64)", shifts))


def least_given(name, answer):
    """A variant in which the least is another number."""
    return ("least distance: " + name, DISTANCES, "    return min(found)\n",
            "    return %s\n" % answer)


def listed(name, lines):
    """A variant in which other shifts are listed."""
    return ("shift list: " + name, DISTANCES, LIST_SHIFTS, lines)


def listed_within(name, condition):
    """A variant with another condition for a shift to be listed."""
    return listed(name, LIST_SHIFTS.replace("distance(base, s) <= d",
                                            condition))


def list_length(name, condition):
    """A variant with another condition for the 2 of the list."""
    return ("shift list: " + name, DISTANCES, LIST_2,
            LIST_2.replace("output_length != 63", condition))


def list_refused(name, lines):
    """A variant with other lines where a list is refused."""
    return ("shift list: " + name, DISTANCES, LIST_REFUSED, lines)


def list_given(name, count, shifts):
    """A variant with another count or other bytes of a list."""
    return ("shift list: " + name, DISTANCES, LIST_GIVEN,
            "    return 0, %s, %s\n" % (count, shifts))


def premise_by(name, condition):
    """A variant with another condition for a yes."""
    return ("premise: " + name, DISTANCES, PREMISE_YES,
            "    if %s:\n" % condition)


def wrong_symbols(name, condition):
    """A variant with another condition on the penalties of a symbol sent."""
    return ("premise: " + name, DISTANCES, PREMISE_1,
            "            if %s:\n" % condition)


def before_no(name, lines):
    """A variant with more lines before the amplitude is looked at."""
    return ("premise: " + name, DISTANCES, PREMISE_NO, lines + PREMISE_NO)


def premise_no(name, condition, answer="0, 0"):
    """A variant in which other amplitudes get a no, or something else."""
    return ("premise: " + name, DISTANCES, PREMISE_NO,
            "    if %s:\n        return %s\n" % (condition, answer))


def premise_gain(name, condition):
    """A variant with another condition for the 11 of the premise."""
    return ("premise: " + name, DISTANCES, PREMISE_11,
            "    if %s:\n" % condition)


# There is none for a turn the other way, as a shift s and its opposite 64 - s
# have the same distance; so there is none either for the least over 1 to 32,
# over 1 to 62 or over 2 to 63.  A shift cut to its lower bits, six or more of
# them, is the same shift; a base that equals itself turned by 16 chips is
# refused in any case; and an amplitude 0, if it is weighed, gets a no as well.
DISTANCE = [
    ("chip distance: from shift 1", DISTANCES, CHIP_DIFFERS,
     CHIP_DIFFERS.replace("(base, 0, k)", "(base, 1, k)")),
    ("chip distance: the chips that agree", DISTANCES, CHIP_DIFFERS,
     CHIP_DIFFERS.replace("!=", "==")),
    ("chip distance: the chips that become 1 alone", DISTANCES, CHIP_DIFFERS,
     CHIP_DIFFERS.replace("!=", ">")),
    chips_counted("without chip 63",
                  "    for k in range(63):\n" + CHIP_DIFFERS),
    chips_counted("without chip 0",
                  "    for k in range(1, 64):\n" + CHIP_DIFFERS),
    chips_counted("the lower 32 chips twice",
                  "    for k in list(range(32)) * 2:\n" + CHIP_DIFFERS),
    chips_counted("the chips beyond 63 are 0",
                  "    for k in range(64):\n"
                  "        if (base >> k + s) % 2 != (base >> k) % 2:\n"),
    chips_counted("turned within 32 chips",
                  "    for k in range(64):\n"
                  "        turned = (k + s) % 32 + k // 32 * 32\n"
                  "        if (base >> turned) % 2 != (base >> k) % 2:\n"),
    ("chip distance: 64 is cut to 0", DISTANCES, COUNT_GIVEN,
     COUNT_GIVEN.replace("return count", "return count % 64")),
    base_tried("10 by a turn of 16 chips", "distance(base, 16) == 0"),
    base_tried("10 for halves that differ in one chip",
               "distance(base, 32) <= 2"),
    base_tried("10 for no chips and for all alone",
               "base in (0, 2 ** 64 - 1)"),
    base_tried("10 by the lower 31 chips",
               "base % 2 ** 31 == base // 2 ** 32 % 2 ** 31"),
    one_shift("10 is not tried", ONE_SHIFT),
    one_shift("10 is not tried for a multiple of 64",
              ALONE_10.replace("number != 0", "number != 0 and s % 64 != 0")
              + ONE_SHIFT),
    one_shift("a distance 0 where 10 refuses",
              ALONE_10.replace("return number, None", "return 0, 0")
              + ONE_SHIFT),
    one_shift("a value with a refusal",
              ALONE_10.replace("return number, None", "return number, 0")
              + ONE_SHIFT),
    one_shift("a multiple of 64 is refused by 2",
              ALONE_10 + "    if s % 64 == 0:\n        return 2, None\n"
              + ONE_SHIFT),
    one_shift("a multiple of 64 has distance 64",
              ALONE_10 + "    if s % 64 == 0:\n        return 0, 64\n"
              + ONE_SHIFT),
    one_shift("a shift above 63 is refused by 7",
              ALONE_10 + "    if s > 63:\n        return 7, None\n"
              + ONE_SHIFT),
    shift_taken("s mod 32", "s % 32"),
    shift_taken("s mod 63", "s % 63"),
    shift_taken("s mod 65", "s % 65"),
    shift_taken("a shift above 63 is 63", "min(s, 63)"),
    shift_taken("a shift above 63 is 0", "s * (s < 64)"),
    shift_taken("a shift from 2^32 on is 2^32 - 1", "min(s, 2 ** 32 - 1)"),
    shift_taken("one shift more", "s + 1"),
    ("least distance: 10 is not tried", DISTANCES, ALONE_10 + THE_LEAST,
     THE_LEAST),
    ("least distance: 0 where 10 refuses", DISTANCES, ALONE_10 + THE_LEAST,
     ALONE_10.replace("return number, None", "return 0, 0") + THE_LEAST),
    least_of("over 0 to 63", "range(64)"),
    least_of("over 2 to 62", "range(2, 63)"),
    least_of("over 1 to 31", "range(1, 32)"),
    least_of("without 31 and 33", "set(range(1, 64)) - {31, 33}"),
    least_of("without 32", "set(range(1, 64)) - {32}"),
    least_of("over the odd shifts", "range(1, 64, 2)"),
    least_of("over the even shifts", "range(2, 64, 2)"),
    least_of("over the powers of 2", "(1, 2, 4, 8, 16, 32)"),
    least_of("of shift 1", "[1]"),
    least_of("of shift 32", "[32]"),
    least_given("the largest", "max(found)"),
    least_given("the second", "sorted(set(found))[:2][-1]"),
    least_given("the shift that has it", "found.index(min(found)) + 1"),
    listed("shift 0 is listed", LIST_SHIFTS.replace("(1, 64)", "(64)")),
    listed("shift 63 is left out", LIST_SHIFTS.replace("64", "63")),
    listed("shift 1 is left out", LIST_SHIFTS.replace("(1,", "(2,")),
    listed("up to shift 32", LIST_SHIFTS.replace("64", "33")),
    listed("in falling order",
           LIST_SHIFTS.replace("(1, 64)", "(63, 0, -1)")),
    listed("in order of distance",
           LIST_SHIFTS + "    shifts.sort(key=lambda s: distance(base, s))\n"),
    listed("each shift one less",
           LIST_SHIFTS.replace("append(s)", "append(s - 1)")),
    listed("the distances in place of the shifts",
           LIST_SHIFTS.replace("append(s)", "append(distance(base, s))")),
    listed_within("nearer than d", "distance(base, s) < d"),
    listed_within("at d alone", "distance(base, s) == d"),
    listed_within("farther than d", "distance(base, s) > d"),
    listed_within("within d + 1", "distance(base, s) <= d + 1"),
    listed_within("d is cut to a byte", "distance(base, s) <= d % 256"),
    listed_within("d is cut to six bits", "distance(base, s) <= d % 64"),
    listed_within("d is cut to seven bits", "distance(base, s) <= d % 128"),
    listed_within("d is cut to 16 bits", "distance(base, s) <= d % 2 ** 16"),
    listed_within("d is a byte with a sign",
                  "distance(base, s) <= (d + 128) % 256 - 128"),
    listed_within("d is a number with a sign",
                  "distance(base, s) <= (d + 2 ** 31) % 2 ** 32 - 2 ** 31"),
    listed_within("d is at most 63", "distance(base, s) <= min(d, 63)"),
    listed_within("none for a d above 64", "distance(base, s) <= d <= 64"),
    listed_within("none for a d of 255 or more",
                  "distance(base, s) <= d < 255"),
    listed_within("within d of shift 1", "distance(base, s - 1) <= d"),
    order("shift list: 10 before 2", DISTANCES, LIST_2, BASE_10),
    ("shift list: 10 is not tried", DISTANCES, LIST_2 + BASE_10, LIST_2),
    list_length("a longer buffer is taken", "output_length < 63"),
    list_length("a buffer of 62 bytes is taken",
                "output_length not in (62, 63)"),
    list_length("a buffer of 64 bytes is taken",
                "output_length not in (63, 64)"),
    list_length("a length is cut to a byte", "output_length % 256 != 63"),
    list_length("a buffer of two lists is taken",
                "output_length not in (63, 126)"),
    list_refused("a refusal clears the buffer",
                 LIST_REFUSED.replace("None, None",
                                      "None, [0] * output_length")),
    list_refused("a refusal by 2 clears the buffer",
                 "    if number == 2:\n"
                 "        return number, None, [0] * output_length\n"
                 + LIST_REFUSED),
    list_refused("a refusal by 10 clears the buffer",
                 "    if number == 10:\n"
                 "        return number, None, [0] * output_length\n"
                 + LIST_REFUSED),
    list_refused("a refusal by 10 clears the first byte",
                 "    if number == 10:\n"
                 "        return number, None, [0]\n" + LIST_REFUSED),
    list_refused("a refusal by 10 lists the shifts all the same",
                 "    if number == 10:\n"
                 "        return number, None, within(base, d)\n"
                 + LIST_REFUSED),
    list_refused("an empty list where 10 refuses",
                 "    if number == 10:\n"
                 "        return 0, 0, [0] * output_length\n" + LIST_REFUSED),
    list_refused("a count with a refusal",
                 LIST_REFUSED.replace("None, None", "0, None")),
    list_given("the unused end is left", "len(shifts)", "shifts"),
    list_given("one byte of the unused end is set", "len(shifts)",
               "(shifts + [0])[:63]"),
    list_given("the last byte is left", "len(shifts)",
               "(shifts + [0] * unused)[:62]"),
    list_given("the last byte is left where it is unused", "len(shifts)",
               "shifts + [0] * (unused - 1)"),
    list_given("the unused end is 64", "len(shifts)",
               "shifts + [64] * unused"),
    list_given("the unused end is 255", "len(shifts)",
               "shifts + [255] * unused"),
    list_given("the unused end is left where nothing is listed",
               "len(shifts)", "shifts + [0] * (unused % 63)"),
    list_given("the unused end comes first", "len(shifts)",
               "[0] * unused + shifts"),
    list_given("each shift at its own place", "len(shifts)",
               "[s * (s in shifts) for s in range(1, 64)]"),
    list_given("the count is one more", "len(shifts) + 1",
               "shifts + [0] * unused"),
    list_given("the count is one less", "max(len(shifts) - 1, 0)",
               "shifts + [0] * unused"),
    list_given("the count is that of the bytes", "output_length",
               "shifts + [0] * unused"),
    list_given("the count is that of the unused end", "unused",
               "shifts + [0] * unused"),
    list_given("the count is half", "(len(shifts) + 1) // 2",
               "shifts + [0] * unused"),
    list_given("the count is cut to 62", "min(len(shifts), 62)",
               "shifts + [0] * unused"),
    ("premise: the gain upside down", DISTANCES, PREMISE_WEIGHED,
     PREMISE_WEIGHED.replace("top, bottom", "bottom, top")),
    ("premise: without the amplitude", DISTANCES,
     "sent_without_noise(base, amplitude, sent)\n",
     "sent_without_noise(base, 1, sent)\n"),
    ("premise: the base in place of what is sent", DISTANCES,
     "sent_without_noise(base, amplitude, sent)\n",
     "sent_without_noise(base, amplitude, 0)\n"),
    wrong_symbols("a penalty 0 is enough", "s != sent and penalties[s] < 0"),
    wrong_symbols("a penalty above 1 is needed",
                  "s != sent and penalties[s] <= 1"),
    wrong_symbols("the sent symbol too", "penalties[s] < 1"),
    wrong_symbols("the next symbol alone",
                  "s == (sent + 1) % 64 and penalties[s] < 1"),
    wrong_symbols("the symbol 32 chips on alone",
                  "s == (sent + 32) % 64 and penalties[s] < 1"),
    wrong_symbols("without the symbol 32 chips on",
                  "(s - sent) % 32 != 0 and penalties[s] < 1"),
    wrong_symbols("without the symbols beside",
                  "2 <= (s - sent) % 64 <= 62 and penalties[s] < 1"),
    wrong_symbols("one wrong symbol is enough",
                  "max(penalties) < 1"),
    premise_by("a product at the edge is not enough",
               "amplitude * top * least(base) > bottom"),
    premise_by("a product one below the edge is enough",
               "amplitude * top * least(base) + 1 >= bottom"),
    premise_by("half the least distance",
               "amplitude * top * least(base) >= 2 * bottom"),
    premise_by("a distance of 2",
               "amplitude * top * 2 >= bottom"),
    premise_by("the largest distance",
               "amplitude * top * max(distance(base, s) "
               "for s in range(64)) >= bottom"),
    premise_by("without the distance", "amplitude * top >= bottom"),
    premise_by("without the top", "amplitude * least(base) >= bottom"),
    premise_by("rounded before the distance",
               "amplitude * top // bottom * least(base) >= 1"),
    premise_by("rounded before the amplitude",
               "least(base) * top // bottom * amplitude >= 1"),
    premise_by("the gain is rounded alone", "top // bottom >= 1"),
    premise_by("rounded to the nearest",
               "2 * amplitude * top * least(base) >= bottom"),
    premise_by("rounded up", "amplitude * top * least(base) > 0"),
    premise_by("the product is cut to a byte",
               "amplitude * top * least(base) % 256 >= bottom"),
    premise_by("the product is cut to 16 bits",
               "amplitude * top * least(base) % 2 ** 16 >= bottom"),
    premise_by("the product has 16 bits and a sign",
               "(amplitude * top * least(base) + 2 ** 15) % 2 ** 16 "
               ">= bottom + 2 ** 15"),
    premise_by("the amplitude and the top are cut to a byte",
               "amplitude * top % 256 * least(base) >= bottom"),
    before_no("an amplitude 0 gets a yes",
              "    if amplitude == 0:\n        return 0, 1\n"),
    premise_no("an amplitude 1 gets a no", "amplitude < 2 or amplitude > 127"),
    premise_no("an amplitude 127 gets a no",
               "amplitude < 1 or amplitude > 126"),
    premise_no("an amplitude 128 is weighed",
               "amplitude < 1 or amplitude > 128"),
    premise_no("an amplitude up to 255 is weighed",
               "amplitude < 1 or amplitude > 255"),
    premise_no("an amplitude outside gets a yes",
               "amplitude < 1 or amplitude > 127", "0, 1"),
    premise_no("an amplitude outside is refused by 11",
               "amplitude < 1 or amplitude > 127", "11, None"),
    premise_no("an amplitude outside is refused by 19",
               "amplitude < 1 or amplitude > 127", "19, None"),
    before_no("an amplitude 0 is refused by 11",
              "    if amplitude == 0:\n        return 11, None\n"),
    before_no("the amplitude is cut to a byte",
              "    amplitude = amplitude % 256\n"),
    before_no("the amplitude is cut to seven bits",
              "    amplitude = amplitude % 128\n"),
    before_no("the amplitude is cut to 16 bits",
              "    amplitude = amplitude % 2 ** 16\n"),
    before_no("the amplitude is cut to 31 bits",
              "    amplitude = amplitude % 2 ** 31\n"),
    before_no("the amplitude is at most 127",
              "    amplitude = min(amplitude, 127)\n"),
    before_no("the amplitude is a magnitude",
              "    amplitude = min(amplitude, 2 ** 32 - amplitude)\n"),
    ("premise: the amplitude before 10 and 11", DISTANCES,
     PREMISE_REFUSED + PREMISE_NO, PREMISE_NO + PREMISE_REFUSED),
    ("premise: the amplitude before 11", DISTANCES,
     PREMISE_REFUSED + PREMISE_NO,
     PREMISE_REFUSED.replace("0:", "0 and (number == 10 or 1 <= amplitude "
                             "<= 127):") + PREMISE_NO),
    ("premise: an amplitude 0 before 11", DISTANCES,
     PREMISE_REFUSED + PREMISE_NO,
     PREMISE_REFUSED.replace("0:", "0 and (number == 10 or amplitude > 0):")
     + PREMISE_NO),
    ("premise: the amplitude before 10", DISTANCES,
     PREMISE_REFUSED + PREMISE_NO,
     PREMISE_REFUSED.replace("0:", "0 and (number == 11 or 1 <= amplitude "
                             "<= 127):") + PREMISE_NO),
    ("premise: a no where 10 refuses", DISTANCES, PREMISE_REFUSED,
     PREMISE_REFUSED.replace("0:", "0 and number != 10:")),
    ("premise: a no where 11 refuses", DISTANCES, PREMISE_REFUSED,
     PREMISE_REFUSED.replace("    if", "    if number == 11:\n"
                             "        return 0, 0\n    if")),
    ("premise: a value with a refusal", DISTANCES, PREMISE_REFUSED,
     PREMISE_REFUSED.replace("None", "0")),
    ("premise: 11 before 10", DISTANCES, BASE_10 + PREMISE_11
     + "        return 11\n", PREMISE_11 + "        return 11\n" + BASE_10),
    premise_gain("a top 0 is taken",
                 "top > 255 or bottom == 0 or bottom > 255"),
    premise_gain("a bottom 0 is taken",
                 "top == 0 or top > 255 or bottom > 255"),
    premise_gain("a top 256 is taken",
                 "top == 0 or top > 256 or bottom == 0 or bottom > 255"),
    premise_gain("a bottom 256 is taken",
                 "top == 0 or top > 255 or bottom == 0 or bottom > 256"),
    premise_gain("a top 255 is refused",
                 "top == 0 or top > 254 or bottom == 0 or bottom > 255"),
    premise_gain("a bottom 255 is refused",
                 "top == 0 or top > 255 or bottom == 0 or bottom > 254"),
    premise_gain("a top 1 is refused",
                 "top < 2 or top > 255 or bottom == 0 or bottom > 255"),
    premise_gain("a bottom 1 is refused",
                 "top == 0 or top > 255 or bottom < 2 or bottom > 255"),
    premise_gain("the top alone is looked at", "top == 0 or top > 255"),
    premise_gain("the bottom alone is looked at",
                 "bottom == 0 or bottom > 255"),
    premise_gain("11 for both alone",
                 "(top == 0 or top > 255) and (bottom == 0 or bottom > 255)"),
    premise_gain("the gain is cut to a byte",
                 "top % 256 == 0 or bottom % 256 == 0"),
    premise_gain("the gain is cut to 16 bits",
                 "not 0 < top % 2 ** 16 < 256 or "
                 "not 0 < bottom % 2 ** 16 < 256"),
    premise_gain("a gain below 0 is taken",
                 "not 0 < min(top, 2 ** 32 - top) < 256 or "
                 "not 0 < min(bottom, 2 ** 32 - bottom) < 256"),
]


# --- What the calls make of the rules ----------------------------------------

CALL = [
    ("verdict: 12 before 2", CALLS, "VERDICTS = (2, 12, 8, 9)",
     "VERDICTS = (12, 2, 8, 9)"),
    ("verdict: 8 before 12", CALLS, "VERDICTS = (2, 12, 8, 9)",
     "VERDICTS = (2, 8, 12, 9)"),
    ("verdict: 9 before 8", CALLS, "VERDICTS = (2, 12, 8, 9)",
     "VERDICTS = (2, 12, 9, 8)"),
    ("verdict: the last one wins", CALLS,
     "    for verdict in VERDICTS:\n",
     "    for verdict in (more, before) + VERDICTS:\n"
     "        if verdict not in VERDICTS:\n            continue\n"),
    ("verdict: another number is kept", CALLS,
     "            return verdict\n    return 0\n",
     "            return verdict\n    return before\n"),
    ("end of a file: a byte left is taken", CALLS,
     "if given[\"left\"] != 0 else 0", "if given[\"left\"] > 1 else 0"),
    ("fed line: 8 and 9 leave the output as it came", CALLS,
     "        refusal, _ = reading.read_frame(data, 1)\n",
     "        refusal, numbers = reading.read_frame(data, 1)\n"),
    ("sheet: the rest of the map is cleared", CALLS,
     "{\"map\": map, \"coefs\": coefs}",
     "{\"map\": over([0] * len(given[\"map\"]), map), \"coefs\": coefs}"),
    ("sheet: the rest of the coefficients is cleared", CALLS,
     "{\"map\": map, \"coefs\": coefs}",
     "{\"map\": map,\n            \"coefs\": over("
     "[0] * len(given[\"coefs\"]), coefs)}"),
    ("decoder: the work buffer stays as it came", CALLS,
     "{\"work\": [0] * len(given[\"work\"]),\n", "{"),
    ("round trip: the work buffer stays as it came", CALLS,
     "        \"work\": [0] * len(given[\"work\"]), ", "        "),
    ("whole listing: a longer text is taken", CALLS,
     "text_length != 21 * N + 6", "text_length < 21 * N + 6"),
    ("whole listing: a shorter text is refused by 12", CALLS,
     "        return scms.REFUSED_LENGTH\n", "        return 12\n"),
    ("whole listing: the text is looked at last", CALLS,
     "    if refusal != scms.REFUSED_N and text_length",
     "    if refusal == 0 and text_length"),
    ("part: the place is cut to a byte", CHIPS,
     "    if place < 0 or place >=", "    place = place % 256\n"
     "    if place < 0 or place >="),
    ("weighing: the gain is cut to a byte", CHIPS,
     "if top == 0 or top > 255 or bottom == 0 or bottom > 255:",
     "if top % 256 == 0 or bottom % 256 == 0:"),
    ("decoder: Qm is cut to a byte", DECODING, "Qc <= Qm <= 13",
     "Qc <= Qm % 256 <= 13"),
    ("decoder: a coefficient is not looked at in the last layer", DECODING,
     "    if not coefficients_are_valid(coefs):\n",
     "    if not coefficients_are_valid(coefs[:-(N // 2)]):\n"),
    ("the order of layers in u", DECODING,
     "for later in range(n, l, -1):", "for later in range(l + 1, n + 1):"),
]

VARIANTS = (ENCODER + CHIP + LOST + DECODER + SHORTER + TRIP + TOTALS + READER
            + WRITER + PRODUCT + DISTANCE + ORDERS + CALL)


# --- One variant -------------------------------------------------------------

def first_record(file, lines):
    """The place of the first record that a variant of a file is tried on: of
    the rules on chip distances the first with one of their calls."""
    if file != DISTANCES:
        return 0
    return min(i for i, line in enumerate(lines) if line[0] in LAST_CALLS)


def work_out(folder, file):
    """Work the records out with the rules in a folder, of which one file is
    another; print the number and letter of the first that differs or fails,
    or nothing."""
    sys.path.insert(0, folder)
    import calls
    lines = (STORED / "stdin").read_text("ascii").splitlines()
    stored = (STORED / "stdout").read_text("ascii").splitlines()
    start = first_record(file, lines)
    found = calls.expected(lines[start:])
    for i, line in enumerate(lines[start:], start):
        try:
            answer = next(found)
        except Exception as error:
            print("%d %s fails %s" % (i + 1, line[0], type(error).__name__))
            return
        if answer != stored[i]:
            print("%d %s" % (i + 1, line[0]))
            return


def write_variant(folder, file, old, new):
    """Make the replacement in a copy of the rules."""
    path = folder / file
    text = path.read_text("ascii")
    assert text.count(old) == 1, old
    path.write_text(text.replace(old, new), "ascii")


def result(file, old, new):
    """What is printed for a variant: nothing if it is not seen."""
    with tempfile.TemporaryDirectory() as name:
        folder = pathlib.Path(name) / "outside"
        shutil.copytree(TOOLS / "outside", folder)
        write_variant(folder, file, old, new)
        ended = subprocess.run(
            [sys.executable, str(TOOLS / "wrong_variants.py"), "--in",
             str(folder), file],
            capture_output=True, text=True, timeout=TIME_LIMIT, check=True)
        return ended.stdout.strip()


def chosen_variants(names, word):
    """The variants of these names, which can be files, or all if there are
    none; of these the ones whose name contains the word."""
    return [variant for variant in VARIANTS
            if (names == [] or variant[0] in names or variant[1] in names)
            and word in variant[0]]


def main():
    """Try each variant, or those that are chosen; 0 if all are seen, else
    1."""
    if sys.argv[1:2] == ["--in"]:
        work_out(*sys.argv[2:])
        return 0
    parser = argparse.ArgumentParser(description=__doc__.split("\n")[0])
    parser.add_argument("names", nargs="*")
    parser.add_argument("--word", default="")
    given = parser.parse_args()
    chosen = chosen_variants(given.names, given.word)
    seen = 0
    failing = 0
    for name, file, old, new in chosen:
        found = result(file, old, new)
        seen += found != ""
        failing += "fails" in found
        print("%-58s %-12s %s" % (name, file, found or "NOT SEEN"), flush=True)
    print("%d of these fail: they end before they answer" % failing)
    print("%d of %d seen" % (seen, len(chosen)))
    return 0 if seen == len(chosen) else 1


if __name__ == "__main__":
    sys.exit(main())
