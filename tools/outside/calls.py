"""What each recorded call answers and leaves, by the rules.

There is one function for each letter.  It takes the numbers and the slices of
an expanded record by name and gives the numbers of its line, without the
checksums of the lent slices, and what the call leaves at the start of those
that it writes.
The rules are those of scms.py, chips.py, decoding.py, linking.py, reading.py,
writing.py and distances.py.
"""

import collections

import chips
import decoding
import distances
import linking
import reading
import records
import scms
import writing


def left_in(names, entries):
    """What a call leaves: nothing of what a refused one has as None."""
    return {name: part for name, part in zip(names, entries)
            if part is not None}


def over(before, start):
    """A slice with other entries at its start."""
    assert len(start) <= len(before)
    return list(start) + before[len(start):]


def signed(byte):
    """The sample of a byte."""
    return byte - 256 if byte >= 128 else byte


def of_bytes(samples):
    """Samples by their bytes; None stays None."""
    return None if samples is None else [sample % 256 for sample in samples]


# --- The calls of the chain --------------------------------------------------

def encode(given):
    """e: the codeword."""
    refusal, word = scms.encode(
        given["n"], given["map"], given["coefs"], given["message"],
        len(given["symbols"]))
    return [refusal], left_in(["symbols"], [word])


def spread(given):
    """s: a number for each symbol."""
    refusal, numbers = chips.spread(
        given["base"], given["symbols"], len(given["numbers"]))
    return [refusal], left_in(["numbers"], [numbers])


def channel(given):
    """c: no call, a rule for samples."""
    samples = records.channel(
        given["amplitude"], given["noise"], given["lost"], given["seed"],
        given["numbers"], len(given["samples"]))
    return [], {"samples": samples}


def weigh(given):
    """d: the penalties."""
    samples = [signed(byte) for byte in given["samples"]]
    refusal, frame = chips.weigh(
        given["base"], samples, given["top"], given["bottom"], given["Qc"],
        len(given["frame"]))
    return [refusal], left_in(["frame"], [frame])


def part(given):
    """p: the penalties of one place."""
    found = chips.place_penalties(given["frame"], given["place"])
    return [len(found), records.checksum(found)], {}


def decode(given):
    """D: symbols, report, totals and count; the work buffer is all zeros
    after it."""
    refusal, symbols, report, totals, count = decoding.decode(
        given["n"], given["map"], given["coefs"], given["Qc"], given["Qm"],
        given["m"], given["frame"], len(given["work"]),
        len(given["symbols"]), len(given["report"]), len(given["totals"]))
    if refusal != scms.ACCEPTED:
        return [refusal], left_in(["symbols", "report", "totals"],
                                  [symbols, report, totals])
    return [refusal, count], {"work": [0] * len(given["work"]),
                              "symbols": symbols, "report": report,
                              "totals": totals}


def round_trip(given):
    """t: samples, frame, symbols, report, totals, count and decoded
    message."""
    refusal, answer = linking.link(
        given["n"], given["map"], given["coefs"], given["message"],
        given["base"], given["amplitude"], given["top"], given["bottom"],
        given["Qc"], given["Qm"], given["m"], len(given["samples"]),
        len(given["frame"]), len(given["work"]), len(given["symbols"]),
        len(given["report"]), len(given["totals"]), len(given["text"]))
    if answer is None:
        return [refusal], {}
    return [refusal, answer.count], {
        "samples": of_bytes(answer.samples), "frame": answer.frame,
        "work": [0] * len(given["work"]), "symbols": answer.symbols,
        "report": answer.report, "totals": answer.totals,
        "text": answer.message}


# --- Readers -----------------------------------------------------------------

def sheet(given):
    """h: n, and the starts of map and coefficients."""
    refusal, found = reading.read_sheet(
        bytes(given["text"]), len(given["map"]), len(given["coefs"]))
    if found is None:
        return [refusal], {}
    n, map, coefs = found
    return [refusal, n], {"map": map, "coefs": coefs}


def frame_line(given):
    """l: the numbers of one line."""
    refusal, numbers = reading.read_frame_line(
        bytes(given["text"]), len(given["frame"]))
    return [refusal], left_in(["frame"], [numbers])


# The verdicts on a frame file: the one named first wins, another is none.
VERDICTS = (2, 12, 8, 9)


def joined(before, more):
    """The verdict on what was fed before and on more."""
    for verdict in VERDICTS:
        if verdict in (before, more):
            return verdict
    return 0


def fed_line(given):
    """f: the verdict after a line, and its numbers."""
    data = bytes(given["text"])
    refusal, numbers = reading.read_frame_line(data, len(given["frame"]))
    # A line of the form is a frame file of one place.
    if refusal != reading.REFUSED_LENGTH:
        refusal, _ = reading.read_frame(data, 1)
    return [joined(given["verdict"], refusal)], left_in(["frame"], [numbers])


def file_end(given):
    """g: the verdict at the end of a file."""
    more = reading.REFUSED_FORM if given["left"] != 0 else 0
    return [joined(given["verdict"], more)], {}


# --- Listings ----------------------------------------------------------------

def place_line(given):
    """i: the line of a place."""
    rows = decoding.listing([given["symbol"]], given["frame"])
    _, symbol, own, other = rows[0]
    line = b"".join(reading.five_columns(x)
                    for x in (given["place"], symbol, own, other)) + b"\n"
    assert len(line) == 21
    return [records.checksum(line)], {}


def number_line(given):
    """n: the line of one number."""
    line = reading.five_columns(given["number"]) + b"\n"
    assert len(line) == 6
    return [records.checksum(line)], {}


def listing_refusal(n, map, coefs, frame, text_length):
    """The lowest number that fits the call of a whole listing, or 0."""
    N = 2 ** n if scms.n_is_valid(n) else 1
    refusal = decoding.decode_refusal(
        n, map, coefs, reading.PROGRAM_QC, reading.PROGRAM_QM,
        reading.PROGRAM_M, frame, 65 * N, N, 64 * N, N)
    if refusal != scms.REFUSED_N and text_length != 21 * N + 6:
        return scms.REFUSED_LENGTH
    return refusal


def whole_listing(given):
    """o: what the program prints for the sheet and the frame."""
    refusal = listing_refusal(given["n"], given["map"], given["coefs"],
                              given["frame"], len(given["text"]))
    if refusal != scms.ACCEPTED:
        return [refusal], {}
    printed = reading.run(
        reading.sheet_bytes(given["n"], given["map"], given["coefs"]),
        reading.frame_bytes(given["frame"]))
    return [refusal], {"text": list(printed)}


# --- Writers -----------------------------------------------------------------

def written_sheet(given):
    """w: the sheet of a code."""
    refusal, data = writing.write_sheet(
        given["n"], given["map"], given["coefs"], len(given["text"]))
    return [refusal], left_in(["text"], [data])


def written_line(given):
    """x: the frame line of one place."""
    refusal, line = writing.write_frame_line(
        given["frame"], len(given["text"]))
    return [refusal], left_in(["text"], [line])


# --- Field -------------------------------------------------------------------

def product(x, y):
    """The product of two bytes: that of the polynomials, then reduced."""
    return scms.gf_product(scms.symbol_of(x), scms.symbol_of(y))


def worked_out_product(x, y):
    """The product of two bytes: worked out by the bits of the first."""
    return scms.gf_product_by_bits(scms.symbol_of(x), scms.symbol_of(y))


def product_row(call, x):
    """The products of a byte with each byte, as a call gives them."""
    return [call(x, y) for y in range(256)]


def products(given):
    """m: the products of a byte with each byte, as either call gives them."""
    return [records.checksum(product_row(call, given["factor"]))
            for call in (product, worked_out_product)], {}


# --- Chip distances ----------------------------------------------------------

def with_value(refusal, value):
    """The numbers of a call that answers one value; a refused one has none."""
    return [refusal] if value is None else [refusal, value]


def shift_distance(given):
    """a: the distance of one shift."""
    return with_value(*distances.shift_distance(
        given["base"], given["s"])), {}


def least_distance(given):
    """b: the least distance."""
    return with_value(*distances.least_distance(given["base"])), {}


def shifts_within(given):
    """j: the shifts within d chips, and their count."""
    refusal, count, shifts = distances.shifts_within(
        given["base"], given["d"], len(given["text"]))
    return with_value(refusal, count), left_in(["text"], [shifts])


def premise_holds(given):
    """k: whether the premise of the noiseless statement holds."""
    return with_value(*distances.premise_holds(
        given["base"], given["amplitude"], given["top"],
        given["bottom"])), {}


# --- All of them -------------------------------------------------------------

CALLS = {
    "e": encode,
    "s": spread,
    "c": channel,
    "d": weigh,
    "p": part,
    "D": decode,
    "t": round_trip,
    "h": sheet,
    "l": frame_line,
    "f": fed_line,
    "g": file_end,
    "i": place_line,
    "n": number_line,
    "o": whole_listing,
    "w": written_sheet,
    "x": written_line,
    "m": products,
    "a": shift_distance,
    "b": least_distance,
    "j": shifts_within,
    "k": premise_holds,
}


Worked = collections.namedtuple(
    "Worked", ["letter", "given", "numbers", "left", "line"])


def worked_out(lines):
    """For each record its letter and what it gives the call, the numbers
    answered and what the call leaves, and the line that is printed."""
    buffers = records.Buffers()
    for line in lines:
        letter, given = buffers.expand(line)
        numbers, left = CALLS[letter](given)
        printed = list(numbers)
        for name in records.lent_names(letter):
            entries = over(given[name], left.get(name, []))
            buffers.keep(name, entries)
            printed.append(records.buffer_checksum(name, entries))
        yield Worked(letter, given, numbers, left,
                     " ".join(str(number) for number in printed))


def expected(lines):
    """The line that is printed for each record."""
    for worked in worked_out(lines):
        yield worked.line
