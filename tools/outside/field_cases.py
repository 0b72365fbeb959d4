"""Records of the products of each byte with each byte: 256 records, one for
each first factor."""

import records
import worked_cases


def compare(worked):
    """Compare the two checksums of a record of products, which are those of
    two ways of working them out; what differs ends the run by an assertion."""
    if worked.letter == "m":
        first, second = worked.numbers
        assert first == second, "products of %d" % worked.given["factor"]


def blocks():
    """The records of all factors in rising order; the paper's own products are
    compared first."""
    worked_cases.compare_products()
    for factor in range(256):
        yield [records.record("m", dict(factor=factor))]
