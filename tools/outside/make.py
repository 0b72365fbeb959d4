"""Make the recorded calls, the files that the program is run on, and what is
expected of each.

Writes crates/recorded_calls/stdin and stdout, crates/endings and
crates/decode; the same bytes in each run.  With --check it writes nothing,
says whether the stored files are those, and counts how often each call gives
each number, and what the records with m below 64 tell apart.  In each run the
totals are compared with those found by trying words, the answers with m = 64
with those of the full rule, the products worked out in two ways with each
other, and what is answered of chip distances with what the numbers sent and
their weighing give; where they differ it ends at once.
"""

import argparse
import collections
import pathlib
import sys

# Leave no compiled copies behind in the repository.
sys.dont_write_bytecode = True

import any_cases
import calls
import chain_cases
import chip_cases
import decode_cases
import distance_cases
import distance_check
import encode_cases
import field_cases
import link_cases
import listing_cases
import lost_cases
import program_cases
import reading_cases
import records
import shorter_cases
import shorter_check
import totals_cases
import totals_check
import worked_cases
import writing_cases

CRATES = pathlib.Path(__file__).resolve().parents[2] / "crates"

RECORDED = "recorded_calls"

PARTS = (worked_cases, encode_cases, chip_cases, lost_cases, decode_cases,
         link_cases, reading_cases, listing_cases, any_cases, chain_cases,
         writing_cases, field_cases)

# The numbers that each call can give: 0 for one that is taken, else a refusal
# or a verdict.  For the part of a place its length.
NUMBERS = {
    "e": (0, 1, 2, 4, 5, 6, 7),
    "s": (0, 2, 7, 10),
    "d": (0, 2, 3, 10, 11),
    "p": (0, 64),
    "D": (0, 1, 2, 3, 4, 5, 6, 8, 9, 13),
    "t": (0, 1, 2, 3, 4, 5, 6, 7, 10, 11, 13, 19),
    "h": (0, 1, 2, 4, 5, 6, 12),
    "l": (0, 2, 12),
    "f": (0, 2, 8, 9, 12),
    "g": (0, 2, 8, 9, 12),
    "o": (0, 1, 2, 4, 5, 6, 8, 9),
    "w": (0, 1, 2, 4, 5, 6),
    "x": (0, 2, 8, 9),
    "a": (0, 10),
    "b": (0, 10),
    "j": (0, 2, 10),
    "k": (0, 10, 11),
}


# --- Records -----------------------------------------------------------------

def work(letter, call):
    """About how much work a call is, if it is taken: the entries of its
    slices, 64 additions for each sample that is weighed, and 4,096 for each
    kernel.

    The totals are not counted: the records have the order that they had before
    there were any."""
    total = sum(part.length for name, part in call.items()
                if name in records.BUFFERS and name != "totals")
    if letter in "dt":
        total += 64 * call["samples"].length
    if letter in "Dto" and call["n"] <= 8:
        total += call["n"] * 2 ** call["n"] // 2 * 4096
    return total


def block_work(block):
    """About how much work the calls of a block are."""
    return sum(work(*records.parse(line)) for line in block)


def part_lines(parts):
    """The lines of the records of some parts, those of short calls first;
    records that belong together stay so."""
    blocks = [block for part in parts for block in part.blocks()]
    return [line for block in sorted(blocks, key=block_work)
            for line in block]


def record_lines():
    """The lines of all records.

    Those of totals_cases come before and after those of the other parts, and
    those of shorter_cases and then of distance_cases after all, as the others'
    lines would else depend on what they leave in the buffers."""
    first = [line for block in totals_cases.first_blocks() for line in block]
    return (first + part_lines(PARTS) + part_lines([totals_cases])
            + part_lines([shorter_cases]) + part_lines([distance_cases]))


def worked_lines(lines):
    """The line that is printed for each record, and the three checks that have
    looked at all of them; the two checksums of products are compared too."""
    checks = [totals_check.Check(), shorter_check.Check(),
              distance_check.Check()]
    printed = []
    for worked in calls.worked_out(lines):
        for check in checks:
            check.look(worked)
        field_cases.compare(worked)
        printed.append(worked.line)
    return printed, checks


def file_of(lines):
    """The bytes of a file of lines."""
    return "".join(line + "\n" for line in lines).encode("ascii")


# --- Counts ------------------------------------------------------------------

def answers(lines, printed):
    """For each call how often it gives each number."""
    counts = collections.defaultdict(collections.Counter)
    for line, answer in zip(lines, printed):
        counts[line[0]][int(answer.split(" ")[0])] += 1
    return counts


def taken_number(letter):
    """The number that a call gives for what it takes."""
    return 64 if letter == "p" else 0


def complaints(counts):
    """What is wrong with the counts."""
    for letter, numbers in NUMBERS.items():
        found = counts[letter]
        if set(found) != set(numbers):
            yield "%s: numbers %s" % (letter, sorted(found))
        if 3 * found[taken_number(letter)] < sum(found.values()):
            yield "%s: less than a third is taken" % letter


def show_counts(counts):
    """Print the counts."""
    for letter in sorted(counts):
        numbers = counts[letter]
        row = "%s: %d records" % (letter, sum(numbers.values()))
        if letter in NUMBERS:
            row += "; " + ", ".join(
                "%d of %d" % (numbers[x], x) for x in sorted(numbers))
        print(row)


# --- Files -------------------------------------------------------------------

def made_files(lines, printed):
    """The bytes of each file in crates/ by name, None for one that must be
    absent."""
    made = program_cases.files()
    made[RECORDED + "/stdin"] = file_of(lines)
    made[RECORDED + "/stdout"] = file_of(printed)
    return made


def stored(path):
    """The bytes of a file, None if there is none."""
    return path.read_bytes() if path.exists() else None


def write_file(path, data):
    """Write a file, and the folders that it is in; None leaves none there."""
    path.parent.mkdir(parents=True, exist_ok=True)
    if data is None:
        path.unlink(missing_ok=True)
    else:
        path.write_bytes(data)


def differing(made):
    """The names of the files that are not stored as they are made."""
    return [name for name, data in made.items()
            if stored(CRATES / name) != data]


def main():
    """Write or check; 0 if all is well, else 1."""
    parser = argparse.ArgumentParser(description=__doc__.split("\n")[0])
    parser.add_argument("--check", action="store_true")
    given = parser.parse_args()
    lines = record_lines()
    printed, checks = worked_lines(lines)
    made = made_files(lines, printed)
    counts = answers(lines, printed)
    wrong = list(complaints(counts))
    for check in checks:
        wrong += check.complaints()
    if given.check:
        show_counts(counts)
        for check in checks:
            print(check.text())
        wrong += ["%s is another file" % name for name in differing(made)]
    else:
        for name, data in made.items():
            write_file(CRATES / name, data)
    for complaint in wrong:
        print(complaint)
    if not wrong and given.check:
        print("%d files are as they are made" % len(made))
    return 1 if wrong else 0


if __name__ == "__main__":
    sys.exit(main())
