"""Records of calls: writing them, reading them, and what they hold.

A record is one line of text: a letter that names a call, its numbers and
slices in the order of FIELDS, and a dot.  A slice names its length and a rule
from which its entries are made, so that a record is short.  Some of the buffers
that slices are lent from keep their contents from record to record.  records.md
has the whole form.

A drawer makes records with Slice and record(); Buffers reads the text back and
expands it.  What the two know of each other is the text alone.
"""

from draws import Generator


# --- Buffers and calls -------------------------------------------------------

# Bits of an entry and capacity of each buffer.  A sample is kept by its byte.
BUFFERS = {
    "map": (8, 600),
    "coefs": (8, 1200),
    "message": (8, 600),
    "symbols": (8, 600),
    "text": (8, 16384),
    "frame": (16, 20000),
    "work": (16, 20000),
    "report": (16, 20000),
    "totals": (16, 600),
    "numbers": (64, 300),
    "samples": (8, 20000),
}

# The buffers that keep their contents; the others are all zeros at the start of
# each record.
KEPT = ("symbols", "numbers", "samples", "frame", "text")

# The numbers and slices of each call in order; a name that is a buffer's is a
# slice, and one after the bar is lent.
FIELDS = {
    "e": "n map coefs message | symbols",
    "s": "base symbols | numbers",
    "c": "amplitude noise lost seed numbers | samples",
    "d": "base samples top bottom Qc | frame",
    "p": "frame place |",
    "D": "n map coefs Qc Qm m frame | work symbols report totals",
    "t": ("n map coefs message base amplitude top bottom Qc Qm m "
          "| samples frame work symbols report totals text"),
    "h": "text | map coefs",
    "l": "text | frame",
    "f": "verdict text | frame",
    "g": "verdict left |",
    "i": "place symbol frame |",
    "n": "number |",
    "o": "n map coefs frame | text",
    "w": "n map coefs | text",
    "x": "frame | text",
    "m": "factor |",
    "a": "base s |",
    "b": "base |",
    "j": "base d | text",
    "k": "base amplitude top bottom |",
}


def field_names(letter):
    """The names of a call's numbers and slices in order."""
    return FIELDS[letter].replace("|", "").split()


def lent_names(letter):
    """The names of the slices that a call may write, in order."""
    return FIELDS[letter].split("|")[1].split()


# --- Slices ------------------------------------------------------------------

class Slice:
    """A slice of a record: its length, its rule, and single entries set."""

    def __init__(self, length, rule, changes=()):
        self.length = length
        self.rule = rule
        self.changes = tuple(changes)

    def of_length(self, length):
        """The same rule for another length; a change past it is dropped."""
        kept = [change for change in self.changes if change[0] < length]
        return Slice(max(length, 0), self.rule, kept)

    def with_entry(self, at, value):
        """The slice with one entry set; one past its end is not."""
        if at >= self.length:
            return self
        return Slice(self.length, self.rule, self.changes + ((at, value),))

    def entries(self):
        """The entries, for each rule but '='."""
        found = rule_entries(self.length, self.rule)
        for at, value in self.changes:
            found[at] = value
        return found

    def text(self):
        """The slice in a record."""
        tokens = [str(self.length)] + rule_tokens(self.length, self.rule)
        for at, value in self.changes:
            tokens += ["@", str(at), str(value)]
        return " ".join(tokens + [";"])


def same(length):
    """What the record before left."""
    return Slice(length, ("=",))


def repeated(length, value):
    """The same value in each entry."""
    return Slice(length, ("r", value))


def drawn(length, seed, low, span, top):
    """Entries min(low + draw mod span, top)."""
    return Slice(length, ("s", seed, low, span, top))


def vectors(length, seed, low, span, top):
    """Such entries, with a 0 at a drawn place of each 64."""
    return Slice(length, ("v", seed, low, span, top))


def written(values, width=2):
    """Entries written out, each with so many hexadecimal digits."""
    return Slice(len(values), ("x", width, tuple(values)))


def rule_entries(length, rule):
    """The entries that a rule gives."""
    if rule[0] == "r":
        return [rule[1]] * length
    if rule[0] == "x":
        # One past those written is 0.
        return (list(rule[2]) + [0] * length)[:length]
    return drawn_entries(length, *rule)


def drawn_entries(length, name, seed, low, span, top):
    """The entries of the rules 's' and 'v'."""
    generator = Generator(seed)
    entries = []
    zero = None
    for i in range(length):
        if name == "v" and i % 64 == 0:
            zero = i + generator.draw() % 64
        entry = min(low + generator.draw() % span, top)
        entries.append(0 if i == zero else entry)
    return entries


def rule_tokens(length, rule):
    """The tokens of a rule in a record."""
    if rule[0] != "x":
        return [str(token) for token in rule]
    if length == 0:
        return ["r", "0"]
    digits = "".join("%0*x" % (rule[1], x) for x in rule_entries(length, rule))
    return ["x", str(rule[1]), digits]


# --- Writing -----------------------------------------------------------------

def record(letter, call):
    """The line of a record, without its line feed; the call has a number or a
    Slice for each name."""
    tokens = [letter]
    for name in field_names(letter):
        part = call[name]
        tokens.append(part.text() if name in BUFFERS else str(part))
    line = " ".join(tokens + ["."])
    parse(line)
    return line


# --- Reading -----------------------------------------------------------------

class Tokens:
    """The tokens of one line, taken one after the other."""

    def __init__(self, line):
        self.left = line.split(" ")[::-1]

    def take(self):
        """The next token."""
        token = self.left.pop()
        assert token != "" and token.isascii()
        return token

    def number(self):
        """The next token, a number."""
        token = self.take()
        assert token.isdigit() and len(token) <= 20
        assert int(token) < 2 ** 64
        return int(token)


def parse_written(tokens, length):
    """The rest of the rule 'x'."""
    width = tokens.number()
    digits = tokens.take()
    assert 1 <= width <= 16 and len(digits) == width * length
    assert set(digits) <= set("0123456789abcdef")
    return ("x", width, tuple(int(digits[i:i + width], 16)
                              for i in range(0, len(digits), width)))


def parse_rule(tokens, length):
    """A rule."""
    name = tokens.take()
    if name == "=":
        return (name,)
    if name == "r":
        return (name, tokens.number())
    if name == "x":
        return parse_written(tokens, length)
    assert name in ("s", "v")
    seed, low, span, top = [tokens.number() for _ in range(4)]
    assert seed < 2 ** 32 and span >= 1
    return (name, seed, low, span, top)


def parse_slice(tokens, capacity):
    """A slice of a buffer of that capacity."""
    length = tokens.number()
    assert length <= capacity
    rule = parse_rule(tokens, length)
    changes = []
    token = tokens.take()
    while token == "@":
        assert rule[0] != "="
        changes.append((tokens.number(), tokens.number()))
        assert changes[-1][0] < length
        token = tokens.take()
    assert token == ";"
    return Slice(length, rule, changes)


def parse(line):
    """The letter of a record, and a number or a Slice for each name."""
    tokens = Tokens(line)
    letter = tokens.take()
    call = {}
    for name in field_names(letter):
        if name in BUFFERS:
            call[name] = parse_slice(tokens, BUFFERS[name][1])
        else:
            call[name] = tokens.number()
    assert tokens.take() == "." and tokens.left == []
    return letter, call


class Buffers:
    """The buffers, of which some keep their contents from record to record."""

    def __init__(self):
        self.kept = {}
        self.clear(BUFFERS)

    def clear(self, names):
        """Make these buffers all zeros."""
        for name in names:
            self.kept[name] = [0] * BUFFERS[name][1]

    def keep(self, name, entries):
        """Leave these in the first entries of a buffer."""
        bits, capacity = BUFFERS[name]
        assert len(entries) <= capacity
        assert all(0 <= entry < 2 ** bits for entry in entries)
        self.kept[name][:len(entries)] = entries

    def take(self, name, part):
        """The entries that a slice of a buffer holds, which stay in it."""
        if part.rule[0] != "=":
            self.keep(name, part.entries())
        return self.kept[name][:part.length]

    def expand(self, line):
        """The letter of a record, and a number or a list for each name."""
        letter, call = parse(line)
        self.clear(name for name in call
                   if name in BUFFERS and name not in KEPT)
        for name in call:
            if name in BUFFERS:
                call[name] = self.take(name, call[name])
        return letter, call


# --- Checksum ----------------------------------------------------------------

def checksum(entries, bits=16):
    """One number that depends on each entry and on its place."""
    if bits == 64:
        entries = [half for entry in entries
                   for half in (entry % 2 ** 32, entry // 2 ** 32)]
    total = 1
    for entry in entries:
        total = (total * 1000003 + entry) % 4294967291
    return total


def buffer_checksum(name, entries):
    """The checksum of entries of that buffer."""
    return checksum(entries, BUFFERS[name][0])


# --- Channel -----------------------------------------------------------------

def channel(amplitude, noise, lost, seed, numbers, length):
    """The samples, by their bytes, of numbers sent through the channel; -128
    stands for a lost one alone."""
    generator = Generator(seed)
    samples = []
    for i in range(length):
        draw = generator.draw()
        chip = 0
        if i // 64 < len(numbers):
            chip = numbers[i // 64] >> i % 64 & 1
        sample = -amplitude if chip == 1 else amplitude
        sample = sample + draw % (2 * noise + 1) - noise
        sample = max(-127, min(127, sample))
        if lost > 0 and draw % lost == 0:
            sample = -128
        samples.append(sample % 256)
    return samples
