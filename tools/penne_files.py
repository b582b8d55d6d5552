"""Files for the program penne-nodes, most of them bad, and what document 01 says of its answer to each."""

import random
import struct

import penne_codes as codes
import penne_row
import penne_tree

HEADER = penne_row.SIZES
LIMIT = 1 << 32

# Rows that are accepted or refused, as an expression or as a type.
LINES = [
    b"1 + 2",
    b"a & b | c",
    b"f()",
    b"[1,]",
    b"&i32",
    b'"s" "t"',
    b"(1",
    b"S { a, b: 1 } as i32",
    b"|: [3]T | * |a.b[1]|",
    b"&a.b .. cast -x! (1, 0xFF) + 3u8",
    b"[..][:][n][]&bool",
    b"",
]

# The refusals that an expression or a type can meet while it is parsed.
WHILE_PARSING = [*range(10, 22), 24, 33, 34]


class Maker:
    """Makes the same files from the same seed."""

    def __init__(self, seed):
        self.random = random.Random(seed)

    def files(self, count):
        """Each file with the name of its sort. All cut files come first, then the other sorts in turn."""
        cut = [("cut short", good[:size]) for good in self.good_files() for size in range(len(good))]
        sorts = [
            ("too long", self.too_long),
            ("random bytes", self.random_bytes),
            ("random sizes", self.random_sizes),
            ("sizes at limits", self.limits),
            ("another entry", self.another_entry),
            ("random kinds", self.random_kinds),
            ("kinds of a row", self.likely_kinds),
            ("long row", self.long_row),
        ]
        yield from cut[: count // 4]
        for turn in range(count - min(len(cut), count // 4)):
            name, make = sorts[turn % len(sorts)]
            yield name, make()

    def good_files(self):
        """A file of each line for each entry."""
        rows = [penne_row.tokens(line) for line in LINES]
        return [penne_row.program_input(row, 0, entry) for row in rows for entry in (0, 1)]

    def bytes(self, size, above=256):
        return bytes(self.random.choices(range(above), k=size))

    def file(self, kinds, cursor=0, entry=None):
        """A file with these kinds and random value types."""
        types = self.bytes(len(kinds), 15)
        entry = self.random.randrange(2) if entry is None else entry
        return struct.pack("<III", len(kinds), cursor, entry) + kinds + types

    def too_long(self):
        extra = self.random.choice([1, 2, 3, 12, 100, 8192, 70_000])
        return self.random.choice(self.good_files()) + self.bytes(extra)

    def random_bytes(self):
        return self.bytes(self.random.randrange(self.random.choice([12, 30, 300, 9000])))

    def random_sizes(self):
        top = self.random.choice([1, 4, 16, 4097, 1 << 16, LIMIT])
        sizes = struct.pack("<III", *(self.random.randrange(top) for _ in range(3)))
        return sizes + self.bytes(self.random.choice([0, 2, 8, 30, 8192]), 62)

    def limits(self):
        """Sizes at the limits, often with the length that they would have if it were counted in 32 bits."""
        tokens = self.random.choice([0, 1, 2, 4095, 4096, 4097, 65_535, 65_536, LIMIT // 2, LIMIT // 2 + 1, LIMIT - 1])
        cursors = [0, tokens - 1, tokens, tokens + 1, 4095, 4096, LIMIT // 2, LIMIT - 1]
        cursor = self.random.choice(cursors) % LIMIT
        body = min(2 * tokens % LIMIT, 140_000) + self.random.choice([0, 0, 0, 0, -1, 1])
        kinds = bytes([codes.KIND["NakedDecimal"]]) * max(body // 2 - 1, 0)
        rest = bytes(max(body - len(kinds), 0))
        return struct.pack("<III", tokens, cursor, self.random.randrange(2)) + kinds + rest

    def another_entry(self):
        entry = self.random.choice([2, 3, 4, 255, 256, 257, 1 << 16, LIMIT // 2, LIMIT // 2 + 1, LIMIT - 1])
        good = self.random.choice(self.good_files())
        return good[:8] + struct.pack("<I", entry) + good[HEADER:]

    def random_kinds(self):
        """Any kinds; mostly those of tokens, mostly with EndOfSource at the end."""
        size = self.random.randrange(self.random.choice([2, 8, 40, 4096]))
        kinds = self.bytes(size, self.random.choice([62, 62, 62, 63, 256]))
        end = self.random.choice([b"\0", b"\0", b"\0", b""])
        cursor = self.random.choice([0, 0, 0, size // 2, size, size + 1])
        made = bytearray(self.file(kinds + end, cursor))
        if self.random.randrange(4) == 0 and len(made) > HEADER:
            made[self.random.randrange(HEADER, len(made))] = self.random.randrange(256)
        return bytes(made)

    def likely_kinds(self):
        """Kinds that often follow each other in an expression or a type."""
        names = "ParenLeft ParenRight BracketLeft BracketRight Ampersand Plus Comma Dot Dots Identifier NakedDecimal"
        alphabet = [codes.KIND[name] for name in names.split()]
        size = self.random.randrange(self.random.choice([6, 12, 60]))
        kinds = bytes(self.random.choice(alphabet) for _ in range(size))
        return self.file(kinds + b"\0", self.random.choice([0, 0, 0, size // 2]))

    def long_row(self):
        """Rows that nest, that take many slots, or that have many steps or ampersands, up to the most tokens."""
        pieces = [b"(", b"[", b"&", b"-", b"a+", b"1+", b"f(", b"a[", b"a.", b"|a", b"S{a:", b'"s"', b"cast ", b"a as "]
        line = self.random.choice(pieces) * self.random.choice([39, 40, 41, 100, 127, 128, 1000, 2047])
        row = penne_row.tokens(line + self.random.choice([b"1", b"a", b"i32", b""]))
        kinds = bytes(token.kind for token in row)[-codes.PROGRAM_TOKENS :]
        return self.file(kinds)


def foretold(data):
    """The answer's first line where document 01 gives it without parsing, else None."""
    if len(data) < HEADER:
        return penne_tree.BAD_FILE
    tokens, cursor, entry = struct.unpack("<III", data[:HEADER])
    if tokens > codes.PROGRAM_TOKENS or entry > 1 or len(data) != HEADER + 2 * tokens:
        return penne_tree.BAD_FILE
    kinds, types = data[HEADER : HEADER + tokens], data[HEADER + tokens :]
    if tokens == 0:
        return f"no 1 0 0 {cursor} 0"
    for place in range(tokens):
        if kinds[place] > 61 or types[place] > 14:
            return f"no 2 {place} {place} {cursor} 0"
    if kinds[-1] != 0:
        return f"no 3 {tokens - 1} {tokens - 1} {cursor} 0"
    if cursor >= tokens:
        return f"no 30 0 0 {cursor} 0"
    return None


def fault(data, text):
    """What is wrong with the program's answer, or None."""
    first = text.split("\n", 1)[0]
    known = foretold(data)
    if known is not None:
        return None if first == known and text.count("\n") == 1 and text.endswith("\n") else f"`{known}` is missing"
    try:
        output = penne_tree.read(text)
    except penne_tree.Malformed as error:
        return str(error)
    if output is None:
        return "a good file is called bad"
    tokens, cursor, _ = struct.unpack("<III", data[:HEADER])
    if output.count > codes.PROGRAM_SLOTS:
        return "there are more nodes than slots"
    return _accepted_fault(output, tokens, cursor) if output.number is None else _refused_fault(output, tokens, cursor)


def _accepted_fault(output, tokens, cursor):
    if output.root != output.count - 1:
        return "the root is not the last node"
    if not cursor < output.cursor < tokens:
        return "the cursor is out of its bounds"
    try:
        penne_tree.drawn(output)
    except penne_tree.Malformed as error:
        return str(error)
    return None


def _refused_fault(output, tokens, cursor):
    number, start, end, after = output.number, output.start, output.end, output.cursor
    if number not in WHILE_PARSING:
        return f"refusal {number} cannot be met here"
    if not cursor <= start < tokens or not start <= end < tokens or not after <= tokens:
        return "a place is out of its bounds"
    if number == 24:
        return None if after == end else "the cursor is not the end"
    if end != start:
        return "the end is not the start"
    if after != (start if number in (33, 34) else start + 1):
        return "the cursor is not where the start says"
    if number == 33 and output.count != codes.PROGRAM_SLOTS:
        return "there is a slot left"
    return None
