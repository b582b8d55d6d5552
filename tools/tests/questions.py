"""Questions in words, as docs/MANUAL.md and tests/drawings.txt write them: `expression, slots 4: 1 + 2`."""

import penne_codes as codes
import penne_library
import penne_row

# What can be given besides the tokens, each with a number.
GIVEN = ["cursor", "count", "slots", "load slots", "start", "flags", "word"]


def read(text):
    """The question for an entry, what is given, a colon and tokens. Without EndOfSource where it says `no end`."""
    head, _, tokens = text.partition(":")
    entry, *options = head.split(", ")
    given = {}
    for option in options:
        name, _, number = option.rpartition(" ")
        if option != "no end":
            given[GIVEN[GIVEN.index(name)].replace(" ", "_")] = int(number)
    row = penne_row.tokens(tokens.encode(), end="no end" not in options)
    return penne_library.question(codes.ENTRIES.index(entry), row, **given)
