"""Options of a script that is given a line of tokens, which may begin with `-`.

The line stands by itself or after --row. A word that begins with one `-` and is no option is the line; one that begins
with two needs `--` or `--row=` before it.
"""

import argparse
import os
import sys


class Parser(argparse.ArgumentParser):
    def __init__(self, text, line):
        self.flags = set()
        super().__init__(description=text, formatter_class=argparse.RawDescriptionHelpFormatter, allow_abbrev=False)
        self.add_argument("tokens", nargs="?", help=line)
        self.add_argument("--row", metavar="TOKENS", help="the same, as an option")

    def add_argument(self, *names, **rest):
        self.flags.update(name for name in names if name.startswith("-"))
        return super().add_argument(*names, **rest)

    def asked(self):
        """The options, with the line as bytes in `line`, or None if there is none."""
        asked = self.parse_args(list(self._words(iter(sys.argv[1:]))))
        if asked.tokens is not None and asked.row is not None:
            self.error(f"there are two lines of tokens, `{asked.tokens}` and `{asked.row}`")
        line = asked.tokens if asked.row is None else asked.row
        asked.line = None if line is None else os.fsencode(line)
        return asked

    def _words(self, words):
        """The words, with `--row=` before a line that could be taken for an option."""
        for word in words:
            is_option = word.split("=")[0] in self.flags or word.startswith("--") and word != "--"
            if word in ("--row", "--"):
                yield from (f"--row={line}" for line in [next(words, None)] if line is not None)
            elif word.startswith("-") and not is_option:
                yield f"--row={word}"
            else:
                yield word


def number(text):
    """A number of 32 bits."""
    value = int(text)
    if not 0 <= value < 1 << 32:
        raise ValueError(text)
    return value
