"""The parser's five entries, called in the static library from Python.

A static library cannot be loaded, so the C compiler makes a shared one of it, in a folder that is removed at the end.
"""

import collections
import ctypes
import os
import subprocess
import tempfile

import penne_codes as codes

ROOT = os.path.dirname(os.path.dirname(os.path.abspath(__file__)))

FOLDER = os.environ.get("PENNE_C_LIB_DIR", os.path.join(ROOT, "crates/penne_c/out"))
LIBRARY = os.path.join(FOLDER, "libpenne_c.a")

# The places of a reply, and what stands in the first of an acceptance.
PLACES, ACCEPTED = 6, 0

# What an entry is asked. The last three are read by declarations, and the word's kind by words alone.
Question = collections.namedtuple("Question", "entry row cursor count slots load_slots start flags word")


def question(entry, row, cursor=0, count=0, slots=codes.PROGRAM_SLOTS, load_slots=None, start=0, flags=0, word=None):
    """A question with what is given; all else is 0, the slots are those of penne-nodes, and a word is a word8."""
    load_slots = slots if load_slots is None else load_slots
    word = codes.KIND["Word8"] if word is None else word
    return Question(entry, row, cursor, count, slots, load_slots, start, flags, word)


class Missing(Exception):
    """The library is not there, or cannot be loaded."""


class Library:
    def __init__(self):
        if not os.path.exists(LIBRARY):
            raise Missing(f"there is no {os.path.relpath(LIBRARY)}: `rt lib` in crates/penne_c makes it")
        with tempfile.TemporaryDirectory() as folder:
            shared = os.path.join(folder, "libpenne_c.so")
            command = ["cc", "-shared", "-nostdlib", "-Wl,--whole-archive", LIBRARY, "-o", shared]
            try:
                subprocess.run(command, check=True, capture_output=True, text=True)
            except (OSError, subprocess.CalledProcessError) as error:
                raise Missing(f"the C compiler made no shared library: {getattr(error, 'stderr', None) or error}")
            self.library = ctypes.CDLL(shared)
        for name in codes.FUNCTIONS:
            self.library[name].restype = ctypes.c_bool

    def ask(self, asked):
        """The numbers of the reply, and the nodes: of each a kind and a load."""
        kinds = _column(ctypes.c_uint8, [token.kind for token in asked.row])
        types = _column(ctypes.c_uint8, [token.value_type for token in asked.row])
        node_kinds, node_loads = (ctypes.c_uint8 * asked.slots)(), (ctypes.c_uint32 * asked.load_slots)()
        reply = (ctypes.c_uint32 * PLACES)()
        number = ctypes.c_uint32
        more = [number(asked.start), number(asked.flags), ctypes.c_uint8(asked.word)][: _GIVEN[asked.entry]]
        columns = [kinds, types, number(asked.cursor), node_kinds, node_loads, number(asked.count), *more, reply]
        words = [word for column in columns for word in _words(column)]
        if not self.library[codes.FUNCTIONS[asked.entry]](*words):
            raise AssertionError("the reply has enough places")
        return list(reply), list(zip(node_kinds, node_loads))


# How many of start, flags and word's kind each entry is given.
_GIVEN = [0, 0, 2, 2, 3]


def _column(kind, numbers):
    return (kind * len(numbers))(*numbers)


def _words(column):
    """A column is passed with its length, a number alone."""
    return [column, ctypes.c_size_t(len(column))] if isinstance(column, ctypes.Array) else [column]


def text(reply, nodes):
    """A reply with its nodes, as the program penne-nodes writes them."""
    accepted = reply[0] == ACCEPTED
    numbers = reply[1:4] if accepted else reply[1:]
    lines = [" ".join(map(str, ["ok" if accepted else "no", *numbers]))]
    lines += [f"{place} {kind} {load}" for place, (kind, load) in enumerate(nodes[: numbers[-1]])]
    return "".join(line + "\n" for line in lines)
