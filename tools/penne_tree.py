"""What the program penne-nodes writes, read and drawn as a tree."""

import re

import penne_codes as codes

BAD_FILE = "bad file"

NUMBER = r" (0|[1-9][0-9]{0,9})"
OK_LINE = re.compile("ok" + 3 * NUMBER)
NO_LINE = re.compile("no" + 5 * NUMBER)
NODE_LINE = re.compile((3 * NUMBER)[1:])

# So many tokens that were not read are shown.
SHOWN = 8

NAMES = {codes.BINARY_OP: codes.BINARY_OPS, codes.UNARY_OP: codes.UNARY_OPS, codes.COMPARISON_OP: codes.COMPARISON_OPS}


class Malformed(Exception):
    """Output that penne-nodes cannot have written."""


class Output:
    """A reply with its nodes, each a kind and a load. The root of a refusal is None."""

    def __init__(self, numbers, accepted, nodes):
        self.nodes = nodes
        if accepted:
            self.root, self.cursor, self.count = numbers
            self.number = None
        else:
            self.root = None
            self.number, self.start, self.end, self.cursor, self.count = numbers


def read(text):
    """The output, or None for a bad file."""
    lines = text.split("\n")
    if lines.pop() != "":
        raise Malformed("the last line does not end")
    if lines == [BAD_FILE]:
        return None
    first = lines[0] if lines else ""
    accepted, refused = OK_LINE.fullmatch(first), NO_LINE.fullmatch(first)
    if not accepted and not refused:
        raise Malformed("the first line is no reply")
    numbers = [int(number) for number in (accepted or refused).groups()]
    nodes = [_node(line, place) for place, line in enumerate(lines[1:])]
    output = Output(numbers, bool(accepted), nodes)
    if output.count != len(nodes):
        raise Malformed(f"the count is {output.count}, and there are {len(nodes)} nodes")
    if refused and output.number not in codes.REFUSALS:
        raise Malformed(f"there is no refusal {output.number}")
    return output


def _node(line, place):
    match = NODE_LINE.fullmatch(line)
    if not match:
        raise Malformed(f"line {place + 2} is no node")
    number, kind, load = (int(part) for part in match.groups())
    if number != place:
        raise Malformed(f"node {place} is numbered {number}")
    if kind >= len(codes.PARSE_NODES):
        raise Malformed(f"node {place} has the kind {kind}, and there is none above {len(codes.PARSE_NODES) - 1}")
    return kind, load


def picture(output, row=None):
    """The lines that show the output; a row of tokens lends its text."""
    if output.root is None:
        return _refusal(output, row)
    first = f"Accepted: root {output.root}, cursor {output.cursor}, {_nodes(output.count)}."
    return [first, *_not_read(output, row), *drawn(output, row)]


def _nodes(count):
    return "1 node" if count == 1 else f"{count} nodes"


def _not_read(output, row):
    """Which tokens of the row an accepted parse has left before EndOfSource, if it has left some."""
    rest = [] if row is None else row[output.cursor : -1]
    if not rest:
        return []
    text = " ".join(token.text for token in rest[:SHOWN]) + (" .." if len(rest) > SHOWN else "")
    last = output.cursor + len(rest) - 1
    which = f"Token {last} was" if len(rest) == 1 else f"Tokens {output.cursor} to {last} were"
    return [f"{which} not read: `{text}`."]


def _refusal(output, row):
    sentence = codes.REFUSALS[output.number][1].format(start=output.start, end=output.end)
    found = _text(row, output.start) if "{start}" in codes.REFUSALS[output.number][1] else ""
    lines = [f"Refused with {output.number}. {sentence}"]
    if found:
        lines.append(f"Token {output.start} is{found}.")
    lines.append(f"Cursor {output.cursor}, {_nodes(output.count)}.")
    return lines + [label(output.nodes, place, row) for place in range(output.count)]


def drawn(output, row=None):
    """The tree from the root, a line a node."""
    lines, met = [], set()
    # Each with what stands before it in its line, and before its parts in theirs.
    waiting = [(output.root, "", "")]
    while waiting:
        place, before, below = waiting.pop()
        if place in met:
            raise Malformed(f"node {place} is met twice")
        met.add(place)
        lines.append(before + label(output.nodes, place, row))
        parts = parts_of(output.nodes, place)
        for nth in reversed(range(len(parts))):
            mark, line = ("└─ ", "   ") if nth == len(parts) - 1 else ("├─ ", "│  ")
            waiting.append((parts[nth], below + mark, below + line))
    for place in range(output.count):
        if place not in met:
            raise Malformed(f"node {place} is not met on the way from the root")
    return lines


def parts_of(nodes, place):
    """The numbers of a node's parts, in document 01's order. Each of them is checked when it is met."""
    kind, load = nodes[place]
    return [load if part == codes.LINKED else place - part for part in codes.PARSE_NODES[kind][2]]


def label(nodes, place, row=None):
    """A node's number, its name, and its load in words."""
    if not 0 <= place < len(nodes):
        raise Malformed(f"there is no node {place}")
    kind, load = nodes[place]
    name, what, _ = codes.PARSE_NODES[kind]
    words = _load(what, load)
    if words is None:
        raise Malformed(f"node {place} is a {name}, and {load} is no load of it")
    text = _text(row, load) if what == codes.TOKEN else ""
    return f"{place} {name} {words}{text}".rstrip()


def _load(what, load):
    """A load in words, or None if no node of its kind has it."""
    if what == codes.NONE:
        return "" if load == 0 else None
    if what in (codes.TOKEN, codes.NODE, codes.DEPTH):
        return f"{what} {load}"
    if what in NAMES:
        return NAMES[what][load] if load < len(NAMES[what]) else None
    if what == codes.ELEMENTS:
        return "1 element" if load == 1 else f"{load} elements"
    return _code(what, load)


def _code(what, load):
    """A load that is flags, the size of a word, false or true, or a value type."""
    if what == codes.FLAG_SUM:
        names = [name for name, flag in codes.FLAGS if load & flag]
        return (" ".join(names) or "no flag") if load < 32 else None
    if what == codes.WORD_SIZE:
        return {0: "struct", 1: "word of 1 byte"}.get(load, f"word of {load} bytes" if load in (2, 4, 8, 16) else None)
    if what == codes.IS_BUILTIN:
        return {0: "not builtin", 1: "builtin"}.get(load)
    name, spelling = codes.VALUE_TYPES[load] if load < len(codes.VALUE_TYPES) else (None, None)
    return spelling or name


def _text(row, place):
    """The text of a token in the row, if there is a row with it."""
    return f" `{row[place].text}`" if row is not None and place < len(row) else ""
