"""The tables of penne_codes are those of crates/codes/src."""

import os
import re
import unittest

import penne_codes as codes
from places import ROOT


SOURCES = os.path.join(ROOT, "crates/codes/src")
SPECIFICATIONS = os.path.join(ROOT, "crates/rules/specs/Codes")


def text(folder, name, comment):
    """The text of a file without its comments."""
    with open(os.path.join(folder, name), encoding="utf-8") as file:
        return re.sub(comment + ".*", "", file.read())


def source(name):
    with open(os.path.join(SOURCES, name), encoding="utf-8") as file:
        return file.read()


def constants(name):
    """The constants of a file, each with its number; one of another form than these have is an error."""
    code = text(SOURCES, name, "//")
    found = re.findall(r"pub const (\w+): u(?:8|32) = (\d+);", code)
    if len(found) != len(re.findall(r"\bconst\b", code)):
        raise ValueError(f"{name} has a constant that is not read")
    return [(constant, int(number)) for constant, number in found]


def definitions(name, folder=SPECIFICATIONS):
    """The same of a specification: its numbers."""
    code = text(folder, name, "--")
    found = re.findall(r"^(\w+) = (\d+)$", code, re.MULTILINE)
    if [constant for constant, _ in found] != re.findall(r"^abbrev pub (\w+) : ℕ$", code, re.MULTILINE):
        raise ValueError(f"{name} has a definition that is not read")
    return [(constant, int(number)) for constant, number in found]


def specification(name):
    """The specification of a source file, or None for one without constants and for the codes of parts."""
    names = {"lib.rt": None, "part_code.rt": None, "refusal_number.rt": "Refusal.antt"}
    camel = "".join(word.capitalize() for word in name.removesuffix(".rt").split("_"))
    return names.get(name, camel + ".antt")


def parts_table():
    """The names of the nodes with their parts, by the table PARTS."""
    table = re.search(r"const PARTS: .*?\n\];", source("lib.rt"), re.DOTALL).group()
    rows = re.findall(r"^    \[(.*?)\], // (\w+)$", table, re.MULTILINE)
    read = lambda row: tuple(codes.LINKED if part == "Part::Linked" else int(part) for part in row.split(", "))
    return [(name, tuple(part for part in read(row) if part)) for row, name in rows]


def numbered(names):
    return [(name, number) for number, name in enumerate(names)]


class Codes(unittest.TestCase):
    def test_tokens(self):
        self.assertEqual(constants("base_token.rt"), numbered(name for name, _ in codes.BASE_TOKENS))

    def test_value_types(self):
        self.assertEqual(constants("value_type_keyword.rt"), numbered(name for name, _ in codes.VALUE_TYPES))

    def test_nodes(self):
        self.assertEqual(constants("parse_node.rt"), numbered(name for name, _, _ in codes.PARSE_NODES))

    def test_operators(self):
        self.assertEqual(constants("binary_op.rt"), numbered(codes.BINARY_OPS))
        self.assertEqual(constants("unary_op.rt"), numbered(codes.UNARY_OPS))
        self.assertEqual(constants("comparison_op.rt"), numbered(codes.COMPARISON_OPS))

    def test_flags(self):
        self.assertEqual(constants("declaration_flag.rt"), codes.FLAGS)

    def test_refusals(self):
        refusals = [(name, number) for number, (name, _) in codes.REFUSALS.items()]
        self.assertEqual(constants("refusal_number.rt"), refusals)

    def test_the_specifications_have_the_same(self):
        """Names and numbers of crates/rules/specs/Codes, file by file; one number more is that of no reply."""
        files = {name: specification(name) for name in os.listdir(SOURCES)}
        self.assertEqual(sorted(filter(None, files.values())), sorted(os.listdir(SPECIFICATIONS)))
        for name, file in files.items():
            if file is not None:
                no_reply = [("OutOfRounds", 0)] if file == "Refusal.antt" else []
                self.assertEqual(definitions(file), no_reply + constants(name), file)

    def test_the_code_of_a_linked_part_is_specified(self):
        parts = text(os.path.join(ROOT, "crates/codes/specs"), "Parts.antt", "--")
        self.assertEqual(re.findall(r"^Linked = (\d+)$", parts, re.MULTILINE), [str(codes.LINKED)])

    def test_linked(self):
        self.assertEqual(constants("part_code.rt"), [("Linked", codes.LINKED)])

    def test_parts(self):
        self.assertEqual(parts_table(), [(name, parts) for name, _, parts in codes.PARSE_NODES])

    def test_only_a_linked_part_reads_a_node(self):
        for name, load, parts in codes.PARSE_NODES:
            if codes.LINKED in parts:
                self.assertEqual(load, codes.NODE, name)

    def test_limits_in_the_sentences(self):
        limits = dict(constants("limit.rt"))
        self.assertIn(f"{limits['Tokens']:,}", codes.REFUSALS[1][1])
        self.assertIn(f"{limits['Slots']:,}", codes.REFUSALS[31][1])
        self.assertIn(f" {limits['Nesting']} ", codes.REFUSALS[34][1])
        self.assertIn(f" {limits['Flags']}.", codes.REFUSALS[35][1])
