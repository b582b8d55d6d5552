"""The tables of docs/MANUAL.md are those of crates/codes, and its examples are what the library answers."""

import os
import re
import unittest

import penne_codes as codes
import penne_library
import questions
import penne_tree
from places import ROOT
from test_codes import constants, parts_table

with open(os.path.join(ROOT, "docs/MANUAL.md"), encoding="utf-8") as manual:
    TEXT = manual.read()


def section(title):
    """The text below a heading, up to the next one."""
    found = re.search(rf"^#+ {re.escape(title)}\n(.*?)(?=^#|\Z)", TEXT, re.MULTILINE | re.DOTALL)
    return found.group(1)


def tables(title):
    """The tables of a section, each a list of rows of cells, without their heads."""
    found = re.findall(r"(?:^\|.*\|\n)+", section(title), re.MULTILINE)
    cells = lambda line: [cell.strip().replace(r"\|", "|") for cell in re.split(r"(?<!\\)\|", line)[1:-1]]
    return [[cells(line) for line in table.splitlines()[2:]] for table in found]


def named(table):
    """The names of a table with their numbers, the number first in each row."""
    return [(row[1], int(row[0])) for row in table]


def examples():
    """The blocks of the section Examples."""
    return re.findall(r"^```\n(.*?)^```$", section("Examples"), re.MULTILINE | re.DOTALL)


class Tables(unittest.TestCase):
    def test_tokens(self):
        (table,) = tables("Tokens")
        self.assertEqual(named(table), constants("base_token.rt"))
        for (_, name, written), (_, spelling) in zip(table, codes.BASE_TOKENS):
            self.assertEqual(written == f"`{spelling}`", spelling is not None, name)

    def test_value_types(self):
        (table,) = tables("Value types")
        self.assertEqual(named(table), constants("value_type_keyword.rt"))
        written = [f"`{spelling}`" if spelling else "none" for _, spelling in codes.VALUE_TYPES]
        self.assertEqual([row[2] for row in table], written)

    def test_nodes(self):
        (table,) = tables("Kinds of nodes")
        self.assertEqual(named(table), constants("parse_node.rt"))
        for (_, name, _, parts), (_, expected) in zip(table, parts_table()):
            found = [int(back) if back else codes.LINKED for back in re.findall(r"(?:(\d) back|linked)(?:,|$)", parts)]
            self.assertEqual(tuple(found), expected, name)

    def test_loads(self):
        """A load that is a token or a node is said to be one, and where there is nothing it is 0."""
        for (_, name, load, parts), (_, what, _) in zip(tables("Kinds of nodes")[0], codes.PARSE_NODES):
            if parts != "never appended":
                expected = {codes.NONE: "0", codes.TOKEN: "token", codes.NODE: "node"}.get(what, load)
                self.assertEqual(load.split(":")[0], expected, name)

    def test_loads_that_are_tokens(self):
        """The kinds of specs/Codes whose load is a token number."""
        with open(os.path.join(ROOT, "crates/rules/specs/Codes.antt"), encoding="utf-8") as specification:
            expected = re.findall(r"ParseNode\.(\w+) ⇒ true", specification.read())
        found = [name for _, name, load, _ in tables("Kinds of nodes")[0] if load.startswith("token:")]
        self.assertEqual(found, sorted(expected, key=dict(constants("parse_node.rt")).get))

    def test_operators_and_flags(self):
        files = ["binary_op.rt", "unary_op.rt", "comparison_op.rt", "declaration_flag.rt"]
        self.assertEqual([named(table) for table in tables("Operators and flags")], [constants(file) for file in files])

    def test_refusals(self):
        ordered = sorted(number for table in tables("Refusals") for _, number in named(table))
        self.assertEqual(ordered, [number for _, number in constants("refusal_number.rt")])
        names = dict(constants("refusal_number.rt"))
        for table in tables("Refusals"):
            for name, number in named(table):
                self.assertEqual(names[name], number)

    def test_limits(self):
        (table,) = tables("Limits")
        found = [(name, int(number.replace(",", ""))) for _, name, number in table]
        self.assertEqual(found, constants("limit.rt"))

    def test_sections_that_comments_point_to(self):
        titles = re.findall(r"^#+ (.*)$", TEXT, re.MULTILINE)
        for folder, folders, files in os.walk(os.path.join(ROOT, "crates")):
            folders[:] = [name for name in folders if name != "out"]
            for file in files:
                if file.endswith((".antt", ".rt")):
                    with open(os.path.join(folder, file), encoding="utf-8") as source:
                        text = re.sub(r"\n *(--|//) ", " ", source.read())
                    for title in re.findall(r"MANUAL\.md, ([A-Z][\w -]*)", text):
                        self.assertTrue(any(title.startswith(known) for known in titles), f"{file}: {title}")


@unittest.skipUnless(os.path.exists(penne_library.LIBRARY), "rt lib in crates/penne_c has not made the library")
class Examples(unittest.TestCase):
    @classmethod
    def setUpClass(cls):
        cls.library = penne_library.Library()

    def answer(self, question):
        return penne_library.text(*self.library.ask(question))

    def test_a_row_for_each_refusal(self):
        of_the_input, of_the_parse, _ = tables("Refusals")
        for table in [of_the_input, of_the_parse]:
            for number, *_, row, reply in table:
                first = self.answer(questions.read(row.strip("`"))).split("\n")[0]
                self.assertEqual(f"`{first}`", reply)
                self.assertEqual(first.split(" ")[1], number)

    def test_each_kind_of_node_has_an_example(self):
        nodes = [line.split() for block in examples() for line in block.split("--\n")[1].splitlines()[1:]]
        appended = {number for number, _, _, parts in tables("Kinds of nodes")[0] if parts != "never appended"}
        self.assertEqual({kind for _, kind, _ in nodes}, appended)

    def test_examples(self):
        for block in examples():
            asked, output, *drawing = block.split("--\n")
            question = questions.read(asked.rstrip("\n"))
            self.assertEqual(self.answer(question), output, asked)
            if drawing:
                lines = penne_tree.picture(penne_tree.read(output), question.row)
                self.assertEqual("".join(line + "\n" for line in lines), drawing[0], asked)
