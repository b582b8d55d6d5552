import os
import subprocess
import unittest

import penne_codes as codes
import penne_row
import penne_tree
from places import PROGRAM, TOOLS

# Blocks of a question (questions), what is written for it, and how that is drawn. The nodes are upstream's.
DRAWINGS = os.path.join(TOOLS, "tests/drawings.txt")

SENTENCES = os.path.join(TOOLS, "tests/refusals.txt")


def blocks():
    with open(DRAWINGS, encoding="utf-8") as file:
        for block in file.read().split("== ")[1:]:
            head, rest = block.split("\n", 1)
            output, drawing = rest.split("--\n")
            entry, line = head.split(": ", 1)
            yield entry, line, output, drawing.rstrip("\n") + "\n"


def run(output, *words):
    result = subprocess.run([os.path.join(TOOLS, "tree"), *words], input=output.encode(), capture_output=True)
    return result.returncode, result.stdout.decode(), result.stderr.decode()


class Drawings(unittest.TestCase):
    def test_drawings(self):
        self.assertGreater(len(list(blocks())), 20)
        for _, line, output, drawing in blocks():
            self.assertEqual(run(output, "--row", line), (0, drawing, ""))

    def test_without_the_row(self):
        expected = "Accepted: root 1, cursor 3, 2 nodes.\n1 Parenthesized\n└─ 0 UntypedIntegerLiteral token 1\n"
        self.assertEqual(run("ok 1 3 2\n0 27 1\n1 18 0\n"), (0, expected, ""))

    def test_a_row_that_begins_with_a_minus(self):
        for words in (["--", "-1"], ["-1"], ["--row", "-1"], ["--row=-1"]):
            status, drawing, _ = run("ok 2 2 3\n0 27 1\n1 24 0\n2 23 0\n", *words)
            self.assertEqual((status, drawing.split("\n")[1]), (0, "2 Unary token 0 `-`"))

    def test_tokens_that_were_not_read(self):
        for line, told in (
            ("1", None),
            ("1 2", "Token 1 was not read: `2`."),
            ("1 2 3", "Tokens 1 to 2 were not read: `2 3`."),
            ("1 10×2", "Tokens 1 to 10 were not read: `2 2 2 2 2 2 2 2 ..`."),
        ):
            _, drawing, _ = run("ok 0 1 1\n0 27 0\n", line)
            self.assertEqual(drawing.split("\n")[1:-2], [told] if told else [])

    def test_a_drawing_that_is_cut_short(self):
        nodes = "0 27 0\n" + "".join(f"{number} 18 0\n" for number in range(1, 1000))
        command = f"{TOOLS}/tree | head -n 1"
        result = subprocess.run(command, shell=True, input=f"ok 999 1999 1000\n{nodes}", capture_output=True, text=True)
        self.assertEqual((result.stdout, result.stderr), ("Accepted: root 999, cursor 1999, 1000 nodes.\n", ""))

    def test_bad_file(self):
        self.assertEqual(run("bad file\n"), (1, "bad file\n", ""))

    def test_every_kind_has_a_label(self):
        for kind, (name, what, _) in enumerate(codes.PARSE_NODES):
            label = penne_tree.label([(kind, 0)], 0)
            self.assertTrue(label.startswith(f"0 {name}"))
            self.assertEqual(label == f"0 {name}", what == codes.NONE)

    def test_a_deep_tree(self):
        nodes = "0 27 0\n" + "".join(f"{number} 18 0\n" for number in range(1, 2000))
        status, drawing, _ = run("ok 1999 3999 2000\n" + nodes)
        self.assertEqual((status, drawing.count("\n")), (0, 2001))

    @unittest.skipUnless(os.path.exists(PROGRAM), "penne_nodes is not built")
    def test_the_program_writes_the_same(self):
        for entry, line, output, _ in blocks():
            if entry in ("expression", "type"):
                words = [os.path.join(TOOLS, "row"), *(["--type"] if entry == "type" else []), "--", line]
                row = subprocess.run(words, capture_output=True, check=True).stdout
                written = subprocess.run([PROGRAM], input=row, capture_output=True, check=True).stdout
                self.assertEqual(written.decode(), output)


class Refusals(unittest.TestCase):
    """The sentence of each number, for the tokens 5 to 9. The Rust package is tested with the same sentences."""

    def setUp(self):
        with open(SENTENCES, encoding="utf-8") as file:
            lines = (line.rstrip("\n").split(" ", 1) for line in file)
            self.sentences = {int(number): sentence for number, sentence in lines}

    def test_sentences(self):
        self.assertEqual(list(self.sentences), list(codes.REFUSALS))
        for number, sentence in self.sentences.items():
            lines = penne_tree.picture(penne_tree.read(f"no {number} 5 9 6 1\n0 52 0\n"))
            expected = [f"Refused with {number}. {sentence}", "Cursor 6, 1 node.", "0 UnpatchedListItem"]
            self.assertEqual(lines, expected)

    def test_the_token_is_shown_where_the_sentence_names_it(self):
        row = penne_row.tokens(b"a b c d e f")
        for number, sentence in self.sentences.items():
            lines = penne_tree.picture(penne_tree.read(f"no {number} 5 9 6 0\n"), row)
            self.assertEqual("Token 5 is `f`." in lines, "oken 5" in sentence)


class MalformedOutput(unittest.TestCase):
    def test_malformed(self):
        for output, why in (
            ("", "the first line is no reply"),
            ("bad file", "the last line does not end"),
            ("bad file\n0 0 0\n", "the first line is no reply"),
            ("ok 0 1\n", "the first line is no reply"),
            ("ok 0 1 -1\n", "the first line is no reply"),
            ("ok 0 01 1\n", "the first line is no reply"),
            ("no 15 0 0 0\n", "the first line is no reply"),
            ("no 4 0 0 0 0\n", "there is no refusal 4"),
            ("ok 0 1 2\n0 27 0\n", "the count is 2, and there are 1 nodes"),
            ("ok 0 1 1\n0 27\n", "line 2 is no node"),
            ("ok 0 1 1\n\n", "line 2 is no node"),
            ("ok 0 1 1\n1 27 0\n", "node 0 is numbered 1"),
            ("ok 0 1 1\n0 64 0\n", "node 0 has the kind 64, and there is none above 63"),
            ("ok 1 1 1\n0 27 0\n", "there is no node 1"),
            ("ok 0 1 1\n0 18 0\n", "there is no node -1"),
            ("ok 0 1 1\n0 57 9\n", "there is no node 9"),
            ("ok 0 1 1\n0 57 0\n", "node 0 is met twice"),
            ("ok 1 1 2\n0 57 1\n1 18 0\n", "node 1 is met twice"),
            ("ok 2 1 3\n0 0 0\n1 59 1\n2 58 1\n", "node 1 is met twice"),
            ("ok 1 1 2\n0 27 0\n1 27 0\n", "node 0 is not met on the way from the root"),
            ("ok 0 1 1\n0 22 11\n", "node 0 is a BinaryOp, and 11 is no load of it"),
            ("ok 0 1 1\n0 24 2\n", "node 0 is a UnaryOp, and 2 is no load of it"),
            ("ok 0 1 1\n0 1 32\n", "node 0 is a DeclarationFlags, and 32 is no load of it"),
            ("ok 0 1 1\n0 7 3\n", "node 0 is a StructuralType, and 3 is no load of it"),
            ("ok 0 1 1\n0 17 2\n", "node 0 is a FunctionCall, and 2 is no load of it"),
            ("ok 0 1 1\n0 41 15\n", "node 0 is a SimpleValueType, and 15 is no load of it"),
            ("ok 0 1 1\n0 0 1\n", "node 0 is a NoMoreItems, and 1 is no load of it"),
        ):
            self.assertEqual(run(output), (2, "", f"tree: {why}\n"))

    def test_a_row_that_cannot_be_read(self):
        expected = (2, "", "tree: line 1, character 1: `@` is no token of Penne\n")
        self.assertEqual(run("ok 0 1 1\n0 27 0\n", "--row", "@"), expected)
