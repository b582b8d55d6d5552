import os
import subprocess
import tempfile
import unittest

import penne_files
from places import TOOLS

STUB = os.path.join(TOOLS, "tests/stub_program.py")


class Foretold(unittest.TestCase):
    """Where document 01 gives the answer without parsing."""

    def test_answers(self):
        good = bytes.fromhex("040000000000000000000000370e370000000000")
        self.assertIsNone(penne_files.foretold(good))
        for data in (b"", good[:11], good[:-1], good + b"\0", good[:8] + b"\2" + good[9:]):
            self.assertEqual(penne_files.foretold(data), "bad file")
        self.assertEqual(penne_files.foretold(bytes(12)), "no 1 0 0 0 0")
        self.assertEqual(penne_files.foretold(good[:13] + b"\x3e" + good[14:]), "no 2 1 1 0 0")
        self.assertEqual(penne_files.foretold(good[:18] + b"\x0f" + good[19:]), "no 2 2 2 0 0")
        self.assertEqual(penne_files.foretold(good[:15] + b"\x01" + good[16:]), "no 3 3 3 0 0")
        self.assertEqual(penne_files.foretold(good[:4] + b"\4" + good[5:]), "no 30 0 0 4 0")

    def test_most_tokens(self):
        for tokens, known in ((4096, None), (4097, "bad file")):
            data = tokens.to_bytes(4, "little") + bytes(8 + 2 * tokens)
            self.assertEqual(penne_files.foretold(data), known)

    def test_same_files_each_time(self):
        first, second = (list(penne_files.Maker(1).files(400)) for _ in range(2))
        self.assertEqual(first, second)
        self.assertEqual(len(first), 400)
        self.assertEqual(len({sort for sort, _ in first}), 9)


class Faults(unittest.TestCase):
    """What is found wrong with an answer to a good file."""

    GOOD = bytes.fromhex("040000000000000000000000370e370000000000")
    NODES = "0 27 0\n1 27 2\n2 57 0\n3 22 0\n4 21 1\n"

    def fault(self, text):
        return penne_files.fault(self.GOOD, text)

    def test_good_answers(self):
        self.assertIsNone(self.fault("ok 4 3 5\n" + self.NODES))
        self.assertIsNone(self.fault("no 21 2 2 3 1\n0 27 0\n"))

    def test_bad_answers(self):
        for text, why in (
            ("", "the first line is no reply"),
            ("ok 4 3 5\n", "the count is 5, and there are 0 nodes"),
            ("ok 4 3 5\n" + self.NODES[:-1], "the last line does not end"),
            ("ok 3 3 5\n" + self.NODES, "the root is not the last node"),
            ("ok 4 4 5\n" + self.NODES, "the cursor is out of its bounds"),
            ("ok 4 3 5\n" + self.NODES.replace("2 57 0", "2 57 1"), "node 1 is met twice"),
            ("bad file\n", "a good file is called bad"),
            ("no 22 2 2 3 0\n", "refusal 22 cannot be met here"),
            ("no 21 2 2 2 0\n", "the cursor is not where the start says"),
            ("no 21 2 3 3 0\n", "the end is not the start"),
            ("no 21 4 4 5 0\n", "a place is out of its bounds"),
            ("no 33 2 2 2 0\n", "there is a slot left"),
            ("no 24 1 2 3 0\n", "the cursor is not the end"),
        ):
            self.assertEqual(self.fault(text), why)


class Script(unittest.TestCase):
    """The whole script, with a program that stands for penne-nodes."""

    def run_script(self, fault, count):
        with tempfile.TemporaryDirectory() as folder:
            script = os.path.join(TOOLS, "bad_input")
            command = [script, "--program", STUB, "--count", str(count), "--keep", folder]
            return subprocess.run(command, env={**os.environ, "STUB": fault}, capture_output=True, text=True)

    def test_no_fault(self):
        result = self.run_script("", 48)
        self.assertEqual((result.returncode, result.stderr), (0, ""))
        self.assertTrue(result.stdout.endswith("0 faults\n"), result.stdout)
        self.assertTrue(result.stdout.startswith("48 files: "), result.stdout)

    def test_faults(self):
        for fault, why in (
            ("signal", "it was ended by signal 11"),
            ("errors", "it wrote to standard error"),
            ("count", "the count is 2, and there are 1 nodes"),
            ("kind", "node 0 has the kind 64"),
            ("number", "cannot be met here"),
            ("hasty", "a good file is called bad"),
        ):
            result = self.run_script(fault, 48)
            self.assertEqual(result.returncode, 1, fault)
            self.assertIn(why, result.stdout)

    def test_no_program(self):
        command = [os.path.join(TOOLS, "bad_input"), "--program", "/no/program"]
        result = subprocess.run(command, capture_output=True, text=True)
        self.assertEqual((result.returncode, result.stderr), (1, "bad_input: there is no program /no/program\n"))
