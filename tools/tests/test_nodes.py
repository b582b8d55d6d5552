import os
import subprocess
import unittest

import penne_codes as codes
import penne_library
import penne_row
from places import PROGRAM, TOOLS
from test_tree import blocks

MADE = os.path.exists(penne_library.LIBRARY)


def nodes(data, *words, **variables):
    command = [os.path.join(TOOLS, "nodes"), *words]
    result = subprocess.run(command, input=data, capture_output=True, env={**os.environ, **variables})
    return result.returncode, result.stdout.decode(), result.stderr.decode()


def row(line, entry="expression", *words):
    command = [os.path.join(TOOLS, "row"), "--entry", entry, *words, "--", line]
    return subprocess.run(command, capture_output=True, check=True).stdout


@unittest.skipUnless(MADE, "rt lib in crates/penne_c has not made the library")
class Nodes(unittest.TestCase):
    def test_the_drawings(self):
        """All five entries. The nodes in drawings.txt are upstream's."""
        entries = set()
        for head, line, output, _ in blocks():
            entry, *given = head.split(", ")
            words = [word for option in given for word in f"--{option}".replace("word 49", "word word32").split(" ")]
            self.assertEqual(nodes(row(line, entry, *words)), (0, output, ""), line)
            entries.add(entry)
        self.assertEqual(entries, set(codes.ENTRIES))

    def test_what_is_given(self):
        flagged = row("pub const c: bool = true;", "constant", "--cursor", "2", "--start", "1", "--flags", "1")
        self.assertIn("\n4 1 1\n5 3 1\n", nodes(flagged)[1])
        self.assertIn("\n2 7 4\n", nodes(row("W { }", "word", "--word", "word32"))[1])

    def test_slots_and_count(self):
        self.assertEqual(nodes(row("1 + 2"), "--slots", "4")[1].split("\n")[0], "no 33 3 3 3 4")
        self.assertEqual(nodes(row("1"), "--count", "2")[1], "ok 2 1 3\n0 0 0\n1 0 0\n2 27 0\n")

    @unittest.skipUnless(os.path.exists(PROGRAM), "penne_nodes is not built")
    def test_bad_files_as_the_program_has_them(self):
        good = row("1 + 2")
        for data in (b"", good[:-1], good + b"\0", good[:8] + b"\5" + good[9:], good[:8] + b"\0\1" + good[10:]):
            written = subprocess.run([PROGRAM], input=data, capture_output=True, check=True).stdout
            self.assertEqual(written, b"bad file\n")
            self.assertEqual(nodes(data), (0, "bad file\n", ""))

    def test_bad_files_of_declarations(self):
        good = row("S;", "struct")
        for data in (good[:-1], good + b"\0", good[:22] + b"\1" + good[23:]):
            self.assertEqual(nodes(data), (0, "bad file\n", ""))

    def test_what_is_written_is_read(self):
        tokens = penne_row.tokens(b"W { m: u8, }")
        for entry in range(len(codes.ENTRIES)):
            declared = (0, 0, 0) if entry in codes.PROGRAM_ENTRIES else (1, 2, 49)
            read = penne_row.read_input(penne_row.program_input(tokens, 7, entry, declared))
            self.assertEqual(read[0::2], (entry, 7))
            self.assertEqual(read[3], declared)
            self.assertEqual([token[:2] for token in read[1]], [token[:2] for token in tokens])

    def test_the_folder_of_the_shared_library_is_removed(self):
        folder = subprocess.run(["mktemp", "-d"], capture_output=True, text=True, check=True).stdout.strip()
        self.assertEqual(nodes(row("1"), TMPDIR=folder)[0], 0)
        os.rmdir(folder)


class Missing(unittest.TestCase):
    def test_no_library(self):
        status, output, error = nodes(row("1"), PENNE_C_LIB_DIR="/nowhere")
        self.assertEqual((status, output), (2, ""))
        self.assertIn("`rt lib` in crates/penne_c makes it", error)
