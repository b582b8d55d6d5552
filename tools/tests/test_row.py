import os
import subprocess
import unittest

import penne_codes as codes
import penne_row
from places import TOOLS

# A token of each kind that has more than one spelling.
SAMPLES = {
    "ValueTypeKeyword": "i32",
    "Identifier": "name",
    "Builtin": "name!",
    "NakedDecimal": "10",
    "BitInteger": "0x1F",
    "SuffixedInteger": "12u8",
    "CharLiteral": "'c'",
    "BoolLiteral": "true",
    "StringLiteral": '"s"',
}


def run(*words, line=None):
    return subprocess.run([os.path.join(TOOLS, "row"), *words], input=line, capture_output=True)


def read(line):
    """The kinds by name, with the value type after a slash where there is one."""
    names = []
    for token in penne_row.tokens(line.encode(), end=False):
        name = codes.BASE_TOKENS[token.kind][0]
        names.append(name + (f"/{codes.VALUE_TYPES[token.value_type][0]}" if token.value_type else ""))
    return " ".join(names)


class Spelling(unittest.TestCase):
    def test_each_kind_by_its_spelling_and_by_its_name(self):
        for kind, (name, spelling) in enumerate(codes.BASE_TOKENS):
            spelling = spelling or SAMPLES.get(name)
            for text in {name, spelling or name}:
                tokens = penne_row.tokens(text.encode(), end=False)
                self.assertEqual([(token.kind, token.text) for token in tokens], [(kind, text)])
            if spelling is None:
                self.assertIn(name, ("EndOfSource", "Error"))

    def test_all_spellings_in_one_line(self):
        texts = [spelling or SAMPLES.get(name) or name for name, spelling in codes.BASE_TOKENS]
        tokens = penne_row.tokens(" ".join(texts).encode(), end=False)
        self.assertEqual([token.kind for token in tokens], list(range(len(codes.BASE_TOKENS))))
        self.assertEqual([token.text for token in tokens], texts)

    def test_value_types(self):
        for code, (name, spelling) in enumerate(codes.VALUE_TYPES):
            if spelling:
                self.assertEqual(read(spelling), f"ValueTypeKeyword/{name}")
            for text in {name, spelling or name}:
                token = penne_row.tokens(f"SuffixedInteger:{text}".encode())[0]
                self.assertEqual(token.value_type, code)
        self.assertEqual(read("SuffixedInteger ValueTypeKeyword"), "SuffixedInteger ValueTypeKeyword")
        self.assertEqual(read("Identifier:i32"), "Identifier Colon ValueTypeKeyword/Int32")

    def test_identifiers_with_the_name_of_a_kind(self):
        self.assertEqual(read(r"\Plus \Identifier:i32"), "Identifier Identifier Colon ValueTypeKeyword/Int32")
        self.assertEqual(penne_row.tokens(rb"\Plus")[0].text, "Plus")

    def test_tokens_by_number(self):
        tokens = penne_row.tokens(b"#62 #52:15 #0", end=False)
        self.assertEqual([token[:2] for token in tokens], [(62, 0), (52, 15), (0, 0)])

    def test_repeated_tokens(self):
        self.assertEqual(read("2×( 1 2×)"), "ParenLeft ParenLeft NakedDecimal ParenRight ParenRight")
        self.assertEqual(read("3×12u8"), " ".join(3 * ["SuffixedInteger/Uint8"]))

    def test_integers(self):
        self.assertEqual(read("0 1_000"), "NakedDecimal NakedDecimal")
        self.assertEqual(read("0xFF 0b1_0"), "BitInteger BitInteger")
        self.assertEqual(read("0xfu8 0b1u16"), "SuffixedInteger/Uint8 SuffixedInteger/Uint16")
        self.assertEqual(read("0i128 7usize"), "SuffixedInteger/Int128 SuffixedInteger/Usize")
        self.assertEqual(read(str((1 << 128) - 1)), "NakedDecimal")
        self.assertEqual(read("0b" + 128 * "1"), "BitInteger")

    def test_quoted(self):
        self.assertEqual(read(r"'\n' '\x41' '\'' '\\' ' '"), " ".join(5 * ["CharLiteral"]))
        self.assertEqual(read(r'"" "a\"b" "\u{1F600}" "é // no comment"'), " ".join(4 * ["StringLiteral"]))

    def test_without_spaces(self):
        for line, kinds in (
            ("f(a,1)", "Identifier ParenLeft Identifier Comma NakedDecimal ParenRight"),
            ("a[1..]", "Identifier BracketLeft NakedDecimal Dots BracketRight"),
            ("1<<2>>3", "NakedDecimal ShiftLeft NakedDecimal ShiftRight NakedDecimal"),
            ("1<=2>=3==4", "NakedDecimal IsLE NakedDecimal IsGE NakedDecimal Equals NakedDecimal"),
            ("|:i32|x|:", "PipeForType ValueTypeKeyword/Int32 Pipe Identifier PipeForType"),
            ("-1->_", "Minus NakedDecimal Arrow Placeholder"),
            ("!x", "Exclamation Identifier"),
            ("a!=b", "Builtin Assignment Identifier"),
            ("a != b", "Identifier DoesNotEqual Identifier"),
            ("a...b", "Identifier Dots Dot Identifier"),
            ("a / b // c", "Identifier Divide Identifier"),
        ):
            self.assertEqual(read(line), kinds)


class Script(unittest.TestCase):
    def test_the_example_of_document_01(self):
        result = run("1 + 2")
        self.assertEqual(result.stdout.hex(), "04000000" "00000000" "00000000" "370e3700" "00000000")
        self.assertEqual((result.returncode, result.stderr), (0, b""))

    def test_standard_input(self):
        self.assertEqual(run(line=b"1 +\n2\n").stdout, run("1 + 2").stdout)

    def test_entry_cursor_and_end(self):
        result = run("--type", "--cursor", "513", "--no-end", "&i32")
        self.assertEqual(result.stdout.hex(), "02000000" "01020000" "01000000" "0a34" "0004")

    def test_empty(self):
        self.assertEqual(run("").stdout.hex(), "01000000" "00000000" "00000000" "00" "00")
        self.assertEqual(run("--no-end", "").stdout, bytes(12))

    def test_a_line_that_begins_with_a_minus(self):
        for line in ("-a", "-1", "-a + 1"):
            for words in (["--", line], [line], ["--row", line], [f"--row={line}"]):
                self.assertEqual(run(*words).stdout, run(line=line.encode()).stdout)
        self.assertEqual(run("--", "--a").stdout, run(line=b"--a").stdout)
        self.assertEqual(run("-a", "--type").stdout, run("--type", line=b"-a").stdout)

    def test_unknown_options_and_two_lines(self):
        self.assertIn("unrecognized arguments: --tpye", run("--tpye", "1").stderr.decode())
        self.assertIn("two lines of tokens, `1` and `-a`", run("1", "-a").stderr.decode())

    def test_declarations(self):
        result = run("--entry", "word", "--start", "1", "--flags", "3", "--word", "word32", "--no-end", "W")
        self.assertEqual(result.stdout.hex(), "010000000000000004000000" "010000000300000031000000" "35" "00")

    def test_what_cannot_be_read(self):
        for line, why in (
            ("a @ b", "line 1, character 3: `@` is no token of Penne"),
            ("a\n  ~", "line 2, character 3: `~` is no token of Penne"),
            ('"é" §', "line 1, character 5: `§` is no token of Penne"),
            ("1 12q3", "line 1, character 3: `12q3` does not end in an integer type"),
            ("12bool", "line 1, character 1: `12bool` does not end in an integer type"),
            ("00", "line 1, character 1: `00` does not end in an integer type"),
            ("0x", "line 1, character 1: `0x` does not end in an integer type"),
            ("#256", "line 1, character 1: `#256` has a number above 255"),
            ("1 2×", "line 1, character 3: no token follows `2×`"),
            ("SuffixedInteger:i33", "line 1, character 17: `i33` is no value type"),
            ("''", f"line 1, character 1: {penne_row.NO_CHAR}"),
            ("'ab'", f"line 1, character 1: {penne_row.NO_CHAR}"),
            ('"a', f"line 1, character 1: {penne_row.NO_STRING}"),
            (r'"\q"', f"line 1, character 1: {penne_row.NO_STRING}"),
            (r'"\u{D800}"', "line 1, character 2: this is no Unicode character"),
            (str(1 << 128), f"line 1, character 1: `{1 << 128}` has more than 128 bits"),
            ("0b" + 129 * "0", f"line 1, character 1: `0b{129 * '0'}` has more than 128 bits"),
        ):
            result = run(line)
            self.assertEqual(result.stderr.decode(), f"row: {why}\n")
            self.assertEqual((result.returncode, result.stdout), (2, b""))

    def test_most_tokens(self):
        self.assertEqual(len(run(4095 * "1 ").stdout), 12 + 2 * 4096)
        result = run(4096 * "1 ")
        self.assertEqual(result.stderr.decode(), "row: 4097 tokens, and penne-nodes takes at most 4096\n")
        self.assertEqual((result.returncode, result.stdout), (2, b""))

    def test_bad_cursor(self):
        for cursor in ("-1", str(1 << 32), "x"):
            self.assertEqual(run("--cursor", cursor, "1").returncode, 2)
