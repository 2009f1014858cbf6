"""alist: both ways, round trips, what is accepted, and every refusal with its line."""

import io
import random
import tempfile
import unittest
from pathlib import Path

import alist
import codefile
from testing import HAMMING, LIMIT_TABLES, THREE_BITS, random_tables, refusal_of, run_tool

# The (7,4) Hamming code, padded, one list a line: lines 5 to 11 are columns, 12 to 14 rows.
HAMMING_TEXT = """7 3
3 4
1 1 2 1 2 2 3
4 4 4
1 0 0
2 0 0
1 2 0
3 0 0
1 3 0
2 3 0
1 2 3
1 3 5 7
2 3 6 7
4 5 6 7
"""


# Rows 1, 3 and 4 have no members: lines 8, 10 and 11.
EMPTY_ROWS = (3, [[], [0, 1, 2], [], []])
EMPTY_ROWS_TEXT = """3 4
1 3
1 1 1
0 3 0 0
2
2
2
0 0 0
1 2 3
0 0 0
0 0 0
"""


def read(text):
    return alist.read(io.BytesIO(text.encode("latin-1")))


def with_line(number, text):
    """The Hamming code's alist with one line in the place of another."""
    lines = HAMMING_TEXT.split("\n")
    lines[number - 1] = text
    return "\n".join(lines)


def up_to(number):
    return "".join(line + "\n" for line in HAMMING_TEXT.split("\n")[:number])


# What the message must be or begin with, and the alist.
LIMITS = [
    ("line 1: N is 0; a code file has 1 to 2048 bits", with_line(1, "0 3")),
    ("line 1: N is 2049; a code file has 1 to 2048 bits", with_line(1, "2049 3")),
    ("line 1: N is -7;", with_line(1, "-7 3")),
    ("line 1: M is 0; a code file has 1 to 2048 checks", with_line(1, "7 0")),
    ("line 1: M is 2049; a code file has 1 to 2048 checks", with_line(1, "7 2049")),
    ("line 3: column 4 has weight 0; in a code file a bit stands in 1 to 32 checks",
     with_line(3, "1 1 2 0 2 2 3")),
    ("line 3: column 7 has weight 33; in a code file a bit stands in 1 to 32 checks",
     with_line(3, "1 1 2 1 2 2 33")),
    ("line 4: row 2 has weight -1; in a code file a check has 0 to 32 members",
     with_line(4, "4 -1 4")),
    ("line 4: row 3 has weight 33; in a code file a check has 0 to 32 members",
     with_line(4, "4 4 33")),
    ("line 4: 8224 edges, too many from row 257 on; a code file has at most 8192",
     "257 257\n32 32\n" + 2 * ("32 " * 257 + "\n")),
]

MALFORMED = [
    ("line 1: the file ends where N and M should stand", ""),
    ("line 1: 'seven' is not a whole number", with_line(1, "seven 3")),
    ("line 1: '7.0' is not a whole number", with_line(1, "7.0 3")),
    ("line 1: '1_0' is not a whole number", with_line(1, "1_0 3")),
    ("line 1: '99999999999999999999...' is not a whole number", with_line(1, "9" * 5000 + " 3")),
    ("line 1: 1 number where N and M should stand", with_line(1, "7")),
    ("line 1: 3 numbers where N and M should stand (the field of a non-binary alist?)",
     with_line(1, "7 3 4")),
    ("line 3: 7 numbers where the greatest column weight", with_line(2, "")),
    ("line 2: the file ends where the greatest column weight", up_to(1)),
    ("line 2: 4 stated for the greatest column weight, which is 3", with_line(2, "4 4")),
    ("line 2: 3 stated for the greatest row weight, which is 4", with_line(2, "3 3")),
    ("line 3: 6 column weights, 7 wanted", with_line(3, "1 1 2 1 2 2")),
    ("line 3: 8 column weights, 7 wanted", with_line(3, "1 1 2 1 2 2 3 1")),
    ("line 4: 2 row weights, 3 wanted", with_line(4, "4 4")),
    ("line 4: the file ends where the row weights should stand", up_to(3)),
    ("line 4: the row weights add up to 11, the column weights to 12", with_line(4, "4 4 3")),
    ("line 4: the row weights add up to 8, the column weights to 12", with_line(4, "4 0 4")),
    ("line 4: the row weights add up to 0, the column weights to 1", "1 2\n1 0\n1\n0 0\n1\n"),
    ("line 5: 2 numbers beside 0 for column 1, 1 wanted (values", with_line(5, "1 1")),
    ("line 5: 0 numbers beside 0 for column 1, 1 wanted", with_line(5, "0 0 0")),
    ("line 7: 2 numbers beside 0 for column 2, 1 wanted", with_line(5, "")),
    ("line 7: 3 numbers beside 0 for column 3, 2 wanted", with_line(7, "1 2 3")),
    ("line 7: 1 number beside 0 for column 3, 2 wanted", with_line(7, "1 0 0")),
    ("line 7: 0 before the last number of column 3", with_line(7, "1 0 2")),
    ("line 7: 0 before the last number of column 3", with_line(7, "0 1 2 0")),
    ("line 7: column 3 lists row 4, 1 to 3 wanted", with_line(7, "1 4 0")),
    ("line 7: column 3 lists row -1, 1 to 3 wanted", with_line(7, "-1 2 0")),
    ("line 7: column 3 lists row 2 twice", with_line(7, "2 2 0")),
    ("line 11: 6 numbers beside 0 for column 7, 3 wanted (values of a non-binary alist?)",
     with_line(11, "1 1 2 1 3 1")),
    ("line 12: row 1 lists column 8, 1 to 7 wanted", with_line(12, "1 3 5 8")),
    ("line 12: row 1 lists column 5 twice", with_line(12, "1 5 5 7")),
    ("line 12: 3 numbers beside 0 for row 1, 4 wanted", with_line(12, "1 3 5")),
    ("line 12: 8 numbers beside 0 for row 1, 4 wanted", with_line(12, "1 3 5 7 2 3 6 7")),
    ("line 12: 2 numbers beside 0 for row 1, 4 wanted", with_line(12, "1 3\n5 7")),
    ("line 12: row 1 lists column 6, but column 6 (line 10) does not list row 1",
     with_line(12, "1 3 6 7")),
    ("line 13: row 2 lists column 1, but column 1 (line 5) does not list row 2",
     with_line(13, "1 3 6 7")),
    ("line 14: the file ends where the list of row 3 should stand", up_to(13)),
    ("line 15: text after the last row", HAMMING_TEXT + "1 2 3\n"),
    ("line 16: text after the last row", HAMMING_TEXT + "\nmade by hand\n"),
    ("line 8: byte 233 is not plain text", with_line(8, "3 0 \xe9")),
    ("line 8: '/' is not a whole number", with_line(8, "3 / 0")),
    ("line 8: ';' is not a whole number", with_line(8, "3 ; three")),
    ("line 2: byte 239 is not plain text", with_line(2, "\xef\xbb\xbf3 4")),
]


# Lines that are wrong where rows have no members.
EMPTY_MALFORMED = [
    ("line 9: 2 numbers beside 0 for row 2, 3 wanted", {9: "1 2 0"}),
    ("line 8: 1 number beside 0 for row 2, 3 wanted", {8: "1 0 0"}),
    ("line 10: text after the last row", {10: "0 1 0"}),
    ("line 11: text after the last row", {11: "3"}),
    ("line 12: text after the last row", {11: "0 0 0\n0 0 0"}),
    ("line 10: 'none' is not a whole number", {10: "none"}),
    ("line 9: row 2 lists column 3 twice", {8: "", 9: "1 3 3"}),
    ("line 12: the file ends where the list of row 2 should stand",
     {8: "", 9: "", 10: "", 11: "0"}),
    ("line 9: 0 numbers beside 0 for row 2, 3 wanted", {9: "0 0 0"}),
]


def empty_rows_with(lines):
    text = EMPTY_ROWS_TEXT.split("\n")
    return "\n".join(lines.get(number, line) for number, line in enumerate(text, 1))


class Refusals(unittest.TestCase):
    def expect(self, cases):
        for message, text in cases:
            with self.subTest(message=message):
                got = refusal_of(read, text)
                self.assertIsNotNone(got)
                self.assertEqual(got[:len(message)], message)

    def test_limits(self):
        self.expect(LIMITS)

    def test_malformed(self):
        self.expect(MALFORMED)

    def test_malformed_among_empty_rows(self):
        self.expect((message, empty_rows_with(lines)) for message, lines in EMPTY_MALFORMED)

    def test_no_damage_slips_through(self):
        """A number changed anywhere is refused."""
        words = HAMMING_TEXT.split()
        for place, word in enumerate(words):
            for other in {"0", "1", "2", "5", "8", "x"} - {word}:
                lines = iter(words[:place] + [other] + words[place + 1:])
                text = "".join(" ".join(next(lines) for _ in line.split()) + "\n"
                               for line in HAMMING_TEXT.strip().split("\n"))
                self.assertIsNotNone(refusal_of(read, text), text)


class Conversion(unittest.TestCase):
    def test_hamming(self):
        self.assertEqual(read(HAMMING_TEXT), HAMMING)
        self.assertEqual(alist.write(HAMMING).decode(), HAMMING_TEXT)

    def test_empty_rows(self):
        self.assertEqual(read(EMPTY_ROWS_TEXT), EMPTY_ROWS)
        self.assertEqual(alist.write(EMPTY_ROWS).decode(), EMPTY_ROWS_TEXT)

    def test_round_trip_is_exact(self):
        for table in [THREE_BITS, *LIMIT_TABLES, *random_tables(200)]:
            text, code = alist.write(table), codefile.write(table)
            self.assertEqual(codefile.write(read(text.decode())), code)
            self.assertEqual(alist.write(codefile.read(code)), text)


class Accepted(unittest.TestCase):
    """What is accepted beside what `write` writes; members always come out ascending."""

    def loosened(self, rng, line_of):
        """Random tables whose lines are passed through a change."""
        for table in [HAMMING, *random_tables(50)]:
            lines = alist.write(table).decode().split("\n")[:-1]
            text = "".join(line_of(rng, place, line) for place, line in enumerate(lines, 1))
            self.assertEqual(read(text), table)

    def test_padding_may_be_absent(self):
        self.loosened(None, lambda _, place, line: (
            line if place <= 4 else " ".join(word for word in line.split() if word != "0"))
            + "\n")

    def test_an_empty_row_may_have_no_line(self):
        """Each of the three lines there, blank, or left out; the next line is never lost."""
        for first in ("0\n", "0 0 0 0\n", "\n", "# empty\n", ""):
            for last in ("0\n0\n", "0 0\n", "\n\n", "\n0\n", "0\n# 1 2 3\n", ""):
                text = "".join(EMPTY_ROWS_TEXT.splitlines(keepends=True)[:7])
                self.assertEqual(read(text + first + "1 2 3\n" + last), EMPTY_ROWS)

    def test_many_empty_rows_without_lines(self):
        checks = [[]] * 1024 + [[0]] + [[]] * 1023
        weights = " ".join(str(len(members)) for members in checks)
        self.assertEqual(read(f"1 2048\n1 1\n1\n{weights}\n1025\n1\n"), (1, checks))

    def test_padding_of_any_length(self):
        self.loosened(random.Random(5), lambda rng, place, line: (
            line + (" 0" * rng.randint(0, 40) if place > 4 else "") + "\n"))

    def test_any_order_and_any_blanks(self):
        def line_of(rng, place, line):
            words = line.split()
            if place > 4:
                members = [word for word in words if word != "0"]
                rng.shuffle(members)
                words[:len(members)] = members
            return "\t" + "  ".join(words) + " \r\n"
        self.loosened(random.Random(2), line_of)

    def test_comments_and_blank_lines_anywhere(self):
        def line_of(rng, _, line):
            between = rng.choice(["", "\n", " \t\r\n\n", "# 7 3\n", "  % N M\n", "//\n\n",
                                  "#caf\xc3\xa9 \xff\n"])
            after = rng.choice(["", " # list", "% 1 2", " // 3 # 4", "#", " "])
            return between + line + after + rng.choice(["\n", "\r\n"])
        self.loosened(random.Random(6), line_of)
        self.assertEqual(read(HAMMING_TEXT + "\n# the end\n\n// \n"), HAMMING)

    def test_a_byte_order_mark(self):
        mark = "\xef\xbb\xbf"
        self.assertEqual(read(mark + HAMMING_TEXT), HAMMING)
        self.assertEqual(read(mark + "# made by hand\r\n" + HAMMING_TEXT), HAMMING)

    def test_a_last_line_without_an_end(self):
        self.assertEqual(read(HAMMING_TEXT.rstrip("\n")), HAMMING)

    def test_refusals_name_the_files_own_lines(self):
        """Three lines more before each line: line 5 is line 20, and so on."""
        def spaced(text):
            return "".join(f"# comment\n\n  // another\n{line}\n"
                           for line in text.strip("\n").split("\n"))
        for message, text in [
                ("line 4: N is 0", with_line(1, "0 3")),
                ("line 8: 4 stated for the greatest column", with_line(2, "4 4")),
                ("line 12: column 4 has weight 0", with_line(3, "1 1 2 0 2 2 3")),
                ("line 28: 3 numbers beside 0 for column 3", with_line(7, "1 2 3")),
                ("line 48: row 1 lists column 6, but column 6 (line 40) does not list row 1",
                 with_line(12, "1 3 6 7")),
                ("line 53: the file ends where the list of row 3", up_to(13)),
                ("line 60: text after the last row", HAMMING_TEXT + "1 2 3\n")]:
            got = refusal_of(read, spaced(text))
            self.assertEqual(got[:len(message)], message)


class Program(unittest.TestCase):
    def setUp(self):
        folder = tempfile.TemporaryDirectory()
        self.addCleanup(folder.cleanup)
        self.source, self.target = Path(folder.name) / "in", Path(folder.name) / "out"

    def test_both_ways(self):
        self.source.write_text(HAMMING_TEXT)
        self.assertEqual(run_tool("alist.py", "to-code", self.source, self.target), (0, b"", ""))
        self.assertEqual(self.target.read_bytes(), codefile.write(HAMMING))
        self.assertEqual(run_tool("alist.py", "to-alist", self.target, self.source), (0, b"", ""))
        self.assertEqual(self.source.read_text(), HAMMING_TEXT)

    def test_standard_input_and_output(self):
        code = codefile.write(HAMMING)
        self.assertEqual(run_tool("alist.py", "to-code", "-", "-", data=HAMMING_TEXT.encode()),
                         (0, code, ""))
        self.assertEqual(run_tool("alist.py", "to-alist", "-", self.target, data=code),
                         (0, b"", ""))
        self.assertEqual(run_tool("alist.py", "to-code", self.target, "-"), (0, code, ""))
        self.assertEqual(run_tool("alist.py", "to-alist", "-", "-"),
                         (1, b"", "alist: standard input: refused 1: code file under 4 bytes "
                                  "(0 bytes)\n"))

    def test_a_refusal_is_one_line_and_writes_nothing(self):
        for direction, data, message in [
                ("to-code", with_line(3, "1 1 2 0 2 2 3").encode(), "line 3: column 4"),
                ("to-alist", b"\0\0\1\0", "refused 2: n or m out of range (n is 0")]:
            self.source.write_bytes(data)
            status, output, errors = run_tool("alist.py", direction, self.source, self.target)
            self.assertEqual((status, output, errors.count("\n")), (1, b"", 1))
            self.assertTrue(errors.startswith(f"alist: {self.source}: {message}"), errors)
            self.assertFalse(self.target.exists())

    def test_a_missing_file(self):
        status, _, errors = run_tool("alist.py", "to-code", self.source, self.target)
        self.assertEqual((status, errors),
                         (1, f"alist: {self.source}: No such file or directory\n"))


if __name__ == "__main__":
    unittest.main()
