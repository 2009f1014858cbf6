"""The code file: read back as written, and refusals 1 to 7 with their places."""

import io
import unittest

import alist
import codefile
from codefile import CodeFileRefused
from testing import HAMMING, LIMIT_TABLES, ROOT, THREE_BITS, random_tables


def numbers(*values):
    return b"".join(value.to_bytes(2, "little") for value in values)


# Number, what the message must name, the file.
REFUSED = [
    (1, "0 bytes", b""),
    (1, "3 bytes", b"\1\0\1"),
    (2, "n is 0", numbers(0, 1)),
    (2, "n is 2049", numbers(2049, 1, 0, 1, 0)),
    (2, "m is 0", numbers(1, 0)),
    (2, "m is 2049", numbers(1, 2049)),
    (5, "contents alone end at 12", numbers(2, 2, 0, 1)),
    (3, "a count above 32 (check 0 has count 33, 0 to 32 wanted)", numbers(40, 1, 0, 33)),
    (3, "check 1 has count 256", numbers(1, 2, 9, 1, 1, 256)),  # ahead of the wrong start
    (4, "check 0 starts at 1, 0 wanted", numbers(1, 1, 1, 1, 0)),
    (4, "check 1 starts at 2, 1 wanted", numbers(1, 2, 0, 1, 2, 1, 0, 0)),
    (4, "check 1 starts at 0, 1 wanted", numbers(1, 2, 0, 1, 0, 0, 0)),     # an empty check
    (4, "E is 8224", numbers(32, 257) + b"".join(numbers(32 * k, 32) for k in range(257))),
    (5, "8 bytes where the contents say 10", numbers(1, 1, 0, 1)),
    (5, "12 bytes where the contents say 10", numbers(1, 1, 0, 1, 0, 0)),
    (6, "check 0 has member 3, n is 3", numbers(3, 1, 0, 3, 0, 1, 3)),
    (6, "check 0 has member 1 after 1", numbers(3, 1, 0, 3, 0, 1, 1)),
    (6, "check 0 has member 0 after 2", numbers(3, 1, 0, 3, 1, 2, 0)),
    (7, "bit 2 stands in 0", numbers(3, 1, 0, 2, 0, 1)),
    (7, "bit 0 stands in 0", numbers(1, 1, 0, 0)),
    (7, "bit 1 stands in 0", codefile.write((2, [[], [0], []]))),
    (7, "bit 0 stands in 33", codefile.write((1, [[0]] * 33))),
]


def stored_files():
    """The code files that the proved code is run on: each has a 32-bit length before it."""
    data = (ROOT / "crates" / "case_code_files" / "stdin").read_bytes()
    at = 0
    while at < len(data):
        end = at + 4 + int.from_bytes(data[at:at + 4], "little")
        yield data[at + 4:end]
        at = end


def answer(data):
    """What the program `case_code_files` says of a file."""
    try:
        n, checks = codefile.read(data)
    except CodeFileRefused as refusal:
        return f"refused {refusal.number}"
    return f"bits {n} checks {len(checks)} edges {sum(map(len, checks))}"


class CodeFile(unittest.TestCase):
    def test_bytes(self):
        self.assertEqual(codefile.write(THREE_BITS),
                         bytes.fromhex("03 00 01 00 00 00 03 00 00 00 01 00 02 00"))

    def test_read_back(self):
        for table in [THREE_BITS, HAMMING, *LIMIT_TABLES, *random_tables(200)]:
            self.assertEqual(codefile.read(codefile.write(table)), table)

    def test_empty_checks(self):
        self.assertEqual(codefile.read(numbers(2, 4, 0, 0, 0, 2, 2, 0, 2, 0, 0, 1)),
                         (2, [[], [0, 1], [], []]))

    def test_refusals(self):
        for number, place, data in REFUSED:
            with self.subTest(place=place), self.assertRaises(CodeFileRefused) as caught:
                codefile.read(data)
            self.assertEqual(caught.exception.number, number)
            self.assertIn(place, str(caught.exception))
        self.assertEqual({number for number, _, _ in REFUSED}, set(range(1, 8)))

    def test_the_proved_codes_answers(self):
        wanted = (ROOT / "crates" / "case_code_files" / "stdout").read_text().splitlines()
        self.assertEqual([answer(data) for data in stored_files()], wanted)
        self.assertGreater(len(wanted), 0)

    def test_stored_files_through_alist(self):
        for data in stored_files():
            if answer(data).startswith("bits"):
                text = io.BytesIO(alist.write(codefile.read(data)))
                self.assertEqual(codefile.write(alist.read(text)), data)


if __name__ == "__main__":
    unittest.main()
