"""Frames as text and as bytes."""

import io
import random
import tempfile
import unittest
from pathlib import Path

import frames
from testing import refusal_of, run_tool

# What is refused, and the text of frames of three numbers.
BAD_TEXT = [
    ("line 1: 2 numbers, 3 wanted", b"1 2\n"),
    ("line 2: 4 numbers, 3 wanted", b"1 2 3\n1 2 3 4\n"),
    ("line 2: 0 numbers, 3 wanted", b"1 2 3\n\n1 2 3\n"),
    ("line 2: number 3 is 8192; a frame's numbers are -8191 to 8191", b"1 2 3\n1 2 8192\n"),
    ("line 1: number 1 is -8192; a frame's numbers are -8191 to 8191", b"-8192 0 0\n"),
    ("line 1: '0x10' is not a whole number", b"0x10 0 0\n"),
    ("line 1: '1.5' is not a whole number", b"1.5 0 0\n"),
    ("line 1: '1,2,3' is not a whole number", b"1,2,3\n"),
    ("line 1: byte 226 is not plain text", "\u22125 0 0\n".encode()),
]

BAD_BYTES = [
    ("line 2: the last frame has 1 byte, 6 wanted", bytes(7)),
    ("line 1: the last frame has 5 bytes, 6 wanted", bytes(5)),
    ("line 2: number 1 is 8192; a frame's numbers are -8191 to 8191",
     bytes(6) + b"\0\x20" + bytes(4)),
    ("line 1: number 2 is -32768; a frame's numbers are -8191 to 8191", b"\0\0\0\x80\0\0"),
]


def to_binary(n, text):
    return frames.to_binary(n, io.BytesIO(text))


class Frames(unittest.TestCase):
    def test_bytes(self):
        data = bytes.fromhex("A0 0F A0 0F 30 F8  0A 00 0A 00 0A 00  00 00 00 00 00 00")
        text = b"4000 4000 -2000\n10 10 10\n0 0 0\n"
        self.assertEqual(to_binary(3, text), data)
        self.assertEqual(to_binary(3, b"\xef\xbb\xbf" + text.replace(b"\n", b" \r\n")), data)
        self.assertEqual(frames.to_text(3, data), text)

    def test_round_trip(self):
        rng = random.Random(3)
        for n in (1, 2, 7, 169, 2048):
            numbers = [rng.choice([-8191, 8191, 0, rng.randint(-8191, 8191)])
                       for _ in range(3 * n)]
            text = "".join(" ".join(map(str, numbers[k:k + n])) + "\n"
                           for k in range(0, 3 * n, n)).encode()
            self.assertEqual(frames.to_text(n, to_binary(n, text)), text)

    def test_no_frame(self):
        self.assertEqual(to_binary(3, b""), b"")
        self.assertEqual(frames.to_text(3, b""), b"")

    def test_refusals(self):
        for work, cases in ((to_binary, BAD_TEXT), (frames.to_text, BAD_BYTES)):
            for message, data in cases:
                with self.subTest(message=message):
                    self.assertEqual(refusal_of(work, 3, data), message)

    def test_program(self):
        text, data = b"1 -1\n", b"\1\0\xff\xff"
        with tempfile.TemporaryDirectory() as folder:
            source, target = Path(folder) / "in", Path(folder) / "out"
            source.write_bytes(text)
            for files in ([], ["-"], ["-", "-"], [source], [source, "-"]):
                self.assertEqual(run_tool("frames.py", "to-binary", 2, *files, data=text),
                                 (0, data, ""))
            self.assertEqual(run_tool("frames.py", "to-binary", 2, source, target), (0, b"", ""))
            self.assertEqual(target.read_bytes(), data)
            self.assertEqual(run_tool("frames.py", "to-text", 2, target), (0, text, ""))

    def test_refusals_of_the_program(self):
        with tempfile.TemporaryDirectory() as folder:
            source, target = Path(folder) / "in", Path(folder) / "out"
            source.write_bytes(b"1 -1\n1\n")
            self.assertEqual(run_tool("frames.py", "to-binary", 2, source, target),
                             (1, b"", f"frames: {source}: line 2: 1 number, 2 wanted\n"))
            self.assertFalse(target.exists())
        self.assertEqual(run_tool("frames.py", "to-text", 2, data=b"1"),
                         (1, b"", "frames: standard input: line 1: the last frame has 1 byte, "
                                  "4 wanted\n"))
        self.assertEqual(run_tool("frames.py", "to-binary", 2049),
                         (1, b"", "frames: N is 2049; a code has 1 to 2048 bits\n"))


if __name__ == "__main__":
    unittest.main()
