"""Random codewords, the channel's noise, and the channel as a program."""

import io
import math
import random
import tempfile
import unittest
from pathlib import Path

import alist
import channel
import codefile
import frames
import sample_codes
from codewords import Codewords, bits, meets_all
from limits import FRAME_LIMIT
from testing import HAMMING, THREE_BITS, random_tables, refusal_of, run_tool

ARRAY = sample_codes.array(13, 3)           # 39 checks, of which 37 are independent
ONE_WORD = (2, [[0], [0, 1]])


class Words(unittest.TestCase):
    def test_ranks(self):
        for table, rank in ((THREE_BITS, 1), (HAMMING, 3), (ARRAY, 37), (ONE_WORD, 2),
                            ((3, [[0, 1], [1, 2], [0, 2]]), 2),
                            ((3, [[], [0, 1, 2], []]), 1)):
            code = Codewords(table)
            self.assertEqual((code.rank(), code.dimension()), (rank, table[0] - rank))

    def test_random_words_are_codewords(self):
        rng = random.Random(1)
        for table in [ARRAY, *random_tables(50)]:
            code = Codewords(table)
            for _ in range(5):
                self.assertTrue(meets_all(table, code.random(rng)))

    def test_every_codeword_occurs(self):
        rng, code = random.Random(2), Codewords(HAMMING)
        all_words = {word for word in range(1 << 7) if meets_all(HAMMING, word)}
        self.assertEqual(len(all_words), 16)
        self.assertEqual({code.random(rng) for _ in range(400)}, all_words)

    def test_a_codeword_is_settled_as_it_is(self):
        rng, code = random.Random(3), Codewords(ARRAY)
        word = code.random(rng)
        self.assertEqual(code.settled(word), word)
        self.assertEqual(bits(0b1101, 6), [1, 0, 1, 1, 0, 0])


class Noise(unittest.TestCase):
    def test_deviation(self):
        # Rate 4/7 at 3 dB: 1 / sqrt(2 x 4/7 x 1.9953).
        self.assertAlmostEqual(channel.deviation(Codewords(HAMMING), 3), 0.66224, 4)
        # Rate 1/2 at 0 dB.
        self.assertEqual(channel.deviation(Codewords((2, [[0, 1]])), 0), 1)
        # The two dependent checks of the array code don't count.
        self.assertAlmostEqual(channel.deviation(Codewords(ARRAY), 0), math.sqrt(169 / 264))
        self.assertEqual(refusal_of(channel.deviation, Codewords(ONE_WORD), 3),
                         "the code has one codeword alone, so it has no rate")

    def test_what_is_received(self):
        rng, code = random.Random(4), Codewords(ARRAY)
        errors = []
        for _ in range(60):
            word, received = channel.send(code, rng, 0.5)
            errors += [amplitude - (-1 if bit else 1) for bit, amplitude in zip(word, received)]
        mean = sum(errors) / len(errors)
        variance = sum(error ** 2 for error in errors) / len(errors)
        # 10,140 draws: five standard deviations on either side.
        self.assertLess(abs(mean), 0.025)
        self.assertLess(abs(variance - 0.25), 0.018)

    def test_frame_numbers(self):
        for amplitude, gain, number in ((1, 3000, 3000), (-1, 3000, -3000), (0.0004, 1000, 0),
                                        (-0.0006, 1000, -1), (9, 1000, FRAME_LIMIT),
                                        (-9, 1000, -FRAME_LIMIT), (2, 1e308, FRAME_LIMIT)):
            self.assertEqual(channel.frame_number(amplitude, gain), number)


class Program(unittest.TestCase):
    def setUp(self):
        folder = tempfile.TemporaryDirectory()
        self.addCleanup(folder.cleanup)
        self.folder = Path(folder.name)
        self.code, self.sent = self.folder / "code", self.folder / "sent"
        self.code.write_bytes(codefile.write(ARRAY))

    def run_channel(self, *options, code=None, data=b""):
        return run_tool("channel.py", code or self.code, "--ebn0", 3, "--count", 4, *options,
                        data=data)

    def test_frames_and_sent_words(self):
        status, text, errors = self.run_channel("--sent", self.sent, "--gain", 1000)
        self.assertEqual((status, errors), (0, ""))
        self.assertEqual(len(frames.to_binary(169, io.BytesIO(text))), 4 * 2 * 169)
        words = self.sent.read_text().split("\n")
        self.assertEqual([len(word) for word in words], [169] * 4 + [0])
        for word, line in zip(words, text.decode().split("\n")[:-1]):
            self.assertTrue(meets_all(ARRAY, int(word[::-1], 2)))
            wrong = sum((int(number) < 0) != (bit == "1")
                        for bit, number in zip(word, line.split()))
            self.assertLess(wrong, 30)      # some 7 of 169 at 3 dB, 85 if the words were others

    def test_alist_code_file_and_standard_input(self):
        got = self.run_channel()
        other = self.folder / "alist"
        other.write_bytes(alist.write(ARRAY))
        for source, data in ((other, b""), ("-", codefile.write(ARRAY)),
                             ("-", alist.write(ARRAY)),
                             ("-", b"\xef\xbb\xbf# comment\r\n" + alist.write(ARRAY))):
            self.assertEqual(self.run_channel(code=source, data=data), got)

    def test_floats_are_the_same_frames(self):
        _, text, _ = self.run_channel("--gain", 500)
        _, floats, _ = self.run_channel("--floats")
        self.assertEqual([channel.frame_number(float(word), 500) for word in floats.split()],
                         [int(word) for word in text.split()])
        self.assertTrue(all(b"." in word for word in floats.split()))

    def test_seeds_and_outputs(self):
        _, first, _ = self.run_channel()
        self.assertEqual(self.run_channel("--seed", 1), (0, first, ""))
        self.assertNotEqual(self.run_channel("--seed", 2), (0, first, ""))
        target = self.folder / "frames"
        status, words, _ = self.run_channel("--frames", target, "--sent", "-")
        self.assertEqual((status, target.read_bytes(), len(words)), (0, first, 4 * 170))

    def test_refusals(self):
        for message, options in [
                ("standard output (-) is named twice", ["--sent", "-"]),
                ("--gain is 0.0, a number above 0 wanted", ["--gain", 0]),
                ("--gain is nan, a number above 0 wanted", ["--gain", "nan"]),
                ("--ebn0 is nan, -100 to 100 wanted", ["--ebn0", "nan"]),
                ("--ebn0 is -101.0, -100 to 100 wanted", ["--ebn0", -101]),
                ("--count is -1, 0 or more wanted", ["--count", -1])]:
            self.assertEqual(self.run_channel(*options), (1, b"", f"channel: {message}\n"))
        self.code.write_bytes(codefile.write(ONE_WORD))
        self.assertEqual(self.run_channel("--sent", self.sent),
                         (1, b"", f"channel: {self.code}: the code has one codeword alone, so "
                                  "it has no rate\n"))
        self.assertFalse(self.sent.exists())
        for data, message in ((b"", "line 1: the file ends"), (b"7 3\n", "line 2: the file ends"),
                              (b"\0\0\1\0", "refused 2: n or m out of range (n is 0")):
            status, output, errors = self.run_channel(code="-", data=data)
            self.assertEqual((status, output), (1, b""))
            self.assertTrue(errors.startswith(f"channel: standard input: {message}"), errors)

    def test_a_gain_is_not_for_floats(self):
        status, output, errors = self.run_channel("--floats", "--gain", 5)
        self.assertEqual((status, output), (2, b""))
        self.assertIn("not allowed with", errors)


if __name__ == "__main__":
    unittest.main()
