"""The samples: their files fit together, and run_samples tells right from wrong."""

import io
import subprocess
import sys
import tempfile
import unittest
from collections import Counter
from pathlib import Path

import alist
import codefile
import frames
import sort_frames
from codewords import Codewords, meets_all
from limits import FRAME_LIMIT
from report_text import Certified, RefusedFrame, Report
from testing import SAMPLES, TOOLS

FOLDERS = sorted(path for path in SAMPLES.iterdir() if path.is_dir())
ARRAY_SIZE, ARRAY_LAYERS = 13, 3

# Ones of a codeword of least weight of the CCSDS code.
CCSDS_LEAST = [7, 10, 24, 48, 65, 66, 72, 78, 83, 98, 100, 112, 117, 118]

# A report program that knows the samples by their code files. The word it is given is put in
# the place of another in what it answers.
PRETENDER = """#!{python}
import pathlib, sys
data = sys.stdin.buffer.read()
for folder in pathlib.Path({samples!r}).iterdir():
    code = folder / "code.code"
    if code.exists() and data.startswith(code.read_bytes()):
        sys.stdout.write((folder / "report.txt").read_text().replace({word!r}, {other!r}))
"""


def table_of(folder):
    return codefile.read((folder / "code.code").read_bytes())


def report_of(folder):
    """Code and endings."""
    report = Report(io.BytesIO((folder / "report.txt").read_bytes()))
    return report.code, list(report.endings())


def wrong_of(folder):
    """The frames known to be wrong, or None."""
    path = folder / "wrong.txt"
    return sort_frames.read_wrong(io.BytesIO(path.read_bytes())) if path.exists() else None


def sorted_of(folder):
    report = Report(io.BytesIO((folder / "report.txt").read_bytes()))
    return sort_frames.sort_frames(report, wrong_of(folder))


def frame_bytes(folder):
    n, _ = table_of(folder)
    if (folder / "frames.txt").exists():
        return frames.to_binary(n, io.BytesIO((folder / "frames.txt").read_bytes()))
    return (folder / "frames.bin").read_bytes()


def numbers_of(own):
    """The numbers of one frame's bytes."""
    return [int.from_bytes(own[k:k + 2], "little", signed=True) for k in range(0, len(own), 2)]


def expected_refusals(n, data):
    """Refusals by frame number, from the bytes alone."""
    refused = {}
    for frame, at in enumerate(range(0, len(data), 2 * n)):
        own = data[at:at + 2 * n]
        if len(own) < 2 * n:
            refused[frame] = 8
        elif any(abs(number) > FRAME_LIMIT for number in numbers_of(own)):
            refused[frame] = 9
    return refused


class Codes(unittest.TestCase):
    def test_all_are_there(self):
        self.assertEqual([folder.name for folder in FOLDERS],
                         ["array", "ccsds", "hamming", "regular", "wifi"])

    def test_alist_and_code_file_are_the_same_table(self):
        for folder in FOLDERS:
            text = (folder / "code.alist").read_bytes()
            self.assertEqual(alist.read(io.BytesIO(text)), table_of(folder))
            self.assertEqual(alist.write(table_of(folder)), text)

    def shape(self, name):
        """n, m, rank, degrees of checks and degrees of bits."""
        n, checks = table_of(SAMPLES / name)
        in_checks = Counter(bit for members in checks for bit in members)
        return (n, len(checks), Codewords((n, checks)).rank(),
                Counter(len(members) for members in checks), Counter(in_checks.values()))

    def test_array(self):
        n, checks = table_of(SAMPLES / "array")
        self.assertEqual(n, ARRAY_SIZE ** 2)
        self.assertEqual(checks, [[ARRAY_SIZE * i + (a + i * j) % ARRAY_SIZE
                                   for i in range(ARRAY_SIZE)]
                                  for j in range(ARRAY_LAYERS) for a in range(ARRAY_SIZE)])

    def test_hamming_and_regular(self):
        self.assertEqual(table_of(SAMPLES / "hamming"),
                         (7, [[0, 2, 4, 6], [1, 2, 5, 6], [3, 4, 5, 6]]))
        n, m, _, of_checks, of_bits = self.shape("regular")
        self.assertEqual((n, m, of_checks, of_bits), (504, 252, {6: 252}, {3: 504}))

    def test_ccsds(self):
        self.assertEqual(self.shape("ccsds"), (128, 64, 64, {8: 64}, {3: 64, 5: 64}))
        # The code's least distance is 14; turning all blocks alike gives another codeword.
        for turn in range(16):
            ones = [bit // 16 * 16 + (bit + turn) % 16 for bit in CCSDS_LEAST]
            word = sum(1 << bit for bit in ones)
            self.assertEqual(word.bit_count(), 14)
            self.assertTrue(meets_all(table_of(SAMPLES / "ccsds"), word))

    def test_wifi(self):
        self.assertEqual(self.shape("wifi"), (648, 324, 324, {7: 216, 8: 108},
                                              {2: 297, 3: 270, 12: 81}))
        # The first and the last row of the first block row, and the dual diagonal's end.
        _, checks = table_of(SAMPLES / "wifi")
        self.assertEqual(checks[0], [0, 108, 135, 216, 297, 325, 351])
        self.assertEqual(checks[26], [26, 134, 161, 242, 323, 324, 377])
        self.assertEqual(checks[323][-2:], [324, 647])


class Files(unittest.TestCase):
    def test_reports_fit_codes_and_frames(self):
        for folder in FOLDERS:
            (n, checks), data = table_of(folder), frame_bytes(folder)
            code, endings = report_of(folder)
            self.assertEqual(code, (n, len(checks), sum(map(len, checks))))
            self.assertEqual(len(endings), -(-len(data) // (2 * n)))
            refused = {frame: ending.number for frame, ending in enumerate(endings)
                       if isinstance(ending, RefusedFrame)}
            self.assertEqual(refused, expected_refusals(n, data))

    def test_every_ending_occurs(self):
        found = [sorted_of(folder) for folder in FOLDERS]
        self.assertTrue(all(one.certified() and one.spent for one in found))
        self.assertEqual({number for one in found for number in one.refusals}, {8, 9})

    def test_the_weak_frame_is_certified_at_once(self):
        n, checks = table_of(SAMPLES / "regular")
        numbers = numbers_of(frame_bytes(SAMPLES / "regular")[24 * 2 * n:25 * 2 * n])
        self.assertEqual({abs(number) for number in numbers}, {2})
        word = sum(1 << bit for bit, number in enumerate(numbers) if number < 0)
        self.assertTrue(word != 0 and meets_all((n, checks), word))
        self.assertEqual(report_of(SAMPLES / "regular")[1][24], Certified(1, 2 * n, 0))

    def test_frames_known_to_be_wrong_are_certified(self):
        lists = [(folder, wrong_of(folder)) for folder in FOLDERS if wrong_of(folder) is not None]
        self.assertGreater(len(lists), 0)
        for folder, wrong in lists:
            _, endings = report_of(folder)
            self.assertTrue(wrong)
            self.assertTrue(all(isinstance(endings[frame], Certified) for frame in wrong))

    def test_pictures(self):
        for folder in FOLDERS:
            self.assertEqual((folder / "report.svg").read_text("utf-8"),
                             sort_frames.svg(sorted_of(folder), sort_frames.TITLE))

    def test_the_readme_counts(self):
        readme = (SAMPLES / "README.md").read_text()
        for folder in FOLDERS:
            found = sorted_of(folder)
            counts = [found.certified(), len(found.spent), len(found.refused)]
            row = [line for line in readme.split("\n") if line.startswith(f"| `{folder.name}` |")]
            self.assertEqual(len(row), 1)
            self.assertTrue(row[0].endswith(" | " + " | ".join(map(str, counts)) + " |"), row[0])


class RunSamples(unittest.TestCase):
    def run_with(self, word, other):
        """Status and output of run_samples with a pretender."""
        with tempfile.TemporaryDirectory() as folder:
            program = Path(folder) / "report"
            program.write_text(PRETENDER.format(python=sys.executable, samples=str(SAMPLES),
                                                word=word, other=other))
            program.chmod(0o755)
            done = subprocess.run([TOOLS / "run_samples", program], capture_output=True,
                                  text=True, check=False)
        return done.returncode, done.stdout

    def test_right(self):
        status, output = self.run_with("frame", "frame")
        self.assertEqual((status, output.count(": as expected\n")), (0, len(FOLDERS)))
        self.assertEqual(output.count("For the code people"), len(FOLDERS))

    def test_wrong(self):
        # Refusal 9 occurs in two of them.
        status, output = self.run_with("refused 9", "spent 1024")
        self.assertEqual((status, output.count(": the report differs\n")), (1, 2))

    def test_no_program(self):
        for path in (TOOLS / "README.md", TOOLS / "absent"):
            done = subprocess.run([TOOLS / "run_samples", path], capture_output=True, text=True,
                                  check=False)
            self.assertEqual((done.returncode, done.stdout), (1, ""))
            self.assertEqual(done.stderr, f"run_samples: {path} is no program; "
                                          "build it with 'tools/build'\n")


if __name__ == "__main__":
    unittest.main()
