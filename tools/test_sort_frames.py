"""Frame reports counted and sorted, and the sorter as a program."""

import io
import subprocess
import sys
import tempfile
import unittest
import xml.etree.ElementTree as ElementTree
from pathlib import Path

import sort_frames
from report_text import Report
from test_report_text import HEAD, REPORT
from testing import TOOLS, refusal_of, run_tool

WHOLE_TEXT = """Frame report
3 bits, 2 checks, 6 edges

     7           in all
     3   42.9 %  certified
     1   14.3 %    of which known to be wrong
     2   28.6 %  spent
     2   28.6 %  refused
                   1 with 8: frame not n long
                   1 with 9: frame number out of range

Rounds of the certified frames
          1  ################################################## 1  33.3 %
          2  0
        3-4  ################################################## 1  33.3 %
        5-8  0
       9-16  ################################################## 1  33.3 %
      17-32  0
      33-64  0
     65-128  0
    129-256  0
    257-512  0
   513-1024  0

Cuts of the certified frames
          0  ################################################## 1  33.3 %
          1  ################################################## 1  33.3 %
          2  ################################################## 1  33.3 %

For the code people, spent: 2 frames, 28.6 %
  1, 5

For the antenna people, certified and known to be wrong: 1 frame, 14.3 %
  4

Certified, not known to be wrong: 2 frames, 28.6 %

For neither, refused: 2 frames, 28.6 %
  3, 6
"""


def report(data):
    return Report(io.BytesIO(data))


def long_report(frames):
    """Every tenth frame is spent; of the others one in a hundred takes 700 rounds."""
    lines = [f"frame {frame} " + ("spent 1024" if frame % 10 == 0 else
                                  f"certified {700 if frame % 100 == 1 else 5} 9 1")
             for frame in range(frames)]
    return "".join([HEAD, *(line + "\n" for line in lines)]).encode()


class Sorting(unittest.TestCase):
    def sorted_lists(self, wrong):
        found = sort_frames.sort_frames(report(REPORT), wrong)
        return [", ".join(ranges.texts())
                for ranges in (found.kept, found.wrong, found.spent, found.refused)]

    def test_without_and_with_known_wrong(self):
        self.assertEqual(self.sorted_lists(None), ["0, 2, 4", "", "1, 5", "3, 6"])
        # A spent frame stays with the code people, a refused one with nobody.
        self.assertEqual(self.sorted_lists({0, 1, 3}), ["2, 4", "0", "1, 5", "3, 6"])
        self.assertEqual(self.sorted_lists(set()), ["0, 2, 4", "", "1, 5", "3, 6"])

    def test_counts(self):
        found = sort_frames.sort_frames(report(REPORT), None)
        self.assertEqual((found.frames(), found.certified()), (7, 3))
        self.assertEqual((found.rounds, found.cuts, found.refusals),
                         ({1: 1, 3: 1, 11: 1}, {0: 1, 1: 1, 2: 1}, {8: 1, 9: 1}))

    def test_lists_of_wrong_frames(self):
        def read(data):
            wrong = sort_frames.read_wrong(io.BytesIO(data))
            sort_frames.refuse_absent(wrong, 7)
            return wrong
        self.assertEqual(read(b"4\n0 2\n"), {4: 1, 0: 2, 2: 2})
        self.assertEqual(read(b""), {})
        for message, data in [
                ("line 2: frame 7 is not in the report, which has 7 frames", b"4\n7\n"),
                ("line 1: frame -1 is not in the report, which has 7 frames", b"-1\n"),
                ("line 3: frame 4 twice", b"4\n2\n4\n"),
                ("line 1: 'four' is not a whole number", b"four\n")]:
            self.assertEqual(refusal_of(read, data), message)


class Text(unittest.TestCase):
    def text(self, data, list_certified=False):
        found = sort_frames.sort_frames(report(data), None)
        return sort_frames.text(found, "Frame report", list_certified).split("\n")

    def test_refused_code_files(self):
        for number in range(1, 8):
            lines = self.text(f"refused {number}\n".encode())
            self.assertTrue(lines[1].startswith(f"The code file was refused with {number}: "))

    def test_none_certified(self):
        self.assertEqual(self.text(HEAD.encode()).count("  none is certified"), 2)

    def test_a_long_report_stays_short(self):
        lines = self.text(long_report(2000))
        self.assertIn("   513-1024  # 20  1.1 %", lines)
        self.assertIn("        5-8  " + "#" * 50 + " 1,780  98.9 %", lines)
        self.assertIn(" 1,800   90.0 %  certified", lines)
        self.assertLessEqual(max(map(len, lines)), sort_frames.TEXT_WIDTH)
        certified = next(place for place, line in enumerate(lines) if line.startswith("Certified"))
        self.assertTrue(lines[certified].endswith(": 1,800 frames, 90.0 %"))
        self.assertEqual(lines[certified + 1], "")

    def test_certified_frames_are_listed_if_wanted(self):
        lines = self.text(long_report(31), list_certified=True)
        self.assertIn("  1-9, 11-19, 21-29", lines)
        self.assertIn("  0, 10, 20, 30", lines)


class Program(unittest.TestCase):
    def setUp(self):
        folder = tempfile.TemporaryDirectory()
        self.addCleanup(folder.cleanup)
        self.folder = Path(folder.name)
        self.report, self.wrong = self.folder / "report", self.folder / "wrong"
        self.report.write_bytes(REPORT)
        self.wrong.write_text("4\n1\n")

    def test_text(self):
        for source, wrong, data in ((self.report, self.wrong, b""), ("-", self.wrong, REPORT),
                                    (self.report, "-", b"4\n1\n")):
            got = run_tool("sort_frames.py", source, "--wrong", wrong, data=data)
            self.assertEqual(got, (0, WHOLE_TEXT.encode(), ""))

    def test_list_and_title(self):
        _, output, _ = run_tool("sort_frames.py", self.report, "--list", "--title", "Buoy \u00e4")
        self.assertEqual(output.decode().split("\n")[0], "Buoy \u00e4")
        self.assertIn(b"\n  0, 2, 4\n", output)

    def test_picture_in_a_file_or_in_the_texts_place(self):
        picture = self.folder / "out.svg"
        status, output, errors = run_tool("sort_frames.py", self.report, "--svg", picture,
                                          "--title", "A < B")
        self.assertEqual((status, errors, output.split(b"\n")[0]), (0, "", b"A < B"))
        got = run_tool("sort_frames.py", self.report, "--svg", "-", "--title", "A < B")
        self.assertEqual(got, (0, picture.read_bytes(), ""))
        words = [element.text for element in ElementTree.fromstring(got[1]).iter()]
        self.assertIn("A < B", words)

    def test_refusals(self):
        self.assertEqual(run_tool("sort_frames.py", "-", data=b"bits\n"),
                         (1, b"", "sort_frames: standard input: line 1: 'bits' is neither "
                                  "'bits N checks M edges E' nor 'refused N'\n"))
        self.wrong.write_text("8\n")
        picture = self.folder / "out.svg"
        self.assertEqual(run_tool("sort_frames.py", self.report, "--wrong", self.wrong, "--svg",
                                  picture),
                         (1, b"", f"sort_frames: {self.wrong}: line 1: frame 8 is not in the "
                                  "report, which has 7 frames\n"))
        self.assertFalse(picture.exists())
        self.assertEqual(run_tool("sort_frames.py", "-", "--wrong", "-"),
                         (1, b"", "sort_frames: standard input (-) is named twice\n"))
        self.assertEqual(run_tool("sort_frames.py", self.report, "--title", "a\nb"),
                         (1, b"", "sort_frames: the title has characters that can't be shown\n"))
        self.assertEqual(run_tool("sort_frames.py", self.folder / "absent"),
                         (1, b"", f"sort_frames: {self.folder / 'absent'}: No such file or "
                                  "directory\n"))

    def test_a_reader_that_has_seen_enough(self):
        self.report.write_bytes(long_report(100_000))
        with subprocess.Popen([sys.executable, TOOLS / "sort_frames.py", self.report],
                              stdout=subprocess.PIPE, stderr=subprocess.PIPE) as running:
            running.stdout.close()
            self.assertEqual(running.stderr.read(), b"")
        self.assertEqual(running.returncode, 1)


if __name__ == "__main__":
    unittest.main()
