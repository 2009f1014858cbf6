"""Frame reports read line by line, and every refusal with its line."""

import io
import unittest

from report_text import SPENT, Certified, RefusedFrame, Report
from testing import refusal_of

REPORT = b"""bits 3 checks 2 edges 6
frame 0 certified 3 6000 1
frame 1 spent 1024
frame 2 certified 1 -30 0
frame 3 refused 9
frame 4 certified 11 9 2
frame 5 spent 1024
frame 6 refused 8
"""

HEAD = "bits 3 checks 2 edges 6\n"

# What the refusal says, and the report.
BAD_REPORTS = [
    ("line 1: the report is empty", ""),
    ("line 1: the report is empty", " \n\r\n"),
    ("line 1: '' is neither", "\n" + HEAD),
    ("line 1: 'hello' is neither", "hello\n"),
    ("line 1: 'bits 3 checks 2' is neither", "bits 3 checks 2\n"),
    ("line 1: 'bits 3 checks 2 edge...' is neither", HEAD.strip() + " 7\n"),
    ("line 1: bits 0, 1 to 2048 wanted", "bits 0 checks 2 edges 6\n"),
    ("line 1: checks 2049, 1 to 2048 wanted", "bits 3 checks 2049 edges 6\n"),
    ("line 1: edges 8193, 1 to 8192 wanted", "bits 3 checks 2 edges 8193\n"),
    ("line 1: a code file is never refused with 8", "refused 8\n"),
    ("line 1: a code file is never refused with 0", "refused 0\n"),
    ("line 2: text after a refused code file", "refused 3\nframe 0 spent 1024\n"),
    ("line 2: 'bits 3 checks 2 edge...' is no frame's line", HEAD + HEAD),
    ("line 2: '' is no frame's line", HEAD + "\nframe 0 spent 1024\n"),
    ("line 2: frame 1 where frame 0 should stand", HEAD + "frame 1 spent 1024\n"),
    ("line 3: frame 0 where frame 1 should stand", HEAD + "frame 0 spent 1024\n" * 2),
    ("line 2: 'spent 1023' is no frame's ending", HEAD + "frame 0 spent 1023\n"),
    ("line 2: 'running 5' is no frame's ending", HEAD + "frame 0 running 5\n"),
    ("line 2: 'certified 3 6000' is no frame's ending", HEAD + "frame 0 certified 3 6000\n"),
    ("line 2: 'certified 3 6000 1 1' is no frame's ending",
     HEAD + "frame 0 certified 3 6000 1 1\n"),
    ("line 2: 'certified 03 6000 1' is no frame's ending", HEAD + "frame 0 certified 03 6000 1\n"),
    ("line 2: rounds 0, 1 to 1024 wanted", HEAD + "frame 0 certified 0 6000 1\n"),
    ("line 2: rounds 1025, 1 to 1024 wanted", HEAD + "frame 0 certified 1025 6000 1\n"),
    ("line 2: agreement 24574, -24573 to 24573 wanted", HEAD + "frame 0 certified 1 24574 0\n"),
    ("line 2: agreement -24574, -24573 to 24573 wanted", HEAD + "frame 0 certified 1 -24574 0\n"),
    ("line 2: cuts 3, 0 to 2 wanted", HEAD + "frame 0 certified 1 6 3\n"),
    ("line 2: a frame is never refused with 7", HEAD + "frame 0 refused 7\n"),
    ("line 3: text after a short frame, which is the last",
     HEAD + "frame 0 refused 8\nframe 1 spent 1024\n"),
    ("line 2: byte 233 is not plain text", HEAD + "frame \xe9 spent 1024\n"),
]


def whole(data):
    """Code, its refusal and all endings."""
    report = Report(io.BytesIO(data))
    return report.code, report.code_refusal, list(report.endings())


class Reading(unittest.TestCase):
    def test_endings(self):
        wanted = ((3, 2, 6), None,
                  [Certified(3, 6000, 1), SPENT, Certified(1, -30, 0), RefusedFrame(9),
                   Certified(11, 9, 2), SPENT, RefusedFrame(8)])
        self.assertEqual(whole(REPORT), wanted)
        self.assertEqual(whole(b"\xef\xbb\xbf" + REPORT.replace(b"\n", b"\r\n") + b"\n"), wanted)

    def test_refused_code_files(self):
        for number in range(1, 8):
            self.assertEqual(whole(f"refused {number}\n".encode()), (None, number, []))

    def test_refusals(self):
        for message, text in BAD_REPORTS:
            with self.subTest(message=message):
                got = refusal_of(whole, text.encode("latin-1"))
                self.assertIsNotNone(got)
                self.assertEqual(got[:len(message)], message)


if __name__ == "__main__":
    unittest.main()
