"""The reference decoder's public calls in one place, written from document 01 alone.

    table.py        code files, frames, words, points          refusals 1-9, 15-17
    cut.py          parity inequalities, cut search, multiplier
    certificate.py  certificates, dual bound, gap, judge,      refusals 10-14
                    syndrome and agreement of a word
    rounds.py       the start, one round, the call for rounds  refusals 17, 41-44
    report.py       the frame report

As a program it is the frame report: `python3 reference/decoder.py < input`.
"""

import sys

from certificate import judge, syndrome, word_agreement
from cut import cut_search
from report import frame_report
from rounds import rounds, start
from table import Refused, parse_code_file

__all__ = ["answer", "cut_search", "frame_report", "judge", "parse_code_file", "rounds", "start",
           "syndrome", "word_agreement"]


def answer(call, *arguments):
    """The call's answer, or the text `refused K`."""
    try:
        return call(*arguments)
    except Refused as refusal:
        return str(refusal)


if __name__ == "__main__":
    sys.stdout.write(frame_report(sys.stdin.buffer.read()))
