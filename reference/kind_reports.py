"""Kinds report and case_report: standard inputs of the frame report program.

Document 01, 'The frame report': a code file, then frames, with nothing between them.
"""

import make_inputs as inputs
import make_tables as tables
from make_tables import code_file
from prng import Prng
from report import frame_report
from table import FRAME_LIMIT


def frame_bytes(frame):
    return b"".join(number.to_bytes(2, "little", signed=True) for number in frame)


def report():
    """Document 01's own example of three frames."""
    frames = [[4000, 4000, -2000], [10, 10, 10], [0, 0, 0]]
    data = code_file(tables.three_bits()) + b"".join(map(frame_bytes, frames))
    return data, frame_report(data)


def hard_frame(rng, n, size, errors):
    """Hard decisions of one size; `errors` of 1,000 bits lean to the wrong side."""
    return [-size if rng.chance(errors, 1000) else size for _ in range(n)]


def long_frames(rng, table):
    """Frames of mixed quality.  Frame 3 is frame 2 negated under a codeword, so its line must
    be the same; frames 4 and 8 have a number out of range."""
    n = table[0]
    codeword = inputs.random_codeword(rng, table)
    quiet, middling, noisy = (inputs.channel_frame(rng, n, mean, spread)
                              for mean, spread in [(3000, 3000), (3000, 4000), (2500, 4000)])
    return [inputs.channel_frame(rng, n, 5000, 1500), quiet, middling,
            inputs.negated_under(middling, codeword), quiet[:-1] + [FRAME_LIMIT + 1], noisy,
            hard_frame(rng, n, 4000, 40), inputs.channel_frame(rng, n, 1500, 4000),
            [-32768] + quiet[1:], hard_frame(rng, n, 300, 40),
            inputs.negated_under([FRAME_LIMIT] * n, codeword)]


def weak_frames(rng, table):
    """Numbers below the bits' degree, which is 3: 2 with the signs of the zero word and of another
    codeword, which round 1 certifies, and 1, which stays at spin 0."""
    n = table[0]
    return [[2] * n, inputs.negated_under([2] * n, inputs.other_codeword(rng, table)), [1] * n]


def long_input():
    """A (3,6)-regular code of 2,048 bits and fourteen frames, the last three of them weak; a
    fifteenth ends early, in the middle of its last number."""
    rng = Prng(20_05)
    table = tables.half_rate(rng)
    frames = long_frames(rng, table)
    short = frame_bytes(hard_frame(rng, table[0], 9, 0))[:-1]
    frames += weak_frames(Prng(20_09), table)
    return code_file(table) + b"".join(map(frame_bytes, frames)) + short


def case_report():
    data = long_input()
    return data, frame_report(data)
