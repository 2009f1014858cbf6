"""Sends random codewords of a code over a Gaussian channel, for measurements.

    python3 tools/channel.py CODE --ebn0 DB --count COUNT [--seed SEED]
        [--gain GAIN | --floats] [--frames OUT] [--sent OUT]

CODE is an alist or a code file. A bit 0 is sent as 1, a bit 1 as -1; the noise has the variance
1 / (2 R Eb/N0), where R is the code's true rate: dependent checks count once. A frame's numbers
are what was received times the gain, rounded, and clipped to the frames' limits; with --floats
they are what was received, with nothing lost. Frames are one a line, and so are the sent words,
as characters 0 and 1. Words and noise depend on code, seed and Eb/N0 alone, whatever the gain.

`-` is standard input or output. What is refused is told in one line on standard error, with
status 1, and nothing is written.
"""

import argparse
import io
import math
import os
import random

import alist
import codefile
import codewords
import plain
from codewords import Codewords
from limits import FRAME_LIMIT
from plain import Refused

GAIN = 3000
FIRST_LETTER = 9                # no text has a byte below a tab


def read_code(data):
    """The table of an alist or of a code file, whose n and m have high bytes of 0 to 8."""
    if any(byte < FIRST_LETTER for byte in data[:4]):
        return codefile.read(data)
    return alist.read(io.BytesIO(data))


# --- channel ---------------------------------------------------------------------------------

def deviation(code, ebn0):
    """The noise's standard deviation at so many decibels per information bit."""
    if code.dimension() == 0:
        raise Refused("the code has one codeword alone, so it has no rate")
    rate = code.dimension() / code.n
    return math.sqrt(1 / (2 * rate * 10 ** (ebn0 / 10)))


def send(code, rng, noise):
    """A codeword and what is received of it."""
    word = codewords.bits(code.random(rng), code.n)
    return word, [1 - 2 * bit + rng.gauss(0, noise) for bit in word]


def frame_number(amplitude, gain):
    return round(max(-FRAME_LIMIT, min(FRAME_LIMIT, amplitude * gain)))


def frame_text(received, gain):
    """A frame's line; without a gain, of floats."""
    return " ".join(map(repr, received) if gain is None
                    else (str(frame_number(amplitude, gain)) for amplitude in received))


# --- program ---------------------------------------------------------------------------------

def refuse_options(given):
    plain.refuse_shared("output", given.frames, given.sent)
    if not -100 <= given.ebn0 <= 100:
        raise Refused(f"--ebn0 is {given.ebn0}, -100 to 100 wanted")
    if not 0 < given.gain < math.inf:
        raise Refused(f"--gain is {given.gain}, a number above 0 wanted")
    if given.count < 0:
        raise Refused(f"--count is {given.count}, 0 or more wanted")


def read(source, ebn0):
    """The codewords of a code, and the noise at so many decibels."""
    with plain.reading(source) as stream:
        code = Codewords(read_code(stream.read()))
        return code, deviation(code, ebn0)


def work(given):
    refuse_options(given)
    code, noise = read(given.code, given.ebn0)
    rng = random.Random(given.seed)
    gain = None if given.floats else given.gain
    with plain.writing(given.frames) as frames, plain.writing(given.sent) as sent:
        for _ in range(given.count):
            word, received = send(code, rng, noise)
            frames.write(f"{frame_text(received, gain)}\n".encode("ascii"))
            sent.write(bytes(ord("0") + bit for bit in word) + b"\n")


def main():
    parser = argparse.ArgumentParser(
        description="random codewords over a Gaussian channel, as frames to decode",
        epilog="- is standard input or output.")
    parser.add_argument("code", metavar="CODE", help="an alist or a code file")
    parser.add_argument("--ebn0", metavar="DB", type=float, required=True,
                        help="energy per information bit over noise density, in decibels")
    parser.add_argument("--count", type=int, required=True, help="how many frames")
    parser.add_argument("--seed", type=int, default=1, help="1 if not given")
    scale = parser.add_mutually_exclusive_group()
    scale.add_argument("--gain", type=float, default=GAIN,
                       help=f"frame number of an amplitude of 1; {GAIN} if not given")
    scale.add_argument("--floats", action="store_true",
                       help="write the received amplitudes in the place of whole numbers")
    parser.add_argument("--frames", metavar="OUT", default=plain.STANDARD,
                        help="where the frames go; standard output if not given")
    parser.add_argument("--sent", metavar="OUT", default=os.devnull,
                        help="where the sent words go; nowhere if not given")
    given = parser.parse_args()
    plain.run("channel", lambda: work(given))


if __name__ == "__main__":
    main()
