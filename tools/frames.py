"""Frames as text, one a line with its numbers separated by blanks, and as the bytes that the
decoder reads: signed 16-bit numbers, little-endian, one frame after the other.

    python3 tools/frames.py to-binary N [IN [OUT]]
    python3 tools/frames.py to-text N [IN [OUT]]

N is the code's number of bits. IN and OUT are standard input and output if not given, or `-`.
What is refused is told in one line on standard error, with status 1, and nothing is written.
"""

import argparse
import struct

import plain
from limits import BITS_LIMIT, FRAME_LIMIT
from plain import Refused


def packing(n):
    return struct.Struct(f"<{n}h")


def refuse_range(line_number, frame):
    for position, number in enumerate(frame, 1):
        if abs(number) > FRAME_LIMIT:
            raise Refused(f"line {line_number}: number {position} is {number}; "
                          f"a frame's numbers are {-FRAME_LIMIT} to {FRAME_LIMIT}")


def to_binary(n, stream):
    """The bytes of all the frames of a text."""
    packed = []
    for line_number, line in plain.lines(stream):
        frame = plain.whole_numbers(line_number, line)
        if len(frame) != n:
            raise Refused(f"line {line_number}: {plain.counted(len(frame), 'number')}, {n} wanted")
        refuse_range(line_number, frame)
        packed.append(packing(n).pack(*frame))
    return b"".join(packed)


def to_text(n, data):
    """The text of all the frames, a line each."""
    whole, rest = divmod(len(data), 2 * n)
    if rest != 0:
        raise Refused(f"line {whole + 1}: the last frame has {plain.counted(rest, 'byte')}, "
                      f"{2 * n} wanted")
    lines = []
    for line_number, frame in enumerate(packing(n).iter_unpack(data), 1):
        refuse_range(line_number, frame)
        lines.append(" ".join(map(str, frame)) + "\n")
    return "".join(lines).encode("ascii")


def convert(given):
    if not 1 <= given.n <= BITS_LIMIT:
        raise Refused(f"N is {given.n}; a code has 1 to {BITS_LIMIT} bits")
    with plain.reading(given.source) as stream:
        result = (to_binary(given.n, stream) if given.direction == "to-binary"
                  else to_text(given.n, stream.read()))
    plain.write(given.target, result)


def main():
    parser = argparse.ArgumentParser(
        description="frames of N numbers from text to the decoder's bytes, and back",
        epilog="IN and OUT are standard input and output if not given, or -.")
    parser.add_argument("direction", choices=["to-binary", "to-text"])
    parser.add_argument("n", metavar="N", type=int, help="the code's number of bits")
    parser.add_argument("source", metavar="IN", nargs="?", default=plain.STANDARD)
    parser.add_argument("target", metavar="OUT", nargs="?", default=plain.STANDARD)
    given = parser.parse_args()
    plain.run("frames", lambda: convert(given))


if __name__ == "__main__":
    main()
