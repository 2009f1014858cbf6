"""The frame report's text, read line by line, however long it is (docs/FORMATS.md)."""

import re
from typing import NamedTuple

import plain
from limits import (BITS_LIMIT, CHECKS_LIMIT, CODE_FILE_REFUSALS, EDGES_LIMIT, FRAME_LIMIT,
                    FRAME_REFUSALS, ROUNDS_LIMIT, SHORT_FRAME)
from plain import Refused

NUMBER = r"(?:0|[1-9][0-9]{0,8})"
CODE_LINE = re.compile(f"bits ({NUMBER}) checks ({NUMBER}) edges ({NUMBER})")
REFUSED_LINE = re.compile(f"refused ({NUMBER})")
CERTIFIED = f"certified ({NUMBER}) (-?{NUMBER}) ({NUMBER})"
FRAME_LINE = re.compile(
    f"frame ({NUMBER}) (?:{CERTIFIED}|spent {ROUNDS_LIMIT}|refused ({NUMBER}))")
ANY_ENDING = re.compile(f"frame {NUMBER} (.*)")


class Certified(NamedTuple):
    """A frame whose word comes with a certificate of so many cuts."""

    rounds: int
    agreement: int
    cuts: int


class Spent(NamedTuple):
    """A frame whose rounds brought no certificate."""


class RefusedFrame(NamedTuple):
    """A frame that was not decoded, with the refusal's number."""

    number: int


SPENT = Spent()
LAST = RefusedFrame(SHORT_FRAME)            # no frame follows a short one


class Report:
    """The first line is read at once, the frames as they are asked for."""

    def __init__(self, stream):
        self.lines = plain.lines(stream)
        _, first = next(self.lines, (1, None))
        refuse_unless(first is not None, 1, "the report is empty")
        self.code = self.code_refusal = None
        refusal = REFUSED_LINE.fullmatch(first)
        if refusal:
            self.code_refusal = read_code_refusal(int(refusal[1]))
            refuse_unless(next(self.lines, None) is None, 2, "text after a refused code file")
        else:
            self.code = read_code(first)

    def endings(self):
        """What became of each frame, in order; each line is refused as it is met."""
        ending = None
        for frame, (line_number, line) in enumerate(self.lines):
            refuse_unless(ending != LAST, line_number,
                          "text after a short frame, which is the last")
            ending = read_ending(self.code, frame, line_number, line)
            yield ending


def read_code_refusal(number):
    refuse_unless(number in CODE_FILE_REFUSALS, 1, f"a code file is never refused with {number}")
    return number


def read_code(line):
    """Bits, checks and edges."""
    match = CODE_LINE.fullmatch(line)
    refuse_unless(match, 1, f"{plain.quoted(line)} is neither 'bits N checks M edges E' "
                            "nor 'refused N'")
    code = tuple(map(int, match.groups()))
    for name, number, limit in zip(("bits", "checks", "edges"), code,
                                   (BITS_LIMIT, CHECKS_LIMIT, EDGES_LIMIT)):
        refuse_range(1, name, number, 1, limit)
    return code


def read_ending(code, frame, line_number, line):
    match = FRAME_LINE.fullmatch(line)
    if not match:
        refuse_line(line_number, line)
    stated, rounds, agreement, cuts, refusal = match.groups()
    if int(stated) != frame:
        raise Refused(f"line {line_number}: frame {stated} where frame {frame} should stand")
    if rounds is not None:
        ending = Certified(int(rounds), int(agreement), int(cuts))
        refuse_certified(code, line_number, ending)
        return ending
    if refusal is None:
        return SPENT
    refuse_unless(int(refusal) in FRAME_REFUSALS, line_number,
                  f"a frame is never refused with {refusal}")
    return RefusedFrame(int(refusal))


def refuse_line(line_number, line):
    ending = ANY_ENDING.fullmatch(line)
    refuse_unless(ending, line_number, f"{plain.quoted(line)} is no frame's line")
    raise Refused(f"line {line_number}: {plain.quoted(ending[1])} is no frame's ending")


def refuse_certified(code, line_number, ending):
    bits, checks, _ = code
    most = FRAME_LIMIT * bits
    refuse_range(line_number, "rounds", ending.rounds, 1, ROUNDS_LIMIT)
    refuse_range(line_number, "agreement", ending.agreement, -most, most)
    refuse_range(line_number, "cuts", ending.cuts, 0, checks)


def refuse_unless(condition, line_number, reason):
    if not condition:
        raise Refused(f"line {line_number}: {reason}")


def refuse_range(line_number, name, number, low, high):
    if not low <= number <= high:
        raise Refused(f"line {line_number}: {name} {number}, {low} to {high} wanted")
