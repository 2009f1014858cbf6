"""Sorts the frames of a frame report: how many met which end, and which go to which desk.

    python3 tools/sort_frames.py REPORT [--wrong FILE] [--list] [--svg OUT.svg] [--title TEXT]

REPORT is the frame report's text. A spent frame goes to the code people. A certified frame that
turns out to be wrong goes to the antenna people, since no decoder could have done better. FILE
has the numbers of frames known to be wrong, separated by blanks or lines. `-` is standard input
or output; the picture goes there in the place of the text. What is refused is told in one line
on standard error, with status 1, and nothing is written.
"""

import argparse
from collections import Counter
from dataclasses import dataclass, field

import histogram
import picture
import plain
from histogram import percentage
from limits import CODE_FILE_REFUSALS, FRAME_REFUSALS, ROUNDS_LIMIT
from picture import Share
from plain import Refused, counted
from ranges import Ranges, wrapped
from report_text import Certified, RefusedFrame, Report

TITLE = "Frame report"
BAR = 50
TEXT_WIDTH = 100
INDENT = "  "


@dataclass
class Sorted:
    """Frame numbers by desk, and what the histograms count. For a refused code file there is
    its refusal alone."""

    code: tuple                                         # bits, checks, edges, or None
    code_refusal: int
    wrong_known: bool                                   # whether somebody said which are wrong
    kept: Ranges = field(default_factory=Ranges)        # certified, not known to be wrong
    wrong: Ranges = field(default_factory=Ranges)       # certified, known to be wrong
    spent: Ranges = field(default_factory=Ranges)
    refused: Ranges = field(default_factory=Ranges)
    refusals: Counter = field(default_factory=Counter)  # refusal numbers to frames
    rounds: Counter = field(default_factory=Counter)    # rounds to certified frames
    cuts: Counter = field(default_factory=Counter)      # cuts to certified frames

    def certified(self):
        return len(self.kept) + len(self.wrong)

    def frames(self):
        return self.certified() + len(self.spent) + len(self.refused)


def read_wrong(stream):
    """The frames known to be wrong, each with the line that names it."""
    wrong = {}
    for line_number, line in plain.lines(stream):
        for frame in plain.whole_numbers(line_number, line):
            if frame in wrong:
                raise Refused(f"line {line_number}: frame {frame} twice")
            wrong[frame] = line_number
    return wrong


def refuse_absent(wrong, frames):
    for frame, line_number in wrong.items():
        if not 0 <= frame < frames:
            raise Refused(f"line {line_number}: frame {frame} is not in the report, "
                          f"which has {counted(frames, 'frame')}")


def sort_frames(report, wrong):
    """`wrong` is None if nobody said which frames are. Spent frames go to the code people
    whether they are known to be wrong or not."""
    found = Sorted(report.code, report.code_refusal, wrong is not None)
    for frame, ending in enumerate(report.endings()):
        if isinstance(ending, Certified):
            (found.wrong if wrong and frame in wrong else found.kept).add(frame)
            found.rounds[ending.rounds] += 1
            found.cuts[ending.cuts] += 1
        elif isinstance(ending, RefusedFrame):
            found.refused.add(frame)
            found.refusals[ending.number] += 1
        else:
            found.spent.add(frame)
    return found


def histograms(found):
    """The two histograms' names and bins; a certificate has at most one cut a check."""
    if found.certified() == 0:
        return [("Rounds", []), ("Cuts", [])]
    _, checks, _ = found.code
    return [("Rounds", histogram.bins(found.rounds, 1, ROUNDS_LIMIT)),
            ("Cuts", histogram.bins(found.cuts, 0, checks))]


# --- text ------------------------------------------------------------------------------------

def sizes(found):
    bits, checks, edges = found.code
    return f"{counted(bits, 'bit')}, {counted(checks, 'check')}, {counted(edges, 'edge')}"


def refused_code(found):
    number = found.code_refusal
    return f"The code file was refused with {number}: {CODE_FILE_REFUSALS[number]}"


def refusal_texts(found):
    return [f"{frames:,} with {number}: {FRAME_REFUSALS[number]}"
            for number, frames in sorted(found.refusals.items())]


def count_lines(found):
    total = found.frames()
    width = max(6, len(f"{total:,}"))

    def line(frames, name):
        return f"{frames:>{width},}  {percentage(frames, total):>7}  {name}"
    yield f"{total:>{width},}  {'':7}  in all"
    yield line(found.certified(), "certified")
    if found.wrong_known:
        yield line(len(found.wrong), "  of which known to be wrong")
    yield line(len(found.spent), "spent")
    yield line(len(found.refused), "refused")
    yield from (f"{'':{width}}  {'':7}    {text}" for text in refusal_texts(found))


def histogram_lines(name, bins):
    yield f"{name} of the certified frames"
    total, most = sum(one.frames for one in bins), max((one.frames for one in bins), default=0)
    for one in bins:
        bar = "#" * -(-BAR * one.frames // most)
        count = f" {one.frames:,}  {percentage(one.frames, total)}" if one.frames else "0"
        yield f"{histogram.label(one):>11}  {bar}{count}"
    if not bins:
        yield INDENT + "none is certified"


def list_lines(heading, ranges, total, listed=True):
    yield f"{heading}: {counted(len(ranges), 'frame')}, {percentage(len(ranges), total)}"
    if listed:
        yield from (INDENT + line for line in wrapped(ranges.texts(), TEXT_WIDTH - len(INDENT)))


def desk_lines(found, list_certified):
    total = found.frames()
    yield from list_lines("For the code people, spent", found.spent, total)
    yield ""
    kept = "Certified; for the antenna people if one turns out to be wrong"
    if found.wrong_known:
        yield from list_lines("For the antenna people, certified and known to be wrong",
                              found.wrong, total)
        yield ""
        kept = "Certified, not known to be wrong"
    yield from list_lines(kept, found.kept, total, list_certified)
    yield ""
    yield from list_lines("For neither, refused", found.refused, total)


def text(found, title, list_certified):
    if found.code is None:
        return f"{title}\n{refused_code(found)}\n"
    lines = [title, sizes(found), "", *count_lines(found)]
    for name, bins in histograms(found):
        lines += ["", *histogram_lines(name, bins)]
    lines += ["", *desk_lines(found, list_certified)]
    return "".join(line + "\n" for line in lines)


# --- picture ---------------------------------------------------------------------------------

def shares(found):
    """The parts of the picture's bar."""
    kept = "not known to be wrong" if found.wrong_known else "to the antenna people if wrong"
    yield Share("certified", kept, len(found.kept), picture.BLUE)
    if found.wrong_known:
        yield Share("certified, wrong", "to the antenna people", len(found.wrong), picture.RED)
    yield Share("spent", "to the code people", len(found.spent), picture.AMBER)
    yield Share("refused", "; ".join(refusal_texts(found)), len(found.refused), picture.GREY)


def svg(found, title):
    if found.code is None:
        return picture.notice(title, refused_code(found))
    subtitle = f"{sizes(found)}; {counted(found.frames(), 'frame')}"
    return picture.page(title, subtitle, list(shares(found)), histograms(found))


# --- program ---------------------------------------------------------------------------------

def read(source, wrong_source):
    plain.refuse_shared("input", source, wrong_source)
    wrong = None
    if wrong_source is not None:
        with plain.reading(wrong_source) as stream:
            wrong = read_wrong(stream)
    with plain.reading(source) as stream:
        found = sort_frames(Report(stream), wrong)
    if wrong is not None:
        with plain.naming(wrong_source):
            refuse_absent(wrong, found.frames())
    return found


def show(given):
    if not given.title.isprintable():
        raise Refused("the title has characters that can't be shown")
    found = read(given.report, given.wrong)
    if given.svg is not None:
        plain.write(given.svg, svg(found, given.title).encode("utf-8"))
    if given.svg != plain.STANDARD:
        plain.write(plain.STANDARD, text(found, given.title, given.list).encode("utf-8"))


def main():
    parser = argparse.ArgumentParser(
        description="counts, histograms and desks of a frame report's frames",
        epilog="- is standard input or output.")
    parser.add_argument("report", metavar="REPORT", help="the report's text")
    parser.add_argument("--wrong", metavar="FILE", help="numbers of frames known to be wrong")
    parser.add_argument("--list", action="store_true",
                        help="also list the certified frames not known to be wrong")
    parser.add_argument("--svg", metavar="OUT.svg",
                        help="also write a picture; to standard output, in the text's place")
    parser.add_argument("--title", metavar="TEXT", default=TITLE,
                        help=f"the title of text and picture; '{TITLE}' if not given")
    given = parser.parse_args()
    plain.run("sort_frames", lambda: show(given))


if __name__ == "__main__":
    main()
