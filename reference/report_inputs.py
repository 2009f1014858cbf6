"""Standard inputs of the frame report, most of them bad, put to the report program.

    python3 reference/report_inputs.py PROGRAM   fails if a report is not the reference's

Document 01, 'The frame report'.  An input tells what each line of its report must be about: it
was made for that, so neither decoder is asked.  On standard input surplus bytes are frames:
refusal 5 is for an input that ends early, and no fault here makes a code file longer.
"""

import subprocess
import sys
from collections import namedtuple
from itertools import zip_longest

import make_damage as damage
import make_inputs as inputs
import make_tables as tables
import make_weak_frames as weak
from kind_reports import frame_bytes
from make_tables import code_file, u16
from prng import Prng
from report import frame_report
from table import FRAME_LIMIT

ReportInput = namedtuple("ReportInput", "name data tells")

THREE = tables.three_bits()
GOOD, LEANING, SPENT = [10, 10, 10], [4000, 4000, -2000], [0, 0, 0]

# After a refused code file nothing is read as a frame.
FRAMES_BEHIND = bytes(100)


# --- refused code files ----------------------------------------------------------------------

def refused(number, name, data):
    return ReportInput(name, data, [f"refused {number}"])


def early_ends(rng):
    whole, longest = code_file(tables.hamming()), code_file(tables.largest_regular(rng))
    return ([refused(1, f"{length} bytes", whole[:length]) for length in range(4)]
            + [refused(5, "no contents", whole[:4]),
               refused(5, "contents a byte short", whole[:15]),
               refused(5, "no bodies", whole[:16]),
               refused(5, "bodies a byte short", whole[:-1]),
               refused(5, "longest code file, contents a byte short", longest[:4 + 4 * 2048 - 1]),
               refused(5, "longest code file, bodies a byte short", longest[:-1])])


def heads():
    rest = code_file(tables.hamming())[4:] + FRAMES_BEHIND
    sizes = [(n, 3) for n in (0, 2049, 65535)] + [(7, m) for m in (0, 2049, 65535)]
    return [refused(2, f"n {n}, m {m}", u16(n) + u16(m) + rest) for n, m in sizes]


SINGLE_FAULTS = [
    ("first count 33", 3, damage.count_is("first", 33)),
    ("last count 256", 3, damage.count_is("last", 256)),
    ("last count 33", 3, damage.count_is("last", 33)),
    ("middle count 65535", 3, damage.count_is("middle", 65535)),
    ("first start 1", 4, damage.start_off("first", 1)),
    ("last start one too low", 4, damage.start_off("last", -1)),
    ("member n", 6, damage.member_above("last", 0)),
    ("member 65535", 6, damage.member_65535),
    ("members not ascending", 6, damage.descending_members("first")),
    ("repeated member", 6, damage.equal_members("last")),
    ("first bit in no check", 7, damage.unused_bit("first")),
    ("last bit in no check", 7, damage.unused_bit("last")),
    ("first bit in 33 checks", 7, damage.crowded_bit("first")),
    ("last bit in 33 checks", 7, damage.crowded_bit("last"))]

# Of two faults the first of document 01's order is told.
TWO_FAULTS = [
    ("contents short, count 33", {"contents": damage.contents_short_by(1),
                                  3: damage.count_is("first", 33)}),
    ("wrong start, then count 33", {4: damage.start_off("first", 1),
                                    3: damage.count_is("last", 33)}),
    ("no bodies, wrong start", {5: damage.bodies_missing, 4: damage.start_off("last", 1)}),
    ("member n, bodies short", {6: damage.member_above("first", 0), 5: damage.cut_by(1)}),
    ("bit in no check, repeated member", {7: damage.unused_bit("first"),
                                          6: damage.equal_members("last")})]


def faults():
    single = [(name, damage.damaged(tables.hamming(), {number: fault}))
              for name, number, fault in SINGLE_FAULTS]
    both = [(name, damage.damaged(tables.hamming(), kinds)) for name, kinds in TWO_FAULTS]
    return ([refused(claim.number, name, claim.data + FRAMES_BEHIND) for name, claim in single]
            + [refused(claim.number, name, claim.data) for name, claim in both])


def no_members():
    """A count of 0 is no fault by itself.  Where it is the last one, the body that is left over
    is frames, and its bits stand in no check."""
    first, last = (damage.spoilt(tables.hamming(), damage.count_is(position, 0))
                   for position in ("first", "last"))
    return [refused(4, "first count 0", first), refused(7, "last count 0", last),
            refused(7, "one empty check", code_file((1, [[]])) + FRAMES_BEHIND),
            refused(7, "2048 empty checks", damage.contents_only(2048, 0)),
            refused(5, "an empty check, contents a byte short", code_file((1, [[0], []]))[:11]),
            refused(5, "an empty check, no bodies", code_file((1, [[], [0]]))[:12])]


def too_many_edges(rng):
    above = code_file(damage.one_edge_more(tables.largest_regular(rng)))
    return [refused(4, "E 8193", above + FRAMES_BEHIND),
            refused(4, "E 8193, no bodies", above[:4 + 4 * 2048]),
            # Here E is 0 in its low 16 bits.
            refused(4, "E 65536, no bodies", damage.contents_only(2048, 32)),
            refused(3, "E 8217 by counts of 33", damage.contents_only(249, 33))]


# --- frames behind a good code file ----------------------------------------------------------

def framed(name, table, frames, tells, tail=b""):
    data = code_file(table) + b"".join(map(frame_bytes, frames)) + tail
    return ReportInput(name, data, ["bits", *tells])


def last_frames(rng):
    """No frame at all, and last frames that end early: 8, whatever their numbers are."""
    return [framed("no frames", THREE, [], []),
            framed("no frames, longest code file", tables.largest_regular(rng), [], []),
            framed("one byte", tables.one_bit(), [], ["refused 8"], b"\5"),
            framed("one byte left over", THREE, [GOOD], ["certified", "refused 8"], b"\5"),
            framed("frame a byte short", THREE, [GOOD, LEANING],
                   ["certified", "certified", "refused 8"], frame_bytes(GOOD)[:-1]),
            framed("frame a number short", THREE, [GOOD], ["certified", "refused 8"],
                   frame_bytes(GOOD[:2])),
            framed("short and out of range", THREE, [], ["refused 8"], frame_bytes([9000, 9000])),
            # The frames (3, 1, 0) and (3, 0, 1), whose third and second bits stay at spin 0, and
            # two bytes of a third.
            framed("the code file once more", THREE, [], ["spent", "spent", "refused 8"],
                   code_file(THREE))]


def out_of_range():
    """9 is for one frame: those after it are decoded, and counted on."""
    def with_middle(number):
        return framed(f"{number} in the middle", THREE, [GOOD, [10, number, 10], LEANING, GOOD],
                      ["certified", "refused 9", "certified", "certified"])
    ends = [[number, 10, 10] for number in (8192, -8192)] + [[10, 10, -32768]]
    return [*map(with_middle, (8192, -8192, 32767, -32768)),
            framed("all frames out of range", THREE, ends, ["refused 9"] * 3),
            framed("out of range, then short", THREE, ends[:1], ["refused 9", "refused 8"], b"\0")]


def endings():
    limit = [FRAME_LIMIT] * 3
    return [framed("negative agreement", tables.one_bit(), [[-5], [5], [-FRAME_LIMIT]],
                   ["certified"] * 3),
            framed("most negative agreement", tables.identity(), [[-FRAME_LIMIT] * 2048],
                   ["certified"]),
            framed("ends of the range", THREE,
                   [limit, inputs.negated_under(limit, [1, 1, 0])], ["certified"] * 2),
            framed("spent", THREE, [SPENT], ["spent"]),
            framed("spent between others", THREE, [LEANING, SPENT, [9000, 0, 0], GOOD],
                   ["certified", "spent", "refused 9", "certified"])]


def empty_checks(rng):
    """Empty checks change the head's number of checks, and no frame's line."""
    frames = [LEANING, [9000, 0, 0], SPENT, GOOD]
    tells = ["certified", "refused 9", "spent", "certified", "refused 8"]
    one_bit = tables.with_empty(tables.one_bit(), [0] * 5 + [1] * 4)
    large = tables.emptied(rng, tables.half_rate(rng), 1024)
    clear = inputs.channel_frame(rng, 2048, 5000, 1500)
    return ([framed(f"empty checks at {places}", tables.with_empty(THREE, places), frames, tells,
                    b"\5") for places in ([0], [1], [0, 0, 1, 1, 1])]
            + [framed("all but one check empty", one_bit, [[-5], [5]], ["certified"] * 2),
               framed("2047 empty checks", tables.mostly_empty(), [[10] * 32], ["certified"]),
               framed("1024 empty checks of 2048", large, [clear, clear[:-1] + [-32768]],
                      ["certified", "refused 9"]),
               framed("empty checks, longest code file", tables.emptied_band(rng), [], [])])


def weak_frames(rng):
    """Numbers smaller than their bits' degrees: certified from half of the degrees on where they
    follow a codeword, spent below that, and some mended."""
    leaning = [weak.leaning_frames(rng, sizes) for sizes in (weak.half_sizes, weak.lesser_sizes)]
    found = []
    for table in weak.WEAK_TABLES:
        halves, lesser = ([frame for owner, frame in frames if owner == table]
                          for frames in leaning)
        found.append(framed(f"weak frames of {table[0]} bits", table, halves + lesser,
                            ["certified"] * 2 + ["spent"] * 2))
    return found + [framed(f"weak frame mended in round {ending}", table, [frame], ["certified"])
                    for ending, table, frame in weak.MENDED]


def long_lists(rng):
    """More bytes than a pipe holds; and a large table."""
    table, largest = tables.hamming(), tables.largest_regular(rng)
    many = [inputs.channel_frame(rng, 7, 5000, 1500) for _ in range(5000)]
    clear = inputs.channel_frame(rng, 2048, 5000, 1500)
    return [framed("5000 frames", table, many, ["certified"] * 5000),
            framed("largest table", largest, [clear, clear[:-1] + [-32768], clear],
                   ["certified", "refused 9", "certified", "refused 8"], bytes(4095))]


def report_inputs():
    rng = Prng(20_06)
    return (early_ends(rng) + heads() + faults() + too_many_edges(rng) + last_frames(rng)
            + out_of_range() + endings() + long_lists(rng) + no_members() + empty_checks(rng)
            + weak_frames(Prng(20_10)))


# --- the command line ------------------------------------------------------------------------

def complaints(program, one):
    """What is wrong with the program's report of one input."""
    done = subprocess.run([program], input=one.data, stdout=subprocess.PIPE, timeout=100)
    if done.returncode != 0:
        return [f"{one.name}: exit status {done.returncode}"]
    wanted = frame_report(one.data).encode("ascii").splitlines(keepends=True)
    pairs = zip_longest(done.stdout.splitlines(keepends=True), wanted, fillvalue=b"")
    return [f"{one.name}: {got} and not {line}" for got, line in pairs if got != line][:1]


def main(arguments):
    if len(arguments) != 1:
        print("usage: report_inputs.py PROGRAM")
        return 2
    made = report_inputs()
    found = [text for one in made for text in complaints(arguments[0], one)]
    print("\n".join(found) or f"report: {len(made)} inputs as the reference says")
    return 1 if found else 0


if __name__ == "__main__":
    sys.exit(main(sys.argv[1:]))
