"""The mark worked by hand and in the stored cases; judges that are wrong about it alone."""

from functools import cache
from unittest import mock

import certificate
import decoder
import kind_judge
import make_inputs as inputs
import make_soles as soles
import make_tables as tables
from certificate import BrokenCheck, Certified, Entry, Gap, write_certificate
from prng import Prng
from rounds import CERTIFIED, RUNNING
from sole_mutants import WRONG_SOLES
from support import expect, expect_equal
from table import parse_code_file
from test_examples import expect_ending, expect_round, fresh
from test_mutants import is_caught
from test_soles import expect_met, marked


# --- worked frames ---------------------------------------------------------------------------

# Frame, word, scale, entries on the one check of three bits, and the reduced numbers.
REDUCED = [
    # one at 0: first, in the middle, last
    ([-2000, 4000, 4000], [0, 0, 0], 1, [(2000, 1)], [0, 2000, 2000]),
    ([4000, -2000, 4000], [0, 0, 0], 1, [(2000, 2)], [2000, 0, 2000]),
    ([4000, 4000, -2000], [0, 0, 0], 1, [(2000, 4)], [2000, 2000, 0]),
    # at scale 1 (-2000, -2000, 4000) and (1000, 0, 2000)
    ([4000, 4000, -2000], [0, 0, 0], 3, [(6000, 4)], [6000, 6000, 0]),
    ([4000, 3000, -1000], [0, 0, 0], 2, [(3000, 4)], [5000, 3000, 1000]),
    # a frame number of 0, with and without an entry
    ([4000, 2000, 0], [0, 0, 0], 1, [(1000, 4)], [3000, 1000, 1000]),
    ([5, 0, 7], [0, 0, 0], 1, [], [5, 0, 7]), ([5, 1, 7], [0, 0, 0], 9, [], [45, 9, 63]),
    # ones: the numbers are negative there; their sum is 0; and one of them is 0
    ([-4000, -4000, -2000], [1, 1, 0], 1, [(3000, 7)], [-1000, -1000, 1000]),
    ([-5, -3, 8], [1, 1, 0], 1, [], [-5, -3, 8]),
    ([-4000, -4500, -2000], [1, 1, 0], 1, [(4000, 7)], [0, -500, 2000]),
    # two masks that cancel on the first two bits
    ([20, 30, 1040], [0, 0, 0], 1, [(500, 1), (500, 2)], [20, 30, 40]),
    ([0, 30, 1040], [0, 0, 0], 1, [(500, 1), (500, 2)], [0, 30, 40]),
    # 000 and 011 tie
    ([10, 0, 0], [0, 0, 0], 1, [], [10, 0, 0]), ([10, 0, 0], [0, 1, 1], 1, [], [10, 0, 0])]


def three_bit_marks():
    """Each passes: the mark says whether no reduced number is 0."""
    code = parse_code_file(tables.code_file(tables.three_bits()))
    for frame, word, scale, made, reduced in REDUCED:
        entries = [Entry(0, *one) for one in made]
        expect_equal(certificate.reduced_numbers(code, frame, scale, entries), reduced, f"{frame}")
        got = decoder.judge(tables.code_file(tables.three_bits()), frame, word,
                            write_certificate(entries, scale))
        expect_equal(got, Certified(0 not in reduced), f"mark of {frame} with {made}")


def one_bit_marks():
    """One check on one bit: the reduced number is l + b, and every b from -l on passes."""
    for number, multiplier, found in [(-5, 4, Gap(2)), (-5, 5, Certified(False)),
                                      (-5, 6, Certified(True)), (5, 1, Certified(True)),
                                      (1, 65_535, Certified(True))]:
        got = decoder.judge(tables.code_file(tables.one_bit()), [number], [0],
                            write_certificate([Entry(0, multiplier, 1)]))
        expect_equal(got, found, f"one bit of {number} with {multiplier}")


def unmarked_frame():
    """(0, 1) on a check of two.  v is (0, 1), then (1, 1), then (1, 2): the reduced numbers are
    0 + 1 and 1 - 1, and the run's own certificate has no mark, though 00 has 1 and 11 has -1."""
    run = fresh((2, [[0, 1]]), [0, 1])
    expect_round(run, RUNNING, spins=[0, 1], multipliers=[1], copies=[1, 0], offsets=[-1, 1])
    expect_round(run, RUNNING, spins=[2, 0], multipliers=[0], copies=[1, 1], offsets=[0, 0])
    expect_round(run, CERTIFIED, spins=[1, 2], multipliers=[1], masks=[1])
    expect_ending(run, 3, [0, 0], "01 00 01 00 00 00 01 00 00 00 01 00 00 00", sole=False)


SOLE_FRAMES = [three_bit_marks, one_bit_marks, unmarked_frame]


def worked_marks(account):
    account.announce("worked marks")
    for frame_test in SOLE_FRAMES:
        frame_test()
        account.add("worked marks")


# --- the stored cases ------------------------------------------------------------------------

@cache
def stored():
    return soles.sole_cases(Prng(20_14))                    # as kind_judge.py has them


STORED_LEAST = {
    "stored, sole": 150, "stored, not sole": 150,
    "stored at scales above 1, sole": 40, "stored at scales above 1, not sole": 40,
    "stored with another mark at scale 1, sole": 10,
    "stored with another mark at scale 1, not sole": 10,
    "stored with another mark by the frame, sole": 10,
    "stored with another mark by the frame, not sole": 10,
    "stored with several masks of a check, sole": 10,
    "stored with several masks of a check, not sole": 10,
    "stored with masks that cancel, sole": 5, "stored with masks that cancel, not sole": 5,
    "stored without entries, sole": 5, "stored without entries, not sole": 5,
    "stored with empty checks, sole": 10, "stored with empty checks, not sole": 10,
    "stored with ones, sole": 40, "stored with ones, not sole": 40,
    "stored gaps with a reduced number of 0": 10, "stored gaps without": 10,
    "stored broken words with a reduced number of 0": 4, "stored broken words without": 4,
}

# n, and the place of the one reduced number that is 0
PLACES = {(1, 0), (2, 0), (2, 1), (3, 0), (3, 1), (3, 2), *((7, place) for place in range(7)),
          (33, 0), (33, 16), (33, 32), (2048, 2047)}


def masks_cancel(entries):
    """Whether two multipliers of one check cancel where their masks differ."""
    return any(one.check == two.check and one.multiplier == two.multiplier and one.mask != two.mask
               for one in entries for two in entries)


def kinds_of(case, code, scale, entries, sole):
    """Which kinds of passed certificate a stored one belongs to."""
    checks = [entry.check for entry in entries]
    kinds = {"": True, " at scales above 1": scale > 1,
             " with another mark at scale 1":
                 sole != certificate.is_sole(code, case.frame, 1, entries),
             " with another mark by the frame": sole != (0 not in case.frame),
             " with several masks of a check": len(set(checks)) < len(checks),
             " with masks that cancel": masks_cancel(entries),
             " without entries": entries == [], " with empty checks": [] in code.checks,
             " with ones": 1 in case.word}
    return [kind for kind, holds in kinds.items() if holds]


def stored_soles_are_met(account):
    """Marks of both kinds in every kind of certificate, and one reduced number of 0 at each of
    the places."""
    account.announce(*STORED_LEAST)
    places = set()
    for case in stored():
        code = parse_code_file(case.code_file)
        scale, entries = inputs.read_entries(case.certificate)
        reduced = certificate.reduced_numbers(code, case.frame, scale, entries)
        found = decoder.judge(*case)
        if isinstance(found, Certified):
            for kind in kinds_of(case, code, scale, entries, found.sole):
                account.add(marked(f"stored{kind}", found))
            if reduced.count(0) == 1:
                places.add((code.bits, reduced.index(0)))
        else:
            told = "broken words" if isinstance(found, BrokenCheck) else "gaps"
            account.add(f"stored {told} " + ("with a reduced number of 0" if 0 in reduced
                                             else "without"))
    expect(PLACES <= places, f"no single 0 at {PLACES - places}")
    expect_met(account, STORED_LEAST)


def wrong_soles_show(account):
    """The worked frames here and the lines tell every judge that is wrong about the mark from the
    right one."""
    account.announce("wrong marks in worked frames", "wrong marks in the lines")
    expect(not any(map(is_caught, SOLE_FRAMES)), "the right judge passes every frame")
    records = stored()
    told = list(map(kind_judge.judge_line, records))
    for name, wrong in WRONG_SOLES.items():
        with mock.patch.object(*wrong):
            expect(any(map(is_caught, SOLE_FRAMES)), f"missed: {name}")
            account.add("wrong marks in worked frames")
            expect(list(map(kind_judge.judge_line, records)) != told, f"not told: {name}")
            account.add("wrong marks in the lines")


TESTS = [worked_marks, stored_soles_are_met, wrong_soles_show]
