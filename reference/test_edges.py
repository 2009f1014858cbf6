"""43's edge: rounds on the farthest values that a resumed run can have, and the stored scripts."""

from unittest import mock

import call_script
import from_above
import make_edge_scripts as edge_scripts
import make_runs
import make_tables as tables
import rounds
from edge_mutants import WRONG_EDGES, WRONG_MULTIPLIERS
from make_edge_scripts import equal_checks, signs
from make_runs import Call, HalfDone
from prng import Prng
from rounds import CERTIFIED, RUNNING, SPENT, Record
from support import Run, expect, expect_equal
from table import UNIT
from test_examples import FRAME_TESTS, expect_ending, expect_round
from test_from_above import FAR, LARGEST_SUM, Noted, steps_from_above
from test_mutants import is_caught
from test_sums import play_and_count


# --- worked frames ---------------------------------------------------------------------------

def resumed(table, frame, copies, offsets, done=1023):
    run = Run(table, frame, Prng(1))
    run.record.rounds_done = done
    make_runs.lend_state(run.code, run.lent, HalfDone(Record(done), copies, offsets))
    return run


def times(signed, *sizes):
    """Each size with every sign: one check after the other."""
    return [sign * size for size in sizes for sign in signed]


def mask_of(signed, sign):
    return sum(1 << place for place, one in enumerate(signed) if one == sign)


THREE_NEGATIVE = signs(32, [0, 13, 31])
TWO_NEGATIVE = signs(32, [5, 31])


def widest_cut():
    """Three checks of the same 32 bits, offsets e FAR, -e FAR, -e FAR, where e is a bit's sign.  A
    bit's sum is e FAR; a third of it is above U, whatever copies and frame add: the spin is e U.

    On check 0 v is e (FAR + U) = e 8,384,512.  The negative ones are an odd set, to which every
    member is FAR beyond its end: the left side is 0.  With FAR + 256 each member has 256, and 32
    of them have 2U.  On the others v is -e (FAR - U): the set is that of the positive e, odd too,
    and each is FAR - 2U = 8,372,224 beyond.  A copy is 256 from its end, 3840 in size.  A bit's
    new sum is e times 3840 - 8,380,672 - 2 x (3840 - 8,372,480).
    """
    e = THREE_NEGATIVE
    negative, positive = mask_of(e, -1), mask_of(e, 1)
    for copy, number in [(0, 0), (UNIT, -8191), (-UNIT, 8191)]:
        run = resumed(equal_checks(32), [number] * 32, [copy] * 96, times(e, FAR, -FAR, -FAR))
        expect_round(run, SPENT, spins=times(e, UNIT), masks=[negative, positive, positive],
                     multipliers=[8_380_672, 8_372_480, 8_372_480], depths=[8192] * 3,
                     copies=times(e, 3840, -3840, -3840), sums=times(e, 8_360_448),
                     offsets=times(e, 8_380_672, -8_372_480, -8_372_480))


def widest_twice():
    """The same after 1,022 rounds, with 8,372,224 for FAR.  Each round takes check 0's offsets for
    256 farther out, and those of the others, whom the spins oppose, for 2U - 256 nearer."""
    e, far = THREE_NEGATIVE, 8_372_224
    run = resumed(equal_checks(32), [0] * 32, [0] * 96, times(e, far, -far, -far), 1022)
    expect_round(run, RUNNING, multipliers=[8_372_480, 8_364_288, 8_364_288],
                 offsets=times(e, 8_372_480, -8_364_288, -8_364_288))
    expect_round(run, SPENT, multipliers=[8_372_736, 8_356_352, 8_356_352],
                 offsets=times(e, 8_372_736, -8_356_352, -8_356_352))


def even_signs():
    """Two negative e: of 32 members beyond their ends one changes sides, where it has 2U.  No
    cut; the candidate is e, a codeword, and the frame follows it."""
    e = TWO_NEGATIVE
    run = resumed(equal_checks(32), times(e, 8191), [0] * 96, times(e, FAR, -FAR, -FAR))
    expect_round(run, CERTIFIED, spins=times(e, UNIT), masks=[0] * 3, multipliers=[0] * 3,
                 depths=[0] * 3, copies=times(e, UNIT, -UNIT, -UNIT),
                 offsets=times(e, FAR, -8_372_224, -8_372_224), sums=times(e, 8_359_936))
    expect_ending(run, 1024, [int(sign < 0) for sign in e], "00 00 01 00")


def one_within():
    """Two negative e, and one v of 3996 in size, 100 from its end, by an offset of -100 e.  It
    changes sides and has 8092: b = 100 gives it 2U, where all the others are far below."""
    e, place = TWO_NEGATIVE, 20
    before, after = times(e, FAR, -FAR, -FAR), times(e, FAR, -8_372_224, -8_372_224)
    before[place] = after[place] = -100
    run = resumed(equal_checks(32), times(e, 8191), [0] * 96, before)
    expect_round(run, CERTIFIED, multipliers=[100, 0, 0], depths=[100, 0, 0], offsets=after,
                 masks=[mask_of(e, -1) | 1 << place, 0, 0], copies=times(e, UNIT, -UNIT, -UNIT))


def one_nearer():
    """The widest cut with so many of check 0's offsets by one nearer to 0: 2U + 32 FAR is less by
    as many, and its 32nd part is rounded up."""
    e = THREE_NEGATIVE
    for count, multiplier in [(0, 8_380_672), (1, 8_380_672), (31, 8_380_672), (32, 8_380_671)]:
        offsets = times(e[:count], FAR - 1) + times(e[count:], FAR) + times(e, -FAR, -FAR)
        run = resumed(equal_checks(32), [0] * 32, [0] * 96, offsets)
        expect_round(run, SPENT, multipliers=[multiplier, 8_372_480, 8_372_480], depths=[8192] * 3)


def one_member():
    """One bit in three checks of one member, offsets -FAR, FAR, FAR: the spin is -U, so v is
    -FAR - U on the first, and must come up to U.  The others are beyond U."""
    run = resumed(tables.stacked_singles(3), [0], [0] * 3, [-FAR, FAR, FAR])
    expect_round(run, SPENT, spins=[-UNIT], multipliers=[8_388_608, 0, 0], masks=[1, 0, 0],
                 depths=[8192, 0, 0], copies=[UNIT] * 3,
                 offsets=[-8_388_608, 8_372_224, 8_372_224])


def other_degrees():
    """Each of d members FAR beyond its end needs 8192 / d, rounded up."""
    for degree, share in [(1, 8192), (2, 4096), (3, 2731), (16, 512), (17, 482), (30, 274),
                          (31, 265)]:
        e = signs(degree, [degree - 1])
        run = resumed(equal_checks(degree), [0] * degree, [0] * 3 * degree,
                      times(e, FAR, -FAR, -FAR))
        run.call(Call(1, None))
        shown = run.round_shown()
        expect_equal((shown.multipliers[0], shown.masks[0], shown.depths[0]),
                     (FAR + share, 1 << degree - 1, 8192), f"degree {degree}")
        expect_equal(shown.copies[:degree], times(e, UNIT - share), f"copies at degree {degree}")
        expect_equal(shown.offsets[:degree], times(e, FAR + share), f"offsets at degree {degree}")


def even_stairs():
    """Check 0's v go up in size by 512 from 8,368,640, which is 8,364,544 beyond its end, to
    FAR + U.  With that and 2646 six members have 2646, 2134, 1622, 1110, 598 and 86, which makes
    8196; one less would make 8190.  26 members are left where they were.

    From above, the first 8,364,544 left out: at 8192 sixteen members have 8192, 7680, ... 512,
    which is 61,440 too much, and 3840 for each.  At 4352 nine have 12,544 too much, 1393 for
    each, and at 2959 six have 1882 too much, 313 for each.
    """
    e = THREE_NEGATIVE
    values = [sign * (8_368_640 + 512 * place) for place, sign in enumerate(e)]
    offsets = [value - sign * UNIT for value, sign in zip(values, e)] + times(e, -FAR, -FAR)
    run = resumed(equal_checks(32), [0] * 32, [0] * 96, offsets)
    expect_round(run, SPENT, masks=[mask_of(e, -1), mask_of(e, 1), mask_of(e, 1)])
    shown, parts = run.round_shown(), [2646, 2134, 1622, 1110, 598, 86] + [0] * 26
    expect_equal((shown.multipliers[0], shown.depths[0]), (8_367_190, 8192), "even stairs")
    expect_equal(shown.copies[:32], [sign * (UNIT - one) for sign, one in zip(e, parts)], "copies")
    _, heights = from_above.find_cut(values)
    expect_equal([b - 8_364_544 for b in from_above.steps_down(heights)],
                 [8192, 4352, 2959, 2646], "steps from above")


def one_beyond():
    """An offset of one more than 8,192 for each round done: 43, and all is as it was."""
    e = THREE_NEGATIVE
    for done, far in [(1023, FAR), (1022, 8_372_224), (512, 4_194_304), (1, 8192)]:
        for place in (0, 1, 31, 32, 95):
            offsets = times(e, far, -far, -far)
            for step, answer in [(1, "refused 43"), (0, RUNNING), (-1, RUNNING)]:
                sign = 1 if offsets[place] > 0 else -1
                moved = offsets[:place] + [sign * (far + step)] + offsets[place + 1:]
                run = resumed(equal_checks(32), [0] * 32, [UNIT] * 96, moved, done)
                expect_equal(run.call(Call(0, None)).answer, answer, f"{far} and {step}")


EDGE_FRAMES = [widest_cut, widest_twice, even_signs, one_within, one_nearer, one_member,
               other_degrees, even_stairs, one_beyond]


def worked_edges(account):
    account.announce("worked frames at 43's edge")
    for frame_test in EDGE_FRAMES:
        frame_test()
        account.add("worked frames at 43's edge")


# --- the stored scripts ----------------------------------------------------------------------

def stored():
    return edge_scripts.edge_scripts(Prng(20_13))           # as kind_calls.py has them


def checks_settled(script):
    """The values of each check in each round of a script, and what it settled on."""
    settled, right_settle = [], rounds.settle_check

    def watched(values):
        settled.append((values, right_settle(values)))
        return settled[-1][1]
    with mock.patch.object(rounds, "settle_check", watched):
        call_script.play(script)
    return settled


def stored_edges_are_met(account):
    """The stored scripts have the largest sum, both edge multipliers, and searches of ten steps;
    every 43 in them is for a limit."""
    account.announce("stored checks with the largest sum", "stored multipliers of 8,380,672",
                     "stored multipliers of 8,388,608", "stored searches of ten steps")
    script = stored()
    for values, (_, multiplier, _, _) in checks_settled(script):
        noted, found = Noted(), from_above.find_cut(values)
        from_above.settle_check(values, noted)
        expect(noted.largest <= LARGEST_SUM and multiplier <= 8_388_608, f"check of {values}")
        account.add("stored checks with the largest sum", noted.largest == LARGEST_SUM)
        account.add("stored multipliers of 8,380,672", multiplier == 8_380_672)
        account.add("stored multipliers of 8,388,608", multiplier == 8_388_608)
        account.add("stored searches of ten steps",
                    found is not None and steps_from_above(found[1]) == 10)
    _, for_a_sum = play_and_count(script)
    expect_equal(for_a_sum, 0, "refused for a sum")


def told(script):
    """Its lines; None if the decoder breaks down, as a wrong one may."""
    try:
        return call_script.play(script)
    except ZeroDivisionError:
        return None


def wrong_edges_show(account):
    """The worked frames here and the lines tell every decoder that is wrong at the edge from the
    right one.  Frames worked elsewhere miss all that are wrong about the multiplier."""
    account.announce("wrong edges in worked frames", "wrong edges in the lines",
                     "wrong edges missed elsewhere")
    expect(not any(map(is_caught, EDGE_FRAMES)), "the right decoder passes every frame")
    script = stored()
    right = told(script)
    for name, wrong in WRONG_EDGES.items():
        with mock.patch.object(*wrong):
            expect(any(map(is_caught, EDGE_FRAMES)), f"missed: {name}")
            account.add("wrong edges in worked frames")
            expect(told(script) != right, f"not told by the lines: {name}")
            account.add("wrong edges in the lines")
            if name in WRONG_MULTIPLIERS:
                expect(not any(map(is_caught, FRAME_TESTS)), f"shows elsewhere too: {name}")
                account.add("wrong edges missed elsewhere")


TESTS = [worked_edges, stored_edges_are_met, wrong_edges_show]
