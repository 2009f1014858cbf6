"""Step 1's division, nearest with halves away from zero, and the weak frames that it moves."""

from fractions import Fraction
from unittest import mock

import call_script
import make_inputs as inputs
import make_tables as tables
import make_weak_frames as weak
import make_weak_scripts as weak_scripts
import rounds
from call_script import StartRun
from make_runs import Call
from prng import Prng
from rounds import CERTIFIED, SPENT, Record, divide_nearest
from support import Run, expect, expect_equal, rounds_to_the_end
from table import DEGREE_LIMIT
from test_calls import plain_nearest
from test_examples import leaning_frame, one_bit_frame, three_frame_report, two_ones_frame
from test_mutants import WRONG_DIVISIONS

BY_HAND = [(0, 1, 0), (1, 3, 0), (2, 3, 1), (4, 3, 1), (5, 3, 2), (1, 2, 1), (3, 2, 2), (5, 2, 3),
           (15, 32, 0), (16, 32, 1), (47, 32, 1), (48, 32, 2), (15, 31, 0), (16, 31, 1)]


def quotients_by_hand(account):
    account.announce("quotients worked by hand")
    for total, count, quotient in BY_HAND:
        expect_equal(divide_nearest(total, count), quotient, f"{total} over {count}")
        expect_equal(divide_nearest(-total, count), -quotient, f"{-total} over {count}")
        account.add("quotients worked by hand", 2)


def expect_nearest(account, total, count):
    """What makes a quotient the nearest one, halves away from zero; each in whole numbers."""
    quotient = divide_nearest(total, count)
    what, off = f"{total} over {count} is {quotient}", abs(total - count * quotient)
    expect(type(quotient) is int, what)
    expect(2 * off <= count, f"{what}: farther off than a half")
    expect(2 * off < count or abs(count * quotient) > abs(total), f"{what}: a half toward zero")
    expect_equal(divide_nearest(-total, count), -quotient, f"{what}, negated")
    expect_equal(quotient == 0, 2 * abs(total) < count, f"{what}: whether it is 0")
    expect_equal(quotient, plain_nearest(Fraction(total, count)), what)
    account.add("quotients compared")
    account.add("quotients of halves", 2 * off == count)
    account.add("quotients of 0", quotient == 0)


def quotients_are_nearest(account):
    """All totals of a small range, with every degree and a few more divisors; the totals of a
    run at their ends, and totals that no float tells apart."""
    account.announce("quotients compared", "quotients of halves", "quotients of 0")
    for count in [*range(1, DEGREE_LIMIT + 1), 33, 64]:
        for total in range(-200, 201):
            expect_nearest(account, total, count)
        for far in (8191 + count * (4096 + 8192 * 1024), 2**31, 10**30 * count):
            for total in range(far - count, far + count + 1):
                expect_nearest(account, total, count)


def document_frames_keep_their_results(account):
    """Document 01's frames have one edge for each bit: whatever the division does with a rest,
    their rounds, words and certificates are the same."""
    account.announce("document frames under other divisions")
    for total in range(-20000, 20001):
        expect_equal(divide_nearest(total, 1), total, "a total over one edge")
    for division in WRONG_DIVISIONS.values():
        with mock.patch.object(rounds, "divide_nearest", division):
            for frame_test in (leaning_frame, two_ones_frame, one_bit_frame, three_frame_report):
                frame_test()
                account.add("document frames under other divisions")


def wrong_divisions_differ(account):
    """Each wrong division is told from the right one by a quotient worked by hand."""
    account.announce("wrong divisions told")
    both = [(sign * total, count, sign * quotient) for total, count, quotient in BY_HAND
            for sign in (1, -1)]
    for name, division in WRONG_DIVISIONS.items():
        expect(any(division(total, count) != quotient for total, count, quotient in both), name)
        account.add("wrong divisions told")


# --- weak frames -----------------------------------------------------------------------------

def halves_move_at_once(account):
    """Numbers smaller than the degrees, but at least half of them, on the side of a codeword:
    round 1 certifies it.  Divided toward zero they never leave spin 0."""
    account.announce("weak frames certified in round 1")
    rng = Prng(111)
    for table in [*weak.WEAK_TABLES, tables.full_square(), tables.cycle_table(9)]:
        for codeword in ([0] * table[0], inputs.other_codeword(rng, table)):
            frame = inputs.negated_under(weak.half_sizes(rng, table), codeword)
            seen = Run(table, frame, rng).call(Call(1024, None))
            expect_equal((seen.answer, seen.rounds_done, seen.word), (CERTIFIED, 1, codeword),
                         f"{frame} on {table}")
            with mock.patch.object(rounds, "divide_nearest", inputs.divide_toward_zero):
                expect_stays_at_zero(table, frame, rng)
            account.add("weak frames certified in round 1")


def expect_stays_at_zero(table, frame, rng):
    """Round 1 leaves spins, copies and offsets at 0 as the start did, so that every other round
    does the same.  Not so where a check has one member."""
    run = Run(table, frame, rng)
    run.call(Call(1, None))
    shown = run.round_shown()
    expect_equal(set(shown.spins + shown.copies + shown.offsets + shown.multipliers), {0},
                 f"round 1 of {frame}")
    if table[0] <= 24:
        expect_equal(run.call(Call(1023, None)).answer, SPENT, f"{frame}")
        expect_equal(run.round_shown(), shown, "round 1,024")


def less_than_halves_stay(account):
    """Numbers below half of the degrees, of either sign: spin 0 throughout."""
    account.announce("frames at spin 0 throughout")
    rng = Prng(112)
    for table in [*weak.WEAK_TABLES, tables.full_square()]:
        frame = weak.few_wrong(rng, weak.lesser_sizes(rng, table), 3)
        expect_stays_at_zero(table, frame, rng)
        account.add("frames at spin 0 throughout", any(frame))


# --- the stored scripts ----------------------------------------------------------------------

def endings_told(script):
    """How each run of a script ends, as the lines tell: answer and rounds done."""
    answers = [line.split()[1:3] for line in call_script.play(script)]
    return [told for told in answers if told[0] in ("certified", "spent")]


def weak_runs_end_as_claimed(account):
    """From half of the degrees on certified by round 1, below it spent, the mended ones in their
    rounds.  Divided toward zero, none of them is certified."""
    account.announce("weak runs certified in round 1", "weak runs spent", "weak runs mended")
    halves, lesser = weak_scripts.half_runs(Prng(84)), weak_scripts.lesser_runs(Prng(84))
    for script, ending, name in [(halves, ["certified", "1"], "weak runs certified in round 1"),
                                 (lesser, ["spent", "1024"], "weak runs spent")]:
        runs = sum(isinstance(call, StartRun) for call in script)
        expect_equal(endings_told(script), [ending] * runs, name)
        account.add(name, runs)
    for ending, table, frame in weak.MENDED:
        expect_equal(rounds_to_the_end(table, frame), Record(ending, "certified"), f"{frame}")
        account.add("weak runs mended")
    with mock.patch.object(rounds, "divide_nearest", inputs.divide_toward_zero):
        expect(["certified", "1"] not in endings_told(halves), "halves divided toward zero")
        for _, table, frame in weak.MENDED:
            expect_equal(rounds_to_the_end(table, frame).status, "spent", f"{frame}")


def wrong_divisions_show(account):
    """The lines of half-done runs with totals beside a half, and those of degree 32, tell every
    wrong division from the right one."""
    account.announce("wrong divisions in the lines")
    for script in (weak_scripts.resumed_beside_halves(Prng(85)), weak_scripts.wide_runs()):
        told = call_script.play(script)
        for name, division in WRONG_DIVISIONS.items():
            with mock.patch.object(rounds, "divide_nearest", division):
                expect(call_script.play(script) != told, f"not told by the lines: {name}")
            account.add("wrong divisions in the lines")


TESTS = [quotients_by_hand, quotients_are_nearest, document_frames_keep_their_results,
         wrong_divisions_differ, halves_move_at_once, less_than_halves_stay,
         weak_runs_end_as_claimed, wrong_divisions_show]
