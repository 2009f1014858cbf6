"""The sums that a run carries: true after every call, compared on entry, and no further than n."""

import copy
from unittest import mock

import call_script
import make_inputs as inputs
import make_runs
import make_spoilt_scripts as spoilt
import make_sum_scripts as sum_scripts
import make_tables as tables
import rounds
from make_runs import Call
from make_tables import true_sums
from prng import Prng
from rounds import CERTIFIED, RUNNING, SPENT
from support import Run, expect, expect_equal
from table import Refused
from test_calls import plain_round
from test_mutants import WRONG_SUMS


def lent_sums(run):
    return run.lent.sums[:run.code.bits]


def true_now(run):
    table, edges = (run.code.bits, run.code.checks), run.code.edges
    return true_sums(table, run.lent.copies[:edges], run.lent.offsets[:edges])


def true_after_every_call(account):
    """Refused ones included, as they leave what was true."""
    account.announce("calls that leave true sums", "sums true after a certifying call",
                     "sums true after a spent run", "sums true after a refusal")
    rng = Prng(121)
    for table in tables.small_tables(rng, 40) + tables.emptied_tables(rng, 14):
        run = Run(table, inputs.lively_frame(rng, table[0]), rng)
        for call in make_runs.call_list(rng) + make_runs.call_list(rng):
            seen = run.call(call)
            expect_equal(lent_sums(run), true_now(run), f"sums after {call} on {table}")
            account.add("calls that leave true sums")
            account.add("sums true after a certifying call", seen.answer == CERTIFIED)
            account.add("sums true after a spent run", seen.answer == SPENT)
            account.add("sums true after a refusal", "refused" in seen.answer)


def half_done(rng, table):
    run = Run(table, inputs.random_frame(rng, table[0]), rng)
    state = make_runs.random_half_done(rng, run.code, rng.choice([0, 1, 40, 900, 1022]))
    run.record.rounds_done = state.record.rounds_done
    make_runs.lend_state(run.code, run.lent, state)
    return run


def every_bit_is_compared(account):
    """Each sum in turn is made wrong, which Run holds to have changed nothing; put right again,
    the run does the round of the definitions."""
    account.announce("sums made wrong", "rounds after sums put right")
    rng = Prng(122)
    for table in tables.small_tables(rng, 30) + [tables.stairs(), tables.stacked_singles(32)]:
        run = half_done(rng, table)
        for bit, right in enumerate(lent_sums(run)):
            for wrong in sum_scripts.wrong_values(right):
                run.lent.sums[bit] = wrong
                seen = run.call(Call(rng.choice([0, 1, 1024]), None))
                expect_equal(seen.answer, "refused 43", f"{wrong} for {right} at bit {bit}")
                account.add("sums made wrong")
            run.lent.sums[bit] = right
        edges = run.code.edges
        done = plain_round(table, run.frame, run.lent.copies[:edges], run.lent.offsets[:edges])
        run.call(Call(1, None))
        expect_equal(run.round_shown(), done, "a round after sums put right")
        account.add("rounds after sums put right")


def the_rest_does_not_matter(account):
    """Whatever stands from n on, all goes alike; Run holds that it stays."""
    account.announce("runs with other numbers past the sums")
    rng = Prng(123)
    for table in tables.small_tables(rng, 20):
        run = half_done(rng, table)
        other = copy.deepcopy(run)
        for one, past in ((run, [0, 0, 0]), (other, [2**31 - 1, -2**31, lent_sums(run)[0]])):
            one.lent.sums[table[0]:] = one.junk.sums[table[0]:] = past
        calls = [Call(0, None), Call(1, None), Call(20, None)]
        expect_equal(other.calls(calls), run.calls(calls), f"calls on {table}")
        expect_equal(other.round_shown(), run.round_shown(), f"rounds on {table}")
        account.add("runs with other numbers past the sums")


def sums_of_the_negated_frame(account):
    """Under a codeword the sums of its ones are negated, round for round."""
    account.announce("sums compared with the negated frame's")
    rng = Prng(124)
    for table in tables.small_tables(rng, 30):
        frame, codeword = inputs.lively_frame(rng, table[0]), rng.choice(inputs.codewords(table))
        run = Run(table, frame, rng)
        other = Run(table, inputs.negated_under(frame, codeword), rng)
        for _ in range(6):
            if run.record.status == RUNNING:
                run.call(Call(1, None))
                other.call(Call(1, None))
                expect_equal(lent_sums(other), inputs.negated_under(lent_sums(run), codeword),
                             f"sums of {frame} under {codeword}")
                account.add("sums compared with the negated frame's")


# --- the stored scripts ----------------------------------------------------------------------

def play_and_count(script):
    """The lines, and how many of the refusals have no other reason than a sum."""
    right_check, refused = rounds.check_sums, []

    def counting_check(code, lent):
        try:
            right_check(code, lent)
        except Refused:
            refused.append(code)
            raise
    with mock.patch.object(rounds, "check_sums", counting_check):
        return call_script.play(script), len(refused)


def refused_for_the_sums(account):
    """Every 43 in the scripts of wrong sums is for a sum alone; none in those of edges and records
    beyond their limits is, so that they still test the limits."""
    account.announce("lines refused for a sum alone", "lines refused for a limit")
    for script in (sum_scripts.single_sums(), sum_scripts.several_sums(),
                   sum_scripts.moved_edges(), sum_scripts.largest_sums()):
        told, for_a_sum = play_and_count(script)
        expect_equal(for_a_sum, sum(" refused 43 " in line for line in told), "wrong sums")
        account.add("lines refused for a sum alone", for_a_sum)
    for script in (spoilt.filled_runs(), spoilt.single_edges(Prng(88)), spoilt.emptied_edges(),
                   spoilt.several_faults(Prng(88)), sum_scripts.sums_beyond_32_bits()):
        told, for_a_sum = play_and_count(script)
        expect_equal(for_a_sum, 0, "limits alone")
        account.add("lines refused for a limit", sum(" refused 43 " in line for line in told))


def wrong_sums_show(account):
    """The lines tell every decoder that is wrong about the sums from the right one."""
    account.announce("wrong decoders of sums in the lines")
    scripts = [sum_scripts.past_the_last()[:60], sum_scripts.short_sums()[:120],
               sum_scripts.several_sums(), sum_scripts.wrong_beside_others(Prng(87)),
               sum_scripts.largest_sums()]
    told = [call_script.play(script) for script in scripts]
    for name, (part, wrong) in WRONG_SUMS.items():
        with mock.patch.object(rounds, part, wrong):
            expect(any(call_script.play(script) != lines for script, lines in zip(scripts, told)),
                   f"not told by the lines: {name}")
        account.add("wrong decoders of sums in the lines")


TESTS = [true_after_every_call, every_bit_is_compared, the_rest_does_not_matter,
         sums_of_the_negated_frame, refused_for_the_sums, wrong_sums_show]
