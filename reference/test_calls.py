"""Lists of calls for rounds: demand 3, resumed runs, and what each call leaves behind."""

import copy
import math
from bisect import bisect_left
from fractions import Fraction
from unittest import mock

import certificate
import cut
import decoder
import make_inputs as inputs
import make_runs
import make_tables as tables
import rounds
from make_runs import Call
from prng import Prng
from rounds import CERTIFIED, RUNNING, SPENT, Record, Round
from support import Run, expect, expect_equal
from table import parse_code_file
from test_search import greatest_shortfall


# --- demand 3 --------------------------------------------------------------------------------

def negation_changes_nothing_else(account):
    """The same list on the frame negated under a codeword: same answers, rounds done,
    multipliers and depths at each place, and the word plus the codeword."""
    account.announce("negated lists", "negated lists certified", "negated under ones",
                     "refused calls in lists", "lists on the negated frame")
    rng = Prng(51)
    for table in tables.small_tables(rng, 40) + tables.emptied_tables(rng, 10):
        words = inputs.codewords(table)
        for _ in range(3):
            frame, codeword = inputs.lively_frame(rng, table[0]), rng.choice(words)
            calls = make_runs.call_list(rng)
            seen = Run(table, frame, rng).calls(calls)
            negated = inputs.negated_under(frame, codeword)
            expect_counted(calls, seen)
            expect_alike(seen, Run(table, negated, rng).calls(calls), codeword)
            account.add("negated lists")
            account.add("negated under ones", 1 in codeword)
            account.add("refused calls in lists", sum("refused" in one.answer for one in seen))
            for one in seen:
                if one.answer == CERTIFIED:
                    account.add("negated lists certified")
                    other_lists_certify_too(account, rng, table, negated, codeword, one)


def plus(word, codeword):
    return [a ^ b for a, b in zip(word, codeword)]


def expect_counted(calls, seen):
    """Rounds done are those wanted by calls not refused, none beyond the end of the run."""
    done = 0
    for call, one in zip(calls, seen, strict=True):
        if "refused" in one.answer:
            expect_equal(one.rounds_done, done, "rounds done after a refusal")
        elif one.answer == RUNNING:
            expect_equal(one.rounds_done, done + call.wanted, "rounds done while running")
        else:
            expect(done < one.rounds_done <= done + call.wanted, "rounds done at the end")
        done = one.rounds_done


def expect_alike(seen, mirrored, codeword):
    for one, other in zip(seen, mirrored, strict=True):
        expect_equal(other[:3], one[:3], "answer, rounds done, status")
        expect_equal(other.did_rounds, one.did_rounds, "whether rounds were done")
        if one.did_rounds:
            expect_equal(other.multipliers, one.multipliers, "multipliers")
            expect_equal(other.depths, one.depths, "depths")
        if one.word is not None:
            expect_equal(other.word, plus(one.word, codeword), "word plus codeword")


def other_lists_certify_too(account, rng, table, negated, codeword, first):
    """Any other list on the negated frame, once it wants enough, ends in the same round."""
    calls = [Call(2000, None), *make_runs.split_wants(rng, first.rounds_done),
             Call(3, "masks"), *make_runs.split_wants(rng, rng.between(0, 40))]
    seen = Run(table, negated, rng).calls(calls)
    certified = [one for one in seen if one.answer == CERTIFIED]
    expect_equal(len(certified), 1, "calls that certify")
    expect_equal(certified[0].rounds_done, first.rounds_done, "rounds to the certificate")
    expect_equal(certified[0].multipliers, first.multipliers, "multipliers")
    expect_equal(certified[0].word, plus(first.word, codeword), "word")
    account.add("lists on the negated frame")


# --- rounds from the definitions -------------------------------------------------------------

def plain_check(values):
    """Copies, multiplier, mask and depth of one check: all odd sets are tried on the clipped
    values, and the least multiplier is looked up among all whole numbers."""
    clipped = [cut.clip(value) for value in values]
    violated = cut.all_cuts(clipped)
    if not violated:
        return clipped, 0, 0, 0
    mask, = violated

    def copies(b):
        return [cut.clip(value + b if mask & 1 << k else value - b)
                for k, value in enumerate(values)]
    least = bisect_left(range(1 << 24), True, key=lambda b: not cut.is_violated(copies(b), mask))
    return copies(least), least, mask, greatest_shortfall(clipped)


def plain_nearest(fraction):
    """Of the whole numbers around the fraction the nearest; on a tie the greater in size."""
    around = (math.floor(fraction), math.ceil(fraction))
    return min(around, key=lambda whole: (abs(fraction - whole), -abs(whole)))


def plain_round(table, frame, copies, offsets):
    """Steps 1 to 3 of document 01 once more, with fractions for step 1, which adds up all edges
    anew: sums that were carried wrong would show here."""
    n, checks = table
    edges = [bit for members in checks for bit in members]
    spins = []
    for bit in range(n):
        told = [z - y for z, y, owner in zip(copies, offsets, edges) if owner == bit]
        spins.append(cut.clip(plain_nearest(Fraction(frame[bit] + sum(told), len(told)))))
    values = [spins[bit] + offset for bit, offset in zip(edges, offsets)]
    new_copies, multipliers, masks, depths = [], [], [], []
    for members in checks:
        first = len(new_copies)
        settled, multiplier, mask, depth = plain_check(values[first:first + len(members)])
        new_copies += settled
        multipliers.append(multiplier)
        masks.append(mask)
        depths.append(depth)
    new_offsets = [value - copy for value, copy in zip(values, new_copies)]
    return Round(spins, new_copies, new_offsets, tables.true_sums(table, new_copies, new_offsets),
                 multipliers, masks, depths)


# --- resumed runs and what the buffers hold --------------------------------------------------

def splitting_changes_nothing(account):
    """However 1,024 rounds are portioned out, record and every buffer end alike."""
    account.announce("split runs", "split runs certified", "split runs spent")
    rng = Prng(52)
    for table in tables.small_tables(rng, 20):
        frame = inputs.lively_frame(rng, table[0])
        whole = Run(table, frame, Prng(7))
        whole.calls([Call(1024, None)])
        split = Run(table, frame, Prng(7))
        split.calls(make_runs.split_wants(rng, 1024))
        expect_equal(split.record, whole.record, "record")
        expect_equal(split.lent, whole.lent, "buffers")
        account.add("split runs")
        account.add("split runs certified" if whole.record.status == CERTIFIED
                    else "split runs spent")


def buffers_show_the_last_round(account):
    """Every round of a run, step by step, against rounds from the definitions."""
    account.announce("rounds compared", "word and certificate left alone")
    rng = Prng(53)
    for table in tables.small_tables(rng, 40) + tables.emptied_tables(rng, 12):
        frame = inputs.lively_frame(rng, table[0])
        run = Run(table, frame, rng)
        copies, offsets = [0] * run.code.edges, [0] * run.code.edges
        for _ in range(25):
            if run.record.status != RUNNING:
                break
            done = plain_round(table, frame, copies, offsets)
            copies, offsets = done.copies, done.offsets
            got = run.call(Call(1, None))
            expect_equal(run.round_shown(), done, f"round {run.record.rounds_done} of {table}")
            account.add("rounds compared")
            if got.answer == RUNNING:
                expect_equal((run.lent.word, run.lent.certificate),
                             (run.junk.word, run.junk.certificate), "word and certificate")
                account.add("word and certificate left alone")
            else:
                expect_written(run, got)


def expect_written(run, got):
    entries = certificate.entries_of_round(run.lent.multipliers[:len(run.code.checks)],
                                           run.lent.masks[:len(run.code.checks)])
    expect_equal(bytes(got.certificate), certificate.write_certificate(entries), "certificate")
    length = len(got.certificate)
    expect_equal(run.lent.certificate[length:], run.junk.certificate[length:], "rest of it")
    expect_equal(got.word, [int(spin < 0) for spin in run.lent.spins[:run.code.bits]], "word")


def start_zeroes_no_more(account):
    account.announce("starts")
    rng = Prng(54)
    for table in tables.small_tables(rng, 12):
        run = Run(table, [0] * table[0], rng)
        zeroed = {"copies": run.code.edges, "offsets": run.code.edges, "sums": table[0]}
        expect_equal(run.record, Record(0, RUNNING), "record of a start")
        for name, values in vars(run.lent).items():
            count = zeroed.get(name, 0)
            expect_equal(values, [0] * count + vars(run.junk)[name][count:],
                         f"{name} after a start")
        account.add("starts")


def zero_rounds_change_nothing(account):
    account.announce("calls for 0 rounds")
    rng = Prng(55)
    for rounds_before in (0, 1, 2):
        run = Run(tables.three_bits(), [4000, 4000, -2000], rng)
        run.call(Call(rounds_before, None))
        kept = copy.deepcopy((run.record, run.lent))
        expect_equal(run.call(Call(0, None)).answer, RUNNING, "0 rounds")
        expect_equal((run.record, run.lent), kept, "after 0 rounds")
        account.add("calls for 0 rounds")


def runs_end_at_1024(account):
    """1,000 done and 1,024 wanted does 24; an ended run refuses with 42, 0 rounds included."""
    account.announce("spent endings")
    run = Run(tables.three_bits(), [0, 0, 0], Prng(56))
    seen = run.calls([Call(1000, None), Call(1024, None), Call(0, None), Call(1, None)])
    expect_equal([(one.answer, one.rounds_done) for one in seen],
                 [(RUNNING, 1000), (SPENT, 1024), ("refused 42", 1024), ("refused 42", 1024)],
                 "the end of a run")
    expect_equal((run.lent.word, run.lent.certificate), (run.junk.word, run.junk.certificate),
                 "word and certificate of a spent run")
    account.add("spent endings")


def last_round_may_certify(account):
    """Round 1,024 with a certificate is certified, not spent."""
    account.announce("certified in round 1,024")
    run = Run(tables.three_bits(), [10, 10, 10], Prng(57))
    run.record.rounds_done = 1023
    seen = run.call(Call(1024, None))
    expect_equal((seen.answer, seen.rounds_done), (CERTIFIED, 1024), "round 1,024")
    account.add("certified in round 1,024")


def half_done_runs_go_on(account):
    """States at the near side of 43 are taken, and give a round by the same rule."""
    account.announce("half-done runs resumed", "half-done runs ended")
    rng = Prng(58)
    for table in tables.small_tables(rng, 12) + tables.emptied_tables(rng, 10):
        code = parse_code_file(tables.code_file(table))
        states = make_runs.accepted_half_done(code)
        states += [make_runs.random_half_done(rng, code, done) for done in (0, 1, 7, 900, 1023)]
        for state in states:
            run = Run(table, inputs.random_frame(rng, table[0]), rng)
            run.record.rounds_done = state.record.rounds_done
            make_runs.lend_state(code, run.lent, state)
            expect_equal(run.call(Call(0, None)).answer, RUNNING, f"0 rounds on {state}")
            done = plain_round(table, run.frame, state.copies, state.offsets)
            seen = run.call(Call(1, None))
            expect_equal(run.round_shown(), done, "resumed round")
            account.add("half-done runs resumed")
            account.add("half-done runs ended", seen.answer != RUNNING)


def edge_of_43_stays_below_44(account):
    """One bit in three checks of one member, offsets at their limit after 1,023 rounds: the
    multiplier is 8,192 x 1,024.  None can be greater, so 44 needs a lowered limit below."""
    account.announce("multipliers at the edge of 43")
    run = Run(tables.stacked_singles(3), [0], Prng(59))
    run.record.rounds_done, far = 1023, 8192 * 1023
    run.lent.offsets[:3], run.lent.sums[0] = [-far, far, far], -far
    run.call(Call(1, None))
    expect_equal(run.lent.multipliers[0], 8_388_608, "multiplier at the edge of 43")
    account.add("multipliers at the edge of 43")


def refusal_44_in_mid_call(account):
    """With the limit lowered to 3333, round 2 of the leaning frame (3334) is refused."""
    account.announce("refusals 44")
    for wanted, before in [(1, 1), (1024, 0), (2, 0)]:
        run = Run(tables.three_bits(), [4000, 4000, -2000], Prng(60))
        run.call(Call(before, None))
        with mock.patch.object(rounds, "MULTIPLIER_LIMIT", 3333):
            seen = run.call(Call(wanted, None))
        expect_equal((seen.answer, run.record), ("refused 44", Record(1, RUNNING)), "44")
        expect_equal(run.round_shown().copies, [2032, 2032, -32], "copies of the counted round")
        expect_equal(run.round_shown().multipliers, [1968], "multiplier of the counted round")
        expect_equal(run.round_shown().depths, [5904], "depth of the counted round")
        expect_equal((run.lent.word, run.lent.certificate), (run.junk.word, run.junk.certificate),
                     "word and certificate")
        expect_equal(run.call(Call(1024, None)).rounds_done, 3, "the run goes on")
        account.add("refusals 44")


def larger_tables_run(account):
    """A few rounds at the limits of n, m, E and both degrees; certificates are judged."""
    account.announce("rounds on limit tables", "limit tables certified")
    rng = Prng(61)
    for table in tables.limit_tables(rng)[:4] + [tables.full_square(), tables.stacked_singles(32),
                                                 tables.mostly_empty(), tables.emptied_band(rng)]:
        run = Run(table, inputs.noisy_frame(rng, table[0]), rng)
        seen = run.call(Call(4, None))
        account.add("rounds on limit tables", seen.rounds_done)
        if seen.answer == CERTIFIED:
            got = decoder.judge(run.code_file, run.frame, seen.word, bytes(seen.certificate))
            expect(isinstance(got, certificate.Certified), f"judged {got}")
            account.add("limit tables certified")
        expect(seen.answer in (RUNNING, CERTIFIED), f"answer {seen.answer}")


TESTS = [negation_changes_nothing_else, splitting_changes_nothing, buffers_show_the_last_round,
         start_zeroes_no_more, zero_rounds_change_nothing, runs_end_at_1024,
         last_round_may_certify, half_done_runs_go_on, edge_of_43_stays_below_44,
         refusal_44_in_mid_call, larger_tables_run]
