"""Empty checks: a table with some put in gives what the table without them gives, but for the
checks' numbers."""

import decoder
import make_inputs as inputs
import make_runs
import make_tables as tables
from certificate import BrokenCheck, Certified, Entry, write_certificate
from make_runs import Call
from make_tables import code_file
from prng import Prng
from rounds import CERTIFIED, SPENT
from support import Run, expect_equal


def emptied_pairs(rng, count):
    """Small tables, the same with empty checks put in anywhere, and the new numbers of the
    checks that were there before."""
    for table in tables.small_tables(rng, count):
        holed = tables.emptied(rng, table, rng.between(1, 8))
        yield table, holed, [check for check, members in enumerate(holed[1]) if members]


def spread(values, numbers, m):
    """The values at their checks' new numbers, and 0 at the empty checks."""
    placed = dict(zip(numbers, values))
    return [placed.get(check, 0) for check in range(m)]


def renumbered(data, numbers):
    """The certificate with the checks' new numbers."""
    scale, entries = inputs.read_entries(data)
    return write_certificate([entry._replace(check=numbers[entry.check]) for entry in entries],
                             scale)


def runs_go_alike(account):
    """Call for call: answer, record, word; spins, copies and offsets; multipliers, masks and
    depths spread; the certificate with new numbers."""
    account.announce("pairs of runs", "rounds on pairs", "pairs certified with cuts",
                     "pairs spent", "pairs refused calls")
    rng = Prng(91)
    for table, holed, numbers in emptied_pairs(rng, 40):
        frame, calls = inputs.lively_frame(rng, table[0]), make_runs.call_list(rng)
        plain, other = Run(table, frame, rng), Run(holed, frame, rng)
        for call in calls + [Call(1024, None)]:
            one, two = plain.call(call), other.call(call)
            expect_equal((*two[:3], two.word), (*one[:3], one.word), f"{call} on {holed}")
            if one.did_rounds:
                expect_rounds_alike(plain, other, numbers)
            if one.answer == CERTIFIED:
                expect_equal(bytes(two.certificate), renumbered(bytes(one.certificate), numbers),
                             "certificate")
                account.add("pairs certified with cuts", one.certificate[0] > 0)
            account.add("pairs refused calls", "refused" in one.answer)
        account.add("pairs of runs")
        account.add("rounds on pairs", plain.record.rounds_done)
        account.add("pairs spent", plain.record.status == SPENT)


def expect_rounds_alike(plain, other, numbers):
    wanted, m = plain.round_shown(), len(other.code.checks)
    per_check = {name: spread(getattr(wanted, name), numbers, m)
                 for name in ("multipliers", "masks", "depths")}
    expect_equal(other.round_shown(), wanted._replace(**per_check), "round")


def judged_alike(account):
    """Any certificate and any word: the same verdict, the broken check by its new number."""
    account.announce("pairs judged", "pairs judged broken", "pairs judged certified")
    rng = Prng(92)
    for table, holed, numbers in emptied_pairs(rng, 30):
        words = inputs.codewords(table)
        expect_equal(inputs.codewords(holed), words, "codewords")
        for _ in range(10):
            frame = inputs.random_frame(rng, table[0])
            word = rng.choice([rng.choice(words), inputs.random_word(rng, table[0])])
            written = inputs.run_certificate(table, frame)
            data = inputs.handmade_certificate(rng, table) if written is None else written[1]
            verdict = decoder.judge(code_file(table), frame, word, data)
            if isinstance(verdict, BrokenCheck):
                account.add("pairs judged broken")
                verdict = BrokenCheck(numbers[verdict.check])
            expect_equal(decoder.judge(code_file(holed), frame, word, renumbered(data, numbers)),
                         verdict, f"{frame} {word} on {holed}")
            account.add("pairs judged")
            account.add("pairs judged certified", isinstance(verdict, Certified))


def cuts_alike(account):
    account.announce("pairs of searches with a cut", "searches beside them")
    rng = Prng(93)
    for table, holed, numbers in emptied_pairs(rng, 60):
        spins = inputs.random_spins(rng, table[0])
        cuts = [decoder.cut_search(code_file(table), spins, check)
                for check in range(len(numbers))]
        found = [decoder.cut_search(code_file(holed), spins, check)
                 for check in range(len(holed[1]))]
        expect_equal(found, [cuts[numbers.index(check)] if check in numbers else None
                             for check in range(len(holed[1]))], f"cuts of {holed} at {spins}")
        account.add("pairs of searches with a cut", sum(one is not None for one in cuts))
        account.add("searches beside them", len(found) - len(cuts))


def named_empty_checks(account):
    """An entry that names an empty check is 12 if its multiplier is out of range, otherwise 13,
    wherever it stands among good ones."""
    account.announce("empty checks named, 12", "empty checks named, 13")
    rng = Prng(94)
    for table, holed, numbers in emptied_pairs(rng, 60):
        entries = inputs.read_entries(renumbered(inputs.handmade_certificate(rng, table),
                                                 numbers))[1]
        empty = rng.choice([check for check in range(len(holed[1])) if check not in numbers])
        for multiplier, number in [(0, 12), (1, 13), ((1 << 24) - 1, 13), (1 << 24, 12)]:
            mask = rng.choice([0, 1, 3, 7, 1 << 31, (1 << 32) - 1])
            made = sorted(entries + [Entry(empty, multiplier, mask)], key=lambda one: one.check)
            got = decoder.answer(decoder.judge, code_file(holed), [1] * table[0], [0] * table[0],
                                 write_certificate(made))
            expect_equal(got, f"refused {number}", f"{made} on {holed}")
            account.add(f"empty checks named, {number}")


def shortening_keeps_codewords(account):
    """A shortened table's codewords are those with 0 at the bits left out, though checks lose
    members, some of them all."""
    account.announce("shortened tables", "checks emptied by shortening")
    rng = Prng(95)
    for table in tables.small_tables(rng, 40):
        kept = sorted(rng.sample(range(table[0]), rng.between(1, min(3, table[0]))))
        short = tables.shortened(table, kept)
        words = [[word[bit] for bit in kept] for word in inputs.codewords(table)
                 if all(bit in kept or word[bit] == 0 for bit in range(table[0]))]
        expect_equal(inputs.codewords(short), words, f"{table} on the bits {kept}")
        expect_equal(decoder.parse_code_file(code_file(short)).checks, short[1], "checks")
        account.add("shortened tables")
        account.add("checks emptied by shortening", short[1].count([]))


TESTS = [runs_go_alike, judged_alike, cuts_alike, named_empty_checks, shortening_keeps_codewords]
