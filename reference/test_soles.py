"""What the mark of a passed certificate claims: nobody ties with a sole winner."""

from unittest import mock

import cut
import decoder
import make_inputs as inputs
import make_soles as soles
import make_tables as tables
import make_verdicts as verdicts
import rounds
from certificate import Certified, Entry, agreement, write_certificate
from make_soles import side
from make_tables import code_file
from make_verdicts import JudgeCase
from prng import Prng
from support import expect, expect_equal
from table import FRAME_LIMIT
from test_optimal import TRIANGLE, grid_points, relaxation_points

# One codeword, 000; but p of (-1, -1, -1) with D of 3 meets every inequality too.
LONE = (3, [[0, 1], [1, 2], [0, 2], [0, 1, 2]])


def marked(name, found):
    return f"{name}, sole" if found.sole else f"{name}, not sole"


def expect_met(account, least):
    """Each of these so often at least."""
    for name, count in least.items():
        expect(account.counts[name] >= count, f"{name}: {account.counts[name]}, not {count}")


# --- what the mark claims --------------------------------------------------------------------

CLAIMS_LEAST = {
    "runs, sole": 200, "runs, not sole": 30,
    "runs at a scale, sole": 200, "runs at a scale, not sole": 12,
    "made by hand, sole": 150, "made by hand, not sole": 300,
    "altered, sole": 3000, "altered, not sole": 1200,
    "passed for a tied frame": 900, "passed for a tied frame by a run": 10,
    "passed for a frame tied by other points alone": 10, "not sole, nobody ties": 600,
    "codewords below a sole one": 20_000, "points below a sole one": 100_000,
}


def own_point(word, unit=1):
    return unit, [unit * side(bit) for bit in word]


def tied_case(rng, table, word, scale, other):
    """Another point meets all entries' inequalities exactly, too; where it is not the word's own,
    the reduced numbers are 0."""
    unit, point = other
    entries = [entry for entry in soles.made_entries(rng, table, word, 1) if cut.shortfall(
        [point[bit] for bit in table[1][entry.check]], entry.mask, unit) == 0]
    differ = [bit for bit, value in enumerate(own_point(word, unit)[1]) if value != point[bit]]
    return soles.made_case(rng, table, word, scale, soles.times(entries, scale), differ)


def made_cases(rng, table, words, points):
    """Gaps of 0 with no reduced number at 0, with some, and with a codeword or point that ties."""
    cases = []
    for _ in range(6):
        word, scale = rng.choice(words), rng.choice([1, 2, 1023])
        entries = soles.made_entries(rng, table, word, 1, rng.between(1, 3))
        zeros = rng.sample(range(table[0]), rng.between(0, table[0]))
        cases += [soles.made_case(rng, table, word, scale, entries),
                  soles.made_case(rng, table, word, scale, soles.times(entries, scale), zeros)]
        for others in (list(map(own_point, words)), points):
            others = [other for other in others if other != own_point(word, other[0])]
            cases += [tied_case(rng, table, word, scale, other) for other in rng.sample(others, 1)]
    return cases


def run_cases(table, frames, scale):
    """Of runs on so many times the frames, at that scale, if 60 rounds are enough."""
    with mock.patch.object(rounds, "ROUNDS_LIMIT", 60):
        found = [(frame, soles.scaled_run(table, frame, scale)) for frame in frames
                 if max(map(abs, frame)) * scale <= FRAME_LIMIT]
    return [JudgeCase(code_file(table), frame, *written) for frame, written in found
            if written is not None]


def altered_cases(rng, case, words):
    """Other multipliers, frame numbers and codewords under the same certificate."""
    return (rng.sample(verdicts.altered_multipliers(case), 3)
            + rng.sample(verdicts.altered_frames(case), 3)
            + [case._replace(word=word) for word in rng.sample(words, 3)])


def leads_over(case, points):
    """By how much each point agrees better than D times the word, its own left out."""
    own = agreement(case.frame, case.word)
    return [sum(l * p for l, p in zip(case.frame, point)) - unit * own for unit, point in points
            if (unit, point) != own_point(case.word, unit)]


def expect_claim(account, source, case, words, points):
    """Against all codewords, and against points."""
    found = decoder.answer(decoder.judge, *case)
    if not isinstance(found, Certified):
        return
    rivals, others = leads_over(case, map(own_point, words)), leads_over(case, points)
    nearest = max(rivals + others, default=-1)
    expect(nearest <= 0, f"better than the certified: {case}")
    expect(not found.sole or nearest < 0, f"ties with a sole winner: {case}")
    account.add(marked(source, found))
    account.add("passed for a tied frame", 0 in rivals)
    account.add("passed for a tied frame by a run", 0 in rivals and source.startswith("runs"))
    account.add("passed for a frame tied by other points alone", 0 not in rivals and 0 in others)
    account.add("not sole, nobody ties", not found.sole and nearest < 0)
    account.add("codewords below a sole one", len(rivals) * found.sole)
    account.add("points below a sole one", len(others) * found.sole)


def claim_tables(rng):
    """n up to 9."""
    small = tables.small_tables(rng, 36) + tables.emptied_tables(rng, 10)
    return [table for table in small if table[0] <= 9] + [TRIANGLE, LONE]


def claim_points(rng, table, words):
    """Mixtures of codewords and other points, and for smaller n all points with D of 2 and 3 and p
    of D's own parity."""
    points = relaxation_points(rng, table, words, 24)
    for unit, largest in [(2, 6), (3, 4)]:
        points += grid_points(table, unit) if table[0] <= largest else []
    return points


def nobody_ties_with_a_sole_winner(account):
    """On small tables, whoever wrote the certificate."""
    account.announce(*CLAIMS_LEAST)
    rng = Prng(151)
    for table in claim_tables(rng):
        n, words = table[0], inputs.codewords(table)
        points = claim_points(rng, table, words)
        made = made_cases(rng, table, words, points)
        frames = inputs.frames(rng, n) + [soles.small_frame(rng, n) for _ in range(24)]
        frames += [case.frame for case in made[::3]]
        runs = run_cases(table, frames, 1)
        at_scale = run_cases(table, frames, rng.choice([2, 3, 20]))
        altered = [other for case in made + runs + at_scale
                   for other in altered_cases(rng, case, words)]
        for source, cases in [("runs", runs), ("runs at a scale", at_scale),
                              ("made by hand", made), ("altered", altered)]:
            for case in cases:
                expect_claim(account, source, case, words, points)
    expect_met(account, CLAIMS_LEAST)


# --- what keeps the mark ---------------------------------------------------------------------

def negated(table, case, codeword):
    """Frame, word and masks under a codeword: the sizes of the reduced numbers stay."""
    scale, entries = inputs.read_entries(case.certificate)
    turned = [entry._replace(mask=entry.mask ^ sum(
        codeword[bit] << place for place, bit in enumerate(table[1][entry.check])))
              for entry in entries]
    turned.sort(key=lambda entry: (entry.check, entry.mask))
    return case._replace(frame=inputs.negated_under(case.frame, codeword),
                         word=[a ^ b for a, b in zip(case.word, codeword)],
                         certificate=write_certificate(turned, scale))


def kept_under_a_codeword_and_a_scale(account):
    account.announce("marks kept, sole", "marks kept, not sole")
    rng = Prng(152)
    for table in tables.small_tables(rng, 30) + tables.emptied_tables(rng, 10):
        words = inputs.codewords(table)
        for case in made_cases(rng, table, words, list(map(own_point, words))):
            found = decoder.judge(*case)
            expect_equal(decoder.judge(*negated(table, case, rng.choice(words))), found, f"{case}")
            if inputs.read_entries(case.certificate)[0] <= 2:
                other = case._replace(certificate=inputs.scaled(case.certificate, 511))
                expect_equal(decoder.judge(*other), found, f"{case} at 511 times the scale")
            account.add(marked("marks kept", found))


def alone_without_the_mark(account):
    """Document 01's three bits with 2000: the last reduced number is 0, and yet nobody ties."""
    account.announce("points below 000")
    table, written = tables.three_bits(), write_certificate([Entry(0, 2000, 4)])
    case = JudgeCase(code_file(table), [4000, 4000, -2000], [0, 0, 0], written)
    expect_equal(decoder.judge(*case), Certified(False), "the mark with 2000")
    for unit in range(1, 13):
        leads = leads_over(case, grid_points(table, unit))
        expect(max(leads) < 0, f"a point with D {unit} ties with 000")
        account.add("points below 000", len(leads))


TESTS = [nobody_ties_with_a_sole_winner, alone_without_the_mark, kept_under_a_codeword_and_a_scale]
