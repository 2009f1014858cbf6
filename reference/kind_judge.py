"""Kind case_judge: the judge, the syndrome and the agreement on one set of inputs.

Document 01, 'Certificates', and the refusals 1-9, 15, 10-14 in this order.  Each record: u32
length and code file, u32 count and frame (i16), u32 length and word, u32 length and
certificate.  A line begins with the judge's answer: `refused K`, `broken C`, `gap G`, or
`certified sole` where no reduced number is 0 and `certified` where one is.
"""

from itertools import permutations, product

import make_damage as damage
import make_inputs as inputs
import make_runs
import make_soles as soles
import make_tables as tables
import make_verdicts as verdicts
from certificate import MULTIPLIER_LIMIT, BrokenCheck, Certified, Entry, Gap, write_certificate
from decoder import answer, judge, syndrome, word_agreement
from make_tables import code_file
from make_verdicts import NO_ENTRIES, JudgeCase
from packing import block, counted, lines
from prng import Prng


# --- refusals and other plain inputs ---------------------------------------------------------

def entry_orders():
    """Four entries in every order: only one of the 24 is ascending."""
    good = make_runs.good_judge()
    _, entries = inputs.read_entries(good["certificate"])
    return [JudgeCase(**{**good, "certificate": write_certificate(list(order))})
            for order in permutations(entries)]


def numbers_at_the_ends():
    """Frame numbers at and beyond their limit, first and last, before good and bad words."""
    good = JudgeCase(**make_runs.good_judge())
    frames = [[number] + [1] * 6 for number in (8191, -8191, 8192, -8192, 32767, -32768)]
    frames += [[8191] * 7, [-8191] * 7, [0] * 7, [-32768] * 7]
    return [good._replace(frame=turned, word=word) for frame in frames
            for turned in (frame, frame[::-1]) for word in ([0] * 7, [1] + [0] * 6, [2] * 7)]


def broken_words(rng):
    """Each check in turn the first broken one, up to the last of 2,048."""
    cases = []
    for n, checks in (tables.cycle_table(9), (10, [[k, k + 5] for k in range(5)])):
        data, frame = code_file((n, checks)), inputs.random_frame(rng, n)
        cases += [JudgeCase(data, frame, [int(bit == one) for bit in range(n)], NO_ENTRIES)
                  for one in range(n)]
    n = 2048
    return cases + [JudgeCase(code_file(tables.identity(n)), [-5] * n, [0] * (n - 1) + [1],
                              NO_ENTRIES)]


def damaged_files(rng):
    """1 to 7 with everything else in order, and two faults at once."""
    good = JudgeCase(**make_runs.good_judge())
    claims = [damage.damaged(tables.hamming(), {kind: fault})
              for kind, faults in damage.FAULTS.items() for fault in faults]
    return [good._replace(code_file=claim.data) for claim in claims + damage.fault_pairs(rng, 1)]


def plain_inputs():
    """Everything empty, and each part empty in turn."""
    good = JudgeCase(**make_runs.good_judge())
    return [JudgeCase(b"", [], [], b""), good, good._replace(code_file=b""),
            good._replace(frame=[]), good._replace(word=[]), good._replace(certificate=b""),
            good._replace(frame=[], word=[]), good._replace(word=[], certificate=b"")]


def claimed_refusals(rng):
    """The calls of make_runs, each refusal alone and before all later ones."""
    return [JudgeCase(*claim.arguments) for claim in make_runs.judge_claims(rng)]


# --- empty checks ----------------------------------------------------------------------------

# The checks 0, 2, 5 and 6 are empty, the others those of the Hamming code.
EMPTIED = tables.with_empty(tables.hamming(), [0, 1, 3, 3])


def emptied_case(*entries, word=(0,) * 7):
    return JudgeCase(code_file(EMPTIED), [100, 200, 300, 400, 500, -600, 700], list(word),
                     write_certificate([Entry(*entry) for entry in entries]))


def named_empty_checks():
    """An entry that names an empty check: 12 for its multiplier, otherwise 13 for any mask."""
    masks = (0, 1, 2, 3, 7, 1 << 31, (1 << 32) - 1)
    multipliers = (0, 1, 8000, MULTIPLIER_LIMIT, MULTIPLIER_LIMIT + 1, (1 << 32) - 1)
    return ([emptied_case((2, multiplier, mask))
             for multiplier, mask in product(multipliers, masks)]
            + [emptied_case((check, 5, 1)) for check in (0, 5, 6)])


def named_in_turn():
    """The same behind and before other entries, good ones and bad ones, and broken words."""
    empty, void, good, after = (2, 5, 1), (2, 0, 1), (1, 60, 2), (3, 70, 8)
    cases = [emptied_case(*entries) for entries in [
        (good, empty), (empty, after), (good, void), (void, after), (good, empty, after),
        (after, empty), (empty, empty), ((0, 5, 1), (2, 0, 0)), (good, good, empty),
        (empty, (7, 5, 1)), ((7, 5, 1), empty), (good, (3, 5, 3), (5, 5, 1)), (good, (6, 5, 0)),
        (good, after), (after, good), (good, (1, 60, 7), after)]]
    broken = [1] + [0] * 6
    return cases + [emptied_case(empty, word=broken), emptied_case(good, after, word=broken),
                    emptied_case(word=[0] * 6 + [1]), emptied_case(word=[0, 0, 0, 1, 0, 0, 0])]


def emptied_runs(rng):
    """Certificates of runs on tables with empty checks, and the same altered."""
    cases = []
    for table in tables.emptied_tables(rng, 12):
        frame = inputs.noisy_frame(rng, table[0])
        written = inputs.other_certificate(table, frame)
        if written is not None:
            case = JudgeCase(code_file(table), frame, *written)
            cases += [case, rng.choice(verdicts.altered_frames(case)),
                      rng.choice(verdicts.altered_words(case))]
    return cases


def mostly_empty():
    """m 2,048: the one check with members alone can be broken, and named."""
    data, top = code_file(tables.mostly_empty()), 1 << 31
    frame = [1000] * 31 + [-1]
    return ([JudgeCase(data, frame, [0] * 31 + [bit], write_certificate([Entry(1024, 1, top)]))
             for bit in (0, 1)]
            + [JudgeCase(data, frame, [0] * 32, write_certificate([Entry(check, 1, 1)]))
               for check in (1023, 2047)])


# --- the kind --------------------------------------------------------------------------------

def judge_records():
    rng, own_rng = Prng(20_03), Prng(20_08)
    return (verdicts.document_gaps() + verdicts.document_others()
            + verdicts.altered_runs(rng, 36, inputs.other_certificate)
            + verdicts.altered_thoroughly() + verdicts.strangers(rng, 90)
            + verdicts.tight_cases(rng, 40) + verdicts.wide_cases() + verdicts.long_cases()
            + verdicts.heavy_cases() + verdicts.large_cases(rng) + entry_orders()
            + numbers_at_the_ends() + broken_words(rng) + damaged_files(rng) + plain_inputs()
            + claimed_refusals(rng) + named_empty_checks() + named_in_turn() + emptied_runs(rng)
            + mostly_empty() + verdicts.altered_runs(own_rng, 24, inputs.run_certificate)
            + verdicts.weak_cases(own_rng) + soles.sole_cases(Prng(20_14)))


def verdict(found, met):
    if isinstance(found, BrokenCheck):
        return f"broken {found.check}"
    if isinstance(found, Gap):
        return f"gap {found.gap}"
    if isinstance(found, Certified):
        return "certified sole" if found.sole else "certified"
    return met if found is None else str(found)


def judge_line(case):
    judged = verdict(answer(judge, *case), None)
    checked = verdict(answer(syndrome, case.code_file, case.word), "met")
    agreed = answer(word_agreement, case.code_file, case.frame, case.word)
    return f"{judged} ; {checked} ; {agreed}"


def case_judge():
    records = judge_records()
    stream = b"".join(block(case.code_file) + counted(case.frame, 2) + block(case.word)
                      + block(case.certificate) for case in records)
    return stream, lines(map(judge_line, records))
