"""Kind case_cuts: the public cut search on a code file, a point and a check number.

Document 01, 'Parity inequalities and the cut search', and the refusals 1-7, 16 and 17.  Each
record: u32 length and code file, u32 count and spins (i32), u32 check number.
"""

from collections import namedtuple
from itertools import permutations, product

import make_damage as damage
import make_inputs as inputs
import make_tables as tables
from cut import Cut, cut_search
from decoder import answer
from make_tables import code_file
from packing import block, counted, lines, u32
from prng import Prng
from table import UNIT

CutCase = namedtuple("CutCase", "code_file spins check_number")

ENDS = (-UNIT, 1 - UNIT, -1, 0, 1, UNIT - 1, UNIT)
BEYOND = (UNIT + 1, -UNIT - 1, 8192, 65536, 65536 + UNIT, -65536, 2**31 - 1, -2**31, 1 - 2**31)
FAR_CHECKS = (65535, 65536, 65537, 65538, 2**31 - 1, 2**31, 2**31 + 1, 2**32 - 2, 2**32 - 1)


def placed(rng, member_spins):
    """The members' spins on a check somewhere in a table, among other bits and checks."""
    n = len(member_spins) + rng.between(0, 4)
    members = sorted(rng.sample(range(n), len(member_spins)))
    checks = tables.random_table(rng, n, rng.between(2, 4), 5)[1]
    place = rng.between(0, len(checks))
    spins = inputs.random_spins(rng, n)
    for bit, spin in zip(members, member_spins):
        spins[bit] = spin
    return CutCase(code_file((n, checks[:place] + [members] + checks[place:])), spins, place)


def alone(member_spins):
    """The members' spins on the only check of a table."""
    return CutCase(code_file(tables.one_wide_check(len(member_spins))), list(member_spins), 0)


# --- answers ---------------------------------------------------------------------------------

def document_examples():
    """(1365, 1365, -1366) and (1365, 1365, -1367), all orders, all signs."""
    sizes = [order for third in (1366, 1367)
             for order in sorted(set(permutations((1365, 1365, third))))]
    return [alone([size * sign for size, sign in zip(order, signs)])
            for order in sizes for signs in product((1, -1), repeat=3)]


def telling_values():
    """Degrees 1, 2 and 3 with every choice of telling spins."""
    return ([alone(spins) for degree in (1, 2) for spins in product(ENDS, repeat=degree)]
            + [alone(spins) for spins in product((-UNIT, -1366, 0, 1365, UNIT), repeat=3)])


def edge_of_the_inequality(rng):
    """Left sides of 2U - 1, 2U and 2U + 1 at every degree from 2 on, in four ways."""
    cases = []
    for degree in range(2, 33):
        for total in (2 * UNIT - 1, 2 * UNIT, 2 * UNIT + 1):
            for share in inputs.SHARES:
                mask = inputs.random_mask(rng, degree)
                cases.append(placed(rng, inputs.spins_with_slacks(mask, share(rng, degree, total))))
    return cases


def top_members(rng):
    """V with and without the last member at degrees 30 to 32: mask bits 29 to 31."""
    cases = []
    for degree in (30, 31, 32):
        top, full = 1 << degree - 1, (1 << degree) - 1
        odd = full if degree % 2 == 1 else full ^ 1
        for mask in (top, 1, top | 3, odd, full ^ top if degree % 2 == 0 else full ^ top ^ 2):
            for total in (0, 1, UNIT, 2 * UNIT - 1, 2 * UNIT):
                slacks = inputs.random_slacks(rng, degree, total)
                cases.append(alone(inputs.spins_with_slacks(mask, slacks)))
    return cases


def zeros_and_ties(rng):
    """One zero spin, two zero spins, and members tied for the side change."""
    cases = []
    for degree in (1, 2, 3, 4, 7, 16, 31, 32):
        for zeros in (1, 2, degree):
            strong = [rng.choice([-1, 1]) * (UNIT - rng.between(0, 120)) for _ in range(degree)]
            cases.append(placed(rng, rng.shuffled([0] * zeros + strong)[:degree]))
            cases.append(alone(([0] * zeros + strong)[:degree]))
        for size in (1, 100, UNIT - 1, UNIT):
            tied = [rng.choice([-1, 1]) * size for _ in range(min(2, degree))]
            ends = [rng.choice([-UNIT, UNIT]) for _ in range(degree - len(tied))]
            cases.append(placed(rng, rng.shuffled(tied + ends)))
    return cases


def random_points(rng, count):
    """Every check of small tables in turn, spins of all kinds."""
    cases = []
    while len(cases) < count:
        n, checks = rng.choice(tables.small_tables(rng, 12))
        spins = inputs.random_spins(rng, n)
        cases += [CutCase(code_file((n, checks)), spins, number) for number in range(len(checks))]
    return cases


def large_tables(rng):
    """n, m and E at their limits: first and last check, a cut at the last one, the two
    refusals at the far end."""
    cases = []
    for n, checks in [tables.largest_regular(rng), tables.largest_uneven(rng),
                      tables.wide_checks(), tables.deep_bits()]:
        data, last = code_file((n, checks)), len(checks) - 1
        spins = [UNIT] * n
        spins[checks[-1][-1]] = -UNIT
        cases += [CutCase(data, spins, last), CutCase(data, inputs.random_spins(rng, n), 0),
                  CutCase(data, spins, last + 1), CutCase(data, [*spins[:-1], UNIT + 1], last)]
    return cases


# --- refusals --------------------------------------------------------------------------------

def bad_points(rng):
    """16, alone and together with 17; members and other bits alike."""
    cases = []
    for n, checks in (tables.hamming(), tables.three_bits(), tables.one_bit(),
                      tables.one_wide_check()):
        good, data, m = inputs.random_spins(rng, n), code_file((n, checks)), len(checks)
        points = [good[:length] for length in sorted({0, 1, n - 1}) if length != n]
        points += [good + [0], good + [UNIT + 1], good + good, [UNIT + 1] * (n - 1)]
        points += [good[:place] + [spin] + good[place + 1:]
                   for place in sorted({0, n // 2, n - 1}) for spin in BEYOND]
        cases += [CutCase(data, point, rng.choice([0, m - 1, m - 1, m, 2**32 - 1]))
                  for point in points]
    return cases


def bad_check_numbers(rng):
    """17 from m up to 2^32 - 1, and beside it the last good number.  m = 256 is the table
    where a number cut to its lowest byte would be taken for check 0."""
    cases = []
    for table in (tables.one_bit(), tables.three_bits(), tables.hamming(),
                  tables.cycle_table(5), tables.cycle_table(256)):
        data, m = code_file(table), len(table[1])
        cases += [CutCase(data, inputs.random_spins(rng, table[0]), number)
                  for number in (m - 1, m, m + 1, *FAR_CHECKS)]
    return cases


def damaged_files(rng):
    """1 to 7 before everything: with a point and a number that fit, and with bad ones."""
    claims = damage.single_faults(rng) + damage.fault_pairs(rng, 1) + damage.fault_triples(rng, 20)
    cases = [CutCase(claim.data, spins, number) for claim in claims
             for spins, number in [(inputs.random_spins(rng, rng.choice([4, 5, 7, 12])), 0),
                                   (rng.choice([[], [9999], [-2**31] * 7]), 2**32 - 1)]]
    unused = code_file(damage.unused_bit("last")(tables.hamming()))
    return cases + [CutCase(unused, [0] * 8, 0), CutCase(unused, [0] * 8, 3),
                    CutCase(unused, [0] * 7, 0), CutCase(b"", [], 0)]


# --- empty checks ----------------------------------------------------------------------------

def empty_checks(rng):
    """An empty check has no cut at any point, and those beside it keep theirs."""
    cases = []
    for n, checks in tables.emptied_tables(rng, 12):
        data, spins = code_file((n, checks)), inputs.random_spins(rng, n)
        cases += [CutCase(data, spins, number) for number in range(len(checks))]
    n, checks = table = tables.with_empty(tables.hamming(), [0, 2, 3])
    points = [[spin] * n for spin in ENDS] + [inputs.random_spins(rng, n) for _ in range(3)]
    return cases + [CutCase(code_file(table), spins, number) for spins in points
                    for number, members in enumerate(checks) if not members]


def empty_checks_refused(rng):
    """16 and 17 where empty checks stand first and last, and damaged files with some."""
    n, checks = table = tables.with_empty(tables.hamming(), [0, 2, 3])
    data, last = code_file(table), len(checks) - 1
    cases = [CutCase(data, [0] * (n - 1) + [UNIT + 1], last), CutCase(data, [0] * (n + 1), 0),
             CutCase(data, [], last), CutCase(data, [0] * n, last + 1),
             CutCase(data, [-UNIT - 1] * n, last + 1)]
    return cases + [CutCase(claim.data, inputs.random_spins(rng, n), 0)
                    for claim in rng.sample(damage.empty_check_claims(rng), 10)]


def mostly_empty(rng):
    """m 2,048: first and last check, both empty; the one with members; and none such."""
    data, spins = code_file(tables.mostly_empty()), [UNIT] * 31 + [-UNIT]
    return [CutCase(data, spins, number) for number in (0, 1024, 2047, 2048)]


# --- depths ----------------------------------------------------------------------------------

def chosen_depths(rng):
    """Depths beside both ends and the middle, and one between, at every degree: shared out at
    random, and all on one member.  Depth 1 stands in `edge_of_the_inequality`."""
    cases = []
    for degree in range(1, 33):
        for depth in (2, UNIT - 1, UNIT + 1, 2 * UNIT - 2, 2 * UNIT - 1, 2 * UNIT,
                      rng.between(3, 2 * UNIT - 3)):
            total = 2 * UNIT - depth
            cases += [alone(inputs.spins_with_slacks(inputs.random_mask(rng, degree), slacks))
                      for slacks in (inputs.random_slacks(rng, degree, total),
                                     rng.shuffled([total] + [0] * (degree - 1)))]
    return cases


def tied_depths(rng):
    """Two members tied for the least size: an odd set of negative spins falls short by up to
    twice that size, an even one never, whichever of the two changes sides."""
    cases = []
    for degree in (3, 4, 7, 16, 31, 32):
        for size in (1, rng.between(2, 1364), 1365):
            for depth in sorted({1, 2, 2 * size}):
                slacks = [UNIT - size, UNIT - size, 2 * size - depth] + [0] * (degree - 3)
                slacks, odd = rng.shuffled(slacks), inputs.random_mask(rng, degree)
                cases += [alone(inputs.spins_with_slacks(mask, slacks))
                          for mask in (odd, odd ^ 1 << rng.between(0, degree - 1))]
    return cases


def depth_records(rng):
    return chosen_depths(rng) + tied_depths(rng)


# --- the kind --------------------------------------------------------------------------------

def cut_records():
    rng = Prng(20_02)
    return (document_examples() + telling_values() + edge_of_the_inequality(rng)
            + top_members(rng) + zeros_and_ties(rng) + bad_points(rng) + bad_check_numbers(rng)
            + damaged_files(rng) + random_points(rng, 320) + large_tables(rng)
            + empty_checks(rng) + empty_checks_refused(rng) + mostly_empty(rng)
            + depth_records(Prng(20_10)))


def cut_line(case):
    found = answer(cut_search, *case)
    if isinstance(found, Cut):
        return f"mask {found.mask} depth {found.depth}"
    return "none" if found is None else found


def case_cuts():
    records = cut_records()
    stream = b"".join(block(case.code_file) + counted(case.spins, 4) + u32(case.check_number)
                      for case in records)
    return stream, lines(map(cut_line, records))
