"""The cut search against all odd sets, and the multiplier against its definition."""

from itertools import combinations

import cut
import make_inputs as inputs
import make_tables as tables
from prng import Prng
from support import expect, expect_equal
from table import UNIT


def greatest_shortfall(spins):
    """2U less the left side, written out once more: the greatest over all odd sets, or 0 if it
    is above 0 for none.  For small degrees only."""
    places = range(len(spins))
    sets = [chosen for size in places[::2] for chosen in combinations(places, size + 1)]
    return max([0, *(2 * UNIT - sum(UNIT + spins[k] if k in chosen else UNIT - spins[k]
                                    for k in places) for chosen in sets)])


def known_against_exhaustive(account):
    """None exactly if no odd set is violated, and never more than one is; the depth is the
    greatest shortfall of all."""
    account.announce("searches with a cut", "searches without a cut", "cuts with a zero spin",
                     "cuts by a side change", "spins tied for the side change")
    rng = Prng(31)
    for degree in range(1, 9):
        for _ in range(1000 if degree < 7 else 400):
            spins = inputs.random_spins(rng, degree)
            violated = cut.all_cuts(spins)
            expect(len(violated) <= 1, f"{spins} violates {violated}")
            mask, depth = cut.known_cut(spins) or (None, 0)
            expect_equal(mask, violated[0] if violated else None, f"cut of {spins}")
            expect_equal(depth, greatest_shortfall(spins), f"depth of {spins}")
            count_search(account, spins, violated)


def count_search(account, spins, violated):
    even = sum(spin < 0 for spin in spins) % 2 == 0
    sizes = sorted(map(abs, spins))
    account.add("searches with a cut" if violated else "searches without a cut")
    account.add("cuts with a zero spin", bool(violated) and 0 in spins)
    account.add("cuts by a side change", bool(violated) and even)
    account.add("spins tied for the side change", even and sizes[:1] == sizes[1:2])


def empty_checks_have_no_cut(account):
    """No odd set is to be had of no members, though the left side of the empty set is 0."""
    account.announce("searches on an empty check")
    expect_equal((cut.all_cuts([]), cut.known_cut([])), ([], None), "cut of no spins")
    expect(cut.is_violated([], 0), "the empty set is even, and short of 2U")
    rng = Prng(35)
    for table in tables.emptied_tables(rng, 20):
        spins = inputs.random_spins(rng, table[0])
        for check, members in enumerate(table[1]):
            if not members:
                expect_equal(cut.cut_search(tables.code_file(table), spins, check), None,
                             f"cut of check {check} of {table}")
                account.add("searches on an empty check")


def ties_are_never_cut(account):
    """Two members tied for the least size put the left side at 2U or more, on either side."""
    account.announce("ties without a cut")
    rng = Prng(32)
    for _ in range(600):
        spins = inputs.random_spins(rng, rng.between(2, 8))
        sizes = sorted(map(abs, spins))
        if sizes[0] == sizes[1] and sum(spin < 0 for spin in spins) % 2 == 0:
            expect_equal(cut.all_cuts(spins), [], f"tie in {spins}")
            account.add("ties without a cut")


def wide_checks_by_hand(account):
    """Degree 32, where not all sets can be tried.  31 full spins add nothing to the left
    side of V = {31}, and the last one U - weak, which falls short of 2U by U + weak."""
    account.announce("cuts with mask bit 31")
    for weak in range(-UNIT + 256, UNIT + 1, 256):
        found = cut.known_cut([UNIT] * 31 + [-weak])
        expect_equal(found, cut.Cut(1 << 31, UNIT + weak), f"weak {weak}")
        account.add("cuts with mask bit 31")
    expect_equal(cut.known_cut([UNIT] * 32), None, "a full codeword")


def cut_values(rng):
    """Values as they come in step 2 (spin plus offset, unclipped) whose check is cut."""
    while True:
        reach = rng.choice([0, 50, 3000, 9000])
        values = [spin + rng.between(-reach, reach)
                  for spin in inputs.random_spins(rng, rng.between(1, 8))]
        found = cut.known_cut([cut.clip(value) for value in values])
        if found is not None:
            return values, found.mask


def fast_multiplier_against_counting(account):
    account.announce("multipliers compared", "multipliers above 2U", "multipliers of 1")
    rng = Prng(33)
    for _ in range(400):
        values, mask = cut_values(rng)
        fast = cut.least_multiplier(values, mask)
        expect_equal(fast, cut.least_multiplier_by_counting(values, mask), f"{values} on {mask}")
        account.add("multipliers compared")
        account.add("multipliers above 2U", fast > 2 * UNIT)
        account.add("multipliers of 1", fast == 1)


def multiplier_is_least(account):
    """Large offsets and degree 32, too far to count: b meets the inequality, b - 1 doesn't."""
    account.announce("large multipliers")
    rng = Prng(34)
    for _ in range(400):
        degree = rng.choice([1, 2, 3, 31, 32])
        reach = 8192 * rng.between(1, 1023)
        values = [rng.between(-UNIT, UNIT) + rng.between(-reach, reach) for _ in range(degree)]
        found = cut.known_cut([cut.clip(value) for value in values])
        if found is None:
            continue
        mask, least = found.mask, cut.least_multiplier(values, found.mask)
        expect(least >= 1, f"multiplier {least} of a cut")
        expect(not cut.is_violated(cut.moved(values, mask, least), mask), f"{least} closes {values}")
        expect(cut.is_violated(cut.moved(values, mask, least - 1), mask), f"less than {least}")
        account.add("large multipliers", least > 8192)


TESTS = [known_against_exhaustive, empty_checks_have_no_cut, ties_are_never_cut,
         wide_checks_by_hand, fast_multiplier_against_counting, multiplier_is_least]
