"""Parity inequalities, the cut search, and the least multiplier that closes a cut.

Document 01, 'Parity inequalities and the cut search' and step 2 of 'One round'.  A set V of
a check's members is a mask throughout: bit k stands for the k-th member, from 0.
"""

from collections import namedtuple

import table
from table import UNIT

Cut = namedtuple("Cut", "mask depth")       # a violated odd set, and how far short it falls


def clip(value):
    return -UNIT if value < -UNIT else UNIT if value > UNIT else value


def in_set(mask, member):
    return mask >> member & 1 == 1


def left_side(spins, mask, unit=UNIT):
    """Left side of V's inequality.  The relaxation's points use their own D as unit."""
    return sum(unit + spin if in_set(mask, member) else unit - spin
               for member, spin in enumerate(spins))


def shortfall(spins, mask, unit=UNIT):
    """2U less the left side: above 0 exactly if V's inequality is violated."""
    return 2 * unit - left_side(spins, mask, unit)


def is_violated(spins, mask, unit=UNIT):
    return shortfall(spins, mask, unit) > 0


def known_cut(spins):
    """The violated odd set and its depth, or None, by the known method.

    The negative spins are the set with the least left side of all.  If their number is even,
    the cheapest way to an odd set is to move the member nearest to 0; `min` takes the first
    on a tie.  A check without members has no odd set, and so no cut.  No member's part of a
    left side is negative, so a depth is at most 2U.
    """
    if not spins:
        return None
    mask = sum(1 << member for member, spin in enumerate(spins) if spin < 0)
    if mask.bit_count() % 2 == 0:
        nearest = min(range(len(spins)), key=lambda member: abs(spins[member]))
        mask ^= 1 << nearest
    depth = shortfall(spins, mask)
    return Cut(mask, depth) if depth > 0 else None


def all_cuts(spins, unit=UNIT):
    """Every violated odd set, found by trying them all.  For small degrees only."""
    return [mask for mask in range(1 << len(spins))
            if mask.bit_count() % 2 == 1 and is_violated(spins, mask, unit)]


def cut_search(code_file, spins, check_number):
    """The public cut search: any bytes, any point, any check number (1-7, 16, 17)."""
    code = table.parse_code_file(code_file)
    table.check_point(code, spins)
    table.check_check_number(code, check_number)
    return known_cut([spins[bit] for bit in code.checks[check_number]])


def moved(values, mask, multiplier):
    """Copies after the step: up by the multiplier on V, down elsewhere, then clipped."""
    return [clip(value + multiplier if in_set(mask, member) else value - multiplier)
            for member, value in enumerate(values)]


def least_multiplier(values, mask):
    """The least b for which the moved copies meet V's inequality.  V must be cut at b = 0.

    Seen from its own side of V every member rises with b: from -U to U while b goes from
    -U - t to U - t, and flat outside.  So the left side is a broken line; it is followed
    from break to break until the piece is found that crosses 2U.
    """
    sides = [value if in_set(mask, member) else -value for member, value in enumerate(values)]
    breaks = sorted({edge for t in sides for edge in (-UNIT - t, UNIT - t) if edge > 0})
    here, height = 0, left_side(moved(values, mask, 0), mask)
    for there in breaks:
        slope = sum(-UNIT - t <= here < UNIT - t for t in sides)
        next_height = height + slope * (there - here)
        if next_height >= 2 * UNIT:
            missing = 2 * UNIT - height
            return here + -(-missing // slope)      # rounded up: the least whole number
        here, height = there, next_height
    raise AssertionError("past the last break every member is at its own end")


def least_multiplier_by_counting(values, mask):
    """The same, straight from its definition.  Slow; for the self test."""
    multiplier = 0
    while is_violated(moved(values, mask, multiplier), mask):
        multiplier += 1
    return multiplier
