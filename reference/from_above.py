"""Another search for a check's cut and multiplier: from above, with all its sums in one hand.

The decoder of this folder follows the left side from break to break (cut.py), in numbers of any
size, and takes nothing from here.  This search is for 32 bits, written from a description in
words of what it adds up, to show how large its sums get.  Every sum goes through `keep`, which
may note it, or lose some of it.

A member's height is U + v on V and U - v elsewhere: unclipped, its part of V's left side.  The
multiplier b raises all heights alike.  As long as none is above 2U, the left side is the sum of
those that are above 0.
"""

from cut import Cut, clip, in_set, moved
from table import UNIT

ONE = 1 << 20           # heights above 0 are added and counted in one number


def plain(number):
    return number


def heights_on(values, mask, keep=plain):
    return [keep(UNIT + value if in_set(mask, member) else UNIT - value)
            for member, value in enumerate(values)]


def added(numbers, keep):
    """Their sum, one by one."""
    total = 0
    for number in numbers:
        total = keep(total + number)
    return total


def find_cut(values, keep=plain):
    """The cut of the clipped values, and all heights as it sees them, or None.

    To the negative values no height is above U.  If their number is even, the member of the
    greatest height, h, changes sides: its part becomes 2U - h, and the depth 2h less the sum.
    """
    if not values:
        return None
    mask = sum(1 << member for member, value in enumerate(values) if value < 0)
    heights = heights_on(values, mask, keep)
    left = added((height for height in heights if height > 0), keep)
    if mask.bit_count() % 2 == 1:
        depth = keep(2 * UNIT - left)
    else:
        greatest = max(heights)
        nearest = heights.index(greatest)
        mask ^= 1 << nearest
        depth = keep(keep(2 * greatest) - left)
        heights[nearest] = keep(2 * UNIT - greatest)
    return (Cut(mask, depth), heights) if depth > 0 else None


def first_step(heights, keep=plain):
    """Two numbers that the least multiplier can't exceed, the lesser of them: what lacks is shared
    by all members, or the greatest height makes it up alone."""
    lacking = keep(2 * UNIT - added(heights, keep))
    shared = keep(lacking + (len(heights) - 1)) // len(heights)
    return min(shared, keep(2 * UNIT - max(heights)))


def raised(heights, multiplier, keep=plain):
    """How many heights the multiplier raises above 0, and their sum."""
    ground = keep(-multiplier)
    return divmod(added((keep(ONE + keep(height + multiplier)) for height in heights
                         if height > ground), keep), ONE)


def steps_down(heights, keep=plain):
    """Each b that is tried; the last one is the least.  What is too much at b is shared by the
    members that count there: fewer count below, so the next b is still not too small."""
    multiplier = first_step(heights, keep)
    while True:
        yield multiplier
        count, total = raised(heights, multiplier, keep)
        step = keep(total - 2 * UNIT) // count
        if step == 0:
            return
        multiplier = keep(multiplier - step)


def settle_check(values, keep=plain, choose=lambda steps: list(steps)[-1]):
    """Copies, multiplier, mask and depth, as the decoder's own settle_check."""
    found = find_cut(values, keep)
    if found is None:
        return list(map(clip, values)), 0, 0, 0
    (mask, depth), heights = found
    multiplier = choose(steps_down(heights, keep))
    return moved(values, mask, multiplier), multiplier, mask, depth
