"""The search from above: what the definitions give, by sums that 32 bits hold."""

from bisect import bisect_left

import cut
import from_above
import make_edge_scripts as edge_scripts
import rounds
from prng import Prng
from support import expect, expect_equal
from table import UNIT

FAR = 8_380_416                 # 8,192 x 1,023, the farthest offset that 43 lets through
LARGEST_SUM = 268_181_535       # 2U + 32 x FAR + 31


class Noted:
    """Keeps every sum as it is, and notes the largest in size."""

    def __init__(self):
        self.count, self.largest = 0, 0

    def __call__(self, number):
        self.count += 1
        self.largest = max(self.largest, abs(number))
        return number


def far_sizes(rng, degree, far):
    """Sizes of v up to far + U: all there, near it, some there, one near 0, and of all orders."""
    top, kind = far + UNIT, rng.between(0, 5)
    if kind == 0:
        return [top] * degree
    if kind == 1:
        return [top - rng.between(0, rng.choice([1, 300, 3 * UNIT])) for _ in range(degree)]
    if kind == 2:
        return [rng.choice([top, rng.between(0, 3 * UNIT)]) for _ in range(degree)]
    if kind == 3:
        return rng.shuffled([rng.between(0, UNIT)] + [top] * (degree - 1))
    if kind == 4:
        return [top >> rng.between(0, 14) for _ in range(degree)]
    return [rng.between(0, top) for _ in range(degree)]


def far_values(rng, far):
    degree = rng.choice([32, rng.between(1, 32)])
    return [rng.choice([-1, 1]) * size for size in far_sizes(rng, degree, far)]


def least_by_bisection(values, mask):
    """Straight from the definition: if b meets V's inequality, so does every greater one."""
    return bisect_left(range(1 << 24), True, key=lambda b: not cut.is_violated(
        cut.moved(values, mask, b), mask))


def steps_from_above(heights):
    return len(list(from_above.steps_down(heights)))


def count_search(account, values, heights):
    steps = steps_from_above(heights)
    account.add("searches from above")
    account.add("searches from above at degree 32", len(values) == 32)
    account.add("searches from above after a side change",
                sum(value < 0 for value in values) % 2 == 0)
    account.add("searches from above of one step", steps == 1)
    account.add("searches from above of four steps and more", steps >= 4)


def from_above_is_right(account):
    """The cut, its depth and the least multiplier of the definitions, and no sum beyond 2^31.  No
    height is below -FAR, so 2U less their sum is 2U + 32 x FAR at most; 31 are added to it."""
    account.announce("searches from above", "searches from above at degree 32",
                     "searches from above after a side change", "searches from above of one step",
                     "searches from above of four steps and more", "sums noted")
    rng, noted = Prng(141), Noted()
    for _ in range(10000):
        values = far_values(rng, rng.choice([FAR, FAR, 8192 * rng.between(1, 1023)]))
        settled = from_above.settle_check(values, noted)
        expect_equal(settled, rounds.settle_check(values), f"check of {values}")
        found = from_above.find_cut(values)
        if found is not None:
            (mask, _), heights = found
            expect_equal(settled[1], least_by_bisection(values, mask), f"least for {values}")
            count_search(account, values, heights)
    account.add("sums noted", noted.count)
    expect(noted.largest <= LARGEST_SUM < 2**31, f"a sum of {noted.largest}")


def small_checks_by_counting(account):
    """Small enough to count b up from 0."""
    account.announce("searches from above counted")
    rng = Prng(142)
    while account.counts["searches from above counted"] < 200:
        values = [rng.between(-9000, 9000) for _ in range(rng.between(1, 6))]
        found = from_above.find_cut(values)
        if found is not None:
            *_, least = from_above.steps_down(found[1])
            expect_equal(least, cut.least_multiplier_by_counting(values, found[0].mask),
                         f"least for {values}")
            account.add("searches from above counted")


def widest_sum(far):
    """The largest sum of the search on 32 members as far out as they can be."""
    noted = Noted()
    from_above.settle_check([far + UNIT] * 31 + [-far - UNIT], noted)
    return noted.largest


def the_widest_cut_has_the_largest_sum(account):
    """Exactly that, so 28 bits and a sign are the fewest.  It would be beyond 2^31 if offsets
    could be sixteen times as large; eight times would still do."""
    account.announce("largest sums met")
    expect_equal(widest_sum(FAR), LARGEST_SUM, "the largest sum")
    expect(2**27 < LARGEST_SUM < 2**28, "the largest sum in bits")
    expect(widest_sum(8 * FAR) < 2**31 < widest_sum(16 * FAR), "sums of larger offsets")
    rng, noted = Prng(143), Noted()
    for _ in range(300):
        from_above.settle_check(far_values(rng, 16 * FAR), noted)
    expect(noted.largest > 2**31, f"offsets sixteen times as large, sums of {noted.largest}")
    account.add("largest sums met")


def shares_alone(heights):
    """The steps of a search that starts with all members' shares, however high one gets."""
    steps, members, left = 0, [], heights
    while left != members:
        steps, members = steps + 1, left
        b = -((sum(members) - 2 * UNIT) // len(members))
        left = [height for height in members if height + b > 0]
    return steps


def stairs_have_their_steps(account):
    """Of the search from above, and of one by shares alone.  With an odd number of negative v
    all beyond their ends, a height is U less the size."""
    account.announce("steps on stairs")
    for sizes, *wanted in [(edge_scripts.NEAR_STAIRS, 10, 10), (edge_scripts.EVEN_STAIRS, 4, 4),
                           (edge_scripts.FAR_STAIRS, 1, 13), (edge_scripts.LONG_STAIRS, 1, 6)]:
        heights = [UNIT - size for size in sizes]
        expect_equal([steps_from_above(heights), shares_alone(heights)], wanted, f"on {sizes}")
        account.add("steps on stairs", sum(wanted))
    _, heights = from_above.find_cut(edge_scripts.MIXED_STAIRS)
    expect_equal(steps_from_above(heights), 10, "steps after a side change")


TESTS = [from_above_is_right, small_checks_by_counting, the_widest_cut_has_the_largest_sum,
         stairs_have_their_steps]
