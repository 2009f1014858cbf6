"""Decoders that are wrong only at 43's edge, or where the multiplier search has its largest sums.

test_edges.py must tell each from the right one, by its worked frames and by the stored scripts.
"""

import struct
from dataclasses import replace
from functools import partial
from itertools import islice

import cut
import from_above
import rounds


def in_bits(bits):
    """What a signed number of so many bits keeps."""
    half = 1 << bits - 1
    return lambda number: (number + half) % (2 * half) - half


def as_float(number):
    whole, = struct.unpack("f", struct.pack("f", number))
    return int(whole)


def first_in_floats(right_least):
    """If the first step from above raises all heights above 0, it is the least multiplier and no
    other step is needed; unless its sums are rounded."""
    def least_multiplier(values, mask):
        heights = from_above.heights_on(values, mask)
        first = from_above.first_step(heights, as_float)
        count, _ = from_above.raised(heights, first)
        return first if count == len(heights) else right_least(values, mask)
    return least_multiplier


def multiplier_in(right_least, bits):
    return lambda values, mask: right_least(values, mask) % (1 << bits)


def offsets_seen(right_check, farther):
    """43 on offsets by so much farther from 0 than they are."""
    def check_limits(code, record, lent):
        seen = [offset + farther * ((offset > 0) - (offset < 0)) for offset in lent.offsets]
        right_check(code, record, replace(lent, offsets=seen))
    return check_limits


# of the multiplier search; test_examples.py's frames are too small to show them, so test_edges.py
# has others
WRONG_MULTIPLIERS = {
    "search's sums in 28 bits": (rounds, "settle_check", partial(
        from_above.settle_check, keep=in_bits(28))),
    "search of three steps at most": (rounds, "settle_check", partial(
        from_above.settle_check, choose=lambda steps: list(islice(steps, 3))[-1])),
    "first step in 32-bit floats": (cut, "least_multiplier", first_in_floats(cut.least_multiplier)),
    "multiplier in 23 bits": (cut, "least_multiplier", multiplier_in(cut.least_multiplier, 23)),
}

WRONG_EDGES = {
    **WRONG_MULTIPLIERS,
    "43's edge refused": (rounds, "check_limits", offsets_seen(rounds.check_limits, 1)),
    "one beyond 43's edge accepted": (rounds, "check_limits",
                                      offsets_seen(rounds.check_limits, -1)),
}
