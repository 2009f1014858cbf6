"""Scripts about the depths: lent too short, over junk, chosen ones, and cuts that come and go.

No operation puts a single depth: what stands in the buffer is one number throughout, or what
earlier rounds have left.
"""

from itertools import combinations

import make_inputs as inputs
import make_scripts
import make_spoilt_scripts as spoilt
import make_tables as tables
from call_script import (CAPACITY, Fill, UseFrame, calls, changed, exact, fresh, longer, opening,
                         put_state, start_of)
from cut import clip
from make_runs import HalfDone
from make_spoilt_scripts import FAULTS, GOOD_FRAME, HAMMING, HOLED, faulty_call
from rounds import Record
from table import UNIT

DEPTHS = [0, 1, 2, UNIT - 1, UNIT + 1, 2 * UNIT - 1, 2 * UNIT]     # 0 is no cut
SHARED_BIT = (3, [[0, 1], [1, 2]])

# Runs in which checks lose cuts within twelve rounds, and most gain some too, found by trying
# many frames; the self test makes sure of it.
COME_AND_GO = [(SHARED_BIT, [-1000, 4000, 1000]), (SHARED_BIT, [9, -9, 0]),
               (tables.repeated_checks(), [-5, -2, 1, -1]),
               (tables.cycle_table(5), [-2, -2, -1, -1, 7]),
               (HAMMING, [3849, 3653, 1838, -4321, -231, -1495, 2346]),
               (make_scripts.THREE_TRIANGLES, [808, -234, -876, 790, 106, -368, 846]),
               (tables.three_six(12), [3845, 2725, -7719, -4862, 5938, -6005, 4614, -3643, -7420,
                                       6063, -3700, 7662])]


# --- lent too short, and over junk -----------------------------------------------------------

def short_depths():
    """One too short, none, exact and longer, for runs of every standing; empty checks count."""
    return spoilt.short_parts(["depths"]) + spoilt.emptied_parts(["depths"])


def short_beside_others(rng):
    """Depths lent one too short, alone and beside one or two other faults of the call."""
    chosen = [faults for count in (1, 2, 3) for faults in combinations(FAULTS, count)
              if 41 in faults]
    return [step for faults in chosen for step in faulty_call(rng, faults, ["depths"])]


def over_junk():
    """Whatever stands there: no start, call for 0 rounds or refused call touches it, none is
    refused for it, and round 1 overwrites the first m, with 0 where there is no cut."""
    script = []
    for depth in (0, 1, 8192, 8193, 2**31, 2**32 - 1):
        for table, frame in [(tables.three_bits(), [4000, 4000, -2000]), (HOLED, GOOD_FRAME),
                             (tables.three_bits(), [10, 10, 10])]:
            lengths = exact(table)
            script += opening(table, frame, Fill(depth=depth))
            script += calls([1], lengths) + [start_of(table), *calls([0], lengths)]
            script += calls([1], changed(CAPACITY, depths=lengths.depths - 1))
            script += calls([1], CAPACITY) + calls([0, 1025, 1], longer(lengths, 1))
    return script


def most_checks():
    """m 2,048, one check with members: one depth too few, exact, and all that there is."""
    table = tables.mostly_empty()
    lengths = exact(table)
    script = fresh(table, [8191] * 30 + [100, -100], Fill(depth=2**32 - 1))
    script += calls([0, 1], changed(CAPACITY, depths=lengths.depths - 1)) + calls([1], lengths)
    return script + calls([0, 1], changed(CAPACITY, depths=lengths.depths)) + calls([1], CAPACITY)


# --- depths of all sizes ---------------------------------------------------------------------

def beyond(rng, spins):
    """Values that clip to these spins: those at an end, moved past it or not."""
    steps = (0, 1, 2, UNIT, 8191)
    return [spin + spin // UNIT * rng.choice(steps) if abs(spin) == UNIT else spin
            for spin in spins]


def resumed_at(rng, table, values):
    """A half-done run whose next round has these v, on a table with one edge for each bit, in
    the bits' order.  A spin is number + copy - offset, and v is spin + offset."""
    copies = list(map(clip, values))
    offsets = [value - rng.between(-UNIT, UNIT) for value in values]
    frame = [value - copy for value, copy in zip(values, copies)]
    return (opening(table, frame, Fill(rounds=2))
            + put_state(table, HalfDone(Record(2), copies, offsets)))


def chosen_in_rounds(rng):
    """Rounds with a chosen depth on clipped v, where v itself is past its ends."""
    script = []
    for degree in (1, 2, 3, 4, 7, 32):
        for depth in DEPTHS:
            slacks = inputs.random_slacks(rng, degree, 2 * UNIT - depth)
            spins = inputs.spins_with_slacks(inputs.random_mask(rng, degree), slacks)
            table = tables.one_wide_check(degree)
            script += resumed_at(rng, table, beyond(rng, spins)) + calls([1, 1], exact(table))
    return script


def each_its_own(rng):
    """Checks of one member, each with another depth, and empty ones among them."""
    script = []
    for depths in (DEPTHS, DEPTHS[::-1], rng.shuffled(DEPTHS)):
        table = tables.emptied(rng, tables.identity(len(depths)), 4)
        values = beyond(rng, [UNIT - depth for depth in depths])
        script += resumed_at(rng, table, values) + calls([0, 1, 1], longer(exact(table), 1))
    return script


# --- cuts that come and go -------------------------------------------------------------------

def come_and_go():
    """Round by round, and in portions."""
    script = []
    for table, frame in COME_AND_GO:
        script += fresh(table, frame, Fill(depth=2**32 - 1)) + calls([1] * 12, exact(table))
        script += fresh(table, frame) + calls([3, 0, 5, 1, 4], CAPACITY)
    return script


def other_frames():
    """Other frames in mid-run: some that cut two or three checks, and between them 0 throughout,
    under which all cuts go."""
    leaning, lengths = [8191, 8191, 0, 8191, 8191, 0, -8191], exact(HOLED)
    script = fresh(HOLED, leaning) + calls([1], lengths)
    for frame in ([0] * 7, leaning, [0] * 7, [8191, -8191] * 3 + [0], [0] * 7):
        script += [UseFrame(frame), *calls([0, 1, 1], lengths)]
    return script


def depth_scripts(rng):
    return (short_depths() + short_beside_others(rng) + over_junk() + most_checks()
            + chosen_in_rounds(rng) + each_its_own(rng) + come_and_go() + other_frames())
