"""Scripts at 43's edge: runs resumed with offsets of exactly 8,192 times the rounds done.

There the multiplier search has its largest numbers.  Most scripts have three equal checks.  On
the first one the offsets have chosen signs, on the other two the opposite ones, so that each
bit's sum has the chosen sign and its spin is at that end.  With offsets at the edge the first
check's v are then as far out as 43 lets any v be.
"""

from collections import Counter

import make_inputs as inputs
import make_tables as tables
from call_script import Fill, Put, calls, exact, opening
from make_tables import true_sums
from rounds import OFFSET_PER_ROUND
from table import UNIT

LAST = 1023                                     # rounds done before the last round


def edge(done):
    """The farthest offset that 43 lets through."""
    return OFFSET_PER_ROUND * done


def farthest(done=LAST):
    """The farthest v: a full spin and an offset at the edge, of the same sign."""
    return UNIT + edge(done)


def sizes_of(*runs):
    return [size for count, size in runs for _ in range(count)]


# Sizes of v on a check of 32 members.  The first two make a search from above (from_above.py) drop
# few members at each step, the third one a search that starts with all members' shares alone;
# they were found by trying many, and the self test counts the steps.  In MIXED_STAIRS two are
# within -U..U: with an even number of negative v the first of them changes sides.
NEAR_STAIRS = sizes_of(*((count, farthest() - nearer) for count, nearer in [
    (2, 12350), (1, 8253), (1, 8250), (1, 8238), (2, 8208), (3, 8138), (3, 7904), (5, 7296),
    (6, 5472), (8, 0)]))
MIXED_STAIRS = sizes_of((1, 10), (1, 1096), (1, 4640), (1, 4643), (1, 4655), (2, 4685), (3, 4755),
                        (3, 4989), (5, 5597), (6, 7421), (8, farthest()))
FAR_STAIRS = sizes_of(*((count, farthest() - nearer) for count, nearer in [
    (1, 1640317), (1, 1632124), (1, 1632122), (1, 1632116), (1, 1632092), (1, 1631972),
    (2, 1631612), (2, 1630172), (3, 1625372), (3, 1604572), (4, 1521372), (5, 1188572), (7, 0)]))
EVEN_STAIRS = [farthest() - 512 * (31 - place) for place in range(32)]
LONG_STAIRS = [farthest() // 32 * (place + 1) for place in range(32)]


# --- pieces ----------------------------------------------------------------------------------

def equal_checks(degree):
    return degree, [list(range(degree))] * 3


def signs(degree, negative):
    """-1 at these places, 1 elsewhere."""
    return [-1 if place in negative else 1 for place in range(degree)]


def leaning(signed, done, sizes=None):
    """Offsets of three equal checks: the first one's v have these signs and sizes."""
    sizes = sizes or [farthest(done)] * len(signed)
    return ([sign * (size - UNIT) for sign, size in zip(signed, sizes)]
            + [-sign * edge(done) for sign in signed] * 2)


def mixed_copies(rng, count):
    return [rng.choice([-UNIT, 0, UNIT, rng.between(-UNIT, UNIT)]) for _ in range(count)]


def resumed(table, frame, done, copies, offsets):
    """A run with this state and true sums.  What most elements are is filled in, so that few
    have to be put."""
    lists = {"copies": copies, "offsets": offsets, "sums": true_sums(table, copies, offsets)}
    usual = {name: Counter(values).most_common(1)[0][0] for name, values in lists.items()}
    fill = Fill(copy=usual["copies"], offset=usual["offsets"], sum=usual["sums"], rounds=done)
    return opening(table, frame, fill) + [
        Put(name, index, value) for name, values in lists.items()
        for index, value in enumerate(values) if value != usual[name]]


def leaning_run(rng, signed, done=LAST, copy=0, sizes=None, frame=None):
    """Three equal checks, resumed up to the last round or for two rounds; None for a copy is
    several."""
    table, frame = equal_checks(len(signed)), frame or inputs.random_frame(rng, len(signed))
    edges = exact(table).copies
    copies = mixed_copies(rng, edges) if copy is None else [copy] * edges
    return (resumed(table, frame, done, copies, leaning(signed, done, sizes))
            + calls([0, 1] if done == LAST else [1, 1], exact(table)))


def following(signed):
    """A frame under which a codeword of these signs is certified."""
    return [8191 * sign for sign in signed]


# --- all offsets at the edge -----------------------------------------------------------------

ODD = [signs(32, negative) for negative in ([31], [0, 13, 31], range(1, 32))]
EVEN = [signs(32, negative) for negative in ([], [0, 31], range(0, 32, 2), range(32))]


def odd_signs(rng):
    """The widest cut, 32 members at the farthest v: the multiplier of the first check is 8,380,672
    after 1,023 rounds."""
    script = []
    for signed in ODD:
        for copy in (-UNIT, 0, UNIT, None):
            script += leaning_run(rng, signed, copy=copy)
    for done in (1022, 512, 1):
        for copy in (UNIT, None):
            script += leaning_run(rng, ODD[1], done, copy)
    return script


def even_signs(rng):
    """No cut, though all v are as far out."""
    script = []
    for signed in EVEN:
        script += leaning_run(rng, signed, copy=rng.choice([-UNIT, UNIT]), frame=following(signed))
    for done in (LAST, 1022, 512, 1):
        script += leaning_run(rng, EVEN[1], done, None)
    return script


def other_degrees(rng):
    """16 and 17 have sums on both sides of 2^27."""
    script = []
    for degree in (2, 3, 16, 17, 30, 31):
        script += leaning_run(rng, signs(degree, range(degree - 1 + degree % 2)), copy=UNIT)
    return script


def nested_checks(rng):
    """32, 31 and 30 members."""
    table = 32, [list(range(degree)) for degree in (32, 31, 30)]
    offsets = [side * sign * edge(LAST) for side, members in zip((1, -1, -1), table[1])
               for sign in ODD[1][:len(members)]]
    return (resumed(table, inputs.random_frame(rng, 32), LAST, [UNIT] * 93, offsets)
            + calls([0, 1], exact(table)))


def one_member(rng):
    """One bit in three checks of one member: after 1,023 rounds a multiplier of 8,388,608, or of
    8,380,416 twice and a certificate."""
    table, script = tables.stacked_singles(3), []
    for done in (LAST, 1022, 512, 1):
        for sign in (-1, 1):
            offsets = [sign * place * edge(done) for place in rng.shuffled([1, -1, -1])]
            script += resumed(table, [sign * 8191], done, mixed_copies(rng, 3), offsets)
            script += calls([0, 1, 1, 1], exact(table))
    return script


# --- one beyond the edge ---------------------------------------------------------------------

def beyond(rng):
    """One offset, of either sign, on the first check or the last, one beyond: 43.  Put back, the
    run goes on."""
    script, table, lengths = [], equal_checks(32), exact(equal_checks(32))
    for done, place in [(LAST, 0), (LAST, 13), (LAST, 95), (1022, 31), (512, 64), (1, 63)]:
        offsets = leaning(ODD[1], done)
        within, sign = offsets[place], 1 if offsets[place] > 0 else -1
        offsets[place] += sign
        run = resumed(table, inputs.random_frame(rng, 32), done, [0] * 96, offsets)
        script += run + calls([0, 1], lengths) + [Put("offsets", place, within)]
        offsets[place] = within
        bit = place % 32
        script += [Put("sums", bit, true_sums(table, [0] * 96, offsets)[bit])] + calls([1], lengths)
    return script


# --- some members at the edge ----------------------------------------------------------------

def stairs(rng):
    """Odd numbers of negative v and, where one changes sides, even ones."""
    script = []
    for sizes, signed in [(NEAR_STAIRS, ODD[1]), (MIXED_STAIRS, EVEN[1])]:
        for ordered in (sizes, sizes[::-1], rng.shuffled(sizes)):
            script += leaning_run(rng, signed, sizes=ordered)
    for sizes, signed in [(EVEN_STAIRS, ODD[2]), (FAR_STAIRS, ODD[0]), (LONG_STAIRS, ODD[1])]:
        script += leaning_run(rng, signed, sizes=rng.shuffled(sizes))
    for degree in (31, 30):
        for sizes in (NEAR_STAIRS[:degree], EVEN_STAIRS[-degree:]):
            script += leaning_run(rng, signs(degree, [0, 1, 2]), sizes=sizes)
    return script


def nearer_ones(rng):
    """1, 31 or all 32 members by one nearer than the edge, so that the quotient by 32 is just
    below a whole number, just above it or on it; and one member by about 2U, where it makes up
    what lacks alone."""
    script = []
    for count, by in [(1, 1), (31, 1), (32, 1), (1, 8191), (1, 8192), (1, 8193)]:
        sizes = [farthest() - by] * count + [farthest()] * (32 - count)
        script += leaning_run(rng, rng.choice(ODD), sizes=rng.shuffled(sizes))
    return script


def nearest_within(rng):
    """31 members at the edge and one within -U..U, which changes sides and alone decides.  At U
    there is no cut."""
    script = []
    for size in (0, 1, 3996, UNIT - 1, UNIT):
        place, signed = rng.between(0, 31), rng.choice(EVEN)
        sizes = [size if member == place else farthest() for member in range(32)]
        script += leaning_run(rng, signed, sizes=sizes, frame=following(signed))
    return script


def some_at_the_edge(rng):
    """The rest anywhere beyond their ends, up to so far."""
    script = []
    for count, reach in [(1, 300), (8, 3000), (16, 8192), (24, edge(LAST))]:
        sizes = [farthest()] * count + [UNIT + rng.between(0, reach) for _ in range(32 - count)]
        script += leaning_run(rng, rng.choice(ODD), sizes=rng.shuffled(sizes))
    return script


def edge_scripts(rng):
    return (odd_signs(rng) + even_signs(rng) + other_degrees(rng) + nested_checks(rng)
            + one_member(rng) + beyond(rng) + stairs(rng) + nearer_ones(rng) + nearest_within(rng)
            + some_at_the_edge(rng))
