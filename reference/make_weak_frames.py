"""Weak frames: numbers smaller in size than their bits' degrees, which leave spin 0 only where
step 1 divides to the nearest whole number; and half-done runs with totals on and beside a half."""

import make_inputs as inputs
import make_tables as tables
from make_runs import HalfDone
from make_tables import bit_degrees
from rounds import OFFSET_PER_ROUND, Record
from table import UNIT

# No check of these has one member, so a run stays at spin 0 until a number reaches half of its
# bit's degree.
DEEP_CHECK = (3, [[0, 1, 2]] * 32)
WEAK_TABLES = [tables.three_six(24), tables.three_six(96), tables.cycle_table(8),
               tables.repeated_checks(), tables.stairs(), DEEP_CHECK]

# Weak frames with a wrong sign or two that some rounds mend, with their number.  Found by trying
# many; the self test makes sure of the rounds.
MENDED = [(2, tables.cycle_table(5), [1, 1, -1, 1, 1]),
          (3, tables.cycle_table(5), [-1, -1, 1, -1, 1]),
          (9, tables.cycle_table(8), [1, 1, 1, 1, 1, -1, -1, 1]),
          (4, tables.cycle_table(8), [1, 1, -1, 1, 1, 1, -1, 1]),
          (2, tables.repeated_checks(), [4, -3, 1, -6]),
          (8, (5, [[0, 2], [1, 2, 3, 4], [0, 1], [0, 2, 3, 4]]), [2, -1, -2, 1, 1]),
          (15, (6, [[0, 2, 3, 4], [1, 2, 4], [3, 5], [0, 5], [1, 2, 3]]), [-1, 1, 2, 1, 1, 1]),
          (28, tables.stairs(), [-27, 19, 20, 14, 13, 4, 3, 2, 1]),
          (42, tables.stairs(), [25, -29, 23, 14, 11, 4, 3, 2, 1])]


def half_sizes(rng, table):
    """At least half of the degrees: 2 for degree 3."""
    return [rng.between(-(-degree // 2), degree - 1) for degree in bit_degrees(table)]


def lesser_sizes(rng, table):
    """Less than half of the degrees, but near to it: 1 for degree 3, 10 to 15 for degree 32."""
    return [(degree - 1) // 2 - rng.between(0, (degree - 1) // 6) for degree in bit_degrees(table)]


def mixed_sizes(rng, table):
    return [rng.between(1, degree - 1) for degree in bit_degrees(table)]


def few_wrong(rng, sizes, parts):
    """Some lean to the wrong side: one in so many, on average."""
    return [-size if rng.chance(1, parts) else size for size in sizes]


def leaning_frames(rng, sizes_of):
    """Frames of these sizes with the signs of the zero word and of another codeword, each with
    its table."""
    frames = []
    for table in WEAK_TABLES:
        for codeword in ([0] * table[0], inputs.other_codeword(rng, table)):
            frames.append((table, inputs.negated_under(sizes_of(rng, table), codeword)))
    return frames


def mixed_pairs(rng):
    """Tables and frames of mixed sizes, with and without wrong signs, beside the same negated
    under a codeword."""
    pairs = []
    for table in WEAK_TABLES:
        frames = [mixed_sizes(rng, table), few_wrong(rng, half_sizes(rng, table), table[0]),
                  few_wrong(rng, half_sizes(rng, table), 5),
                  few_wrong(rng, mixed_sizes(rng, table), 8)]
        for frame in frames:
            codeword = inputs.other_codeword(rng, table)
            pairs.append((table, frame, inputs.negated_under(frame, codeword)))
    return pairs


def beside_halves(rng, code, rounds_done):
    """A half-done run, and a frame that puts each bit's total on a half of its degree or one
    beside it.  The offsets are small, so that no total is clipped."""
    reach = min(100, OFFSET_PER_ROUND * rounds_done)
    state = HalfDone(Record(rounds_done),
                     [rng.between(-UNIT, UNIT) for _ in range(code.edges)],
                     [rng.between(-reach, reach) for _ in range(code.edges)])
    frame = []
    for edges in code.edges_of_bit:
        told = sum(state.copies[edge] - state.offsets[edge] for edge in edges)
        rest = len(edges) // 2 + rng.between(-1, 1)
        frame.append((rest - told) % len(edges) - rng.choice([0, len(edges)]))
    return state, frame
