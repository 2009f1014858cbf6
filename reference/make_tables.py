"""Valid tables of many shapes, and the plain writer of code files.

A table is a pair (n, checks); a check is an ascending list of bit numbers.  Everything made
here is meant to be accepted.
"""

from collections import Counter
from dataclasses import dataclass
from itertools import accumulate

from prng import Prng


def u16(number):
    return (number & 0xFFFF).to_bytes(2, "little")


@dataclass
class Layout:
    """A code file field by field, so that each field can be spoilt on its own."""

    n: int
    m: int
    starts: list
    counts: list
    bodies: list

    def to_bytes(self):
        contents = b"".join(u16(start) + u16(count)
                            for start, count in zip(self.starts, self.counts))
        return u16(self.n) + u16(self.m) + contents + b"".join(map(u16, self.bodies))


def layout(table):
    n, checks = table
    counts = [len(members) for members in checks]
    starts = [0, *accumulate(counts[:-1])]
    return Layout(n, len(checks), starts, counts, [bit for members in checks for bit in members])


def code_file(table):
    return layout(table).to_bytes()


def bit_degrees(table):
    """In how many checks each bit stands."""
    n, checks = table
    times = Counter(bit for members in checks for bit in members)
    return [times[bit] for bit in range(n)]


def true_sums(table, copies, offsets):
    """Each bit's sum of copy - offset over its edges, gathered edge by edge."""
    n, checks = table
    sums = [0] * n
    owners = [bit for members in checks for bit in members]
    for bit, copy, offset in zip(owners, copies, offsets, strict=True):
        sums[bit] += copy - offset
    return sums


# --- small tables ----------------------------------------------------------------------------

def three_bits():
    """Document 01's own example."""
    return 3, [[0, 1, 2]]


def one_bit():
    return 1, [[0]]


def hamming():
    """The (7,4) Hamming code."""
    return 7, [[0, 2, 4, 6], [1, 2, 5, 6], [3, 4, 5, 6]]


def stacked_singles(copies):
    """Several checks of one member on one bit: allowed, and the bit counts them all."""
    return 1, [[0]] * copies


def repeated_checks():
    return 4, [[0, 1, 3]] * 5 + [[2, 3], [2, 3]]


def random_table(rng, n, m, widest):
    """Random checks of up to `widest` members; a bit left out joins a check with room."""
    checks = [set(rng.sample(range(n), rng.between(1, min(widest, n)))) for _ in range(m)]
    for bit in range(n):
        if not any(bit in members for members in checks):
            rng.choice([members for members in checks if len(members) < 32]).add(bit)
    return n, [sorted(members) for members in checks]


def small_table(rng):
    """n up to 12, so that all words can be listed."""
    n = rng.between(2, 12)
    return random_table(rng, n, rng.between(1, max(1, 2 * n // 3)), rng.between(2, 5))


def cycle_table(n):
    """Checks of two members around a ring: the two codewords are all 0 and all 1."""
    return n, [sorted((bit, (bit + 1) % n)) for bit in range(n)]


# --- regular tables and tables at the limits -------------------------------------------------

def regular_table(rng, n, bit_degree, check_degree):
    """Gallager's layers: each layer deals all bits out to checks, in a new order."""
    checks = []
    for _ in range(bit_degree):
        dealt = rng.shuffled(range(n))
        checks += [sorted(dealt[k:k + check_degree]) for k in range(0, n, check_degree)]
    return n, checks


def three_six(n):
    """A (3,6)-regular table of n bits, a multiple of 6: the same one each time."""
    return regular_table(Prng(n), n, 3, 6)


def stairs():
    """32 checks and bits of the degrees 32 to 2: bit b stands in the first so many checks."""
    degrees = [32, 32, 31, 17, 16, 5, 4, 3, 2]
    return len(degrees), [[bit for bit, degree in enumerate(degrees) if check < degree]
                          for check in range(32)]


def largest_regular(rng):
    """n = 2048, m = 2048, E = 8192: the longest code file, 24,580 bytes."""
    return regular_table(rng, 2048, 4, 4)


def half_rate(rng):
    """(3,6)-regular with n = 2048, m = 1024, E = 6144.  2,048 is no multiple of 6, so a few
    checks reach from one layer into the next; a deal that gives one a bit twice is redone."""
    while True:
        dealt = [bit for _ in range(3) for bit in rng.shuffled(range(2048))]
        checks = [sorted(dealt[k:k + 6]) for k in range(0, len(dealt), 6)]
        if all(len(set(members)) == 6 for members in checks):
            return 2048, checks


def largest_uneven(rng):
    """The same three limits with degrees from 1 to 32 on both sides."""
    checks = [{bit} for bit in range(2048)]
    checks[0] = set(range(32))                      # a check of degree 32
    for check in range(1, 32):
        checks[check].add(0)                        # and a bit of degree 32
    in_checks = [32] + [2] * 31 + [1] * 2016
    edges = sum(in_checks)
    while edges < 8192:
        # Drawing the lower of two makes some bits and checks far fuller than others.
        bit = min(rng.between(0, 2047), rng.between(0, 2047))
        check = min(rng.between(0, 2047), rng.between(0, 2047))
        if bit not in checks[check] and len(checks[check]) < 32 and in_checks[bit] < 32:
            checks[check].add(bit)
            in_checks[bit] += 1
            edges += 1
    return 2048, [sorted(members) for members in checks]


def full_square():
    """32 equal checks on all of 32 bits: degree 32 on both sides."""
    return 32, [list(range(32))] * 32


def band(n=256):
    """Degree 32 on both sides without equal checks; E = 8192 for n = 256."""
    return n, [sorted((first + k) % n for k in range(32)) for first in range(n)]


def wide_checks():
    """All 2,048 bits in 64 checks of degree 32, each bit in one."""
    return 2048, [list(range(first, first + 32)) for first in range(0, 2048, 32)]


def deep_bits():
    """64 bits, each in 32 checks of one member: m = 2048."""
    return 64, [[check % 64] for check in range(2048)]


def identity(n=2048):
    return n, [[bit] for bit in range(n)]


def one_wide_check(n=32):
    return n, [list(range(n))]


# --- tables with empty checks ----------------------------------------------------------------

def with_empty(table, places):
    """An empty check before each check of these numbers; m is the place after the last."""
    n, checks = table
    numbered = [(place, []) for place in places] + list(enumerate(checks))
    return n, [members for _, members in sorted(numbered, key=lambda one: one[0])]


def emptied(rng, table, count):
    """So many empty checks put in anywhere."""
    return with_empty(table, [rng.between(0, len(table[1])) for _ in range(count)])


def shortened(table, kept):
    """The table on the kept bits alone: a check may lose all its members."""
    number = {bit: place for place, bit in enumerate(sorted(kept))}
    return len(number), [[number[bit] for bit in members if bit in number]
                         for members in table[1]]


def emptied_tables(rng, count):
    """Empty checks first, between, last, in rows, all but one; by shortening; and anywhere in
    random tables, all with n up to 12."""
    fixed = [with_empty(three_bits(), [0]), with_empty(three_bits(), [1]),
             with_empty(hamming(), [1]), with_empty(hamming(), [0, 2, 2, 2, 3, 3]),
             with_empty(one_bit(), [0] * 5 + [1] * 4), with_empty(repeated_checks(), [0, 5, 7, 7]),
             shortened(regular_table(rng, 24, 2, 4), rng.sample(range(24), 4)),
             shortened(regular_table(rng, 24, 3, 6), rng.sample(range(24), 3))]
    return fixed + [emptied(rng, small_table(rng), rng.between(1, 6))
                    for _ in range(count - len(fixed))]


def mostly_empty():
    """m = 2048: one check of degree 32 among 2,047 empty ones."""
    return with_empty(one_wide_check(), [0] * 1024 + [1] * 1023)


def emptied_band(rng):
    """m = 2048 and E = 8192 with 256 checks of degree 32 among 1,792 empty ones."""
    return emptied(rng, band(), 1792)


# --- lists of tables -------------------------------------------------------------------------

def small_tables(rng, count):
    """A mix of fixed and random small tables, all with n up to 12."""
    fixed = [one_bit(), three_bits(), hamming(), repeated_checks(), stacked_singles(3),
             cycle_table(5), (6, [[0, 1, 2], [2, 3, 4], [0, 4, 5], [1, 3, 5]]),
             regular_table(rng, 12, 2, 4), regular_table(rng, 12, 3, 6)]
    return fixed + [small_table(rng) for _ in range(count - len(fixed))]


def middle_tables(rng):
    """Tables of some tens to hundreds of bits."""
    return [regular_table(rng, 24, 3, 6), regular_table(rng, 48, 3, 4), full_square(),
            one_wide_check(), stacked_singles(32), random_table(rng, 40, 30, 32),
            random_table(rng, 100, 60, 9), random_table(rng, 33, 33, 32), band(64),
            cycle_table(50), identity(40), random_table(rng, 300, 200, 7)]


def limit_tables(rng):
    """Tables at the limits of n, m, E and both degrees."""
    return [largest_regular(rng), largest_uneven(rng), band(), wide_checks(), deep_bits(),
            identity(), random_table(rng, 2048, 300, 20), random_table(rng, 2047, 1024, 14)]
