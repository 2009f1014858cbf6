"""The code file, read and written (docs/FORMATS.md).

A table is a pair (n, checks); a check is an ascending list of bit numbers, from 0. It may be
empty.
"""

from collections import Counter
from itertools import accumulate

from limits import BITS_LIMIT, CHECKS_LIMIT, CODE_FILE_REFUSALS, DEGREE_LIMIT, EDGES_LIMIT
from plain import Refused


class CodeFileRefused(Refused):
    """A refusal 1 to 7, with the place that caused it."""

    def __init__(self, number, place):
        super().__init__(f"refused {number}: {CODE_FILE_REFUSALS[number]} ({place})")
        self.number = number


def u16(number):
    return number.to_bytes(2, "little")


def write(table):
    """The code file of a table within the limits."""
    n, checks = table
    counts = [len(members) for members in checks]
    starts = accumulate(counts, initial=0)
    contents = b"".join(u16(start) + u16(count) for start, count in zip(starts, counts))
    return u16(n) + u16(len(checks)) + contents + b"".join(
        u16(bit) for members in checks for bit in members)


def numbers_at(data, position, count):
    """`count` numbers of 16 bits from a byte position on."""
    return [int.from_bytes(data[at:at + 2], "little")
            for at in range(position, position + 2 * count, 2)]


def read(data):
    """The table of a code file, or a refusal 1 to 7, the first in the format's order."""
    n, m = read_sizes(data)
    counts = read_counts(data, m)
    edges = sum(counts)
    stated = 4 + 4 * m + 2 * edges
    if len(data) != stated:
        raise CodeFileRefused(5, f"{len(data)} bytes where the contents say {stated}")
    bodies = numbers_at(data, 4 + 4 * m, edges)
    ends = list(accumulate(counts))
    checks = [bodies[end - count:end] for end, count in zip(ends, counts)]
    refuse_members(n, checks)
    refuse_bits(n, checks)
    return n, checks


def read_sizes(data):
    if len(data) < 4:
        raise CodeFileRefused(1, f"{len(data)} bytes")
    n, m = numbers_at(data, 0, 2)
    if not 1 <= n <= BITS_LIMIT:
        raise CodeFileRefused(2, f"n is {n}, 1 to {BITS_LIMIT} wanted")
    if not 1 <= m <= CHECKS_LIMIT:
        raise CodeFileRefused(2, f"m is {m}, 1 to {CHECKS_LIMIT} wanted")
    return n, m


def read_counts(data, m):
    """The counts of all checks; the starts are held to them and dropped."""
    if len(data) < 4 + 4 * m:
        raise CodeFileRefused(5, f"{len(data)} bytes where the contents alone end at {4 + 4 * m}")
    contents = numbers_at(data, 4, 2 * m)
    starts, counts = contents[0::2], contents[1::2]
    for check, count in enumerate(counts):
        if count > DEGREE_LIMIT:
            raise CodeFileRefused(3, f"check {check} has count {count}, 0 to {DEGREE_LIMIT} wanted")
    for check, (start, wanted) in enumerate(zip(starts, accumulate(counts, initial=0))):
        if start != wanted:
            raise CodeFileRefused(4, f"check {check} starts at {start}, {wanted} wanted")
    if sum(counts) > EDGES_LIMIT:
        raise CodeFileRefused(4, f"E is {sum(counts)}")
    return counts


def refuse_members(n, checks):
    for check, members in enumerate(checks):
        for bit in members:
            if bit >= n:
                raise CodeFileRefused(6, f"check {check} has member {bit}, n is {n}")
        for one, next_one in zip(members, members[1:]):
            if one >= next_one:
                raise CodeFileRefused(6, f"check {check} has member {next_one} after {one}")


def refuse_bits(n, checks):
    in_checks = Counter(bit for members in checks for bit in members)
    for bit in range(n):
        if not 1 <= in_checks[bit] <= DEGREE_LIMIT:
            raise CodeFileRefused(
                7, f"bit {bit} stands in {in_checks[bit]}, 1 to {DEGREE_LIMIT} wanted")
