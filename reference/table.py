"""The table of a sparse parity-check code, and the plain inputs judged against it.

Written from document 01, 'Code file: contents, then bodies' and the two lists of what is
turned down.  Nothing here knows about rounds or certificates.
"""

from dataclasses import dataclass

UNIT = 4096                 # U: spin +U is bit 0, spin -U is bit 1
BITS_LIMIT = 2048
CHECKS_LIMIT = 2048
DEGREE_LIMIT = 32           # members of a check, from 0, and checks of a bit, from 1
EDGES_LIMIT = 8192
FRAME_LIMIT = 8191


class Refused(Exception):
    """A numbered refusal.  The number is the one of document 01."""

    def __init__(self, number):
        super().__init__(f"refused {number}")
        self.number = number


@dataclass(frozen=True)
class Code:
    """An accepted table.  Edges are numbered through all checks, in body order."""

    bits: int
    checks: list            # per check, its ascending bit numbers
    starts: list            # per check, the number of its first edge
    edges: int
    edges_of_bit: list      # per bit, the numbers of its edges


def refuse_if(condition, number):
    if condition:
        raise Refused(number)


def number_at(data, position):
    """The unsigned 16-bit little-endian number at a byte position."""
    return data[position] + 256 * data[position + 1]


def read_contents(data):
    """n and the counts, or a refusal 1, 2, 5 (contents cut short), 3 or 4, in this order.

    Refusal 3 is about the whole file before 4 is about any of it: document 01 goes entry by
    entry for certificates only.
    """
    refuse_if(len(data) < 4, 1)
    bits, checks = number_at(data, 0), number_at(data, 2)
    refuse_if(not 1 <= bits <= BITS_LIMIT or not 1 <= checks <= CHECKS_LIMIT, 2)
    refuse_if(len(data) < 4 + 4 * checks, 5)
    starts = [number_at(data, 4 + 4 * check) for check in range(checks)]
    counts = [number_at(data, 6 + 4 * check) for check in range(checks)]
    refuse_if(any(count > DEGREE_LIMIT for count in counts), 3)
    edges = 0
    for start, count in zip(starts, counts):
        refuse_if(start != edges, 4)
        edges += count
    refuse_if(edges > EDGES_LIMIT, 4)
    return bits, counts


def stated_length(data):
    """How long the code file at the head of the data is by its own contents."""
    _, counts = read_contents(data)
    return 4 + 4 * len(counts) + 2 * sum(counts)


def parse_code_file(data):
    """The table in a code file, or a refusal 1 to 7."""
    bits, counts = read_contents(data)
    refuse_if(len(data) != stated_length(data), 5)
    checks, starts, edges = [], [], 0
    for count in counts:
        first_byte = 4 + 4 * len(counts) + 2 * edges
        checks.append([number_at(data, first_byte + 2 * k) for k in range(count)])
        starts.append(edges)
        edges += count
    for members in checks:
        refuse_if(any(member >= bits for member in members), 6)
        refuse_if(any(a >= b for a, b in zip(members, members[1:])), 6)
    edges_of_bit = edges_by_bit(bits, checks)
    refuse_if(any(not 1 <= len(own) <= DEGREE_LIMIT for own in edges_of_bit), 7)
    return Code(bits, checks, starts, edges, edges_of_bit)


def edges_by_bit(bits, checks):
    edges_of_bit = [[] for _ in range(bits)]
    edge = 0
    for members in checks:
        for bit in members:
            edges_of_bit[bit].append(edge)
            edge += 1
    return edges_of_bit


def check_frame(code, frame):
    refuse_if(len(frame) != code.bits, 8)
    refuse_if(any(abs(number) > FRAME_LIMIT for number in frame), 9)


def check_word(code, word):
    refuse_if(len(word) != code.bits or any(byte not in (0, 1) for byte in word), 15)


def check_point(code, spins):
    refuse_if(len(spins) != code.bits or any(abs(spin) > UNIT for spin in spins), 16)


def check_check_number(code, number):
    refuse_if(not 0 <= number < len(code.checks), 17)


def first_broken_check(code, word):
    """The number of the first parity check with an odd number of ones, or None.  A check
    without members has none, and is always met."""
    for number, members in enumerate(code.checks):
        if sum(word[bit] for bit in members) % 2 == 1:
            return number
    return None
