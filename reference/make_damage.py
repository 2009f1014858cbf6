"""Damaged code files for the refusals 1 to 7, alone and together.

Each fault is a small function named for what it spoils.  Faults act at three levels: on the
table before it is written, on single fields, and on the finished bytes; so faults of
different numbers can be put into one file, and document 01's order tells which must win.
"""

from collections import namedtuple

import make_tables as tables

Claim = namedtuple("Claim", "number data")

# Document 01: '1, 2, 5 if the contents don't fit, 3, 4, 5, 6, 7'.
ORDER = (1, 2, "contents", 3, 4, 5, 6, 7)


def answer_for(kinds):
    """The refusal number that wins when faults of these kinds stand in one file."""
    first = min(kinds, key=ORDER.index)
    return 5 if first == "contents" else first


# --- faults of the table: 7 ------------------------------------------------------------------

def unused_bit(position):
    """A new bit that no check holds; the bits from there on move up by one."""
    def spoil(table):
        n, checks = table
        place = {"first": 0, "middle": n // 2, "last": n}[position]
        return n + 1, [[bit + (bit >= place) for bit in members] for members in checks]
    return spoil


def crowded_bit(position):
    """Checks of one member until the bit stands in 33."""
    def spoil(table):
        n, checks = table
        bit = {"first": 0, "last": n - 1}[position]
        present = sum(bit in members for members in checks)
        return n, checks + [[bit]] * (33 - present)
    return spoil


TABLE_FAULTS = {7: [unused_bit("first"), unused_bit("middle"), unused_bit("last"),
                    crowded_bit("first"), crowded_bit("last")]}


# --- faults of single fields: 2, 3, 4, 6 -----------------------------------------------------

def header(n=None, m=None):
    def spoil(layout):
        layout.n = layout.n if n is None else n
        layout.m = layout.m if m is None else m
    return spoil


def position_in(items, position):
    return {"first": 0, "middle": len(items) // 2, "last": len(items) - 1}[position]


def count_is(position, value):
    def spoil(layout):
        layout.counts[position_in(layout.counts, position)] = value
    return spoil


def start_off(position, by):
    def spoil(layout):
        layout.starts[position_in(layout.starts, position)] += by
    return spoil


def member_above(position, by):
    """The body number n + by: by 0 is the least that is not below n."""
    def spoil(layout):
        layout.bodies[position_in(layout.bodies, position)] = layout.n + by
    return spoil


def member_65535(layout):
    layout.bodies[0] = 65535


def wide_check(layout, position):
    """Start and count of the first or last check with at least two members."""
    wide = [(start, count) for start, count in zip(layout.starts, layout.counts) if count >= 2]
    return wide[0] if position == "first" else wide[-1]


def equal_members(position):
    """The last two members of a check are made the same."""
    def spoil(layout):
        start, count = wide_check(layout, position)
        layout.bodies[start + count - 1] = layout.bodies[start + count - 2]
    return spoil


def descending_members(position):
    """The first two members of a check change places."""
    def spoil(layout):
        start, _ = wide_check(layout, position)
        a, b = layout.bodies[start:start + 2]
        layout.bodies[start:start + 2] = [b, a]
    return spoil


FIELD_FAULTS = {
    2: [header(n=0), header(n=2049), header(n=65535), header(m=0), header(m=2049),
        header(m=65535), header(n=0, m=0), header(n=2049, m=2049), header(n=0, m=65535)],
    # The low byte of 256 is a good count.
    3: [count_is(position, value) for position in ("first", "middle", "last")
        for value in (256, 33, 65535)],
    4: [start_off(position, by) for position in ("first", "middle", "last")
        for by in (-1, 1, 256)],
    6: [member_above("first", 0), member_above("middle", 0), member_above("last", 0),
        member_above("last", 1), member_65535, equal_members("first"), equal_members("last"),
        descending_members("first"), descending_members("last")],
}


# --- faults of the bytes: 1, 5 and contents cut short ----------------------------------------

def cut_to(length):
    return lambda data, layout: data[:length]


def cut_by(count):
    return lambda data, layout: data[:-count]


def longer_by(count):
    return lambda data, layout: data + bytes(count)


def contents_short_by(count):
    return lambda data, layout: data[:max(4, 4 + 4 * len(layout.counts) - count)]


def bodies_missing(data, layout):
    return data[:4 + 4 * len(layout.counts)]


BYTE_FAULTS = {
    1: [cut_to(length) for length in range(4)],
    "contents": [contents_short_by(1), contents_short_by(2), contents_short_by(4), cut_to(4)],
    5: [cut_by(1), cut_by(2), longer_by(1), longer_by(2), longer_by(10), bodies_missing],
}

FAULTS = {**TABLE_FAULTS, **FIELD_FAULTS, **BYTE_FAULTS}


def damaged(table, faults):
    """The code file of the table with one fault of each given kind, as {kind: fault}."""
    if 7 in faults:
        table = faults[7](table)
    layout = tables.layout(table)
    for kind in (6, 4, 3, 2):                       # 6 needs the true starts and counts
        if kind in faults:
            faults[kind](layout)
    data = layout.to_bytes()
    for kind in (5, "contents", 1):                 # each leaves fewer bytes than the last
        if kind in faults:
            data = faults[kind](data, layout)
    return Claim(answer_for(faults), data)


def base_tables(rng):
    """Small tables in which every fault can be planted: several checks, none of one member."""
    return [tables.hamming(), tables.cycle_table(5), tables.regular_table(rng, 12, 2, 4),
            tables.regular_table(rng, 12, 3, 6), tables.repeated_checks()]


def single_faults(rng):
    return [damaged(rng.choice(base_tables(rng)), {kind: fault})
            for kind, faults in FAULTS.items() for fault in faults]


def fault_pairs(rng, repeats):
    """Two faults of different numbers in one file, every pair of numbers."""
    return [damaged(rng.choice(base_tables(rng)),
                    {kind: rng.choice(FAULTS[kind]) for kind in (first, second)})
            for first in ORDER for second in ORDER[ORDER.index(first) + 1:]
            for _ in range(repeats)]


def fault_triples(rng, count):
    return [damaged(rng.choice(base_tables(rng)),
                    {kind: rng.choice(FAULTS[kind]) for kind in rng.sample(ORDER, 3)})
            for _ in range(count)]


# --- whole files at the limits ---------------------------------------------------------------

def one_edge_more(table):
    """E = 8193 with everything else in order."""
    n, checks = table
    last = checks[-1]
    missing = next(bit for bit in range(n) if bit not in last)
    return n, checks[:-1] + [sorted(last + [missing])]


def contents_only(m, count):
    """A file of m checks of one count and no bodies, n = 2048."""
    starts = [check * count for check in range(m)]
    return tables.Layout(2048, m, starts, [count] * m, []).to_bytes()


def limit_claims(rng):
    """Refused files near the limits of m and E; some of these are long."""
    largest = tables.largest_regular(rng)
    above = tables.code_file(one_edge_more(largest))
    whole = tables.code_file(largest)
    pair_of_limits = tables.Layout(2048, 257, [32 * check for check in range(257)],
                                   [32] * 256 + [1], [])
    return [
        Claim(4, above), Claim(4, above[:-1]), Claim(4, above[:4 + 4 * 2048]),
        Claim(5, whole[:4 + 4 * 2048]), Claim(5, whole[:-1]), Claim(5, whole + b"\0"),
        Claim(5, whole[:4 + 4 * 2048 - 1]), Claim(5, whole + bytes(30000 - len(whole))),
        Claim(4, contents_only(2048, 32)), Claim(4, pair_of_limits.to_bytes()),
        Claim(5, contents_only(256, 32)), Claim(3, contents_only(248, 33)),
        Claim(3, contents_only(249, 33)), Claim(7, contents_only(2048, 0)),
        Claim(5, contents_only(2048, 4)), Claim(4, contents_only(2048, 5)),
        Claim(7, tables.code_file((2048, [[2047]]))), Claim(7, tables.code_file((2048, [[0]]))),
        Claim(7, tables.code_file(tables.stacked_singles(33))),
        Claim(7, tables.code_file((2, [[0, 1]] * 33))),
        Claim(3, tables.code_file(tables.one_wide_check(33))),
        Claim(7, tables.code_file((3, [[0, 1], []]))), Claim(7, tables.code_file((1, [[]]))),
        Claim(2, tables.code_file(tables.identity(2049))),
        Claim(2, tables.code_file((1, [[0]] * 2049))), Claim(2, bytes(30000)),
    ]


# --- files with empty checks -----------------------------------------------------------------

def spoilt(table, fault):
    """The code file of the table with a fault of single fields."""
    layout = tables.layout(table)
    fault(layout)
    return layout.to_bytes()


def emptied_counts():
    """A count made 0, or one of 0 made 1, where the bodies stay: the next start is wrong, or
    the length if there is none."""
    table = tables.hamming()
    return [Claim(4, spoilt(table, count_is("first", 0))),
            Claim(4, spoilt(table, count_is("middle", 0))),
            Claim(5, spoilt(table, count_is("last", 0))),
            Claim(5, spoilt(tables.one_bit(), count_is("first", 0))),
            Claim(5, spoilt((1, [[]]), count_is("first", 1))),
            Claim(4, spoilt((1, [[], [0]]), count_is("first", 1)))]


def empty_starts():
    """An empty check, too, starts where the one before ends."""
    table = tables.with_empty(tables.hamming(), [0, 1, 2, 3, 3])
    return [Claim(4, spoilt(table, start_off(position, by)))
            for position, by in [("first", 1), ("first", 12), ("middle", -4), ("middle", 4),
                                 ("last", -12), ("last", -1), ("last", 1)]]


def empty_and_lost():
    """A bit that has lost its last check, or stands in 33, or E above its limit, with empty
    checks about; and bodies where every check is empty."""
    above = tables.Layout(2048, 260, [0, *(32 * k for k in range(257)), 8193, 8193],
                          [0] + [32] * 256 + [1, 0, 0], [])
    lost = [(1, [[]] * 3), (2, [[], [0]]), (2, [[1], []]), (32, [[]] * 32),
            tables.with_empty(tables.stacked_singles(33), [0, 7, 7, 33])]
    return ([Claim(7, tables.code_file(table)) for table in lost]
            + [Claim(5, tables.code_file((1, [[]])) + bytes(2)), Claim(4, above.to_bytes())])


def empty_check_claims(rng):
    """Refused files with empty checks; also one fault of each number among empty checks."""
    table = tables.with_empty(tables.hamming(), [0, 1, 1, 3, 3])
    return (emptied_counts() + empty_starts() + empty_and_lost()
            + [damaged(table, {kind: rng.choice(faults)}) for kind, faults in FAULTS.items()]
            + [damaged(table, {kind: rng.choice(FAULTS[kind]) for kind in rng.sample(ORDER, 2)})
               for _ in range(6)])
