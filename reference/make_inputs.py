"""Frames, words, points and certificates for a given table.

A table is a pair (n, checks) as in make_tables.  The makers here know the formats of
document 01 but take no answer from the decoder; only `run_certificate` and `other_certificate`
run it.
"""

from unittest import mock

import certificate
import report
import rounds
from certificate import Entry, write_certificate
from cut import in_set
from make_tables import code_file
from table import FRAME_LIMIT, UNIT, parse_code_file


# --- frames ----------------------------------------------------------------------------------

def zero_frame(rng, n):
    return [0] * n


def tiny_frame(rng, n):
    return [rng.between(-2, 2) for _ in range(n)]


def full_frame(rng, n):
    """Only the two ends of the range."""
    return [rng.choice([-FRAME_LIMIT, FRAME_LIMIT]) for _ in range(n)]


def tied_frame(rng, n):
    """One size, random signs."""
    size = rng.between(1, FRAME_LIMIT)
    return [rng.choice([-size, size]) for _ in range(n)]


def random_frame(rng, n):
    return [rng.between(-FRAME_LIMIT, FRAME_LIMIT) for _ in range(n)]


def noisy_frame(rng, n):
    """The zero word as a channel may deliver it: mostly positive, a few leaning wrong."""
    return [rng.between(-1500, 6000) for _ in range(n)]


def channel_frame(rng, n, mean, spread):
    """The zero word over a channel: three uniform draws stand for the noise, clipped."""
    noise = [sum(rng.between(-spread, spread) for _ in range(3)) // 2 for _ in range(n)]
    return [max(-FRAME_LIMIT, min(FRAME_LIMIT, mean + draw)) for draw in noise]


FRAME_MAKERS = [zero_frame, tiny_frame, full_frame, tied_frame, random_frame, noisy_frame]


def frames(rng, n):
    return [maker(rng, n) for maker in FRAME_MAKERS]


def lively_frame(rng, n):
    """Any frame but the all zero one, which only ever ends spent."""
    return rng.choice(FRAME_MAKERS[1:])(rng, n)


def negated_under(frame, codeword):
    return [-number if bit == 1 else number for number, bit in zip(frame, codeword)]


# --- words and points ------------------------------------------------------------------------

def random_word(rng, n):
    return [rng.between(0, 1) for _ in range(n)]


def meets_all(checks, word):
    return all(sum(word[bit] for bit in members) % 2 == 0 for members in checks)


def codewords(table):
    """All codewords, by listing all words: small n only."""
    n, checks = table
    words = ([number >> bit & 1 for bit in range(n)] for number in range(1 << n))
    return [word for word in words if meets_all(checks, word)]


def random_codeword(rng, table):
    """A codeword of a table of any size.  Each kept row is the sum of some checks and settles
    its highest bit; all the other bits are free."""
    n, checks = table
    rows = {}
    for members in checks:
        row = sum(1 << bit for bit in members)
        while row.bit_length() in rows:
            row ^= rows[row.bit_length()]
        if row != 0:
            rows[row.bit_length()] = row
    word = sum(bit << place for place, bit in enumerate(random_word(rng, n)))
    for length in sorted(rows):
        if (rows[length] & word).bit_count() % 2 == 1:
            word ^= 1 << length - 1
    return [word >> bit & 1 for bit in range(n)]


def other_codeword(rng, table):
    """A codeword that is not all 0.  Where there is one, half of all codewords at most have a 0
    at its one, so 200 draws don't miss them all."""
    for _ in range(200):
        codeword = random_codeword(rng, table)
        if 1 in codeword:
            return codeword
    raise AssertionError(f"only the zero word in {table}")


def random_spins(rng, count):
    """Spins of several kinds: anywhere, near the ends, near zero, tied, from a short list."""
    kind = rng.between(0, 5)
    if kind == 0:
        return [rng.between(-UNIT, UNIT) for _ in range(count)]
    if kind == 1:
        return [rng.choice([-1, 1]) * (UNIT - rng.between(0, 1200)) for _ in range(count)]
    if kind == 2:
        return [rng.choice([-UNIT, UNIT, UNIT, -UNIT, 0]) for _ in range(count)]
    if kind == 3:
        size = rng.between(0, UNIT)
        return [rng.choice([-size, size]) for _ in range(count)]
    if kind == 4:
        return [rng.choice([-UNIT, UNIT, -UNIT + 1, UNIT - 1, 0, 1, -1]) for _ in range(count)]
    # One weak member among strong ones: where cuts are won or lost by one.
    spins = [rng.choice([-1, 1]) * (UNIT - rng.between(0, 2)) for _ in range(count)]
    spins[rng.between(0, count - 1)] = rng.between(-8, 8)
    return spins


# --- a check's spins by their slacks: the members' parts of an odd set's left side -------------

def spins_with_slacks(mask, slacks):
    """Each member's part of V's left side is its slack, from 0 (its own end) to 2U."""
    return [slack - UNIT if in_set(mask, member) else UNIT - slack
            for member, slack in enumerate(slacks)]


def even_slacks(rng, degree, total):
    return [total // degree + (member < total % degree) for member in range(degree)]


def halved_slacks(rng, degree, total):
    return rng.shuffled([total // 2, total - total // 2] + [0] * (degree - 2))


def single_slack(rng, degree, total):
    """Nearly all on one member, which so stands on the far side: the search must move it."""
    return rng.shuffled([total - 1, 1] + [0] * (degree - 2))


def random_slacks(rng, degree, total):
    slacks = [0] * degree
    while total > 0:
        member = rng.between(0, degree - 1)
        portion = min(total, 2 * UNIT - slacks[member], rng.between(1, 3000))
        slacks[member] += portion
        total -= portion
    return slacks


SHARES = [even_slacks, halved_slacks, single_slack, random_slacks]


# --- certificates ----------------------------------------------------------------------------

def run_certificate(table, frame):
    """Word and certificate bytes that a run writes for the frame, or None."""
    data = code_file(table)
    lent = report.fresh_buffers(parse_code_file(data))
    record = rounds.start(data, lent.copies, lent.offsets, lent.sums)
    if rounds.rounds(data, frame, record, rounds.ROUNDS_LIMIT, lent) != rounds.CERTIFIED:
        return None
    return lent.word, bytes(lent.certificate[:4 + 10 * entry_count(lent.certificate)])


def divide_toward_zero(total, count):
    """Not step 1's division: what is left over is dropped."""
    quotient = abs(total) // count
    return quotient if total >= 0 else -quotient


def other_certificate(table, frame):
    """What another decoder writes for the frame, one that divides toward zero, or None.  Its
    words and certificates are as good as ours: the judge does not ask who wrote them."""
    with mock.patch.object(rounds, "divide_nearest", divide_toward_zero):
        return run_certificate(table, frame)


def read_entries(data):
    """Scale and entries of a well-formed certificate."""
    count = entry_count(data)
    entries = [certificate.entry_at(data, count, number) for number in range(count)]
    return int.from_bytes(data[2:4], "little"), entries


def entry_count(data):
    return data[0] + 256 * data[1]


def scaled(data, factor):
    """The same certificate at a greater scale: it must be judged alike."""
    scale, entries = read_entries(data)
    return write_certificate([entry._replace(multiplier=entry.multiplier * factor)
                              for entry in entries], scale * factor)


def off_by(data, number, by):
    """One multiplier wrong by a little."""
    scale, entries = read_entries(data)
    entries[number] = entries[number]._replace(multiplier=entries[number].multiplier + by)
    return write_certificate(entries, scale)


def reordered(data):
    """The first two entries the other way round."""
    scale, entries = read_entries(data)
    return write_certificate([entries[1], entries[0]] + entries[2:], scale)


def random_mask(rng, degree):
    mask = rng.between(0, (1 << degree) - 1)
    return mask if mask.bit_count() % 2 == 1 else mask ^ 1 << rng.between(0, degree - 1)


def handmade_entries(rng, table, tries, largest):
    """Well-formed entries that no decoder wrote; several masks of one check are allowed.  No
    mask fits an empty check."""
    _, checks = table
    filled = [check for check, members in enumerate(checks) if members]
    wanted = set()
    for _ in range(tries):
        check = rng.choice(filled)
        wanted.add((check, random_mask(rng, len(checks[check]))))
    return [Entry(check, rng.between(1, largest), mask) for check, mask in sorted(wanted)]


def handmade_certificate(rng, table):
    scale = rng.choice([1, 1, 2, 1023, rng.between(1, 1023)])
    largest = rng.choice([5, 9000, 9000 * scale, certificate.MULTIPLIER_LIMIT])
    entries = handmade_entries(rng, table, rng.between(0, 6), largest)
    return write_certificate(entries, scale)


def many_entries(count, multiplier=1):
    """`count` entries on one check of degree 32; the last mask holds bit 31."""
    odd = [number << 1 | number.bit_count() % 2 ^ 1 for number in range(count - 1)]
    return [Entry(0, multiplier, mask) for mask in odd + [1 << 31]]


def tight_entries(rng, table, word, per_check, largest):
    """Entries whose inequalities the codeword meets exactly: its ones on the check, with one
    member turned.  Each check has `per_check` masks, or as many as it has members: an empty
    one has none."""
    entries = []
    for check, members in enumerate(table[1]):
        ones = sum(word[bit] << k for k, bit in enumerate(members))
        turned = rng.sample(range(len(members)), per_check)
        entries += [Entry(check, rng.between(1, largest), mask)
                    for mask in sorted(ones ^ 1 << k for k in turned)]
    return entries


def pulls_of(table, entries):
    """What the entries add to each bit's reduced number."""
    code = parse_code_file(code_file(table))
    return certificate.reduced_numbers(code, [0] * code.bits, 1, entries)


def weakest_frame(table, word, scale, entries):
    """The weakest frame that leaves every reduced number on the word's side, or at 0."""
    # For a 0 bit: scale times the number plus the pull is at least 0; for a 1 bit at most 0.
    return [-(pull // scale) if bit == 0 else -pull // scale
            for pull, bit in zip(pulls_of(table, entries), word)]
