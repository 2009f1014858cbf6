"""A run: its start, one decoding round, and the call for rounds.

Document 01, 'One round' and 'Turned down because of how the run stands'.  The lent buffers
are Python lists which are modified in place, never lengthened or shortened.
"""

from collections import namedtuple
from dataclasses import dataclass

import certificate
import cut
import table
from table import UNIT, refuse_if

ROUNDS_LIMIT = 1024
OFFSET_PER_ROUND = 8192
MULTIPLIER_LIMIT = certificate.MULTIPLIER_LIMIT

RUNNING, CERTIFIED, SPENT = "running", "certified", "spent"

Round = namedtuple("Round", "spins copies offsets sums multipliers masks depths")


@dataclass
class Record:
    """How a run stands."""

    rounds_done: int = 0
    status: str = RUNNING


@dataclass
class Buffers:
    """What a caller lends to a call for rounds.  Each may be longer than needed."""

    spins: list
    copies: list
    offsets: list
    sums: list              # per bit, the sum of copy - offset over its edges
    multipliers: list
    masks: list
    depths: list            # per check, how far short its cut falls; 0 for none
    word: list
    certificate: list


def buffer_lengths(code):
    """The shortest length of each lent buffer (refusal 41)."""
    checks = len(code.checks)
    return Buffers(spins=code.bits, copies=code.edges, offsets=code.edges, sums=code.bits,
                   multipliers=checks, masks=checks, depths=checks, word=code.bits,
                   certificate=4 + 10 * checks)


def divide_nearest(total, count):
    """The whole number nearest to total / count, of two equally near the one farther from 0.

    The size is divided and the sign put back, so that negating a total negates its quotient.
    """
    quotient, rest = divmod(abs(total), count)
    if 2 * rest >= count:
        quotient += 1
    return quotient if total >= 0 else -quotient


def sums_of_bits(code, copies, offsets):
    """What each bit's edges say: the sum of copy - offset."""
    return [sum(copies[edge] - offsets[edge] for edge in edges) for edges in code.edges_of_bit]


def spins_of_bits(code, frame, sums):
    """Step 1: a bit's total is its frame number and its sum."""
    return [cut.clip(divide_nearest(number + told, len(edges)))
            for number, told, edges in zip(frame, sums, code.edges_of_bit)]


def settle_check(values):
    """Step 2 on one check: copies, multiplier, mask and depth.

    The cut search sees the clipped values, and so does the depth; the multiplier search sees
    the unclipped ones.  A check without members is settled like every other one that has no
    cut.
    """
    clipped = [cut.clip(value) for value in values]
    found = cut.known_cut(clipped)
    if found is None:
        return clipped, 0, 0, 0
    multiplier = cut.least_multiplier(values, found.mask)
    return cut.moved(values, found.mask, multiplier), multiplier, found.mask, found.depth


def one_round(code, frame, offsets, sums):
    """Steps 1 to 3 from E offsets and n sums, or refusal 44.  Of the copies a round needs
    nothing that the sums don't tell."""
    spins = spins_of_bits(code, frame, sums)
    result = Round(spins, [], [], [], [], [], [])
    for start, members in zip(code.starts, code.checks):
        values = [spins[bit] + offsets[start + k] for k, bit in enumerate(members)]
        new_copies, multiplier, mask, depth = settle_check(values)
        refuse_if(multiplier > MULTIPLIER_LIMIT, 44)
        result.copies.extend(new_copies)
        result.offsets.extend(value - copy for value, copy in zip(values, new_copies))
        result.multipliers.append(multiplier)
        result.masks.append(mask)
        result.depths.append(depth)
    return result._replace(sums=sums_of_bits(code, result.copies, result.offsets))


def candidate(spins):
    """Step 4's word, or None: a zero spin says nothing about its bit."""
    if 0 in spins:
        return None
    return [1 if spin < 0 else 0 for spin in spins]


def certified_word(code, frame, done):
    """The candidate of a round if it ends the run as certified, or None."""
    word = candidate(done.spins)
    if word is None or table.first_broken_check(code, word) is not None:
        return None
    entries = certificate.entries_of_round(done.multipliers, done.masks)
    return word if certificate.gap(code, frame, word, 1, entries) == 0 else None


def check_lengths(code, lent):
    """41 for the lent buffers, which are given by name: a start is lent three of them."""
    needed = vars(buffer_lengths(code))
    refuse_if(any(len(buffer) < needed[name] for name, buffer in lent.items()), 41)


def clear(code, lent):
    """Zeroes what a start is lent, as far as the table needs it."""
    needed = vars(buffer_lengths(code))
    for name, buffer in lent.items():
        buffer[:needed[name]] = [0] * needed[name]


def start(code_file, copies, offsets, sums):
    """A fresh record (refusals 1-7, 41).  Zeroes the first E copies and offsets and the first
    n sums, no more."""
    code = table.parse_code_file(code_file)
    lent = {"copies": copies, "offsets": offsets, "sums": sums}
    check_lengths(code, lent)
    clear(code, lent)
    return Record()


def check_running(record):
    refuse_if(record.status != RUNNING, 42)


def check_limits(code, record, lent):
    """43: whether this record and these edges can be those of a run under way."""
    refuse_if(record.rounds_done >= ROUNDS_LIMIT, 43)
    farthest = OFFSET_PER_ROUND * record.rounds_done
    refuse_if(any(abs(copy) > UNIT for copy in lent.copies[:code.edges]), 43)
    refuse_if(any(abs(offset) > farthest for offset in lent.offsets[:code.edges]), 43)


def check_sums(code, lent):
    """43: whether the sums are those of the copies and offsets.  The rounds trust them."""
    refuse_if(lent.sums[:code.bits] != sums_of_bits(code, lent.copies, lent.offsets), 43)


def check_standing(code, record, lent):
    """42, then 43."""
    check_running(record)
    check_limits(code, record, lent)
    check_sums(code, lent)


def write_over(buffer, values):
    """Overwrites the head of a lent buffer; whatever lies past the values stays."""
    buffer[:len(values)] = values


def show_round(done, lent):
    for name, values in done._asdict().items():
        write_over(vars(lent)[name], values)


def rounds(code_file, frame, record, wanted, lent):
    """The call for rounds.  Answers the run's status, or a refusal 1-9, 17, 41, 42, 43, 44.

    Record and buffers change only with a counted round: a round refused with 44 is worked
    out aside, so the last counted one is still what they show.
    """
    code = table.parse_code_file(code_file)
    table.check_frame(code, frame)
    refuse_if(not 0 <= wanted <= ROUNDS_LIMIT, 17)
    check_lengths(code, vars(lent))
    check_standing(code, record, lent)
    for _ in range(wanted):
        done = one_round(code, frame, lent.offsets[:code.edges], lent.sums[:code.bits])
        show_round(done, lent)
        record.rounds_done += 1
        word = certified_word(code, frame, done)
        if word is not None:
            record.status = CERTIFIED
            write_over(lent.word, word)
            entries = certificate.entries_of_round(done.multipliers, done.masks)
            write_over(lent.certificate, certificate.write_certificate(entries))
        elif record.rounds_done == ROUNDS_LIMIT:
            record.status = SPENT
        if record.status != RUNNING:
            break
    return record.status
