"""Certificates: reading, writing, the dual bound, the gap and the judge.

Document 01, 'Certificates'; the mark of a sole winner, document 02.  The judge trusts nobody: it
works on any bytes, whoever wrote them.
"""

from collections import namedtuple

import table
from cut import in_set
from table import refuse_if

ENTRIES_LIMIT = 4096
SCALE_LIMIT = 1023
MULTIPLIER_LIMIT = 16_777_215

Entry = namedtuple("Entry", "check multiplier mask")
BrokenCheck = namedtuple("BrokenCheck", "check")
Gap = namedtuple("Gap", "gap")
Certified = namedtuple("Certified", "sole")     # a gap of 0, and whether no reduced number is 0


def write_certificate(entries, scale=1):
    """The bytes of a certificate; contents first, then the masks."""
    contents = b"".join(entry.check.to_bytes(2, "little") + entry.multiplier.to_bytes(4, "little")
                        for entry in entries)
    bodies = b"".join(entry.mask.to_bytes(4, "little") for entry in entries)
    return len(entries).to_bytes(2, "little") + scale.to_bytes(2, "little") + contents + bodies


def read_certificate(code, data):
    """Scale and entries, or a refusal 10, 11, then entry by entry 12, 13, 14."""
    refuse_if(len(data) < 4, 10)
    count, scale = table.number_at(data, 0), table.number_at(data, 2)
    refuse_if(len(data) != 4 + 10 * count or count > ENTRIES_LIMIT, 10)
    refuse_if(not 1 <= scale <= SCALE_LIMIT, 11)
    entries = []
    for number in range(count):
        entry = entry_at(data, count, number)
        check_entry(code, entry, entries[-1] if entries else None)
        entries.append(entry)
    return scale, entries


def entry_at(data, count, number):
    content, body = 4 + 6 * number, 4 + 6 * count + 4 * number
    return Entry(table.number_at(data, content),
                 int.from_bytes(bytes(data[content + 2:content + 6]), "little"),
                 int.from_bytes(bytes(data[body:body + 4]), "little"))


def check_entry(code, entry, before):
    refuse_if(entry.check >= len(code.checks), 12)
    refuse_if(not 1 <= entry.multiplier <= MULTIPLIER_LIMIT, 12)
    degree = len(code.checks[entry.check])              # 0: no odd mask is below 1 << 0
    refuse_if(entry.mask.bit_count() % 2 == 0 or entry.mask >= 1 << degree, 13)
    if before is not None:
        refuse_if((entry.check, entry.mask) <= (before.check, before.mask), 14)


def entries_of_round(multipliers, masks):
    """The cuts of one round, in check order.  A check without a cut has multiplier 0, and so
    a check without members never stands here."""
    return [Entry(check, multiplier, mask)
            for check, (multiplier, mask) in enumerate(zip(multipliers, masks))
            if multiplier > 0]


def agreement(frame, word):
    return sum(-number if bit == 1 else number for number, bit in zip(frame, word))


def syndrome(code_file, word):
    """The first broken check as BrokenCheck, or None; or a refusal 1-7, 15."""
    code = table.parse_code_file(code_file)
    table.check_word(code, word)
    broken = table.first_broken_check(code, word)
    return None if broken is None else BrokenCheck(broken)


def word_agreement(code_file, frame, word):
    """The agreement of any word, codeword or not; or a refusal 1-9, 15."""
    code = table.parse_code_file(code_file)
    table.check_frame(code, frame)
    table.check_word(code, word)
    return agreement(frame, word)


def reduced_numbers(code, frame, scale, entries):
    reduced = [scale * number for number in frame]
    for entry in entries:
        for member, bit in enumerate(code.checks[entry.check]):
            if in_set(entry.mask, member):
                reduced[bit] += entry.multiplier
            else:
                reduced[bit] -= entry.multiplier
    return reduced


def dual_bound(code, frame, scale, entries):
    """What no codeword's agreement, times the scale, exceeds.  It may be negative: a check
    of one member has d - 2 = -1.  The -2 of a check without members never counts, as no entry
    that is read (13) or written (no cut) names one."""
    sizes = sum(abs(number) for number in reduced_numbers(code, frame, scale, entries))
    return sizes + sum(entry.multiplier * (len(code.checks[entry.check]) - 2) for entry in entries)


def gap(code, frame, word, scale, entries):
    return dual_bound(code, frame, scale, entries) - scale * agreement(frame, word)


def is_sole(code, frame, scale, entries):
    """Whether every reduced number differs from 0.  If the gap is 0 as well, a point of the
    relaxation agrees as the word does only where it is the word's own spins, scaled to its D:
    each other one agrees strictly less, and so does each other codeword.  A 0 claims nothing."""
    return 0 not in reduced_numbers(code, frame, scale, entries)


def judge_codeword(code, frame, word, scale, entries):
    """Certified with its mark, or a positive Gap, which has none."""
    difference = gap(code, frame, word, scale, entries)
    return Gap(difference) if difference else Certified(is_sole(code, frame, scale, entries))


def judge(code_file, frame, word, certificate):
    """BrokenCheck, Certified or a positive Gap; or a refusal 1-9, 15, 10-14, in this order."""
    code = table.parse_code_file(code_file)
    table.check_frame(code, frame)
    table.check_word(code, word)
    scale, entries = read_certificate(code, certificate)
    broken = table.first_broken_check(code, word)
    if broken is not None:
        return BrokenCheck(broken)
    return judge_codeword(code, frame, word, scale, entries)
