"""Certificates for the judge, each with table, frame and word: document 01's own, those that
runs write, those of strangers, and wide, long, heavy and large ones.

Document 01, 'Certificates'.  Most of them are read; altered ones may also be refused.
"""

from collections import namedtuple
from itertools import product

import make_inputs as inputs
import make_tables as tables
import make_weak_frames as weak
from certificate import MULTIPLIER_LIMIT, SCALE_LIMIT, Entry, write_certificate
from make_tables import code_file
from table import FRAME_LIMIT, parse_code_file

JudgeCase = namedtuple("JudgeCase", "code_file frame word certificate")

NO_ENTRIES = write_certificate([])


# --- document 01's certificates --------------------------------------------------------------

def document_gaps():
    """(4000, 4000, -2000) with mask 4: the four gaps and their neighbours, for every word."""
    data = code_file(tables.three_bits())
    return [JudgeCase(data, [4000, 4000, -2000], list(word),
                      write_certificate([Entry(0, multiplier, 4)]))
            for multiplier in (1, 1999, 2000, 2001, 3333, 4000, 4001, MULTIPLIER_LIMIT)
            for word in product((0, 1), repeat=3)]


def document_others():
    """(-4000, -4000, -2000) with every odd mask, and one bit under (-5), where b may be as
    great as it likes."""
    data, frame = code_file(tables.three_bits()), [-4000, -4000, -2000]
    cases = [JudgeCase(data, frame, word, write_certificate([Entry(0, multiplier, mask)]))
             for mask in (1, 2, 4, 7) for multiplier in (1999, 2000, 4000, 4001)
             for word in ([1, 1, 0], [0, 0, 0])]
    single = code_file(tables.one_bit())
    return cases + [JudgeCase(single, [-5], [bit], write_certificate([Entry(0, multiplier, 1)]))
                    for multiplier in (1, 4, 5, 6, 4101, MULTIPLIER_LIMIT) for bit in (0, 1)]


# --- certificates written by runs, of another decoder and of ours ----------------------------

def run_cases(rng, count, certificate_of):
    """Certified frames of small tables, as the run left word and certificate."""
    cases, small = [], tables.small_tables(rng, 30)
    while len(cases) < count:
        table = rng.choice(small)
        frame = inputs.lively_frame(rng, table[0])
        written = certificate_of(table, frame)
        if written is not None:
            cases.append(JudgeCase(code_file(table), frame, *written))
    return cases


def altered_frames(case):
    """Each frame number one up and one down under the same certificate."""
    return [case._replace(frame=[*case.frame[:k], case.frame[k] + by, *case.frame[k + 1:]])
            for k in range(len(case.frame)) for by in (-1, 1)]


def altered_bytes(case, flips):
    """Every byte of the certificate changed in turn, each with every flip."""
    data = case.certificate
    return [case._replace(certificate=data[:k] + bytes([data[k] ^ flip]) + data[k + 1:])
            for k in range(len(data)) for flip in flips]


def altered_words(case):
    """Each bit of the word turned in turn."""
    return [case._replace(word=[*case.word[:k], 1 - case.word[k], *case.word[k + 1:]])
            for k in range(len(case.word))]


def altered_multipliers(case):
    """Each multiplier one down, one up, and up by far."""
    return [case._replace(certificate=inputs.off_by(case.certificate, k, by))
            for k in range(inputs.entry_count(case.certificate)) for by in (-1, 1, 9000)]


def other_codeword(rng, case):
    """Another word that meets all checks, under the certificate of the best one."""
    code = parse_code_file(case.code_file)
    return case._replace(word=rng.choice(inputs.codewords((code.bits, code.checks))))


def scaled_cases(case):
    """The same certificate at greater scales, up to the limits of scale and multiplier."""
    return [case._replace(certificate=inputs.scaled(case.certificate, factor))
            for factor in (2, 3, 341, 1022, 1023, 1024)]


def altered_runs(rng, count, certificate_of):
    cases = []
    for case in run_cases(rng, count, certificate_of):
        entries = inputs.entry_count(case.certificate)
        cases += [case, rng.choice(altered_frames(case)), other_codeword(rng, case)]
        if entries > 0:
            cases += [rng.choice(altered_multipliers(case)), rng.choice(scaled_cases(case))]
        if entries > 1:
            cases.append(case._replace(certificate=inputs.reordered(case.certificate)))
    return cases


def altered_thoroughly():
    """One frame of document 01 and one Hamming frame with several cuts, in every way."""
    cases = []
    for table, frame, flips in [(tables.three_bits(), [4000, 4000, -2000], (1, 128)),
                                (tables.hamming(), [3000, -900, 2500, 700, 800, 1900, -600], (1,))]:
        case = JudgeCase(code_file(table), frame, *inputs.other_certificate(table, frame))
        cases += (altered_frames(case) + altered_bytes(case, flips) + altered_words(case)
                  + altered_multipliers(case) + scaled_cases(case))
    return cases


def weak_cases(rng):
    """Weak frames: no cut is needed.  Their words, another codeword, a bit turned, and a number
    turned, under the certificate of the run."""
    cases = []
    for table, frame in weak.leaning_frames(rng, weak.half_sizes):
        case = JudgeCase(code_file(table), frame, *inputs.run_certificate(table, frame))
        turned = [-frame[0], *frame[1:]]
        cases += [case, case._replace(word=inputs.random_codeword(rng, table)),
                  rng.choice(altered_words(case)), case._replace(frame=turned)]
    for _, table, frame in weak.MENDED:
        case = JudgeCase(code_file(table), frame, *inputs.run_certificate(table, frame))
        cases += [case, rng.choice(altered_frames(case)), rng.choice(altered_multipliers(case))]
    return cases


# --- certificates of strangers ---------------------------------------------------------------

def strangers(rng, count):
    """Well-formed certificates that nobody worked out, on codewords and other words."""
    cases, small = [], tables.small_tables(rng, 30)
    for _ in range(count):
        table = rng.choice(small)
        words = [rng.choice(inputs.codewords(table)), inputs.random_word(rng, table[0])]
        cases.append(JudgeCase(code_file(table), rng.choice(inputs.frames(rng, table[0])),
                               rng.choice(words), inputs.handmade_certificate(rng, table)))
    return cases


def tight_case(rng, table, word, per_check, scale):
    """A certificate of gap 0 with several masks of one check, on the weakest frame for it."""
    entries = inputs.tight_entries(rng, table, word, per_check, 150 * scale)
    frame = inputs.weakest_frame(table, word, scale, entries)
    return JudgeCase(code_file(table), frame, word, write_certificate(entries, scale))


def weakened(case):
    """The same with every number one nearer to the wrong side: none of it is spare."""
    frame = [number - 1 + 2 * bit for number, bit in zip(case.frame, case.word)]
    return case._replace(frame=[max(-FRAME_LIMIT, min(FRAME_LIMIT, number)) for number in frame])


def tight_cases(rng, count):
    cases, small = [], tables.small_tables(rng, 30)
    for _ in range(count):
        table = rng.choice(small)
        word = rng.choice(inputs.codewords(table))
        scale = rng.choice([1, 2, 7, SCALE_LIMIT])
        case = tight_case(rng, table, word, rng.between(1, 3), scale)
        cases += [case, rng.choice([weakened(case), *altered_multipliers(case)])]
    return cases


# --- wide, long and large --------------------------------------------------------------------

def wide_cases():
    """Mask bits up to 31 at the degrees 31 and 32; at degree 31 bit 31 is out of place."""
    masks = (1, 1 << 30, 1 << 31, 7 << 29, 3 << 30 | 1, 3 << 30, (1 << 31) - 1, (1 << 32) - 2,
             (1 << 32) - 1)
    cases = [JudgeCase(code_file(tables.one_wide_check(degree)), [1000] * (degree - 1) + [last],
                       [0] * degree, write_certificate([Entry(0, multiplier, mask)]))
             for degree in (31, 32) for mask in masks for last, multiplier in [(-1, 1), (-7, 8)]]
    data = code_file(tables.one_wide_check())
    pairs = [write_certificate([Entry(0, 3, first), Entry(0, 4, second)])
             for first, second in [(1, 1 << 31), (1 << 31, 1), (1 << 31, 7 << 29)]]
    return cases + [JudgeCase(data, [FRAME_LIMIT] * 32, word, written) for written in pairs
                    for word in ([0] * 32, [1] * 32, [0] * 31 + [1])]


def long_cases():
    """q of 4,096 on one check: greatest sums of both signs, and the last entry spoilt."""
    data, entries = code_file(tables.one_wide_check()), inputs.many_entries(4096, MULTIPLIER_LIMIT)
    heaviest, longer = write_certificate(entries, SCALE_LIMIT), inputs.many_entries(4097)
    frame = [-FRAME_LIMIT] * 32
    return [JudgeCase(data, frame, [1] * 32, heaviest),
            JudgeCase(data, frame, [0] * 32, heaviest[:-1]),
            JudgeCase(data, frame, [0] * 32, heaviest[:-1] + b"\xC0"),
            JudgeCase(data, frame, [1] + [0] * 31, heaviest[:-4] + heaviest[-8:-4]),
            JudgeCase(data, frame, [0] * 32, write_certificate(longer)),
            JudgeCase(data, frame, [0] * 32, b"\xFF\xFF\1\0"),
            JudgeCase(data, [5] * 32, [0] * 32, NO_ENTRIES)]


def heavy_cases():
    """Sums beyond 32 bits: from 129 of the greatest multipliers on bit 0's reduced number is
    above 2^31, from 257 on above 2^32; and n 2,048 at the greatest scale and frame."""
    masks = [mask for mask in range(1, 1100, 2) if mask.bit_count() % 2 == 1]
    pulls = [[Entry(0, MULTIPLIER_LIMIT, mask) for mask in masks[:count]]
             for count in (1, 2, 3, 4, 5, 127, 128, 129, 256, 257)]
    wide, all_wide = code_file(tables.one_wide_check()), code_file(tables.wide_checks())
    stack = [Entry(check, MULTIPLIER_LIMIT, 1) for check in range(32)]
    cases = [JudgeCase(wide, [-1] * 32, [bit] * 32, write_certificate(entries))
             for entries in pulls for bit in (0, 1)]
    cases += [JudgeCase(all_wide, [number] * 2048, [bit] * 2048, write_certificate([], SCALE_LIMIT))
              for number in (-FRAME_LIMIT, FRAME_LIMIT) for bit in (0, 1)]
    return cases + [JudgeCase(code_file(tables.stacked_singles(32)), [-5], [0],
                              write_certificate(stack, scale)) for scale in (1, SCALE_LIMIT)]


def large_cases(rng):
    """n 2,048: a run's certificate of about 1,000 cuts, and 4,096 entries of gap 0."""
    table = tables.half_rate(rng)
    frame = inputs.channel_frame(rng, table[0], 3000, 3000)
    case = JudgeCase(code_file(table), frame, *inputs.other_certificate(table, frame))
    spoilt = inputs.off_by(case.certificate, inputs.entry_count(case.certificate) - 1, 9000)
    tight = tight_case(rng, tables.largest_regular(rng), [0] * 2048, 2, 2)
    return [case, altered_words(case)[-1], case._replace(certificate=spoilt), tight,
            weakened(tight)]
