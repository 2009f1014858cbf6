"""Certificates for the judge's mark: whether every reduced number differs from 0.

Document 02, 'Sole winners'.  Most of them pass.  Such a one is made from entries whose inequalities
a codeword meets exactly, and a frame that leaves every reduced number on the codeword's side, or at
0 where that is wanted.
"""

import make_inputs as inputs
import make_tables as tables
import make_verdicts as verdicts
from certificate import MULTIPLIER_LIMIT, SCALE_LIMIT, Entry, write_certificate
from make_tables import code_file
from make_verdicts import JudgeCase
from table import FRAME_LIMIT

PAIR = (2, [[0, 1]])
TWO_WIDE = (33, [list(range(32)), list(range(1, 33))])


# --- words, entries and frames ---------------------------------------------------------------

def words_of(rng, table):
    """The zero word and, unless it is alone, another codeword."""
    drawn = [inputs.random_codeword(rng, table) for _ in range(20)]
    return [[0] * table[0]] + [word for word in drawn if 1 in word][:1]


def side(bit):
    """The sign of the bit's own spin."""
    return 1 - 2 * bit


def made_entries(rng, table, word, scale, per_check=1):
    return inputs.tight_entries(rng, table, word, per_check, 150 * scale)


def times(entries, scale):
    """Every pull is then a multiple of the scale, and any reduced number can be brought to 0."""
    return [entry._replace(multiplier=entry.multiplier * scale) for entry in entries]


def pinned(table, scale, entries, bit):
    """One multiplier raised so that the pull at this bit is a multiple of the scale."""
    pull = inputs.pulls_of(table, entries)[bit]
    for number, (check, multiplier, mask) in enumerate(entries):
        members = table[1][check]
        if bit in members:
            held = mask >> members.index(bit) & 1 == 1
            raised = Entry(check, multiplier + (-pull if held else pull) % scale, mask)
            return [*entries[:number], raised, *entries[number + 1:]]
    raise AssertionError(f"no entry holds bit {bit}")


def made_case(rng, table, word, scale, entries, zeros=()):
    """A gap of 0.  The reduced numbers of `zeros` are 0, if their pulls are multiples of the
    scale, and no others are."""
    weakest = inputs.weakest_frame(table, word, scale, entries)
    frame = [number if bit in zeros else number + side(word[bit]) * rng.between(1, 90)
             for bit, number in enumerate(weakest)]
    return JudgeCase(code_file(table), frame, word, write_certificate(entries, scale))


def with_numbers(case, numbers):
    """Other frame numbers at some bits."""
    return case._replace(frame=[numbers.get(bit, number) for bit, number in enumerate(case.frame)])


def farther(case, bit, by=1):
    """The frame number farther on the word's side by so much."""
    return with_numbers(case, {bit: case.frame[bit] + by * side(case.word[bit])})


def zero_and_none(rng, table, word, scale, place, per_check=1):
    """One bit's reduced number alone is 0; and with its frame number by one farther none is."""
    entries = pinned(table, scale, made_entries(rng, table, word, scale, per_check), place)
    case = made_case(rng, table, word, scale, entries, [place])
    return [case, farther(case, place)]


# --- document 01's three bits ----------------------------------------------------------------

def document_scaled():
    """(4000, 4000, -2000) at greater scales, and the same negated under 110: at both ends of the
    multipliers that pass some reduced number is 0; and their neighbours."""
    data = code_file(tables.three_bits())
    return [JudgeCase(data, frame, word,
                      write_certificate([Entry(0, end * scale + by, mask)], scale))
            for frame, word, mask in [([4000, 4000, -2000], [0, 0, 0], 4),
                                      ([-4000, -4000, -2000], [1, 1, 0], 7)]
            for scale in (2, 3, SCALE_LIMIT) for end in (2000, 4000) for by in (-1, 0, 1)]


# --- where the 0 stands ----------------------------------------------------------------------

def single_zeros(rng):
    """At every place of small n, and first, last and in the middle of 33."""
    cases = []
    for table in (tables.one_bit(), tables.stacked_singles(3), PAIR, tables.three_bits(),
                  tables.hamming()):
        for place in range(table[0]):
            for word in words_of(rng, table):
                for scale in (1, rng.choice([2, 3, 10, SCALE_LIMIT])):
                    cases += zero_and_none(rng, table, word, scale, place)
    for place in (0, 16, 32):
        for word in words_of(rng, TWO_WIDE):
            cases += zero_and_none(rng, TWO_WIDE, word, rng.choice([1, 3, SCALE_LIMIT]), place)
    return cases


def untouched_bits(rng):
    """Entries on one check alone: at the bits beside it the frame number decides."""
    table, cases = tables.hamming(), []
    for word in words_of(rng, table):
        for check, members in enumerate(table[1]):
            scale = rng.choice([1, 4])
            entries = [entry for entry in made_entries(rng, table, word, scale)
                       if entry.check == check]
            beside = [bit for bit in range(7) if bit not in members]
            cases += [made_case(rng, table, word, scale, entries, zeros)
                      for zeros in ([], [rng.choice(beside)], beside)]
    return cases


def without_entries(rng):
    """q of 0: the frame's zeros are those of the reduced numbers, at any scale."""
    cases = []
    for table in (tables.one_bit(), PAIR, tables.hamming()):
        n = table[0]
        for word in words_of(rng, table):
            for zeros in [[], [0], [n // 2], [n - 1], range(n)]:
                scale = rng.choice([1, 2, SCALE_LIMIT])
                cases.append(made_case(rng, table, word, scale, [], zeros))
    return cases


# --- where scale, multipliers and each mask count --------------------------------------------

def scale_counts(rng):
    """At scale 1 the mark would be the other one.  Where the entries pull away from the word, by
    as much as the frame number, the reduced numbers are 0 there alone; one is 0 here alone."""
    cases = []
    for table in (PAIR, tables.three_bits(), tables.hamming(), tables.cycle_table(5)):
        for word in words_of(rng, table):
            for scale in (2, rng.choice([3, 9, SCALE_LIMIT])):
                entries = made_entries(rng, table, word, 1)
                pulls = inputs.pulls_of(table, entries)
                away = {bit: -pull for bit, pull in enumerate(pulls) if pull * side(word[bit]) < 0}
                place = rng.choice([bit for bit, pull in enumerate(pulls) if pull != 0])
                cases += [with_numbers(made_case(rng, table, word, scale, entries), away),
                          made_case(rng, table, word, scale, times(entries, scale), [place])]
    return cases


def multipliers_count(rng):
    """Where the entries pull toward the word, frame numbers of 0 whose reduced numbers are not 0;
    where they pull away, a reduced number of 0 whose frame number is not; and both."""
    cases = []
    for table in (PAIR, tables.three_bits(), tables.hamming(), tables.repeated_checks()):
        for word in words_of(rng, table):
            scale = rng.choice([1, 2, 50])
            entries = times(made_entries(rng, table, word, 1), scale)
            pulls = [pull * side(bit) for pull, bit in zip(inputs.pulls_of(table, entries), word)]
            toward = {bit: 0 for bit, pull in enumerate(pulls) if pull > 0}
            away = [bit for bit, pull in enumerate(pulls) if pull < 0]
            plain = made_case(rng, table, word, scale, entries)
            zero = made_case(rng, table, word, scale, entries, [rng.choice(away)])
            cases += [with_numbers(plain, toward), zero, with_numbers(zero, toward)]
    return cases


def several_masks(rng):
    """Two to four masks of every check."""
    cases = []
    for table in (tables.three_bits(), tables.hamming()):
        for word in words_of(rng, table):
            for per_check in (2, 3, 4):
                place = rng.between(0, table[0] - 1)
                cases += zero_and_none(rng, table, word, rng.choice([1, 5]), place, per_check)
    return cases


def cancelling_masks(rng):
    """Two masks of one check with equal multipliers, which cancel at the two members where the
    masks differ: there the frame number decides."""
    cases = []
    for table, check in [(PAIR, 0), (tables.three_bits(), 0), (tables.hamming(), 1)]:
        for word in words_of(rng, table):
            scale, multiplier = rng.choice([1, 6]), rng.between(1, 900)
            two = [entry._replace(multiplier=multiplier)
                   for entry in made_entries(rng, table, word, 1, 2) if entry.check == check]
            differ = two[0].mask ^ two[1].mask
            bits = [bit for place, bit in enumerate(table[1][check]) if differ >> place & 1 == 1]
            cases += [made_case(rng, table, word, scale, two, zeros)
                      for zeros in ([], bits[:1], bits[1:], bits)]
    return cases


# --- tables with empty checks, and certificates of runs --------------------------------------

def emptied_soles(rng):
    cases = []
    for table in tables.emptied_tables(rng, 10):
        word, place = inputs.random_codeword(rng, table), rng.between(0, table[0] - 1)
        cases += zero_and_none(rng, table, word, rng.choice([1, 3]), place)
    return cases


def small_frame(rng, n):
    """Of those that a run certifies, about one in five has a reduced number of 0."""
    reach = rng.choice([2, 5, 12])
    return [rng.between(-reach, reach) for _ in range(n)]


def scaled_run(table, frame, scale):
    """What a run writes for so many times the frame, put at that scale; or None."""
    found = inputs.run_certificate(table, [scale * number for number in frame])
    if found is None:
        return None
    word, data = found
    return word, write_certificate(inputs.read_entries(data)[1], scale)


def run_soles(rng, count):
    """Of runs on frames, and on multiples of frames."""
    cases, small = [], tables.small_tables(rng, 20)
    while len(cases) < count:
        table = rng.choice(small)
        frame, scale = small_frame(rng, table[0]), rng.choice([1, 2, 3, 50])
        found = scaled_run(table, frame, scale)
        if found is not None:
            cases.append(JudgeCase(code_file(table), frame, *found))
    return cases


# --- answers without a mark, and words that tie ----------------------------------------------

def answers_without(rng):
    """Gaps above 0 and broken words, each with a reduced number of 0 and with none."""
    cases = []
    for table in (tables.three_bits(), tables.hamming()):
        for word in words_of(rng, table):
            scale = rng.choice([1, 3])
            entries = times(made_entries(rng, table, word, 1), scale)
            places = rng.sample(range(table[0]), 2)
            zeros = made_case(rng, table, word, scale, entries, places)
            none = farther(farther(zeros, places[0]), places[1])
            cases += [farther(zeros, places[0], -1), farther(none, places[0], -2),
                      rng.choice(verdicts.altered_words(zeros)),
                      rng.choice(verdicts.altered_words(none))]
    return cases


def tied_words(rng):
    """Every reduced number 0: of all codewords, those pass that meet every entry's inequality
    exactly."""
    cases = []
    for table in (PAIR, tables.three_bits(), tables.hamming()):
        words, scale = inputs.codewords(table), rng.choice([1, 2])
        word = rng.choice(words)
        entries = times(made_entries(rng, table, word, 1), scale)
        case = made_case(rng, table, word, scale, entries, range(table[0]))
        cases += [case._replace(word=other) for other in words]
    return cases


# --- far numbers, and n of 2,048 -------------------------------------------------------------

def far_numbers():
    """Reduced numbers whose last 8, 16, 24 or 29 bits alone are 0; and the greatest frame numbers
    at the greatest scale, brought to 0 and beside it."""
    one, three = code_file(tables.one_bit()), code_file(tables.three_bits())
    stack = [Entry(check, MULTIPLIER_LIMIT, 1) for check in range(32)]
    cases = [JudgeCase(one, [number], [0], write_certificate([Entry(0, multiplier, 1)]))
             for number, multiplier in [(1, 255), (-1, 257), (1, 65_535), (-1, 65_537),
                                        (1, MULTIPLIER_LIMIT)]]
    cases += [JudgeCase(code_file(tables.stacked_singles(32)), [32], [0], write_certificate(stack)),
              JudgeCase(three, [-256, 256, -256], [1, 0, 1], write_certificate([], 256))]
    most, less = SCALE_LIMIT * FRAME_LIMIT, SCALE_LIMIT * (FRAME_LIMIT - 1)
    cases += [JudgeCase(one, [-FRAME_LIMIT], [0],
                        write_certificate([Entry(0, most + by, 1)], SCALE_LIMIT))
              for by in (-1, 0, 1)]
    return cases + [JudgeCase(three, [FRAME_LIMIT, FRAME_LIMIT, 1 - FRAME_LIMIT], [0] * 3,
                              write_certificate([Entry(0, multiplier, 4)], SCALE_LIMIT))
                    for multiplier in (less - 1, less, less + 1, most - 1, most, most + 1)]


def last_of_many(rng):
    """n 2,048, and the last bit."""
    table = tables.wide_checks()
    word = inputs.random_codeword(rng, table)
    return zero_and_none(rng, table, word, 3, 2047)


def sole_cases(rng):
    return (document_scaled() + single_zeros(rng) + untouched_bits(rng) + without_entries(rng)
            + scale_counts(rng) + multipliers_count(rng) + several_masks(rng)
            + cancelling_masks(rng) + emptied_soles(rng) + run_soles(rng, 40)
            + answers_without(rng) + tied_words(rng) + far_numbers() + last_of_many(rng))
