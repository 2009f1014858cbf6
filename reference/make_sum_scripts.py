"""Scripts about the sums: some that aren't true, their length, starts, and runs that carry them.

Wherever a call is refused for a sum, the true ones are put back and the run goes on: a refusal
has changed nothing.
"""

from itertools import combinations

import make_inputs as inputs
import make_runs
import make_scripts
import make_tables as tables
import make_weak_frames as weak
from call_script import (CAPACITY, Fill, Program, Put, StartRun, UseCode, UseFrame, calls, changed,
                         exact, filled, fresh, longer, opening, play, put_right, put_state,
                         start_of)
from make_spoilt_scripts import (EXACT, FARTHEST, FAULTS, GOOD_FRAME, HAMMING, HOLED, LATE_FRAME,
                                 faulty_call)
from make_tables import code_file, true_sums
from rounds import CERTIFIED, SPENT
from table import UNIT, parse_code_file


def sums_now(table, script):
    """The true sums of the copies and offsets that a script leaves."""
    program, edges = Program(), exact(table).copies
    play(script, program)
    return true_sums(table, program.whole.copies[:edges], program.whole.offsets[:edges])


def put_over(before, after):
    return [Put("sums", bit, value) for bit, value in enumerate(after) if value != before[bit]]


def on_wrong_sums(table, right, wrong, wants=(1,)):
    """Calls on wrong sums, then the right ones put back."""
    return put_over(right, wrong) + calls(wants, exact(table)) + put_over(wrong, right)


# --- sums that are not true ------------------------------------------------------------------

UNDER_WAY = [(tables.three_bits(), [4000, 4000, -2000], 2), (HAMMING, LATE_FRAME, 3),
             (tables.repeated_checks(), [-3, 5, 4, -1], 2), (tables.one_wide_check(), [9] * 32, 0),
             (tables.stacked_singles(32), [-8191], 1), (HOLED, LATE_FRAME, 9)]


def ends_and_middle(count):
    return sorted({0, count // 2, count - 1})


def wrong_values(value):
    """Beside the sum; the same in the last 8, 16, 24 or 31 of its bits; negated; and the ends of
    32 bits.  No other number of 32 bits is the same modulo 2^32."""
    steps = [1, -1, 2**8, -2**8, 2**16, -2**16, 2**24, -2**24, 2**31, -2**31]
    values = [value + step for step in steps] + [-value, 0, *FARTHEST]
    return [one for one in dict.fromkeys(values) if one != value and -2**31 <= one < 2**31]


def single_sums():
    """One wrong sum, on the first, a middle and the last bit; 0 rounds wanted now and then."""
    script = []
    for table, frame, done in UNDER_WAY:
        run = fresh(table, frame) + calls([done], exact(table))
        right = sums_now(table, run)
        for bit in ends_and_middle(table[0]):
            for number, value in enumerate(wrong_values(right[bit])):
                wrong = right[:bit] + [value] + right[bit + 1:]
                run += on_wrong_sums(table, right, wrong, [(1, 0, 1024)[number % 3]])
        script += run + calls([0, 1, 1024], exact(table))
    return script


def several_sums():
    """Errors that cancel, so that the total of all sums is the same; sums at other bits' places;
    all of them wrong."""
    script = []
    for table, frame, done in [UNDER_WAY[0], UNDER_WAY[1], UNDER_WAY[2], UNDER_WAY[5]]:
        run = fresh(table, frame) + calls([done], exact(table))
        first, *between, last = right = sums_now(table, run)
        for wrong in ([first + 1, *between, last - 1], [first - 2**16, *between, last + 2**16],
                      [last, *between, first], right[1:] + right[:1], right[::-1],
                      [first + 1] + [one + 1 for one in between] + [last + 1],
                      [-one for one in right], [0] * len(right), [2 * one for one in right]):
            run += on_wrong_sums(table, right, wrong, [0, 1]) if wrong != right else []
        script += run + calls([0, 1, 1024], exact(table))
    return script


def moved_edges():
    """Copies and offsets changed under the sums: refused, unless the changes cancel on a bit."""
    lengths = exact(HAMMING)
    start, script = fresh(HAMMING, LATE_FRAME) + calls([3], lengths), []
    program = Program()
    play(start, program)
    copies, offsets = program.whole.copies, program.whole.offsets
    for edge in (0, 5, 11):
        copy, offset = copies[edge], offsets[edge]
        step = -1 if copy > 0 else 1
        script += [Put("copies", edge, copy + step), *calls([0, 1], lengths),
                   Put("offsets", edge, offset + step), *calls([0], lengths),
                   Put("copies", edge, copy), *calls([0, 1], lengths), Put("offsets", edge, offset)]
    # edges 1 and 5 are both of bit 2; edge 4 is of bit 1
    script += [Put("offsets", 1, offsets[1] + 1), Put("offsets", 4, offsets[4] - 1),
               *calls([0, 1], lengths), Put("offsets", 4, offsets[4]),
               Put("offsets", 5, offsets[5] - 1), *calls([0, 1, 2], lengths)]
    return start + script


def random_errors(rng):
    """Half-done runs with one wrong sum, then with all of them true."""
    script = []
    for table in tables.small_tables(rng, 14) + tables.emptied_tables(rng, 10):
        code = parse_code_file(code_file(table))
        done = rng.choice([0, 1, 40, 900, 1022])
        state = make_runs.random_half_done(rng, code, done)
        right, bit = true_sums(table, state.copies, state.offsets), rng.between(0, table[0] - 1)
        wrong = right[:bit] + [right[bit] + rng.choice([-1, 1]) * rng.between(1, 2**24)]
        script += opening(table, inputs.random_frame(rng, table[0]), Fill(rounds=done))
        script += put_state(table, state)
        script += on_wrong_sums(table, right, wrong + right[bit + 1:], [rng.between(0, 3)])
        script += calls([1, 2], exact(table))
    return script


# --- sums at their largest -------------------------------------------------------------------

def largest_sums():
    """All edges at 43's limits, bits in 32 checks: sums up to 268,304,384, where a 32-bit float
    would not tell one more or less."""
    script = []
    for table in (tables.stacked_singles(32), weak.DEEP_CHECK, tables.full_square(),
                  tables.stairs()):
        for sign, done in ((1, 1023), (-1, 1023), (1, 0), (-1, 1)):
            copy, offset = sign * UNIT, -sign * 8192 * done
            run = opening(table, [sign * 16] * table[0])
            run += filled(table, Fill(copy=copy, offset=offset, rounds=done))
            right = sums_now(table, run)
            for bit in ends_and_middle(table[0]):
                for step in (1, -1):
                    wrong = right[:bit] + [right[bit] + step] + right[bit + 1:]
                    run += on_wrong_sums(table, right, wrong, [0])
            script += run + calls([0, 1, 1], exact(table))
    return script


def sums_beyond_32_bits():
    """Sums that are true in their last 32 bits only: their edges are beyond 43's limits too."""
    script = []
    for table in (tables.stacked_singles(32), tables.stacked_singles(2), tables.full_square()):
        for copy, offset in [(0, -2**27), (0, -2**31), (0, 2**31 - 1), (-2**31, -2**31),
                             (2**31 - 1, -2**31), (-2**31, 0)]:
            script += opening(table, [5] * table[0])
            script += filled(table, Fill(copy=copy, offset=offset, rounds=1023))
            script += calls([1], exact(table))
    return script


# --- lengths, and the order of refusals ------------------------------------------------------

def past_the_last():
    """Elements from n on are neither looked at nor written, by calls and by starts."""
    script = []
    for table, frame in [(tables.one_bit(), [-9]), (tables.three_bits(), [5, 1, 0]),
                         (HAMMING, LATE_FRAME), (HOLED, LATE_FRAME), (tables.stairs(), [0] * 9)]:
        n, lengths = table[0], exact(table)
        tail = [Put("sums", n, 2**31 - 1), Put("sums", n + 1, -2**31), Put("sums", 2099, 1)]
        script += fresh(table, frame) + tail
        for lent in (CAPACITY, longer(lengths, 1), longer(lengths, 2), lengths):
            script += calls([0, 1], lent)
        script += [StartRun(8300, 8300, 2100), *calls([1, 1024], CAPACITY)]
    return script


def short_sums():
    """One too short, none, exact and longer: for runs of every standing, and for starts."""
    script = []
    for table in (tables.one_bit(), HAMMING, HOLED, tables.one_wide_check()):
        lengths, n = exact(table), table[0]
        done = Fill(copy=0, offset=0, rounds=3)
        for standing in (fresh(table, [-9] * n), opening(table, [5] * n, Fill(status=SPENT)),
                         opening(table, [5] * n, Fill(rounds=1024)), opening(table, [5] * n, done),
                         opening(table, [5] * n, done._replace(status=CERTIFIED))):
            script += standing + calls([0], changed(CAPACITY, sums=n - 1))
            script += calls([2], changed(lengths, sums=n - 1))
            script += calls([1], changed(lengths, sums=0))
            script += calls([0], changed(CAPACITY, sums=n)) + calls([1], lengths)
            start = start_of(table)
            for lent in (n - 1, 0, n + 1):
                script += [start._replace(sums=lent), *calls([0], lengths)]
            script += [StartRun(8300, 8300, n - 1), StartRun(0, 0, n), start._replace(copies=0),
                       start._replace(offsets=0), start, *calls([1], lengths)]
    return script


def wrong_beside_others(rng):
    """A wrong sum beside one or two other faults, which are all named before it; and sums lent
    one too short, which are named before 42 and 43."""
    script = []
    for faults in [(), *combinations(FAULTS, 1), *combinations(FAULTS, 2)]:
        *steps, call = faulty_call(rng, faults)
        bit, value = rng.between(0, 6), rng.choice([1, *FARTHEST])
        script += steps + [Put("sums", bit, value), call]
        if 41 not in faults:
            short = call._replace(lengths=changed(EXACT, sums=6))
            script += [short, *steps, short]
    return script


def wrong_to_the_last():
    """Every fault of a record and its buffers, mended one by one: the sums come last."""
    script = opening(HAMMING, GOOD_FRAME)
    for fill in (Fill(rounds=2, status=CERTIFIED), Fill(rounds=1024, copy=0, offset=0),
                 Fill(rounds=2), Fill(rounds=2, copy=0), Fill(rounds=2, copy=0, offset=8192)):
        for want in (2000, 5, 0):
            script += [fill, *calls([want], longer(EXACT, -1)), *calls([want], EXACT)]
    return script + filled(HAMMING, fill) + calls([0, 5], EXACT)


# --- starts, and runs that carry the sums on -------------------------------------------------

def dirty_starts():
    """What stands in the sums before a start is refused by calls and zeroed by the start."""
    script, start = [], start_of(HAMMING)
    for dirt in (1, -1, *FARTHEST):
        script += opening(HAMMING, LATE_FRAME, Fill(copy=0, offset=0, sum=dirt))
        script += calls([0, 1], EXACT) + [start._replace(sums=6), *calls([0, 1], EXACT)]
        script += [start, *calls([0, 1, 4], EXACT), start, *calls([1, 1024, 1], EXACT)]
        script += [start, *calls([1], EXACT)]
    small = tables.three_bits()
    script += [UseCode(code_file(small)), UseFrame([4000, 4000, -2000]), start_of(small)]
    script += calls([2], exact(small)) + [UseCode(code_file(HAMMING)), UseFrame(LATE_FRAME)]
    return script + calls([0, 1], EXACT) + [start, *calls([0, 1], EXACT)]


def carried_on(rng):
    """Call by call to the end, or as far as is quick; the ending leaves true sums as well."""
    script = []
    runs = [(table, frame, ending) for ending, table, frame in weak.MENDED]
    runs += [(table, frame, 4) for table, frame in make_scripts.DOCUMENT_RUNS]
    runs += [(table, inputs.noisy_frame(rng, table[0]), 6) for table in tables.middle_tables(rng)]
    for table in tables.small_tables(rng, 20) + tables.emptied_tables(rng, 12):
        runs.append((table, inputs.lively_frame(rng, table[0]), 5))
    for table, frame, ending in runs:
        script += fresh(table, frame) + calls([1, 0] + [1] * (ending - 1) + [0], exact(table))
    for ending, table, frame in make_scripts.LATE_RUNS[::3]:
        script += fresh(table, frame) + calls([ending - 2, 1, 1, 1], exact(table))
    return script


def handed_on():
    """To a table whose edges are other bits': refused until the sums are put right.  Other
    frames, empty checks, and checks taken apart leave them true."""
    n, checks = HAMMING
    halves = [half for members in checks for half in (members[:2], members[2:])]
    singles = [[bit] for members in checks for bit in members]
    script = []
    for other in [(n, checks[::-1]), (n, [sorted(6 - bit for bit in one) for one in checks]),
                  (n, halves[::-1]), (n, halves), HOLED, (n, singles)]:
        run = fresh(HAMMING, LATE_FRAME) + calls([3], EXACT) + [UseCode(code_file(other))]
        run = put_right(other, run + calls([0, 1], exact(other))) + calls([0, 1], exact(other))
        script += run + [UseFrame(GOOD_FRAME), *calls([0, 1], exact(other)),
                         UseCode(code_file(HAMMING)), *calls([0, 1], EXACT)]
    return script


def full_tables(rng):
    """n, m and E at their limits: wrong on either end, after the last, one too short."""
    script = []
    for table in (tables.largest_regular(rng), tables.deep_bits(), tables.wide_checks(),
                  tables.largest_uneven(rng)):
        n, lengths = table[0], exact(table)
        run = fresh(table, inputs.channel_frame(rng, n, 1000, 3000)) + calls([1], lengths)
        right = sums_now(table, run)
        for bit in (0, n // 2, n - 1):
            wrong = right[:bit] + [right[bit] + rng.choice([-1, 1])] + right[bit + 1:]
            run += on_wrong_sums(table, right, wrong, [0, 1])
        run += calls([1], changed(CAPACITY, sums=n - 1)) + [Put("sums", n, -1)]
        script += run + calls([1], CAPACITY) + [start_of(table)._replace(sums=n - 1)]
        script += calls([0], lengths) + [start_of(table), *calls([2], lengths)]
    return script


def sum_scripts(rng):
    return (single_sums() + several_sums() + moved_edges() + random_errors(rng) + largest_sums()
            + sums_beyond_32_bits() + past_the_last() + short_sums() + wrong_beside_others(rng)
            + wrong_to_the_last() + dirty_starts() + carried_on(rng) + handed_on()
            + full_tables(rng))
