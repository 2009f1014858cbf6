"""Scripts of half-done runs on both sides of 43, and of refused starts and calls."""

from itertools import combinations

import make_damage as damage
import make_inputs as inputs
import make_runs
import make_tables as tables
from call_script import (CAPACITY, CallRounds, Fill, Put, StartRun, UseCode, UseFrame, calls,
                         changed, exact, filled, fresh, longer, opening, put_all, put_edge,
                         put_state, put_sums)
from make_runs import BAD_FRAMES, OTHER_NAMES
from make_tables import code_file
from rounds import CERTIFIED, RUNNING, SPENT
from table import UNIT, parse_code_file

FARTHEST = (-2**31, 2**31 - 1)
HAMMING = tables.hamming()
EXACT = exact(HAMMING)
GOOD_FRAME = [700, -20, 300, 40, -500, 60, 7]
LONGEST_START = StartRun(CAPACITY.copies, CAPACITY.offsets, CAPACITY.sums)
THREE_DONE = Fill(copy=0, offset=0, rounds=3)
LATE_FRAME = [-35, -40, -33, 0, 33, -11, 12]          # certified after hundreds of rounds
FAULTS = ["file", 8, 9, 17, 41, 42, 43]               # of a call for rounds, in their order


# --- half-done runs --------------------------------------------------------------------------

def filled_runs():
    """Every bound of 43 from both sides, all elements alike: rounds done, copies, offsets."""
    script = opening(HAMMING, GOOD_FRAME)
    for done in (0, 1, 2, 1022, 1023, 1024, 1025, 5000, 2**31, 2**32 - 1):
        reach = min(8192 * done, 2**31 - 2)
        states = [(copy, 0) for copy in (0, UNIT, -UNIT, UNIT + 1, -UNIT - 1, *FARTHEST)]
        states += [(0, offset) for offset in (reach, -reach, reach + 1, -reach - 1, *FARTHEST)]
        for copy, offset in states:
            script += filled(HAMMING, Fill(copy=copy, offset=offset, rounds=done))
            script += calls([0, 1] if done < 2 else [1], EXACT)
    return script


def single_edges(rng):
    """One copy or offset at or beyond its limit, on the first, a middle and the last edge, and
    on the element after the last, which no test may look at."""
    script = []
    for table in (tables.three_bits(), HAMMING, tables.one_wide_check(), tables.one_bit()):
        lengths = exact(table)
        script += opening(table, inputs.random_frame(rng, table[0]))
        for index in sorted({0, lengths.copies // 2, lengths.copies - 1, lengths.copies}):
            for name, value in [("copies", UNIT), ("copies", -UNIT - 1), ("offsets", -8192 * 3),
                                ("offsets", 8192 * 3 + 1), (rng.choice(["copies", "offsets"]),
                                                            rng.choice(FARTHEST))]:
                script += put_edge(table, THREE_DONE, Put(name, index, value))
                script += calls([1], longer(lengths, rng.between(0, 2)))
    return script


def ended_states():
    """42 on records that say certified or spent, whatever else they say."""
    script = opening(HAMMING, GOOD_FRAME)
    for status in (CERTIFIED, SPENT):
        for done, copy, offset in [(0, 0, 0), (3, UNIT, 8192), (1024, 0, 0), (5000, 9999, 2**30),
                                   (2**32 - 1, *FARTHEST)]:
            script += [Fill(copy=copy, offset=offset, rounds=done, status=status)]
            script += calls([0, 1, 1024], EXACT)
        script += [StartRun(12, 12, 7)] + calls([1], EXACT)
    return script


def resumed_half_done(rng):
    """States that 43 lets through though no run comes there, resumed for a round and more."""
    script = []
    for table in tables.small_tables(rng, 12):
        code = parse_code_file(code_file(table))
        for done in rng.sample([0, 1, 40, 900, 1022, 1023], 3):
            state = make_runs.random_half_done(rng, code, done)
            script += opening(table, inputs.random_frame(rng, code.bits), Fill(rounds=done))
            script += put_state(table, state) + calls([1, 2, 30], exact(table))
    return script


def farthest_offsets():
    """Offsets at the edge of 43 after 1,023 rounds: the greatest multiplier is 8,388,608, and
    round 1,024 ends certified or spent."""
    far, script = 8192 * 1023, []
    for table, signs in [(tables.stacked_singles(3), (-1, 1, 1)), (tables.three_bits(), (1, -1, 1)),
                         (tables.stacked_singles(3), (1, 1, 1)), (tables.three_bits(), (1, 1, -1)),
                         (tables.stacked_singles(3), (-1, -1, 1))]:
        offsets = [far * sign for sign in signs]
        for size in (1, 8191):
            script += opening(table, [size] * table[0], Fill(copy=0, offset=0, rounds=1023))
            script += put_all("offsets", offsets) + put_sums(table, [0] * 3, offsets)
            script += calls([0, 1024, 1], exact(table))
    script += opening(tables.three_bits(), [10, 10, 10])
    script += filled(tables.three_bits(), Fill(copy=0, offset=0, rounds=1023))
    return script + calls([1024, 0], exact(tables.three_bits()))


# --- runs on tables with empty checks --------------------------------------------------------

HOLED = tables.with_empty(HAMMING, [0, 1, 1, 3])


def emptied_half_done(rng):
    """Half-done runs whose multipliers and masks are junk, at empty checks too: 43 does not
    look at them, and the next round puts them right."""
    script, far = [], 2**32 - 1
    for table in tables.emptied_tables(rng, 11):
        code = parse_code_file(code_file(table))
        done = rng.choice([0, 1, 40, 1022, 1023])
        state = make_runs.random_half_done(rng, code, done)
        script += opening(table, inputs.random_frame(rng, code.bits),
                          Fill(multiplier=far, mask=far, rounds=done))
        script += put_state(table, state) + calls([0, 1, 30], exact(table))
    return script


def emptied_edges():
    """43 on the first and the last edge, and on the element after, where an empty check starts
    that has no edge; 42 before it."""
    script, lengths = opening(HOLED, GOOD_FRAME), exact(HOLED)
    for index in (0, lengths.copies - 1, lengths.copies):
        for name, value in [("copies", -UNIT - 1), ("offsets", 8192 * 3 + 1),
                            ("offsets", 8192 * 3)]:
            script += put_edge(HOLED, THREE_DONE, Put(name, index, value)) + calls([1], lengths)
    script += filled(HOLED, Fill(copy=0, offset=0, rounds=1024)) + calls([0], lengths)
    return script + [Fill(status=CERTIFIED), *calls([0, 1], lengths)]


def emptied_parts(names=OTHER_NAMES):
    """Each part one too short and exact: empty checks count in m, and in no other length."""
    script, lengths = fresh(HOLED, LATE_FRAME), exact(HOLED)
    for name in names:
        needed = vars(lengths)[name]
        script += calls([1], changed(CAPACITY, **{name: needed - 1}))
        script += calls([1], changed(CAPACITY, **{name: needed}))
    script += [StartRun(11, 12, 7), StartRun(12, 11, 7), StartRun(12, 12, 7)]
    return script + calls([1024], lengths)


def emptied_files(rng):
    """Damaged files with empty checks in mid-run."""
    script = fresh(HOLED, LATE_FRAME) + calls([2], exact(HOLED))
    for claim in rng.sample(damage.empty_check_claims(rng), 12):
        script += [UseCode(claim.data), *calls([1], CAPACITY), LONGEST_START]
    return script + [UseCode(code_file(HOLED)), *calls([1, 1024], exact(HOLED))]


# --- refused starts and calls ----------------------------------------------------------------

def short_parts(names=OTHER_NAMES):
    """Each part one too short, empty, exact and longer, for runs of every standing."""
    script = []
    for table in (tables.one_bit(), HAMMING, tables.one_wide_check(), tables.stacked_singles(32)):
        lengths, n = exact(table), table[0]
        standings = [fresh(table, [-9] * n), opening(table, [5] * n, Fill(status=SPENT)),
                     opening(table, [5] * n, Fill(rounds=1024))]
        for standing in standings:
            script += standing
            for name in names:
                needed = vars(lengths)[name]
                script += calls([0], changed(CAPACITY, **{name: needed - 1}))
                script += calls([2], changed(lengths, **{name: needed - 1}))
                script += calls([1], changed(CAPACITY, **{name: 0}))
                script += calls([0], changed(CAPACITY, **{name: needed}))
        script += calls([1], longer(lengths, -1)) + fresh(table, [-9] * n)
        script += calls([1], longer(lengths, 1)) + calls([1], lengths)
    return script


def starts():
    """Starts lent too little, exactly enough and more; on ended runs; on a bad frame."""
    script = []
    for table in (tables.one_bit(), HAMMING, tables.repeated_checks(), tables.full_square()):
        edges = exact(table).copies
        for status in (RUNNING, CERTIFIED, SPENT):
            script += opening(table, [9999], Fill(rounds=77, status=status))
            script += [StartRun(*lent, table[0]) for lent in
                       [(edges - 1, edges), (edges, edges - 1), (0, 0), (edges - 1, 8300),
                        (8300, 0), (edges, edges), (edges + 1, edges), (8300, 8300)]]
    return script


def damaged_files(rng):
    """A run under way meets damaged code files, then goes on as if nothing had been."""
    script = fresh(HAMMING, LATE_FRAME) + calls([2], EXACT)
    for claim in damage.single_faults(rng) + damage.fault_pairs(rng, 1):
        script.append(UseCode(claim.data))
        script += calls([rng.choice([0, 1, 2000])], rng.choice([EXACT, longer(EXACT, -1)]))
        script.append(rng.choice([StartRun(12, 12, 7), StartRun(0, 0, 0), LONGEST_START]))
        if rng.chance(1, 12):
            script += [UseCode(code_file(HAMMING)), *calls([1], EXACT)]
    return script + [UseCode(code_file(HAMMING)), *calls([1, 1024], EXACT)]


def limit_files(rng):
    """Refused files near the limits of m and E: the short ones, and the longest."""
    claims = [claim for claim in damage.limit_claims(rng) if not 2000 < len(claim.data) < 30000]
    script = fresh(HAMMING, GOOD_FRAME)
    for claim in claims:
        script += [UseCode(claim.data), *calls([1], CAPACITY), LONGEST_START]
    return script


def bad_frames():
    """8 and 9 in mid-run, alone and before 17 and 41; then the run goes on."""
    script = fresh(HAMMING, LATE_FRAME) + calls([1], EXACT)
    frames = [frame for _, frame in BAD_FRAMES]
    frames += [[0] * 2100, [-8191] * 6 + [-8192], [8192] + [8191] * 6, [1] * 6 + [-8193]]
    for frame in frames:
        script.append(UseFrame(frame))
        script += calls([1], EXACT) + calls([2000, 0], longer(EXACT, -1))
        script += [UseFrame(LATE_FRAME), *calls([1], EXACT)]
    return script


def damaged_file(rng, kind):
    return damage.damaged(HAMMING, {kind: rng.choice(damage.FAULTS[kind])}).data


def faulty_call(rng, faults, names=OTHER_NAMES):
    """A call for rounds with these faults and no others; 41 is for one of the names."""
    file = damaged_file(rng, rng.choice(damage.ORDER)) if "file" in faults else code_file(HAMMING)
    status = rng.choice([CERTIFIED, SPENT]) if 42 in faults else RUNNING
    wanted = rng.choice([1025, 2000, 2**32 - 1]) if 17 in faults else rng.between(0, 2)
    name = rng.choice(names)
    lent = changed(EXACT, **{name: vars(EXACT)[name] - 1}) if 41 in faults else EXACT
    fill = Fill(copy=UNIT + (43 in faults), offset=0, rounds=3, status=status)
    return filled(HAMMING, fill) + [
        UseCode(file), UseFrame([8191 + (9 in faults)] * (6 if 8 in faults else 7)),
        CallRounds(wanted, lent)]


def several_faults(rng):
    """Two or three faults in one call: the first in document 01's order must win."""
    chosen = [*combinations(FAULTS, 2), *combinations(FAULTS, 2), *combinations(FAULTS, 3)]
    return [step for faults in chosen for step in faulty_call(rng, faults)]


def peeled_faults(rng):
    """A call with every fault there is, which are mended one by one: each shows in turn."""
    script = []
    for kind in damage.ORDER:
        spoilt = Fill(rounds=5000, status=CERTIFIED)
        file, short = damaged_file(rng, kind), longer(EXACT, -1)
        script += [spoilt, UseCode(file), UseFrame([9999] * 8), *calls([2000], short),
                   UseCode(code_file(HAMMING)), *calls([2000], short),
                   UseFrame([9999] * 7), *calls([2000], short),
                   UseFrame(GOOD_FRAME), *calls([2000], short), *calls([5], short),
                   *calls([5], EXACT), spoilt._replace(status=RUNNING), *calls([5], EXACT),
                   Fill(rounds=2), *calls([5], EXACT),
                   Fill(rounds=2, copy=0), *calls([5], EXACT),
                   *filled(HAMMING, Fill(rounds=2, copy=0, offset=8192)), *calls([5], EXACT)]
    return script
