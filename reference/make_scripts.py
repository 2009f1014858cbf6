"""Scripts of fresh runs: every ending, every way to split a run, tables at their limits."""

from itertools import cycle

import make_inputs as inputs
import make_runs
import make_tables as tables
from call_script import (CAPACITY, KEPT, CallRounds, Fill, Put, StartRun, UseCode, UseFrame, calls,
                         changed, exact, filled, fresh, longer, opening, put_right, start_of)
from make_tables import code_file
from rounds import CERTIFIED, SPENT
from table import FRAME_LIMIT, UNIT

DOCUMENT_RUNS = [(tables.three_bits(), [4000, 4000, -2000]), (tables.one_bit(), [-5]),
                 (tables.three_bits(), [-4000, -4000, -2000]),
                 (tables.three_bits(), [10, 10, 10])]

# Runs that end in round 1,024 or close to it, with that round, found by trying many small frames;
# the self test makes sure of the rounds.  1,025 stands for a run that is spent in round 1,024 and
# would have been certified by one round more.
TWO_TRIANGLES = (5, [[0, 1, 2], [2, 3, 4]])
THREE_TRIANGLES = (7, [[0, 1, 2], [2, 3, 4], [4, 5, 6]])
LATE_RUNS = [(1024, TWO_TRIANGLES, [6, -6, -4, 3, 5]), (1024, TWO_TRIANGLES, [-3, 6, 1, -5, -6]),
             (1024, TWO_TRIANGLES, [9, -7, -3, -7, -5]),
             (1024, THREE_TRIANGLES, [2, 8, 5, 1, -4, -8, 2]),
             (1023, THREE_TRIANGLES, [3, -2, -3, 5, 1, 1, -1]),
             (1022, THREE_TRIANGLES, [-1, 1, 1, -4, 6, -1, -5]),
             (911, tables.three_bits(), [5, 1, 0]), (1025, TWO_TRIANGLES, [-1, 6, 5, -1, 6]),
             (1025, TWO_TRIANGLES, [1, -5, 1, 3, -3]),
             (1025, THREE_TRIANGLES, [5, -1, -5, -2, 1, -1, 5])]

# Runs that a decoder would end in these rounds if it divided toward zero.  Most end elsewhere.
LATE_TOWARD_ZERO = [
    (1024, TWO_TRIANGLES, [6, -6, -4, 3, 5]), (1024, TWO_TRIANGLES, [4, -2, 5, -5, -5]),
    (1024, TWO_TRIANGLES, [-7, 8, -5, -22, -21]),
    (1024, THREE_TRIANGLES, [-2, 5, 2, -6, -6, -3, 2]),
    (1023, THREE_TRIANGLES, [-6, 3, 4, -5, -3, -3, 6]),
    (1022, THREE_TRIANGLES, [12, 7, -2, 4, -15, -2, 13]),
    (1019, TWO_TRIANGLES, [7, -10, -3, -1, 0]), (911, tables.three_bits(), [5, 1, 0]),
    (1025, TWO_TRIANGLES, [5, -1, 4, 0, 3]), (1025, TWO_TRIANGLES, [2, 5, -3, -3, 6]),
    (1025, THREE_TRIANGLES, [9, -10, 17, 0, 13, 3, -19])]


def document_runs():
    """Document 01's frames round by round, until the ended run refuses."""
    extremes = Fill(*(kept.extreme for kept in vars(KEPT).values()))
    script = []
    for table, frame in DOCUMENT_RUNS:
        script += fresh(table, frame) + calls([1] * 4, exact(table))
        script += fresh(table, frame, extremes) + calls([1024, 0], CAPACITY)
    zero = fresh(tables.three_bits(), [0, 0, 0])
    return script + zero + calls([1, 1000, 1024, 0, 1], exact(tables.three_bits()))


def late_runs(rng, runs):
    """Up to the stated round and beyond it: at once, up to the last round, in parts."""
    script = []
    for ending, table, frame in runs:
        lengths = exact(table)
        for wants in ([1024, 1], [ending - 2, 1, 0, 1, 1], [ending - 1 - 500, 1024],
                      [call.wanted for call in make_runs.split_wants(rng, ending)] + [3]):
            script += fresh(table, frame) + calls(wants, lengths)
    return script


def split_runs(rng):
    """One run in many portions: all at once, one by one, at random, with refusals between."""
    script = []
    for table, frame in [(tables.hamming(), [-35, -40, -33, 0, 33, -11, 12]),
                         (tables.hamming(), [3000, -900, 2500, 700, 800, 1900, -600]),
                         (tables.three_bits(), [3, 2, 0]), (tables.cycle_table(5), [1] * 5),
                         (tables.repeated_checks(), [-3, 5, 4, -1])]:
        lengths = exact(table)
        between = [CallRounds(1025, lengths), CallRounds(0, lengths),
                   CallRounds(5, changed(lengths, masks=lengths.masks - 1))]
        script += fresh(table, frame) + calls([1024], lengths)
        script += fresh(table, frame) + calls([1] * 15 + [1009], lengths)
        script += fresh(table, frame) + calls([512, 512, 1], longer(lengths, 1))
        script += fresh(table, frame)
        for call in make_runs.split_wants(rng, 1024)[:12] + [make_runs.Call(1024, None)]:
            script += calls([call.wanted], lengths) + [rng.choice(between)]
    return script


def wants():
    """0, 1, 1,024, 1,025 and far above, on runs of every standing."""
    table = tables.hamming()
    telling = [0, 1025, 1026, 65536, 65537, 2**31 - 1, 2**31, 2**31 + 1, 2**32 - 1]
    script = fresh(table, [35, -40, 33, 0, 33, 11, -12])
    script += calls(telling + [1] + telling + [1024] + telling + [1, 1024], exact(table))
    for fill in (Fill(rounds=7, copy=0, offset=0, status=CERTIFIED), Fill(rounds=7, status=SPENT),
                 Fill(rounds=1024, copy=0, offset=0), Fill(rounds=3)):
        script += opening(table, [5] * 7) + filled(table, fill)
        script += calls([0, 1, 1024, 1025, 2**32 - 1], exact(table))
    return script


def frame_kinds(rng):
    """Zero, tiny, full, tied, random and noisy frames on small and middling tables."""
    script = []
    for table in tables.small_tables(rng, 14):
        n = table[0]
        frames = inputs.frames(rng, n) + [[FRAME_LIMIT] * n, [-FRAME_LIMIT] * n]
        for frame in rng.sample(frames, 4):
            script += fresh(table, frame) + calls([1, 4, 150], exact(table))
    for table in tables.middle_tables(rng):
        for maker in rng.sample([inputs.noisy_frame, inputs.full_frame, inputs.tied_frame], 2):
            script += fresh(table, maker(rng, table[0])) + calls([1, 9], exact(table))
    return script


def limit_tables(rng):
    """n, m, E and both degrees at their limits: exact lengths, one part too short (another
    one for each table), all that there is."""
    script = []
    large = tables.limit_tables(rng)[:6] + [tables.half_rate(rng)]
    for table, name in zip(cycle(large), make_runs.OTHER_NAMES):
        lengths = exact(table)
        script += fresh(table, inputs.channel_frame(rng, table[0], 3000, 3000))
        short = changed(lengths, **{name: vars(lengths)[name] - 1})
        script += calls([1], lengths) + calls([1, 0], short) + calls([2], CAPACITY)
        script += [UseFrame(inputs.full_frame(rng, table[0])), StartRun(8192, 8300, 2048)]
        script += calls([1, 1], lengths)
        script.append(UseFrame([FRAME_LIMIT] * table[0]))
        script += calls([1], lengths) + [start_of(table)._replace(offsets=lengths.offsets - 1)]
    return script


def swaps():
    """Record and buffers handed on to another table, with sums put right for it, or frame: no
    fresh run, but answered.  An offset too far is seen only by the table that has the edge."""
    small, large = tables.three_bits(), tables.hamming()
    use_small = [UseCode(code_file(small)), UseFrame([-5, 5, 5])]
    use_large = [UseCode(code_file(large)), UseFrame([-35, -40, -33, 0, 33, -11, 12])]
    script = fresh(large, [35, -40, 33, 0, 33, 11, -12]) + calls([3], exact(large))
    script = put_right(small, script + use_small)
    script += calls([1, 2], exact(small)) + [UseFrame([8191, -8191, 8191])]
    script += calls([1], exact(small)) + [Put("offsets", 3, 8192 * 9)]
    script = put_right(large, script + calls([0, 1], exact(small)) + use_large)
    script += calls([0, 1], exact(large))
    script = put_right(large, script + [Put("offsets", 3, 8192 * 8)])
    script += calls([0, 1, 1], exact(large))
    script = put_right(large, script + [Put("copies", 11, UNIT + 1)])
    script = put_right(small, script + calls([0, 1], exact(large)) + use_small)
    return script + calls([1, 1024], exact(small))


def emptied_runs(rng):
    """Runs on tables with empty checks: document 01's frame, every ending, calls up to round
    1,024 and the one too late, and lists with refusals."""
    extremes = Fill(*(kept.extreme for kept in vars(KEPT).values()))
    three, frame = tables.with_empty(tables.three_bits(), [0, 1, 1]), [4000, 4000, -2000]
    script = fresh(three, frame, extremes) + calls([0] + [1] * 4, exact(three))
    script += fresh(three, [0, 0, 0]) + calls([1, 1024, 1], exact(three))
    for ending, table, frame in [LATE_TOWARD_ZERO[k] for k in (0, 3, 8)]:
        table = tables.emptied(rng, table, 3)
        script += fresh(table, frame) + calls([ending - 2, 1, 1, 1], exact(table))
    for table in tables.emptied_tables(rng, 14):
        script += fresh(table, inputs.lively_frame(rng, table[0]), extremes)
        script += calls([1, 4, 150], exact(table)) + random_calls(rng, exact(table))
    return script


def mostly_empty(rng):
    """m 2,048 and 32 edges: multipliers, masks and certificate are as long as for full checks."""
    table = tables.mostly_empty()
    lengths = exact(table)
    script = fresh(table, inputs.channel_frame(rng, 32, 3000, 3000)) + calls([1], lengths)
    for name in ("multipliers", "masks", "certificate"):
        script += calls([1], changed(lengths, **{name: vars(lengths)[name] - 1}))
    script += calls([1023], lengths) + [StartRun(32, 31, 32), StartRun(32, 32, 32)]
    return script + [UseFrame([-FRAME_LIMIT] * 31 + [FRAME_LIMIT])] + calls([1, 1023], CAPACITY)


def empty_checks_put_in():
    """A run handed on between a table and the same with empty checks goes on alike: its copies
    and offsets are the same, and 43 asks for no more."""
    plain, frame = tables.hamming(), [-35, -40, -33, 0, 33, -11, 12]
    holed = tables.with_empty(plain, [0, 1, 1, 3])
    script = fresh(plain, frame) + calls([3], exact(plain))
    script += [UseCode(code_file(holed)), *calls([0, 3], exact(holed))]
    script += [UseCode(code_file(plain)), *calls([3], exact(plain))]
    return script + [UseCode(code_file(holed)), *calls([1], exact(plain)),
                     *calls([1024, 1], exact(holed))]


def random_calls(rng, lengths):
    """A call list as demand 3 has them: refused calls included, parts of several lengths."""
    listed = []
    for call in make_runs.call_list(rng, make_runs.OTHER_NAMES):
        lent = longer(lengths, rng.choice([0, 0, 1, 40]))
        if call.short is not None:
            lent = changed(lent, **{call.short: rng.between(0, vars(lengths)[call.short] - 1)})
        listed.append(CallRounds(call.wanted, lent))
    return listed


def list_pairs(rng, count):
    """The same list on a frame and on the frame negated under a codeword, each from a fresh
    start: answers and rounds done must pair up (demand 3)."""
    pairs = []
    for table in tables.small_tables(rng, count):
        frame, listed = inputs.lively_frame(rng, table[0]), random_calls(rng, exact(table))
        negated = inputs.negated_under(frame, rng.choice(inputs.codewords(table)))
        fill = Fill(**{vars(KEPT)[name].element: rng.between(0, 255)
                       for name in make_runs.OTHER_NAMES})
        pairs.append((fresh(table, frame, fill) + listed, fresh(table, negated, fill) + listed))
    return pairs


def random_lists(rng, count):
    return [call for pair in list_pairs(rng, count) for script in pair for call in script]
