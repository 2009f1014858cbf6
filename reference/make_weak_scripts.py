"""Scripts of runs on weak frames, and of half-done runs with totals beside a half."""

from itertools import product

import make_inputs as inputs
import make_runs
import make_scripts
import make_tables as tables
import make_weak_frames as weak
from call_script import Fill, UseFrame, calls, exact, fresh, opening, put_state, start_of
from make_tables import code_file
from make_weak_frames import DEEP_CHECK
from table import parse_code_file


def half_runs(rng):
    """Certified by round 1, in whatever portions it is asked for."""
    script = []
    for table, frame in weak.leaning_frames(rng, weak.half_sizes):
        for wants in ([1024, 0], [0, 1, 1]):
            script += fresh(table, frame) + calls(wants, exact(table))
    return script


def lesser_runs(rng):
    """At spin 0 throughout, and spent."""
    script = []
    for table, frame in weak.leaning_frames(rng, weak.lesser_sizes):
        script += fresh(table, frame) + calls([1, 1022, 1, 1], exact(table))
    return script


def mended_runs(rng):
    """At once, stopped a round before the end and resumed, and in parts; and the same for the
    frame negated under a codeword."""
    script = []
    for ending, table, frame in weak.MENDED:
        negated = inputs.negated_under(frame, inputs.other_codeword(rng, table))
        parts = [call.wanted for call in make_runs.split_wants(rng, ending)]
        for one, wants in product((frame, negated), ([1024, 1], [ending - 1, 0, 1, 1], parts)):
            script += fresh(table, one) + calls(wants, exact(table))
    return script


def mixed_lists(rng):
    """Pairs of scripts on mixed frames: stopped and resumed, with refused calls between."""
    pairs = []
    for table, *frames in weak.mixed_pairs(rng):
        lengths = exact(table)
        portions = [call.wanted for call in make_runs.split_wants(rng, 60)]
        listed = calls(portions, lengths) + make_scripts.random_calls(rng, lengths)
        listed += calls([1024 if lengths.copies < 80 else 100], lengths)
        pairs.append([fresh(table, frame) + listed for frame in frames])
    return pairs


def mixed_runs(rng):
    return [call for pair in mixed_lists(rng) for script in pair for call in script]


def wide_runs():
    """Degree 32: 15 and 16, of both signs, in all ways on three bits; and on 32 bits."""
    script = opening(DEEP_CHECK, [0, 0, 0])
    for frame in product((-16, -15, 15, 16), repeat=3):
        script += [UseFrame(list(frame)), start_of(DEEP_CHECK), *calls([1, 3], exact(DEEP_CHECK))]
    square = tables.full_square()
    for frame in ([16] * 32, [-16] * 32, [16] * 31 + [15], [15] * 32, [-16, 16] * 16,
                  [47] * 16 + [48] * 16, [-47] * 16 + [-48] * 16):
        script += fresh(square, frame) + calls([1, 2], exact(square))
    return script


def resumed_beside_halves(rng):
    """Half-done runs whose next totals, of both signs, are on or beside a half."""
    script = []
    for table in [tables.three_six(12), tables.cycle_table(8), tables.repeated_checks(),
                  tables.stairs(), DEEP_CHECK, tables.stacked_singles(32), tables.hamming()]:
        code = parse_code_file(code_file(table))
        for done in (0, 3, 1022):
            state, frame = weak.beside_halves(rng, code, done)
            script += opening(table, frame, Fill(rounds=done)) + put_state(table, state)
            script += calls([1, 1, 30], exact(table))
    return script


def late_runs(rng):
    """Runs that end in round 1,024 or close to it, also with empty checks put in."""
    script = make_scripts.late_runs(rng, make_scripts.LATE_RUNS)
    for ending, table, frame in [make_scripts.LATE_RUNS[k] for k in (1, 3, 7)]:
        table = tables.emptied(rng, table, 3)
        script += fresh(table, frame) + calls([ending - 2, 1, 1, 1], exact(table))
    return script


def weak_scripts(rng):
    return (half_runs(rng) + lesser_runs(rng) + mended_runs(rng) + mixed_runs(rng) + wide_runs()
            + resumed_beside_halves(rng) + late_runs(rng))
