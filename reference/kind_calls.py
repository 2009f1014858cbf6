"""Kind case_calls: starts and calls for rounds on a record and buffers that are carried on.

Document 01, 'One round' and 'Turned down because of how the run stands'.  The layout of the
records is that of call_script.py.  Refusal 44 can't be had: the offsets that 43 lets through
keep every multiplier at or below 8,388,608.
"""

import make_scripts as scripts
import make_spoilt_scripts as spoilt
from call_script import play
from make_depth_scripts import depth_scripts
from make_edge_scripts import edge_scripts
from make_sum_scripts import sum_scripts
from make_weak_scripts import weak_scripts
from packing import lines
from prng import Prng


def call_script():
    rng = Prng(20_04)
    return (scripts.document_runs() + scripts.late_runs(rng, scripts.LATE_TOWARD_ZERO)
            + scripts.split_runs(rng) + scripts.wants() + scripts.frame_kinds(rng)
            + scripts.limit_tables(rng) + scripts.swaps() + scripts.random_lists(rng, 26)
            + spoilt.filled_runs() + spoilt.single_edges(rng) + spoilt.ended_states()
            + spoilt.resumed_half_done(rng) + spoilt.farthest_offsets() + spoilt.short_parts()
            + spoilt.starts() + spoilt.damaged_files(rng) + spoilt.limit_files(rng)
            + spoilt.bad_frames() + spoilt.several_faults(rng) + spoilt.peeled_faults(rng)
            + scripts.emptied_runs(rng) + scripts.mostly_empty(rng)
            + scripts.empty_checks_put_in() + spoilt.emptied_half_done(rng)
            + spoilt.emptied_edges() + spoilt.emptied_parts() + spoilt.emptied_files(rng)
            + weak_scripts(Prng(20_07)) + sum_scripts(Prng(20_09)) + depth_scripts(Prng(20_11))
            + edge_scripts(Prng(20_13)))


def case_calls():
    script = call_script()
    return b"".join(call.pack() for call in script), lines(play(script))
