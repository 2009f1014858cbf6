"""Depths: how far short each cut falls, on clipped v, 0 exactly where a round has no cut."""

import copy
from collections import namedtuple
from unittest import mock

import call_script
import cut
import kind_cuts
import make_depth_scripts as depth_scripts
import make_inputs as inputs
import make_runs
import make_tables as tables
from call_script import CallRounds, Program
from make_runs import Call
from prng import Prng
from rounds import CERTIFIED
from support import Account, Run, expect, expect_equal
from table import UNIT, parse_code_file
from test_mutants import WRONG_DEPTHS, WRONG_SEARCHES


def every_depth_of_one_member(account):
    """The left side is U + s: from -U up to U - 1 each spin has its own depth, U has none."""
    account.announce("depths of one member")
    for depth in range(1, 2 * UNIT + 1):
        expect_equal(cut.known_cut([UNIT - depth]), cut.Cut(1, depth), f"depth {depth}")
        account.add("depths of one member")
    expect_equal(cut.known_cut([UNIT]), None, "a full spin")


def depth_is_what_the_slacks_leave(account):
    """Spins made for an odd set and a left side: that set is cut, by 2U less the left side.  At
    2U exactly it is not, and no other set is: two left sides add up to 4U at least."""
    account.announce("depths by slacks", "depths by slacks after a side change", "slacks uncut")
    rng = Prng(131)
    for degree in range(1, 33):
        for depth in [*depth_scripts.DEPTHS, *(rng.between(1, 2 * UNIT) for _ in range(30))]:
            mask = inputs.random_mask(rng, degree)
            slacks = inputs.random_slacks(rng, degree, 2 * UNIT - depth)
            spins = inputs.spins_with_slacks(mask, slacks)
            wanted = cut.Cut(mask, depth) if depth else None
            expect_equal(cut.known_cut(spins), wanted, f"cut of {spins}")
            account.add("depths by slacks" if depth else "slacks uncut")
            account.add("depths by slacks after a side change",
                        depth > 0 and sum(spin < 0 for spin in spins) % 2 == 0)


def expect_sound(account, run):
    """What holds of the depths that the last round has left.  A step of the multiplier adds at
    most 1 for each member, so the depth needs so many steps at least."""
    shown = run.round_shown()
    for members, depth, multiplier, mask in zip(run.code.checks, shown.depths, shown.multipliers,
                                                shown.masks):
        expect(0 <= depth <= 2 * UNIT, f"depth {depth}")
        expect_equal((depth > 0, depth > 0), (multiplier > 0, mask > 0), f"cut of depth {depth}")
        expect(depth <= multiplier * len(members), f"depth {depth}, multiplier {multiplier}")
        account.add("depths above 0" if depth else "depths of 0")


def count_changes(account, before, after):
    """Of the depths that two rounds have left."""
    pairs = list(zip(before, after, strict=True))
    account.add("depths gone with their cuts", sum(a > 0 == b for a, b in pairs))
    account.add("depths come with their cuts", sum(b > 0 == a for a, b in pairs))


def sound_after_every_call(account):
    """Refused calls and calls for 0 rounds leave them; round 1 finds junk there."""
    account.announce("depths above 0", "depths of 0", "depths gone with their cuts",
                     "depths come with their cuts", "depths of a certifying round")
    rng = Prng(132)
    runs = [(table, frame) for table, frame in depth_scripts.COME_AND_GO for _ in range(3)]
    for table in tables.small_tables(rng, 30) + tables.emptied_tables(rng, 12):
        runs.append((table, inputs.lively_frame(rng, table[0])))
    for table, frame in runs:
        run = Run(table, frame, rng)
        expect_equal(run.lent.depths, run.junk.depths, "depths after a start")
        for call in make_runs.call_list(rng) + [Call(1, None)] * 4:
            before, done = run.round_shown().depths, run.record.rounds_done
            seen = run.call(call)
            if seen.did_rounds:
                expect_sound(account, run)
                count_changes(account, before if done else seen.depths, seen.depths)
                account.add("depths of a certifying round", seen.answer == CERTIFIED)
            else:
                expect_equal(seen.depths, before, f"depths after {seen.answer}")


def what_stood_there_does_not_matter(account):
    """Any numbers in the depths: all goes alike."""
    account.announce("runs over other depths")
    rng = Prng(133)
    for table in tables.small_tables(rng, 20) + tables.emptied_tables(rng, 10):
        run = Run(table, inputs.lively_frame(rng, table[0]), rng)
        other = copy.deepcopy(run)
        for place in range(len(table[1])):
            other.lent.depths[place] = rng.choice([0, 1, 2 * UNIT, 2 * UNIT + 1, 2**32 - 1])
        for call in [Call(1, None), Call(0, None), Call(20, None)]:
            expect_equal(other.call(call), run.call(call), f"{call} on {table}")
            expect_equal(other.round_shown(), run.round_shown(), f"rounds on {table}")
        account.add("runs over other depths")


# --- the stored cases and scripts ------------------------------------------------------------

def every_degree_has_its_depths(account):
    """At each degree the stored searches have the least and the greatest depths, and others."""
    account.announce("degrees with all depths")
    found = {degree: set() for degree in range(33)}
    for case in kind_cuts.cut_records():
        line = kind_cuts.cut_line(case)
        if line.startswith("mask"):
            members = parse_code_file(case.code_file).checks[case.check_number]
            found[len(members)].add(int(line.split()[3]))
    for degree in range(1, 33):
        wanted = {1, 2, UNIT - 1, UNIT + 1, 2 * UNIT - 2, 2 * UNIT - 1, 2 * UNIT}
        expect(wanted < found[degree], f"depths {wanted - found[degree]} at degree {degree}")
        account.add("degrees with all depths")
    expect_equal(found[0], set(), "depths of empty checks")


Played = namedtuple("Played", "done before after")


def rounds_played(script):
    """For each call of a script that does rounds: how many were done before it, and the first m
    depths before and after."""
    program, played = Program(), []
    for call in script:
        done, before = program.record.rounds_done, program.whole.depths[:]
        call.play(program)
        if isinstance(call, CallRounds) and program.record.rounds_done > done:
            m = len(parse_code_file(program.code_file).checks)
            played.append(Played(done, before[:m], program.whole.depths[:m]))
    return played


def stored_rounds_have_their_depths(account):
    """Round 3 of the half-done runs leaves what was chosen; at empty checks 0."""
    account.announce("stored depths as chosen")
    chosen = [one.after for one in rounds_played(depth_scripts.chosen_in_rounds(Prng(134)))
              if one.done == 2]
    expect_equal(chosen, [[depth] for depth in depth_scripts.DEPTHS] * 6, "chosen")
    account.add("stored depths as chosen", len(chosen))
    own = [one.after for one in rounds_played(depth_scripts.each_its_own(Prng(134)))
           if one.done == 2]
    expect_equal([sorted(depths) for depths in own], [[0] * 4 + depth_scripts.DEPTHS] * 3, "own")
    expect_equal([depth for depth in own[0] if depth], depth_scripts.DEPTHS[1:], "in their order")
    account.add("stored depths as chosen", len(own) * 11)


def stored_cuts_come_and_go(account):
    """In every run that was chosen for it, call by call, and under other frames."""
    names = ("depths gone with their cuts", "depths come with their cuts")
    for table, frame in depth_scripts.COME_AND_GO:
        run, own = Run(table, frame, Prng(136)), Account()
        own.announce(*names)
        seen = [one for one in run.calls([Call(1, None)] * 12) if one.did_rounds]
        for one, two in zip(seen, seen[1:]):
            count_changes(own, one.depths, two.depths)
        expect(own.counts[names[0]] > 0, f"no cut goes on {table} with {frame}")
    account.announce(*names)
    for script in (depth_scripts.come_and_go(), depth_scripts.other_frames()):
        for one in rounds_played(script):
            count_changes(account, one.before if one.done else one.after, one.after)


def wrong_depths_show(account):
    """The lines of searches, and those of scripts, tell every decoder that is wrong about the
    depths from the right one."""
    account.announce("wrong depths in searches", "wrong depths in the lines")
    records, script = kind_cuts.depth_records(Prng(135)), depth_scripts.depth_scripts(Prng(135))
    found, told = list(map(kind_cuts.cut_line, records)), call_script.play(script)
    for name, wrong in WRONG_DEPTHS.items():
        with mock.patch.object(*wrong):
            if name in WRONG_SEARCHES:
                expect(list(map(kind_cuts.cut_line, records)) != found, f"in searches: {name}")
                account.add("wrong depths in searches")
            expect(call_script.play(script) != told, f"not told by the lines: {name}")
            account.add("wrong depths in the lines")


TESTS = [every_depth_of_one_member, depth_is_what_the_slacks_leave, sound_after_every_call,
         what_stood_there_does_not_matter, every_degree_has_its_depths,
         stored_rounds_have_their_depths, stored_cuts_come_and_go, wrong_depths_show]
