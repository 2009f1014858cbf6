"""Deliberately wrong decoders: each must be caught by at least one of the worked frames.

Document 01, 'Plausible errors', and the likeliest impostors of 'Contract strength'.  The wrong
parts replace the right ones for the time of one test; nothing in the decoder knows of them.
"""

import struct
from unittest import mock

import certificate
import cut
import make_inputs as inputs
import rounds
import table
from support import expect
from test_examples import FRAME_TESTS


def cut_without_side_change(spins):
    mask = sum(1 << member for member, spin in enumerate(spins) if spin < 0)
    depth = cut.shortfall(spins, mask)
    return cut.Cut(mask, depth) if depth > 0 else None


def bound_with_one_too_many(code, frame, scale, entries):
    sizes = sum(map(abs, certificate.reduced_numbers(code, frame, scale, entries)))
    return sizes + sum(entry.multiplier * (len(code.checks[entry.check]) - 1) for entry in entries)


def any_codeword(code, frame, done):
    word = rounds.candidate(done.spins)
    return word if word and table.first_broken_check(code, word) is None else None


def round_one_again(right_round):
    return lambda code, frame, offsets, sums: right_round(
        code, frame, [0] * code.edges, [0] * code.bits)


def empty_refused(right_contents):
    def contents(data):
        bits, counts = right_contents(data)
        table.refuse_if(0 in counts, 3)
        return bits, counts
    return contents


def empty_never_met(right_broken):
    return lambda code, word: (code.checks.index([]) if [] in code.checks
                               else right_broken(code, word))


def multiplier_on_empty(right_settle):
    return lambda values: right_settle(values) if values else ([], 1, 0, 0)


def any_mask_on_empty(right_check):
    return lambda code, entry, before: (None if code.checks[entry.check] == []
                                        else right_check(code, entry, before))


def halves_toward_zero(total, count):
    quotient = -((count - 2 * abs(total)) // (2 * count))
    return quotient if total >= 0 else -quotient


def halves_upward(total, count):
    return (2 * total + count) // (2 * count)


WRONG_DIVISIONS = {
    "division toward zero": inputs.divide_toward_zero,
    "division with halves toward zero": halves_toward_zero,
    "division with halves upward": halves_upward,
    "division downward": lambda total, count: total // count,
}

def sums_by(likeness):
    """Sums compared by a likeness of the lent ones, whole, to the true ones."""
    def check(code, lent):
        true = rounds.sums_of_bits(code, lent.copies, lent.offsets)
        table.refuse_if(likeness(lent.sums, len(true)) != likeness(true, len(true)), 43)
    return check


def as_floats(sums, n):
    return struct.pack(f"{n}f", *sums[:n])


def without(forgotten, right_part):
    """A start's or a call's part that forgets one of the buffers."""
    return lambda code, lent: right_part(code, {name: buffer for name, buffer in lent.items()
                                                if name != forgotten})


def checks_in_order(*checks):
    """42 and the tests of 43 in another order."""
    arguments = {"check_running": lambda code, record, lent: (record,),
                 "check_limits": lambda code, record, lent: (code, record, lent),
                 "check_sums": lambda code, record, lent: (code, lent)}

    def check_standing(*standing):
        for name in checks:
            getattr(rounds, name)(*arguments[name](*standing))
    return check_standing


def sums_left_by(right_round, leaves_them):
    def one_round(code, frame, offsets, sums):
        done = right_round(code, frame, offsets, sums)
        return done._replace(sums=sums) if leaves_them(code, frame, done) else done
    return one_round


def certifies(code, frame, done):
    return rounds.certified_word(code, frame, done) is not None


# parts of rounds.py
WRONG_SUMS = {
    "sums not compared": ("check_sums", lambda code, lent: None),
    "only the first sum compared": ("check_sums", sums_by(lambda sums, n: sums[0])),
    "last sum not compared": ("check_sums", sums_by(lambda sums, n: sums[:n - 1])),
    "only the sums' total compared": ("check_sums", sums_by(lambda sums, n: sum(sums[:n]))),
    "sums compared in any order": ("check_sums", sums_by(lambda sums, n: sorted(sums[:n]))),
    "sums compared in 16 bits": ("check_sums", sums_by(lambda sums, n: [s % 2**16
                                                                       for s in sums[:n]])),
    "sums compared as floats": ("check_sums", sums_by(as_floats)),
    "sums compared beyond n": ("check_sums", sums_by(lambda sums, n: sums + [0] * (n - len(sums)))),
    "sums compared before 42": ("check_standing", checks_in_order("check_sums", "check_running",
                                                                  "check_limits")),
    "43 before 42": ("check_standing", checks_in_order("check_limits", "check_sums",
                                                       "check_running")),
    "sums left by a certifying round": ("one_round", sums_left_by(rounds.one_round, certifies)),
    "sums left by every round": ("one_round", sums_left_by(rounds.one_round,
                                                           lambda *round_done: True)),
    "sums left by a start": ("clear", without("sums", rounds.clear)),
    "short sums accepted": ("check_lengths", without("sums", rounds.check_lengths)),
}


def depth_found(right_search, other):
    """A cut search that is wrong about the depth alone."""
    def known_cut(spins):
        found = right_search(spins)
        return found and found._replace(depth=other(spins, found.depth))
    return known_cut


def before_side_change(spins, depth):
    return cut.shortfall(spins, sum(1 << k for k, spin in enumerate(spins) if spin < 0))


def depth_settled(right_settle, other):
    """A check's step that takes the depth of a cut elsewhere."""
    def settle_check(values):
        copies, multiplier, mask, _ = right_settle(values)
        return copies, multiplier, mask, cut.shortfall(other(values, copies), mask) if mask else 0
    return settle_check


def depths_of_round(right_round, other):
    """A round that is wrong about the depths alone."""
    def one_round(code, frame, offsets, sums):
        done = right_round(code, frame, offsets, sums)
        return done._replace(depths=other(code, frame, done))
    return one_round


def depths_on_spins(code, frame, done):
    """As if v had no offsets."""
    return [max(0, cut.shortfall([done.spins[bit] for bit in members], mask)) if mask else 0
            for members, mask in zip(code.checks, done.masks)]


def depths_shown(right_show, other):
    """A round's depths put together with what stands in the buffer, and then shown."""
    return lambda done, lent: right_show(done._replace(depths=other(done.depths, lent.depths)),
                                         lent)


def zeroing_depths(right_part, depths_of):
    """A part of a call that zeroes the depths first."""
    def part(code, lent):
        depths_of(lent)[:len(code.checks)] = [0] * len(code.checks)
        right_part(code, lent)
    return part


def depths_looked_at(right_check):
    def check(code, record, lent):
        right_check(code, record, lent)
        table.refuse_if(any(depth > 2 * cut.UNIT for depth in lent.depths[:len(code.checks)]), 43)
    return check


# of the cut search alone
WRONG_SEARCHES = {
    name: (cut, "known_cut", depth_found(cut.known_cut, other)) for name, other in {
        "depth one too great": lambda spins, depth: depth + 1,
        "depth one too small": lambda spins, depth: depth - 1,
        "depth before the side change": before_side_change,
        "left side for depth": lambda spins, depth: 2 * cut.UNIT - depth,
        "U less the left side": lambda spins, depth: depth - cut.UNIT,
        "depth in 13 bits": lambda spins, depth: depth % 2**13,
        "half the depth": lambda spins, depth: depth // 2,
    }.items()}

WRONG_STEPS = {
    name: (rounds, "settle_check", depth_settled(rounds.settle_check, other)) for name, other in {
        "depth on unclipped v": lambda values, copies: values,
        "depth after the multiplier's step": lambda values, copies: copies,
    }.items()}

WRONG_ROUNDS = {
    name: (rounds, "one_round", depths_of_round(rounds.one_round, other)) for name, other in {
        "depth on the spins": depths_on_spins,
        "multiplier for depth": lambda code, frame, done: done.multipliers,
        "depth of 1 for none": lambda code, frame, done: [depth or 1 for depth in done.depths],
        "depths left by a certifying round": lambda code, frame, done:
            [] if certifies(code, frame, done) else done.depths,
    }.items()}

WRONG_SHOWS = {
    name: (rounds, "show_round", depths_shown(rounds.show_round, other)) for name, other in {
        "depth of an earlier round where there is no cut": lambda new, old:
            [depth or before for depth, before in zip(new, old)],
        "depths never written": lambda new, old: [],
        "depths of the cuts one after the other": lambda new, old:
            sorted(new, key=lambda depth: depth == 0),
        "depths past m zeroed": lambda new, old: new + [0] * (len(old) - len(new)),
    }.items()}

WRONG_DEPTHS = {
    **WRONG_SEARCHES, **WRONG_STEPS, **WRONG_ROUNDS, **WRONG_SHOWS,
    "short depths accepted": (rounds, "check_lengths", without("depths", rounds.check_lengths)),
    "depths zeroed by every call": (rounds, "check_lengths", zeroing_depths(
        rounds.check_lengths, lambda lent: lent.get("depths", []))),
    "depths zeroed before the rounds": (rounds, "check_sums", zeroing_depths(
        rounds.check_sums, lambda lent: lent.depths)),
    "43 for a depth above 2U": (rounds, "check_limits", depths_looked_at(rounds.check_limits)),
}

MUTANTS = {
    "side change omitted": (cut, "known_cut", cut_without_side_change),
    **{name: (rounds, "divide_nearest", wrong) for name, wrong in WRONG_DIVISIONS.items()},
    **{name: (rounds, *wrong) for name, wrong in WRONG_SUMS.items()},
    **WRONG_DEPTHS,
    "zero spin read as bit 0": (rounds, "candidate", lambda spins: [int(s < 0) for s in spins]),
    "d - 1 for d - 2": (certificate, "dual_bound", bound_with_one_too_many),
    "any codeword certified by a run": (rounds, "certified_word", any_codeword),
    "any codeword certified by the judge": (certificate, "gap", lambda *arguments: 0),
    "no cut ever": (cut, "known_cut", lambda spins: None),
    "empty check refused": (table, "read_contents", empty_refused(table.read_contents)),
    "empty check never met": (table, "first_broken_check",
                              empty_never_met(table.first_broken_check)),
    "empty check with a multiplier": (rounds, "settle_check",
                                      multiplier_on_empty(rounds.settle_check)),
    "empty check named": (certificate, "check_entry", any_mask_on_empty(certificate.check_entry)),
    "round 1 repeated": (rounds, "one_round", round_one_again(rounds.one_round)),
    "always the zero word": (rounds, "candidate", lambda spins: [0] * len(spins)),
    "nothing written": (rounds, "write_over", lambda buffer, values: None),
    "spent too early": (rounds, "ROUNDS_LIMIT", 2),
    "multiplier one too great": (cut, "least_multiplier",
                                 lambda v, mask: cut.least_multiplier_by_counting(v, mask) + 1),
}


def is_caught(frame_test):
    try:
        frame_test()
    except Exception:           # a wrong decoder may also break down; that is caught as well
        return True
    return False


def mutants_are_caught(account):
    account.announce("wrong decoders caught")
    expect(not any(map(is_caught, FRAME_TESTS)), "the right decoder passes every frame")
    for name, (module, part, wrong) in MUTANTS.items():
        with mock.patch.object(module, part, wrong):
            expect(any([is_caught(frame_test) for frame_test in FRAME_TESTS]), f"missed: {name}")
        account.add("wrong decoders caught")


TESTS = [mutants_are_caught]
