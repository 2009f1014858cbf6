"""What the self test's parts share: the account, plain assertions, and runs of call lists."""

import copy
from collections import Counter, namedtuple
from unittest import mock

import decoder
import make_runs
import rounds
from make_tables import code_file
from report import fresh_buffers
from rounds import CERTIFIED, Round, buffer_lengths
from table import parse_code_file


class Account:
    """Counts what was exercised.  A count that was announced and stays 0 is a failure: its
    test was vacuous."""

    def __init__(self):
        self.counts = Counter()

    def announce(self, *names):
        for name in names:
            self.counts[name] += 0

    def add(self, name, amount=1):
        assert name in self.counts, f"count '{name}' was never announced"
        self.counts[name] += amount

    def empty(self):
        return [name for name, count in self.counts.items() if count == 0]


def expect(condition, what):
    if not condition:
        raise AssertionError(what)


def expect_equal(got, wanted, what):
    expect(got == wanted, f"{what}: got {got}, wanted {wanted}")


# What can be seen of one call in a list.
Seen = namedtuple("Seen", "answer rounds_done status multipliers depths word certificate "
                          "did_rounds")


class Run:
    """A run from a fresh start with buffers of its own, longer than needed and full of junk."""

    SPARE = 3

    def __init__(self, table, frame, rng):
        self.code_file = code_file(table)
        self.code = parse_code_file(self.code_file)
        self.frame = frame
        self.lent = make_runs.junk_buffers(rng, self.code, self.SPARE)
        self.junk = copy.deepcopy(self.lent)
        self.record = decoder.start(self.code_file, self.lent.copies, self.lent.offsets,
                                    self.lent.sums)

    def call(self, call):
        """Makes one call for rounds and tells what it left."""
        lent = self.lent
        if call.short is not None:
            lent = make_runs.shortened(self.code, lent, call.short)
        kept, before = copy.deepcopy((self.record, lent)), self.record.rounds_done
        got = decoder.answer(decoder.rounds, self.code_file, self.frame, self.record,
                             call.wanted, lent)
        if "refused" in got and got != "refused 44":
            expect_equal((self.record, lent), kept, f"record and buffers after {got}")
        self.expect_tails_kept()
        certified = got == CERTIFIED
        count = self.lent.certificate[0] + 256 * self.lent.certificate[1]
        checks = len(self.code.checks)
        return Seen(got, self.record.rounds_done, self.record.status,
                    self.lent.multipliers[:checks], self.lent.depths[:checks],
                    self.lent.word[:self.code.bits] if certified else None,
                    self.lent.certificate[:4 + 10 * count] if certified else None,
                    self.record.rounds_done > before)

    def calls(self, calls):
        return [self.call(call) for call in calls]

    def round_shown(self):
        """The last round as the buffers show it."""
        needed = vars(buffer_lengths(self.code))
        return Round(*(vars(self.lent)[name][:needed[name]] for name in Round._fields))

    def expect_tails_kept(self):
        for name, needed in vars(buffer_lengths(self.code)).items():
            expect_equal(vars(self.lent)[name][needed:], vars(self.junk)[name][needed:],
                         f"{name} past its stated length")


def rounds_to_the_end(table, frame):
    """The record of a run that may take 1,100 rounds."""
    data = code_file(table)
    lent = fresh_buffers(parse_code_file(data))
    record = decoder.start(data, lent.copies, lent.offsets, lent.sums)
    with mock.patch.object(rounds, "ROUNDS_LIMIT", 1100):
        decoder.rounds(data, frame, record, 1100, lent)
    return record
