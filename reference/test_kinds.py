"""The generated kinds: every answer and every refusal occurs, and IN reads back whole.

The readers here know the layouts from the records' description alone; they share no code
with the packing.
"""

import struct
from collections import Counter
from unittest import mock

import call_script
import certificate
import decoder
import kind_calls
import kind_cuts
import kind_judge
import kind_reports
import make_inputs as inputs
import make_scripts
import make_tables as tables
import make_verdicts
import make_weak_scripts as weak_scripts
import report_inputs
import rounds
from call_script import (CAPACITY, KEPT, CallRounds, Fill, Program, Put, StartRun, UseCode,
                         UseFrame)
from certificate import Certified
from packing import i32, u8, u32
from prng import Prng
from rounds import Buffers, Record
from support import expect, expect_equal, rounds_to_the_end
from table import parse_code_file


class Reader:
    """Little-endian fields from the front of a stream."""

    def __init__(self, stream):
        self.stream, self.place = stream, 0

    def fields(self, layout):
        values = struct.unpack_from("<" + layout, self.stream, self.place)
        self.place += struct.calcsize("<" + layout)
        return values

    def field(self, layout):
        value, = self.fields(layout)
        return value

    def numbers(self, letter):
        return list(self.fields(f"{self.field('I')}{letter}"))

    def block(self):
        return bytes(self.numbers("B"))

    def records(self, read_record):
        found = []
        while self.place < len(self.stream):
            found.append(read_record(self))
        return found


def expect_covered(account, kind, said, announced):
    """Every announced text is said, and nothing else."""
    account.announce(*(f"{kind}: {text}" for text in announced))
    for text in said:
        account.add(f"{kind}: {text}")


def refusals(*numbers):
    return [f"refused {number}" for number in numbers]


def kind_of(text):
    """`refused K` and `certified sole` whole, otherwise the first word; a plain number counts as
    `number`."""
    if text.startswith("refused") or text == "certified sole":
        return text
    return "number" if text.lstrip("-").isdigit() else text.split()[0]


def empty_checks(data):
    """The numbers of the empty checks of a code file, if it is a good one."""
    code = decoder.answer(parse_code_file, data)
    return [] if isinstance(code, str) else [check for check, members in enumerate(code.checks)
                                             if not members]


# --- case_cuts and case_judge ----------------------------------------------------------------

def case_cuts_cover_all(account):
    account.announce("case_cuts: mask with bit 31", "case_cuts: none of an empty check")
    stream, text = kind_cuts.case_cuts()
    expect(len(stream) < 1_000_000, "size of IN")
    records = Reader(stream).records(lambda r: (r.block(), r.numbers("i"), r.field("I")))
    said = text.splitlines()
    expect_equal([kind_cuts.cut_line(kind_cuts.CutCase(*one)) for one in records], said, "cuts")
    expect_covered(account, "case_cuts", map(kind_of, said),
                   ["mask", "none", *refusals(*range(1, 8), 16, 17)])
    account.add("case_cuts: mask with bit 31",
                sum(line.startswith("mask") and int(line.split()[1]) >> 31 for line in said))
    account.add("case_cuts: none of an empty check",
                sum(line == "none" and check in empty_checks(data)
                    for (data, _, check), line in zip(records, said)))


def case_judge_cover_all(account):
    stream, text = kind_judge.case_judge()
    expect(len(stream) < 1_500_000, "size of IN")
    records = Reader(stream).records(
        lambda r: (r.block(), r.numbers("h"), list(r.block()), r.block()))
    said = text.splitlines()
    expect_equal([kind_judge.judge_line(kind_judge.JudgeCase(*one)) for one in records], said,
                 "verdicts")
    expect_covered(account, "entries on empty checks", entries_on_empty(records, said),
                   refusals(12, 13, 14))
    judged, checked, agreed = zip(*(map(kind_of, line.split(" ; ")) for line in said))
    expect_covered(account, "case_judge", judged,
                   ["broken", "certified", "certified sole", "gap", *refusals(*range(1, 16))])
    expect_covered(account, "syndromes", checked, ["broken", "met", *refusals(*range(1, 8), 15)])
    expect_covered(account, "agreements", agreed, ["number", *refusals(*range(1, 10), 15)])


def entries_on_empty(records, said):
    """What is said of certificates of good length with an entry that names an empty check."""
    for (data, _, _, certified), line in zip(records, said):
        if certified and len(certified) == 4 + 10 * inputs.entry_count(certified):
            named = {entry.check for entry in inputs.read_entries(certified)[1]}
            if named & set(empty_checks(data)):
                yield kind_of(line.split(" ; ")[0])


def tight_certificates_have_gap_0(account):
    """The strangers' certificates that are made to pass do pass, none of their frame spare."""
    account.announce("tight certificates", "reduced numbers at 0")
    rng = Prng(81)
    for table in tables.small_tables(rng, 30):
        word, scale = rng.choice(inputs.codewords(table)), rng.choice([1, 5, 1023])
        case = make_verdicts.tight_case(rng, table, word, 2, scale)
        code, (_, entries) = parse_code_file(case.code_file), inputs.read_entries(case.certificate)
        reduced = certificate.reduced_numbers(code, case.frame, scale, entries)
        expect_equal(decoder.judge(*case), Certified(0 not in reduced), f"{case}")
        account.add("tight certificates")
        account.add("reduced numbers at 0", reduced.count(0))


# --- case_calls ------------------------------------------------------------------------------

# one element of each buffer, as struct packs it
ELEMENTS = "".join({i32: "i", u32: "I", u8: "B"}[kept.pack] for kept in vars(KEPT).values())


def read_call(reader):
    """One record of case_calls, by its first byte."""
    op = reader.field("B")
    if op == 0:
        done, status, *values = reader.fields("IB" + ELEMENTS)
        return Fill(*values, done, ("running", "certified", "spent")[status])
    if op == 1:
        return UseCode(reader.block())
    if op == 2:
        return UseFrame(reader.numbers("h"))
    if op == 3:
        return StartRun(*reader.fields("III"))
    if op == 4:
        wanted, *lengths = reader.fields("I" + "I" * len(ELEMENTS))
        return CallRounds(wanted, Buffers(*lengths))
    expect_equal(op, 5, "op")
    which, index, value = reader.fields("BIi")
    return Put({1: "copies", 2: "offsets", 3: "sums"}[which], index, value)


def fields_at_their_places(account):
    """The longest records field by field, and the buffers in the checksum's order."""
    account.announce("records field by field")
    numbers = dict(spins=1, copies=2, offsets=3, sums=4, multipliers=5, masks=6, depths=7, word=8,
                   certificate=9)
    expect_equal(list(vars(CAPACITY)), list(numbers), "order of the buffers")
    elements = {vars(KEPT)[name].element: number for name, number in numbers.items()}
    expect_equal(Fill(**elements, rounds=10, status="spent").pack(),
                 struct.pack("<BIB4i3I2B", 0, 10, 2, *range(1, 10)), "a set: 1 + 35 bytes")
    expect_equal(CallRounds(11, Buffers(**numbers)).pack(),
                 struct.pack("<B10I", 4, 11, *range(1, 10)), "a call: 1 + 40 bytes")
    account.add("records field by field", 2)


def case_calls_cover_all(account):
    stream, text = kind_calls.case_calls()
    expect(len(stream) < 1_000_000, "size of IN")
    script = kind_calls.call_script()
    expect_equal(Reader(stream).records(read_call), script, "script read back")
    expect_within_capacity(script)
    told = {"start": [], "rounds": []}
    for line in text.splitlines():
        told[line.split(" ", 1)[0]].append(answer_of(line))
    expect_covered(account, "starts", told["start"], ["started", *refusals(*range(1, 8), 41)])
    expect_covered(account, "calls for rounds", told["rounds"],
                   ["running", "certified", "spent", *refusals(*range(1, 10), 17, 41, 42, 43)])
    expect_covered(account, "calls on empty checks",
                   map(answer_of, lines_on_empty(script, text.splitlines())),
                   ["started", "running", "certified", "spent", *refusals(17, 41, 42, 43)])


def answer_of(line):
    _, rest = line.split(" ", 1)
    return kind_of(" ".join(rest.split()[:2 if "refused" in rest else 1]))


def lines_on_empty(script, said):
    """The lines of starts and calls on good tables with empty checks."""
    told, holed = iter(said), False
    for call in script:
        if isinstance(call, UseCode):
            holed = empty_checks(call.data) != []
        elif isinstance(call, (StartRun, CallRounds)):
            line = next(told)
            if holed:
                yield line


def expect_within_capacity(script):
    """The program's buffers hold whatever the script asks for."""
    for call in script:
        if isinstance(call, CallRounds):
            lent = zip(vars(call.lengths).values(), vars(CAPACITY).values())
            expect(all(0 <= length <= capacity for length, capacity in lent), f"{call}")
        elif isinstance(call, StartRun):
            expect(all(0 <= length <= vars(CAPACITY)[name]
                       for name, length in call._asdict().items()), f"{call}")
        elif isinstance(call, Put):
            expect(0 <= call.index < vars(CAPACITY)[call.name], f"{call}")
        elif isinstance(call, (UseCode, UseFrame)):
            expect(len(call[0]) <= (30000 if isinstance(call, UseCode) else 2100), "length")


def plain_checksum(buffers):
    h = 14695981039346656037
    for values in vars(buffers).values():
        for value in values:
            h = (h * 1099511628211 + value % 2**32) % 2**64
    return h


def checksums_by_definition(account):
    """The quick checksum is the plain one, whatever the buffers end in."""
    account.announce("checksums compared")
    program = Program()
    full_tables = make_scripts.limit_tables(Prng(83))[:7]
    for call in make_scripts.swaps() + make_scripts.document_runs()[:20] + full_tables:
        line = call.play(program)
        if line is not None:
            expect_equal(int(line.split(" | ")[1]), plain_checksum(program.whole), "checksum")
            account.add("checksums compared")


def late_runs_end_late(account):
    """The stored frames end in the rounds that are claimed for them."""
    account.announce("runs certified in round 1,024", "runs one round too late",
                     "runs that end elsewhere, divided toward zero")
    for ending, table, frame in make_scripts.LATE_RUNS:
        expect_equal(rounds_to_the_end(table, frame), Record(ending, "certified"), f"{frame}")
        account.add("runs certified in round 1,024", ending == 1024)
        account.add("runs one round too late", ending == 1025)
    for ending, table, frame in make_scripts.LATE_TOWARD_ZERO:
        with mock.patch.object(rounds, "divide_nearest", inputs.divide_toward_zero):
            expect_equal(rounds_to_the_end(table, frame), Record(ending, "certified"), f"{frame}")
        account.add("runs that end elsewhere, divided toward zero",
                    rounds_to_the_end(table, frame) != Record(ending, "certified"))


def list_pairs_pair_up(account):
    """Demand 3 in the lines: all but the checksum is the same on the negated frame."""
    account.announce("paired lines")
    for pair in make_scripts.list_pairs(Prng(82), 14) + weak_scripts.mixed_lists(Prng(86))[::3]:
        first, second = ([line.split(" | ")[0] for line in call_script.play(script)]
                         for script in pair)
        expect_equal(second, first, "lines of a negated list")
        account.add("paired lines", len(first))


# --- report, case_report and the inputs of report_inputs.py ----------------------------------

def stored_reports(account):
    """Document 01's example, and the head of the long one: frames 2 and 3 get one line."""
    account.announce("long report lines")
    stream, text = kind_reports.report()
    expect_equal(stream.hex(" "), "03 00 01 00 00 00 03 00 00 00 01 00 02 00 a0 0f a0 0f 30 f8 "
                 "0a 00 0a 00 0a 00 00 00 00 00 00 00", "the example's bytes")
    expect_equal(len(text.splitlines()), 4, "the example's lines")
    data, first_frame = kind_reports.long_input(), 4 + 4 * 1024 + 2 * 6144
    expect_equal((len(data) - first_frame) % 4096, 4095, "a last frame one byte short")
    told = decoder.frame_report(data[:first_frame + 5 * 4096]).splitlines()
    expect_equal([line.split()[2] for line in told[1:]], ["certified"] * 4 + ["refused"], "endings")
    expect_equal(told[4].split()[2:], told[3].split()[2:], "the frame negated under a codeword")
    weak_part = data[first_frame + 11 * 4096:first_frame + 13 * 4096]
    weak_told = decoder.frame_report(data[:first_frame] + weak_part).splitlines()[1:]
    expect_equal([line.split()[2:] for line in weak_told], [["certified", "1", "4096", "0"]] * 2,
                 "frames of 2 that follow a codeword")
    account.add("long report lines", len(told) + len(weak_told))


def frame_said(line):
    """What a line of a report says, without the frame's number."""
    return line.split(" ", 2)[2] if line.startswith("frame") else line


def report_inputs_cover_all(account):
    """Each input is told as it was made to be; each refusal is met twice at least."""
    account.announce("report inputs", "report inputs: negative agreement")
    said = []
    for one in report_inputs.report_inputs():
        lines = [frame_said(line) for line in decoder.frame_report(one.data).splitlines()]
        expect_equal(list(map(kind_of, lines)), one.tells, f"report of: {one.name}")
        account.add("report inputs")
        said += lines
    numbered, times = refusals(*range(1, 10)), Counter(map(kind_of, said))
    expect_covered(account, "report inputs", times.elements(),
                   ["bits", "certified", "spent", *numbered])
    expect_equal([text for text in numbered if times[text] < 2], [], "met less than twice")
    account.add("report inputs: negative agreement",
                sum(text.startswith("certified") and int(text.split()[2]) < 0 for text in said))


TESTS = [case_cuts_cover_all, case_judge_cover_all, tight_certificates_have_gap_0,
         fields_at_their_places, case_calls_cover_all, checksums_by_definition, late_runs_end_late,
         list_pairs_pair_up, stored_reports, report_inputs_cover_all]
