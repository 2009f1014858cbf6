"""Scripts of kind case_calls: the calls as bytes, and the program that plays them.

The program keeps one record and buffers of fixed capacity from call to call; a call is
lent the first so many elements of each.  After a start or a call for rounds one line tells
the answer, the record and a checksum of all whole buffers, so that every element past
the stated lengths is watched too (document 01: 'Bytes past the stated lengths never change').
"""

from collections import namedtuple
from itertools import accumulate
from operator import mul

from decoder import answer, rounds, start
from make_tables import code_file, true_sums
from packing import block, counted, i32, u8, u32
from rounds import CERTIFIED, RUNNING, SPENT, Buffers, Record, buffer_lengths
from table import parse_code_file

# A buffer of the program: its elements' name, how many there are, how one is packed, junk, and
# a number as far as one goes.
Kept = namedtuple("Kept", "element capacity pack junk extreme")

KEPT = Buffers(spins=Kept("spin", 2100, i32, -7, -2**31),
               copies=Kept("copy", 8300, i32, 9999, 2**31 - 1),
               offsets=Kept("offset", 8300, i32, 123456, -2**31),
               sums=Kept("sum", 2100, i32, -4321, 2**31 - 1),
               multipliers=Kept("multiplier", 2100, u32, 77, 2**32 - 1),
               masks=Kept("mask", 2100, u32, 88, 2**32 - 1),
               depths=Kept("depth", 2100, u32, 99, 2**32 - 1),
               word=Kept("word", 2100, u8, 3, 255),
               certificate=Kept("certificate", 20600, u8, 170, 255))
CAPACITY = Buffers(*(kept.capacity for kept in vars(KEPT).values()))
STATUSES = (RUNNING, CERTIFIED, SPENT)


# --- the checksum ----------------------------------------------------------------------------

FACTOR, FIRST, MODULUS = 1099511628211, 14695981039346656037, 1 << 64


def powers_of_factor(count):
    """FACTOR to the powers 0, 1, ..., count - 1."""
    powers = [1]
    for _ in range(count - 1):
        powers.append(powers[-1] * FACTOR % MODULUS)
    return powers


POWERS = powers_of_factor(1 + max(vars(CAPACITY).values()))
SUMS_OF_POWERS = [0, *accumulate(POWERS)]


def own_sum(values):
    """Each element times FACTOR to the number of elements after it.  Most buffers end in one
    number over and over, which is summed at once."""
    last, length = values[-1], len(values)
    head = next(k for k in (0, 64, 1024, length) if values[k:] == [last] * (length - k))
    unsigned = (value & 0xFFFFFFFF for value in values[:head])
    weighted = sum(map(mul, unsigned, POWERS[length - head:length][::-1]))
    return weighted + (last & 0xFFFFFFFF) * SUMS_OF_POWERS[length - head]


def checksum(buffers):
    """h = h * FACTOR + v over all elements as unsigned numbers, from h = FIRST."""
    h = FIRST
    for values in vars(buffers).values():
        h = (h * POWERS[len(values)] + own_sum(values)) % MODULUS
    return h


# --- the program -----------------------------------------------------------------------------

class Program:
    def __init__(self):
        self.whole = Buffers(*([0] * capacity for capacity in vars(CAPACITY).values()))
        self.record = Record()
        self.code_file = b""
        self.frame = []

    def line(self, call, got):
        record = self.record
        return f"{call} {got} {record.rounds_done} {record.status} | {checksum(self.whole)}"


def take_back(whole, part):
    whole[:len(part)] = part


class Fill(namedtuple("Fill", [kept.element for kept in vars(KEPT).values()] + ["rounds", "status"],
                      defaults=[kept.junk for kept in vars(KEPT).values()] + [0, RUNNING])):
    """Sets the record, and every element of every buffer.  The defaults are junk."""

    def pack(self):
        elements = (kept.pack(value) for kept, value in zip(vars(KEPT).values(), self))
        return u8(0) + u32(self.rounds) + u8(STATUSES.index(self.status)) + b"".join(elements)

    def play(self, program):
        program.whole = Buffers(*([value] * capacity
                                  for value, capacity in zip(self, vars(CAPACITY).values())))
        program.record = Record(self.rounds, self.status)


class UseCode(namedtuple("UseCode", "data")):
    def pack(self):
        return u8(1) + block(self.data)

    def play(self, program):
        program.code_file = self.data


class UseFrame(namedtuple("UseFrame", "numbers")):
    def pack(self):
        return u8(2) + counted(self.numbers, 2)

    def play(self, program):
        program.frame = self.numbers


class StartRun(namedtuple("StartRun", "copies offsets sums")):
    """A start that is lent so many copies, offsets and sums."""

    def pack(self):
        return u8(3) + b"".join(map(u32, self))

    def play(self, program):
        wholes = [vars(program.whole)[name] for name in self._fields]
        parts = [whole[:length] for whole, length in zip(wholes, self)]
        got = answer(start, program.code_file, *parts)
        for whole, part in zip(wholes, parts):
            take_back(whole, part)
        if isinstance(got, Record):
            program.record, got = got, "started"
        return program.line("start", got)


class CallRounds(namedtuple("CallRounds", "wanted lengths")):
    """A call for rounds; lengths is a Buffers of what is lent of each buffer."""

    def pack(self):
        return u8(4) + u32(self.wanted) + b"".join(map(u32, vars(self.lengths).values()))

    def play(self, program):
        lent = Buffers(*(vars(program.whole)[name][:length]
                         for name, length in vars(self.lengths).items()))
        got = answer(rounds, program.code_file, program.frame, program.record, self.wanted, lent)
        for name, part in vars(lent).items():
            take_back(vars(program.whole)[name], part)
        return program.line("rounds", got)


class Put(namedtuple("Put", "name index value")):
    """Sets one element of the copies, the offsets or the sums."""

    def pack(self):
        which = {"copies": 1, "offsets": 2, "sums": 3}[self.name]
        return u8(5) + u8(which) + u32(self.index) + i32(self.value)

    def play(self, program):
        vars(program.whole)[self.name][self.index] = self.value


def play(script, program=None):
    """The lines of a whole script."""
    program = program or Program()
    told = [call.play(program) for call in script]
    return [line for line in told if line is not None]


# --- pieces of scripts -----------------------------------------------------------------------

def exact(table):
    """The shortest lengths that are not refused with 41."""
    return buffer_lengths(parse_code_file(code_file(table)))


def changed(lengths, **others):
    return Buffers(**{**vars(lengths), **others})


def longer(lengths, by):
    return Buffers(*(length + by for length in vars(lengths).values()))


def calls(wants, lengths):
    return [CallRounds(wanted, lengths) for wanted in wants]


def start_of(table):
    """A start that is lent exactly what it needs."""
    lengths = exact(table)
    return StartRun(lengths.copies, lengths.offsets, lengths.sums)


def opening(table, frame, fill=Fill()):
    return [fill, UseCode(code_file(table)), UseFrame(frame)]


def fresh(table, frame, fill=Fill()):
    """A fresh run, lent exactly what it needs."""
    return opening(table, frame, fill) + [start_of(table)]


# --- half-done runs: the sums are put true of the copies and offsets -------------------------

def signed32(number):
    """The number itself, or what 32 bits keep of it.  A true sum beyond them is that of copies
    and offsets beyond their own limits, which 43 names first."""
    return (number + 2**31) % 2**32 - 2**31


def put_all(name, values):
    return [Put(name, index, value) for index, value in enumerate(values)]


def put_sums(table, copies, offsets):
    return put_all("sums", map(signed32, true_sums(table, copies, offsets)))


def put_state(table, state):
    """A half-done run, edge by edge."""
    return (put_all("copies", state.copies) + put_all("offsets", state.offsets)
            + put_sums(table, state.copies, state.offsets))


def filled(table, fill):
    """All copies alike, and all offsets."""
    edges = exact(table).copies
    return [fill, *put_sums(table, [fill.copy] * edges, [fill.offset] * edges)]


def put_edge(table, fill, put):
    """All copies alike, and all offsets, but for one, which may stand past the last edge."""
    edges = exact(table).copies
    lists = {"copies": [fill.copy] * edges, "offsets": [fill.offset] * edges}
    lists[put.name][put.index:put.index + 1] = [put.value]
    return [fill, put, *put_sums(table, lists["copies"][:edges], lists["offsets"][:edges])]


def put_right(table, script):
    """The script, and then the sums that its copies and offsets have on this table."""
    program, edges = Program(), exact(table).copies
    play(script, program)
    return script + put_sums(table, program.whole.copies[:edges], program.whole.offsets[:edges])
