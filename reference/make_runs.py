"""Call lists, half-done runs, and refused calls for the numbers 8 to 17 and 41 to 43.

A `CallClaim` names a public call, its arguments and the refusal it must get.  Where two
faults stand in one call, the claim tells which number wins.
"""

from collections import namedtuple
from dataclasses import fields

import make_damage
import make_inputs as inputs
import make_tables as tables
from certificate import Entry, write_certificate
from rounds import CERTIFIED, ROUNDS_LIMIT, SPENT, Buffers, Record, buffer_lengths
from table import UNIT, parse_code_file

CallClaim = namedtuple("CallClaim", "number call arguments")
Call = namedtuple("Call", "wanted short")           # short: a buffer lent one too short, or None

BUFFER_NAMES = [field.name for field in fields(Buffers)]
# Sums and depths have scripts of their own: make_sum_scripts.py, make_depth_scripts.py.
OTHER_NAMES = [name for name in BUFFER_NAMES if name not in ("sums", "depths")]


# --- call lists ------------------------------------------------------------------------------

def random_call(rng, names):
    kind = rng.between(0, 9)
    if kind == 0:
        return Call(rng.choice([1025, 2000, 65535]), None)
    if kind == 1:
        return Call(rng.between(0, ROUNDS_LIMIT), rng.choice(names))
    if kind == 2:
        return Call(2000, rng.choice(names))
    if kind == 3:
        return Call(0, None)
    return Call(rng.between(1, rng.choice([2, 4, 30])), None)


def call_list(rng, names=BUFFER_NAMES):
    """Several calls, refused ones among them; half of the lists run to the end."""
    calls = [random_call(rng, names) for _ in range(rng.between(1, 7))]
    if rng.chance(1, 2):
        calls += [Call(ROUNDS_LIMIT, None), Call(1, None)]
    return calls


def split_wants(rng, total):
    """Calls that want `total` rounds together, in random portions, zeros among them."""
    calls = []
    while total > 0:
        portion = min(total, rng.between(0, rng.choice([1, 3, 50, ROUNDS_LIMIT])))
        calls.append(Call(portion, None))
        total -= portion
    return calls


def junk_buffers(rng, code, spare):
    """Buffers `spare` longer than needed, full of numbers that must be overwritten or kept."""
    return Buffers(**{name: [rng.between(1, 250) for _ in range(length + spare)]
                      for name, length in vars(buffer_lengths(code)).items()})


def shortened(code, lent, name):
    """The same buffers with one of them lent one too short."""
    needed = vars(buffer_lengths(code))[name]
    return Buffers(**{**vars(lent), name: vars(lent)[name][:needed - 1]})


# --- half-done runs --------------------------------------------------------------------------

HalfDone = namedtuple("HalfDone", "record copies offsets")


def lend_state(code, lent, state):
    """Puts a half-done run into the buffers, with the sums that are true of it."""
    lent.copies[:code.edges], lent.offsets[:code.edges] = state.copies, state.offsets
    table = code.bits, code.checks
    lent.sums[:code.bits] = tables.true_sums(table, state.copies, state.offsets)


def random_half_done(rng, code, rounds_done):
    """A state that 43 lets through, though hardly any run comes there."""
    farthest = 8192 * rounds_done
    reach = rng.choice([0, 100, farthest])
    return HalfDone(Record(rounds_done), [rng.between(-UNIT, UNIT) for _ in range(code.edges)],
                    [rng.between(-min(reach, farthest), min(reach, farthest))
                     for _ in range(code.edges)])


def accepted_half_done(code):
    """The near side of 43: everything exactly at its limit."""
    edges = code.edges
    return [HalfDone(Record(0), [UNIT] * edges, [0] * edges),
            HalfDone(Record(0), [-UNIT] * edges, [0] * edges),
            HalfDone(Record(1), [0] * edges, [8192] * edges),
            HalfDone(Record(1), [0] * edges, [-8192] * edges),
            HalfDone(Record(1023), [UNIT] * edges, [8192 * 1023] * edges),
            HalfDone(Record(1023), [-UNIT] * edges, [-8192 * 1023] * edges)]


def refused_half_done(code):
    """The far side of 43: one thing beyond its limit, in the first or the last place."""
    edges = code.edges
    zeros, far = [0] * edges, 8192 * 1023
    return [HalfDone(Record(0), [UNIT + 1] + zeros[1:], zeros),
            HalfDone(Record(5), zeros[1:] + [-UNIT - 1], zeros),
            HalfDone(Record(0), zeros, zeros[1:] + [1]),
            HalfDone(Record(0), zeros, [-1] + zeros[1:]),
            HalfDone(Record(1), zeros, [8193] + zeros[1:]),
            HalfDone(Record(1), zeros, zeros[1:] + [-8193]),
            HalfDone(Record(1023), zeros, [far + 1] + zeros[1:]),
            HalfDone(Record(1023), zeros, zeros[1:] + [-far - 1]),
            HalfDone(Record(1024), zeros, zeros), HalfDone(Record(1025), zeros, zeros),
            HalfDone(Record(65535), zeros, zeros), HalfDone(Record((1 << 32) - 1), zeros, zeros)]


# --- refused calls ---------------------------------------------------------------------------

def good_judge():
    """Arguments that the judge answers: table, frame, word, certificate."""
    entries = [Entry(0, 50, 1), Entry(1, 60, 2), Entry(1, 60, 7), Entry(2, 70, 8)]
    return {"code_file": tables.code_file(tables.hamming()),
            "frame": [100, 200, 300, 400, 500, -600, 700], "word": [0] * 7,
            "certificate": write_certificate(entries)}


BAD_FRAMES = [(8, []), (8, [1] * 6), (8, [1] * 8), (8, [9000] * 6), (9, [0] * 6 + [8192]),
              (9, [-8192] + [0] * 6), (9, [32767] * 7), (9, [0] * 6 + [-32768])]
BAD_WORDS = [[], [0] * 6, [0] * 8, [0] * 6 + [2], [255] + [0] * 6, [1] * 8]


def bad_certificates():
    """(number, bytes) against the Hamming table, whose checks have degree 4."""
    def made(*entries, scale=1):
        return write_certificate([Entry(*entry) for entry in entries], scale)
    whole = good_judge()["certificate"]
    return [
        (10, b""), (10, b"\0\0\1"), (10, whole[:-1]), (10, whole + b"\0"), (10, whole[:4]),
        (10, made(scale=0) + b"\0"), (10, write_certificate([Entry(0, 1, 1)] * 4097)),
        (10, write_certificate([Entry(0, 1, 1)] * 4097, 0)),
        (11, made(scale=0)), (11, made(scale=1024)), (11, made((9, 0, 0), scale=65535)),
        (11, made((0, 5, 1), scale=0)),
        (12, made((3, 5, 1))), (12, made((65535, 5, 1))), (12, made((0, 0, 1))),
        (12, made((0, 1 << 24, 1))), (12, made((0, (1 << 32) - 1, 1))), (12, made((3, 5, 3))),
        (12, made((2, 5, 1), (0, 0, 1))), (12, made((0, 5, 1), (0, 0, 3))),
        (13, made((0, 5, 0))), (13, made((0, 5, 3))), (13, made((0, 5, 16))),
        (13, made((0, 5, 1 << 31))), (13, made((0, 5, 19))), (13, made((0, 5, 3), (3, 0, 1))),
        (13, made((1, 5, 1), (0, 5, 3))),
        (14, made((0, 5, 1), (0, 6, 1))), (14, made((1, 5, 1), (0, 5, 2))),
        (14, made((0, 5, 2), (0, 5, 1))), (14, made((0, 5, 1), (0, 5, 1), (3, 0, 0))),
        (14, inputs.reordered(whole)),
    ]


def judge_claims(rng):
    good = good_judge()

    def claim(number, **changes):
        return CallClaim(number, "judge", list({**good, **changes}.values()))
    bad_rest = {"frame": [9999], "word": [3], "certificate": b""}
    claims = [claim(damage.number, code_file=damage.data, **bad_rest)
              for damage in make_damage.single_faults(rng)]
    claims += [claim(number, frame=frame) for number, frame in BAD_FRAMES]
    claims += [claim(number, frame=frame, word=[3], certificate=b"")
               for number, frame in BAD_FRAMES]
    claims += [claim(15, word=word) for word in BAD_WORDS]
    claims += [claim(15, word=word, certificate=b"") for word in BAD_WORDS]
    claims += [claim(number, certificate=data) for number, data in bad_certificates()]
    # A broken word is an answer, not a refusal: every refusal comes before it.
    claims += [claim(number, certificate=data, word=[1] + [0] * 6)
               for number, data in bad_certificates()]
    wide = tables.code_file(tables.one_wide_check())
    top_first = write_certificate([Entry(0, 5, 1 << 31), Entry(0, 5, 1)])
    return claims + [CallClaim(14, "judge", [wide, [1] * 32, [0] * 32, top_first])]


def cut_claims(rng):
    code_file = tables.code_file(tables.hamming())
    bad_points = [[], [0] * 6, [0] * 8, [UNIT + 1] + [0] * 6, [0] * 6 + [-UNIT - 1], [9999] * 8]
    claims = [CallClaim(damage.number, "cut_search", [damage.data, [9999], 65535])
              for damage in make_damage.single_faults(rng)]
    claims += [CallClaim(16, "cut_search", [code_file, point, number])
               for point in bad_points for number in (0, 3, 65535)]
    return claims + [CallClaim(17, "cut_search", [code_file, [0] * 7, number])
                     for number in (3, 4, 65535)]


def start_claims(rng):
    code_file = tables.code_file(tables.hamming())      # 12 edges, 7 bits
    claims = [CallClaim(damage.number, "start", [damage.data, [1] * 3, [], [1]])
              for damage in make_damage.single_faults(rng)]
    short = [(11, 12, 7), (12, 11, 7), (0, 12, 7), (11, 11, 7), (99, 0, 99), (12, 12, 6),
             (12, 12, 0), (99, 99, 6), (11, 11, 6)]
    return claims + [CallClaim(41, "start", [code_file, *([1] * length for length in lent)])
                     for lent in short]


def rounds_claims(rng):
    """Every refusal of a call for rounds, each alone and with all the later ones as well."""
    code_file = tables.code_file(tables.hamming())
    code = parse_code_file(code_file)
    good = {"code_file": code_file, "frame": [5] * 7, "record": None, "wanted": 3, "lent": None}

    def claim(number, short=None, state=None, wrong=None, **changes):
        lent = junk_buffers(rng, code, rng.between(0, 3))
        state = state or HalfDone(Record(), [0] * code.edges, [0] * code.edges)
        lend_state(code, lent, state)
        if wrong is not None:
            lent.sums[wrong] += rng.choice([-1, 1]) * rng.choice([1, 2**16, 2**31])
        lent = shortened(code, lent, short) if short else lent
        record = Record(state.record.rounds_done, state.record.status)
        arguments = {**good, "record": record, "lent": lent, **changes}
        return CallClaim(number, "rounds", list(arguments.values()))
    beyond, zeros = refused_half_done(code), [0] * code.edges
    ended = [HalfDone(Record(done, status), zeros, zeros) for status in (CERTIFIED, SPENT)
             for done in (0, 3, 1024, 5000)]
    ended += [HalfDone(Record(7, SPENT), [9999] * code.edges, [1 << 30] * code.edges)]
    claims = [claim(damage.number, "word", beyond[0], code_file=damage.data, frame=[9999],
                    wanted=2000) for damage in make_damage.single_faults(rng)]
    for number, frame in BAD_FRAMES:
        claims += [claim(number, frame=frame), claim(number, wrong=0, frame=frame),
                   claim(number, "spins", ended[0], frame=frame, wanted=1025)]
    for wanted in (1025, 65535, 1 << 31):
        claims += [claim(17, wanted=wanted), claim(17, "copies", ended[1], wanted=wanted),
                   claim(17, None, beyond[1], wanted=wanted), claim(17, wrong=6, wanted=wanted)]
    for name in BUFFER_NAMES:
        claims += [claim(41, name), claim(41, name, wanted=0), claim(41, name, ended[2]),
                   claim(41, name, beyond[8]), claim(41, name, wrong=0)]
    for wanted in (0, 3, 1024):
        claims += [claim(42, state=state, wanted=wanted) for state in ended]
        claims += [claim(43, state=state, wanted=wanted) for state in beyond]
        for bit in (0, 3, 6):
            claims += [claim(42, state=state, wrong=bit, wanted=wanted) for state in ended]
            claims += [claim(43, state=state, wrong=bit, wanted=wanted)
                       for state in accepted_half_done(code)]
    return claims


def call_claims(rng):
    return judge_claims(rng) + cut_claims(rng) + start_claims(rng) + rounds_claims(rng)
