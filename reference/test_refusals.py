"""Every refusal: its condition, its place in the order, and that it leaves all as it was."""

import copy
import struct
from collections import Counter

import decoder
import generate
import make_damage as damage
import make_inputs as inputs
import make_runs
import make_tables as tables
from prng import Prng
from support import expect, expect_equal

NUMBERS = [*range(1, 18), 41, 42, 43]


def claimed_refusals(account):
    """The generators' damaged inputs get the number they were made for, and stay unchanged."""
    account.announce(*(f"refusal {number}" for number in NUMBERS))
    rng = Prng(71)
    claims = damage.single_faults(rng) + damage.fault_pairs(rng, 4)
    claims += damage.fault_triples(rng, 120) + damage.limit_claims(rng)
    claims += damage.empty_check_claims(rng)
    calls = [make_runs.CallClaim(claim.number, "parse_code_file", [claim.data]) for claim in claims]
    for number, call, arguments in calls + make_runs.call_claims(rng):
        kept = copy.deepcopy(arguments)
        got = decoder.answer(getattr(decoder, call), *arguments)
        expect_equal(got, f"refused {number}", f"{call} with {str(arguments)[:300]}")
        expect_equal(arguments, kept, f"arguments of {call} after {got}")
        account.add(f"refusal {number}")


# --- conditions stated one by one, and the order put on top ----------------------------------

def code_file_faults(data):
    """All kinds of fault in a code file, each looked at on its own as far as it has a
    meaning.  Kinds as in make_damage.ORDER."""
    if len(data) < 4:
        return {1}
    n, m = struct.unpack_from("<HH", data)
    faults = {2} if not (0 < n < 2049 and 0 < m < 2049) else set()
    if len(data) < 4 + 4 * m:
        return faults | {"contents"}
    contents = list(struct.iter_unpack("<HH", data[4:4 + 4 * m]))
    if any(count > 32 for _, count in contents):
        faults.add(3)
    follow = [(0, 0)] + contents
    if (any(start != before + count for (before, count), (start, _) in zip(follow, contents))
            or sum(count for _, count in contents) > 8192):
        faults.add(4)
    if len(data) != 4 + 4 * m + 2 * sum(count for _, count in contents):
        return faults | {5}
    return faults | body_faults(n, contents, data[4 + 4 * m:])


def body_faults(n, contents, bodies):
    members = [number for number, in struct.iter_unpack("<H", bodies)]
    rest = iter(members)
    checks = [[next(rest) for _ in range(count)] for _, count in contents]
    if any(sorted(set(check)) != check for check in checks) or max(members, default=0) >= n:
        return {6}
    times = Counter(members)
    return {7} if any(not 0 < times[bit] < 33 for bit in range(n)) else set()


def code_files_by_condition(account):
    """All generated code files, and many more nearly valid ones."""
    account.announce("code files refused by condition", "code files accepted by condition",
                     "code files with several faults")
    rng = Prng(72)
    records = generate.code_file_records() + generate.nearly_valid(rng, 1500)
    for data in records + generate.wrong_members(rng, 500):
        faults = code_file_faults(data)
        got = decoder.answer(decoder.parse_code_file, data)
        if faults:
            expect_equal(got, f"refused {damage.answer_for(faults)}", data[:80].hex(" "))
            account.add("code files refused by condition")
            account.add("code files with several faults", len(faults) > 1)
        else:
            expect(not isinstance(got, str), f"{got} for the good file {data[:80].hex(' ')}")
            account.add("code files accepted by condition")


def certificate_fault(checks, data):
    """The number a certificate must be refused with, or None."""
    q, scale = struct.unpack_from("<HH", data) if len(data) >= 4 else (5000, 1)
    if q > 4096 or len(data) != 4 + 10 * q:
        return 10
    if scale not in range(1, 1024):
        return 11
    contents = list(struct.iter_unpack("<HI", data[4:4 + 6 * q]))
    masks = [mask for mask, in struct.iter_unpack("<I", data[4 + 6 * q:])]
    for number, ((check, multiplier), mask) in enumerate(zip(contents, masks)):
        if check not in range(len(checks)) or multiplier not in range(1, 1 << 24):
            return 12
        ones = [bit for bit in range(32) if mask & 1 << bit]
        if len(ones) % 2 == 0 or ones[-1] >= len(checks[check]):
            return 13
        if number > 0 and not (contents[number - 1][0], masks[number - 1]) < (check, mask):
            return 14
    return None


def spoilt(rng, data):
    """A certificate with a byte or two changed, now and then cut or lengthened."""
    data = bytearray(data)
    for _ in range(rng.between(0, 2)):
        data[rng.between(0, len(data) - 1)] = rng.choice([0, 1, 2, 3, 4, 7, 255])
    return bytes(data[:rng.between(0, len(data))] if rng.chance(1, 9) else data)


def certificates_by_condition(account):
    account.announce("certificates refused by condition", "certificates read")
    rng = Prng(73)
    for table in tables.small_tables(rng, 30) + tables.emptied_tables(rng, 12):
        for _ in range(50):
            data = spoilt(rng, inputs.handmade_certificate(rng, table))
            number = certificate_fault(table[1], data)
            got = decoder.answer(decoder.judge, tables.code_file(table), [1] * table[0],
                                 [0] * table[0], data)
            if number is None:
                expect("refused" not in str(got), f"{got} for {data.hex(' ')} on {table}")
                account.add("certificates read")
            else:
                expect_equal(got, f"refused {number}", f"{data.hex(' ')} on {table}")
                account.add("certificates refused by condition")


def random_bytes_get_an_answer(account):
    """Any bytes at all get text or a refusal from the report."""
    account.announce("reports on random bytes", "reports with frames refused")
    rng = Prng(74)
    for data in generate.random_files(rng, 200) + generate.shortest_files(rng):
        lines = decoder.frame_report(data).splitlines()
        expect(lines[0].startswith(("refused ", "bits ")), f"report {lines[0]}")
        expect(len(lines) == 1 or lines[0].startswith("bits "), "refused stands alone")
        account.add("reports on random bytes")
    for _ in range(6):
        data = tables.code_file(tables.three_bits()) + rng.bytes(rng.between(6, 30))
        text = decoder.frame_report(data)
        expect_equal(text.count("\n"), 1 + -(-(len(data) - 14) // 6), "lines of a report")
        account.add("reports with frames refused", text.count(" refused "))


def generated_files_are_fixed(account):
    """The pseudo-random numbers are splitmix64's published ones, and IN reads back whole."""
    account.announce("records read back")
    rng = Prng(0)
    expect_equal([rng.next64(), rng.next64()], [0xE220A8397B1DCDAF, 0x6E789E6AA1B965F4], "Prng(0)")
    stream, text = generate.case_code_files()
    place, lines = 0, text.splitlines()
    while place < len(stream):
        length, = struct.unpack_from("<I", stream, place)
        data = stream[place + 4:place + 4 + length]
        expect_equal((len(data), generate.code_file_line(data)), (length, lines.pop(0)), "record")
        account.add("records read back")
        place += 4 + length
    expect_equal((lines, text[-1]), ([], "\n"), "lines left over")
    expect(len(stream) < 1_500_000, "size of IN")


TESTS = [claimed_refusals, code_files_by_condition, certificates_by_condition,
         random_bytes_get_an_answer, generated_files_are_fixed]
