"""Test inputs for the decoder's programs, with the text that must come out.

    python3 reference/generate.py KIND IN OUT           writes the two files
    python3 reference/generate.py --check KIND IN OUT   fails if the stored files differ

A kind is a function that returns the input bytes and the expected text; a new one needs only
an entry in KINDS.  The expected text comes from the reference decoder.  All numbers come
from a generator with a fixed seed, so the files are the same everywhere.
"""

import sys
from pathlib import Path

import make_damage as damage
import make_tables as tables
from make_tables import code_file, u16
from decoder import answer, parse_code_file
from kind_calls import case_calls
from kind_cuts import case_cuts
from kind_judge import case_judge
from kind_reports import report, case_report
from prng import Prng

RECORD_LIMIT = 30000
EDGE_NUMBERS = (0, 1, 2048, 2049, 65535)


# --- kind case_code_files: records of a 32-bit length and a code file ------------------------

def shortest_files(rng):
    """All lengths from 0 to 8, with heads in and out of range."""
    heads = [bytes(8), b"\1\0\1\0\0\0\1\0", b"\1\0\1\0\0\0\0\0", b"\1\0\1\0\1\0\1\0",
             b"\1\0\2\0\0\0\1\0", rng.bytes(8)]
    return [head[:length] for head in heads for length in range(9)]


def header_files():
    """All pairs of telling n and m: as bare heads, and before the rest of a small file."""
    rest = code_file(tables.hamming())[4:]
    return [u16(n) + u16(m) + tail for n in EDGE_NUMBERS for m in EDGE_NUMBERS
            for tail in (b"", rest)]


def count_files():
    """One check of count 0, 1, 32 or 33 that is in order otherwise, first and last of two."""
    files = []
    for count in (0, 1, 32, 33):
        wide, other = list(range(count)), list(range(34))[-32:]
        files += [code_file((34, [wide, other])), code_file((34, [other, wide])),
                  code_file((34, [wide, other, list(range(2))]))]
    return files


def crowd_files():
    """A bit in 31, 32 and 33 checks, by checks of one member and by equal checks."""
    files = []
    for times in (31, 32, 33):
        files += [code_file(tables.stacked_singles(times)), code_file((3, [[0, 1, 2]] * times)),
                  code_file((2, [[0]] + [[1]] * times)),
                  code_file((2, [[0, 1]] + [[0]] * (times - 1)))]
    return files


def valid_files(rng):
    made = tables.small_tables(rng, 40) + tables.middle_tables(rng) + tables.limit_tables(rng)
    made += [tables.largest_regular(rng), tables.largest_uneven(rng)]
    made += [tables.identity(n) for n in (2, 255, 256, 257)]
    return [code_file(table) for table in made]


def nearly_valid(rng, count):
    """Small valid files with one to three bytes changed anywhere."""
    files = []
    for _ in range(count):
        data = bytearray(code_file(rng.choice(damage.base_tables(rng))))
        for _ in range(rng.between(1, 3)):
            data[rng.between(0, len(data) - 1)] = rng.choice([0, 1, 2, 3, 32, 255])
        files.append(bytes(data))
    return files


def wrong_members(rng, count):
    """Body numbers drawn at random below n + 1, under right contents: 6, 7 or accepted."""
    files = []
    for _ in range(count):
        layout = tables.layout(rng.choice(damage.base_tables(rng)))
        for _ in range(rng.between(1, 2)):
            layout.bodies[rng.between(0, len(layout.bodies) - 1)] = rng.between(0, layout.n)
        files.append(layout.to_bytes())
    return files


def random_files(rng, count):
    """Random bytes, half of them behind a small header in range."""
    files = []
    for number in range(count):
        data = rng.bytes(rng.between(4, rng.choice([12, 60, 400, 3000])))
        if number % 2 == 0:
            data = u16(rng.between(1, 9)) + u16(rng.between(1, 4)) + data[4:]
        files.append(data)
    return files


def longest_files(rng):
    """Damage deep inside files of 24,580 bytes, and records of 30,000 bytes."""
    plain = tables.largest_regular(rng)
    files = [damage.damaged(plain, {kind: fault}).data for kind, fault in [
        (3, damage.count_is("last", 33)), (4, damage.start_off("last", 1)),
        (6, damage.member_above("last", 0)), (6, damage.equal_members("last"))]]
    without = tables.layout(plain)          # bit 2047 taken out of every check it stands in
    without.bodies = [min(bit, 2046) for bit in without.bodies]
    files.append(without.to_bytes())
    head = u16(2048) + u16(2048)
    return files + [head + bytes(RECORD_LIMIT - 4), rng.bytes(RECORD_LIMIT)]


def empty_check_files(rng):
    """Checks without members: accepted, up to m and E at their limits, and refused for
    something else."""
    made = tables.emptied_tables(rng, 16) + [tables.mostly_empty(), tables.emptied_band(rng)]
    return ([code_file(table) for table in made]
            + [claim.data for claim in damage.empty_check_claims(rng)])


def code_file_records():
    """The code files of this kind, in a fixed order."""
    rng = Prng(20_01)
    claims = damage.single_faults(rng) + damage.single_faults(rng)
    claims += damage.fault_pairs(rng, 2) + damage.fault_triples(rng, 30)
    claims += damage.limit_claims(rng)
    claims += [damage.damaged(table, {7: fault}) for table in damage.base_tables(rng)
               for fault in damage.FAULTS[7]]
    return (shortest_files(rng) + header_files() + count_files() + crowd_files()
            + [claim.data for claim in claims] + valid_files(rng) + nearly_valid(rng, 60)
            + wrong_members(rng, 40) + random_files(rng, 40) + longest_files(rng)
            + empty_check_files(rng))


def code_file_line(data):
    code = answer(parse_code_file, data)
    if isinstance(code, str):
        return code
    return f"bits {code.bits} checks {len(code.checks)} edges {code.edges}"


def case_code_files():
    records = code_file_records()
    assert all(len(data) <= RECORD_LIMIT for data in records)
    stream = b"".join(len(data).to_bytes(4, "little") + data for data in records)
    return stream, "".join(code_file_line(data) + "\n" for data in records)


# --- the command line ------------------------------------------------------------------------

KINDS = {"case_code_files": case_code_files, "case_cuts": case_cuts, "case_judge": case_judge,
         "case_calls": case_calls, "report": report, "case_report": case_report}


def check_stored(kind, in_path, out_path):
    """Complaints about stored files that are not what the generator writes today."""
    stream, text = KINDS[kind]()
    wanted = [(in_path, stream), (out_path, text.encode("ascii"))]
    return [f"{path} is not what generate.py {kind} writes" for path, content in wanted
            if not Path(path).is_file() or Path(path).read_bytes() != content]


def main(arguments):
    checking = arguments[:1] == ["--check"]
    arguments = arguments[1:] if checking else arguments
    if len(arguments) != 3 or arguments[0] not in KINDS:
        print(f"usage: generate.py [--check] KIND IN OUT, KIND one of: {', '.join(KINDS)}")
        return 2
    if checking:
        complaints = check_stored(*arguments)
        print("\n".join(complaints) or f"{arguments[0]}: stored files are as generated")
        return 1 if complaints else 0
    kind, in_path, out_path = arguments
    stream, text = KINDS[kind]()
    Path(in_path).write_bytes(stream)
    Path(out_path).write_bytes(text.encode("ascii"))
    print(f"{kind}: {len(text.splitlines())} lines, {len(stream)} bytes")
    return 0


if __name__ == "__main__":
    sys.exit(main(sys.argv[1:]))
