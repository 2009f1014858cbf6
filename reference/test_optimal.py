"""What the mark means: certified words against all codewords and points of the relaxation."""

from itertools import product

import certificate
import cut
import decoder
import make_inputs as inputs
import make_tables as tables
from certificate import BrokenCheck, Certified, Gap
from prng import Prng
from support import expect, expect_equal
from table import parse_code_file


TRIANGLE = (6, [[0, 1, 2], [0, 1, 3], [0, 2, 4], [1, 2, 5], [3, 4, 5]])


def certified_words_are_best(account):
    """Brute force over all codewords of small tables; each certificate is judged again."""
    account.announce("runs certified", "runs spent", "certificates with cuts", "negative bounds")
    rng = Prng(41)
    for table in tables.small_tables(rng, 36) + tables.emptied_tables(rng, 12):
        words = inputs.codewords(table)
        for frame in inputs.frames(rng, table[0]):
            written = inputs.run_certificate(table, frame)
            if written is None:
                account.add("runs spent")
                continue
            word, data = written
            best = max(certificate.agreement(frame, other) for other in words)
            expect(word in words, f"{word} is no codeword of {table}")
            expect_equal(certificate.agreement(frame, word), best, f"{table} {frame}")
            got = judged(table, frame, word, data)
            expect(isinstance(got, Certified), f"{table} {frame}: judged {got}")
            expect_equal(got, expected_answer(table, frame, word, data), f"{table} {frame}")
            account.add("runs certified")
            account.add("certificates with cuts", data[0] > 0)
            account.add("negative bounds", best < 0)


def judged(table, frame, word, data):
    return decoder.judge(tables.code_file(table), frame, word, data)


def expected_answer(table, frame, word, data):
    """The judge's answer, and its mark, worked out per bit, in another order than the decoder's."""
    _, checks = table
    for number, members in enumerate(checks):
        if sum(word[bit] for bit in members) % 2 == 1:
            return BrokenCheck(number)
    scale, entries = inputs.read_entries(data)
    total, zeros = sum(entry.multiplier * (len(checks[entry.check]) - 2) for entry in entries), 0
    for bit, number in enumerate(frame):
        reduced = scale * number
        for entry in entries:
            if bit in checks[entry.check]:
                place = checks[entry.check].index(bit)
                reduced += entry.multiplier * (1 if entry.mask & 1 << place else -1)
        total += abs(reduced) - scale * (1 - 2 * word[bit]) * number
        zeros += reduced == 0
    return Gap(total) if total else Certified(zeros == 0)


def gaps_are_never_negative(account):
    """Certificates of no decoder: broken words, gaps of 0 and above, never below."""
    account.announce("judged broken", "judged certified", "judged with a gap")
    rng = Prng(42)
    for table in tables.small_tables(rng, 40) + tables.emptied_tables(rng, 12):
        words = inputs.codewords(table)
        for _ in range(60):
            frame = inputs.lively_frame(rng, table[0])
            data = inputs.handmade_certificate(rng, table)
            word = rng.choice([rng.choice(words), inputs.random_word(rng, table[0])])
            got = judged(table, frame, word, data)
            expect_equal(got, expected_answer(table, frame, word, data), f"{table} {frame} {word}")
            expect(not isinstance(got, Gap) or got.gap > 0, f"gap {got}")
            account.add({BrokenCheck: "judged broken", Gap: "judged with a gap",
                         Certified: "judged certified"}[type(got)])


def altered_certificates(account):
    """Scaled ones pass alike, mark included; a changed multiplier is judged by its own bound."""
    account.announce("scaled certificates", "changed multipliers", "gaps from a changed one")
    rng = Prng(43)
    for table in tables.small_tables(rng, 40):
        frame = inputs.noisy_frame(rng, table[0])
        written = inputs.run_certificate(table, frame)
        if written is None or written[1][0] == 0:
            continue
        word, data = written
        passed = judged(table, frame, word, data)
        for factor in (2, 1023):
            expect_equal(judged(table, frame, word, inputs.scaled(data, factor)), passed, "scaled")
            account.add("scaled certificates")
        least = inputs.read_entries(data)[1][0].multiplier
        for by in (1, 1 - least, 5000):
            changed = inputs.off_by(data, 0, by)
            got = judged(table, frame, word, changed)
            expect_equal(got, expected_answer(table, frame, word, changed), f"changed by {by}")
            account.add("changed multipliers")
            account.add("gaps from a changed one", isinstance(got, Gap))


# --- duality against points of the relaxation ------------------------------------------------

def in_relaxation(checks, point, unit):
    return all(not cut.all_cuts([point[bit] for bit in members], unit) for members in checks)


def near_point(rng, n, unit):
    """Small numbers: inside whenever no check has one or two members."""
    reach = rng.choice([unit // 3, unit // 2, unit])
    return [rng.between(-reach, reach) for _ in range(n)]


def relaxation_points(rng, table, words, count):
    """Points (D, p) that meet every inequality: mixtures of codewords, random points, and
    random points mixed with codewords, which reach beyond the codewords' hull."""
    n, checks = table
    found = []
    for _ in range(count):
        unit = rng.between(1, 12)
        point = near_point(rng, n, unit)
        if not in_relaxation(checks, point, unit):
            unit, point = 0, [0] * n
        for word in rng.shuffled(words)[:rng.between(1, 3)]:
            weight = rng.between(1, 6)
            unit += weight
            point = [value + weight * (1 - 2 * bit) for value, bit in zip(point, word)]
        expect(in_relaxation(checks, point, unit), "a mixture of points inside is inside")
        found.append((unit, point))
    return found


def grid_points(table, unit):
    """All points with this D and p of -D, 2 - D and so on to D.  With D = 2 the usual
    pseudo-codewords.  Small n only."""
    n, checks = table
    points = map(list, product(range(-unit, unit + 1, 2), repeat=n))
    return [(unit, point) for point in points if in_relaxation(checks, point, unit)]


def no_point_agrees_better(account):
    """Demand 3's first part, and weak duality for certificates of any scale."""
    account.announce("points compared", "fractional points", "points meeting the bound")
    rng = Prng(44)
    for table in tables.small_tables(rng, 30) + tables.emptied_tables(rng, 10):
        words = inputs.codewords(table)
        points = relaxation_points(rng, table, words, 12)
        points += grid_points(table, 2) if table[0] <= 5 else []
        for frame in inputs.frames(rng, table[0])[1:]:
            compare_points(account, rng, table, frame, points)


def compare_points(account, rng, table, frame, points):
    code = parse_code_file(tables.code_file(table))
    scale, entries = inputs.read_entries(inputs.handmade_certificate(rng, table))
    bound = certificate.dual_bound(code, frame, scale, entries)
    written = inputs.run_certificate(table, frame)
    for unit, point in points:
        reached = sum(number * value for number, value in zip(frame, point))
        expect(scale * reached <= unit * bound, f"{table} {frame} {unit} {point}: weak duality")
        account.add("fractional points", any(abs(value) < unit for value in point))
        if written is not None:
            agreed = unit * certificate.agreement(frame, written[0])
            expect(reached <= agreed, f"{table} {frame}: point {unit} {point} is better")
            account.add("points compared")
            account.add("points meeting the bound", reached == agreed)


def pseudo_codewords_keep_the_mark_away(account):
    """Where a point of the relaxation beats every codeword, no run may certify."""
    account.announce("frames won by a pseudo-codeword")
    rng = Prng(45)
    words, points = inputs.codewords(TRIANGLE), grid_points(TRIANGLE, 2)
    for _ in range(60):
        frame = inputs.lively_frame(rng, 6)
        best_word = max(certificate.agreement(frame, word) for word in words)
        best_point = max(sum(l * p for l, p in zip(frame, point)) for _, point in points)
        if best_point > 2 * best_word:
            expect_equal(inputs.run_certificate(TRIANGLE, frame), None, f"{frame}")
            account.add("frames won by a pseudo-codeword")


TESTS = [certified_words_are_best, gaps_are_never_negative, altered_certificates,
         no_point_agrees_better, pseudo_codewords_keep_the_mark_away]
