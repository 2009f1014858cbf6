"""The worked examples of document 01, number by number, and a few more worked by hand.

Each frame test is a function without arguments, so that the mutation test can run them all
against a wrong decoder.
"""

import certificate
import decoder
import make_inputs as inputs
import make_tables as tables
from certificate import BrokenCheck, Certified, Entry, Gap, write_certificate
from cut import Cut, cut_search
from prng import Prng
from make_runs import Call
from rounds import CERTIFIED, RUNNING, SPENT, buffer_lengths
from support import Run, expect, expect_equal
from table import parse_code_file


def fresh(table, frame):
    return Run(table, frame, Prng(1))


def expect_round(run, status, **wanted):
    """One more round; the named buffers must hold these numbers."""
    expect_equal(run.call(Call(1, None)).answer, status, f"answer for {run.frame}")
    shown = run.round_shown()._asdict()
    for name, values in wanted.items():
        expect_equal(shown[name], values, f"{name} for {run.frame}")


def expect_ending(run, rounds_done, word, certificate_hex, sole=True):
    """The run is certified with this word and certificate; the buffer's rest is as before.  The
    judge passes it with this mark."""
    expect_equal((run.record.rounds_done, run.record.status), (rounds_done, CERTIFIED), "record")
    expect_equal(run.lent.word[:run.code.bits], word, f"word for {run.frame}")
    written = list(bytes.fromhex(certificate_hex))
    expect_equal(run.lent.certificate, written + run.junk.certificate[len(written):],
                 f"certificate for {run.frame}")
    expect_equal(decoder.judge(run.code_file, run.frame, word, bytes(written)), Certified(sole),
                 "judge")


def cut_examples():
    data = tables.code_file(tables.three_bits())
    expect_equal(cut_search(data, [1365, 1365, -1366], 0), None, "cut example without a cut")
    expect_equal(cut_search(data, [1365, 1365, -1367], 0), Cut(4, 1), "cut example with mask 4")


def depth_examples():
    """Left sides added up by hand: one member, then three whose negative ones are an odd set,
    then three of whom the nearest to 0 changes sides, then three with a 0, 1 or -1."""
    for spins, found in [([-4096], Cut(1, 8192)), ([-4095], Cut(1, 8191)), ([0], Cut(1, 4096)),
                         ([4094], Cut(1, 2)), ([4095], Cut(1, 1)), ([4096], None),
                         ([4096, 4096, -4096], Cut(4, 8192)), ([-4096] * 3, Cut(7, 8192)),
                         ([4096, 4096, -4095], Cut(4, 8191)), ([-1367, 1365, 1366], Cut(1, 2)),
                         ([4000, 4000, 2000], Cut(4, 1904)), ([-4000, 2000, -4000], Cut(7, 1904)),
                         ([2731, 1365, 2731], Cut(2, 1)), ([-2731, -1366, 2732], Cut(1, 1)),
                         ([4096, 0, 4096], Cut(2, 4096)), ([1, 4096, -4096], Cut(4, 4097)),
                         ([-1, 4096, -4096], Cut(4, 4095))]:
        data = tables.code_file(tables.one_wide_check(len(spins)))
        expect_equal(cut_search(data, spins, 0), found, f"cut of {spins}")


def leaning_frame():
    """(4000, 4000, -2000): the received word breaks the check; three rounds mend it."""
    run = fresh(tables.three_bits(), [4000, 4000, -2000])
    expect_round(run, RUNNING, spins=[4000, 4000, -2000], multipliers=[1968], masks=[4],
                 copies=[2032, 2032, -32], offsets=[1968, 1968, -1968], sums=[64, 64, 1936],
                 depths=[8192 - 96 - 96 - 2096])
    # v is (6032, 6032, -2032), then (6698, 6698, -698): the first two are clipped to 4096
    expect_round(run, RUNNING, multipliers=[3334], copies=[2698, 2698, 1302], masks=[4],
                 sums=[-636, -636, 4636], depths=[8192 - 2064])
    expect_round(run, CERTIFIED, spins=[3364, 3364, 2636], multipliers=[3333], masks=[4],
                 sums=[32, 32, 5968], depths=[8192 - 3398])
    expect_ending(run, 3, [0, 0, 0], "01 00 01 00 00 00 05 0D 00 00 04 00 00 00")


def two_ones_frame():
    """(-4000, -4000, -2000), the first frame negated under 110."""
    run = fresh(tables.three_bits(), [-4000, -4000, -2000])
    expect_round(run, RUNNING, multipliers=[1968], masks=[7], depths=[5904])
    expect_round(run, RUNNING, multipliers=[3334], masks=[7], depths=[6128])
    expect_round(run, CERTIFIED, multipliers=[3333], masks=[7], depths=[4794])
    expect_ending(run, 3, [1, 1, 0], "01 00 01 00 00 00 05 0D 00 00 07 00 00 00")


def four_gaps():
    """With the multiplier b the reduced numbers are 4000 - b twice and b - 2000: at both ends of
    the gap 0 some are 0, at 3333, which the run writes, none.  Yet 000 has 6000 and is alone."""
    data, frame = tables.code_file(tables.three_bits()), [4000, 4000, -2000]
    for multiplier, wanted in [(1999, Gap(2)), (2000, Certified(False)), (2001, Certified(True)),
                               (3333, Certified(True)), (3999, Certified(True)),
                               (4000, Certified(False)), (4001, Gap(4))]:
        written = write_certificate([Entry(0, multiplier, 4)])
        expect_equal(decoder.judge(data, frame, [0, 0, 0], written), wanted, f"gap at {multiplier}")
        expect_equal(decoder.judge(data, frame, [0, 0, 1], written), BrokenCheck(0), "broken word")
    expect_equal([decoder.word_agreement(data, frame, word)
                  for word in ([0, 0, 0], [0, 1, 1], [1, 0, 1], [1, 1, 0])],
                 [6000, 2000, 2000, -10000], "agreements of all four codewords")


def one_bit_frame():
    """One check on one bit, frame (-5): the check alone decides, and the bound is -5."""
    run = fresh(tables.one_bit(), [-5])
    expect_round(run, RUNNING, spins=[-5], multipliers=[4101], masks=[1], copies=[4096],
                 depths=[4101])
    expect_round(run, CERTIFIED, spins=[4096], multipliers=[4101], masks=[1], depths=[4101])
    expect_ending(run, 2, [0], "01 00 01 00 00 00 05 10 00 00 01 00 00 00")
    bound = certificate.dual_bound(run.code, [-5], 1, [Entry(0, 4101, 1)])
    expect_equal(bound, -5, "bound of the one-bit frame")


def three_frame_report():
    data = bytes.fromhex("03 00 01 00 00 00 03 00 00 00 01 00 02 00 A0 0F A0 0F 30 F8"
                         "0A 00 0A 00 0A 00 00 00 00 00 00 00")
    expect_equal(decoder.frame_report(data), "bits 3 checks 1 edges 3\nframe 0 certified 3 6000 1\n"
                 "frame 1 certified 1 30 0\nframe 2 spent 1024\n", "report")


# --- frames worked by hand beyond document 01 ------------------------------------------------

def odd_total_frame():
    """One bit in two checks of one member, frame (-5): the total -5 over 2 edges is -3."""
    run = fresh(tables.stacked_singles(2), [-5])
    expect_round(run, RUNNING, spins=[-3], multipliers=[4099, 4099], offsets=[-4099, -4099],
                 sums=[16390])
    expect_round(run, CERTIFIED, spins=[4096], multipliers=[4099, 4099], sums=[16390])
    expect_ending(run, 2, [0], "02 00 01 00 00 00 03 10 00 00 01 00 03 10 00 00 01 00 00 00"
                  "01 00 00 00")


def first_totals():
    """One bit in so many checks of one member: in round 1 its number is divided by them."""
    for degree, number, spin in [(3, 1, 0), (3, 2, 1), (3, 4, 1), (3, 5, 2), (2, 1, 1), (2, 3, 2),
                                 (32, 15, 0), (32, 16, 1), (32, 47, 1), (32, 48, 2)]:
        for sign in (1, -1):
            run = fresh(tables.stacked_singles(degree), [sign * number])
            run.call(Call(1, None))
            expect_equal(run.round_shown().spins, [sign * spin], f"{sign * number} over {degree}")


def weak_frame():
    """All numbers 2 on the Hamming code, whose bits have degree 1, 2 and 3: 2 over 3 is 1, so
    no spin is 0, no check is cut, and the bound is 14 at once.  Negated under 1110000 alike."""
    for signs, word in [([1] * 7, [0] * 7), ([-1, -1, -1, 1, 1, 1, 1], [1, 1, 1, 0, 0, 0, 0])]:
        run = fresh(tables.hamming(), [2 * sign for sign in signs])
        sizes = [2, 2, 1, 2, 1, 1, 1]
        expect_round(run, CERTIFIED, multipliers=[0, 0, 0],
                     spins=[sign * size for sign, size in zip(signs, sizes)])
        expect_ending(run, 1, word, "00 00 01 00")


def half_frame():
    """A ring of five bits of degree 2: 1 over 2 is 1, -1 over 2 is -1, and round 1 certifies."""
    for number, bit in [(1, 0), (-1, 1)]:
        run = fresh(tables.cycle_table(5), [number] * 5)
        expect_round(run, CERTIFIED, spins=[number] * 5, multipliers=[0] * 5)
        expect_ending(run, 1, [bit] * 5, "00 00 01 00")


def too_weak_frame():
    """1 over 3 is 0: two bits in three checks never leave spin 0, though they lean alike."""
    run = fresh((2, [[0, 1]] * 3), [1, 1])
    expect_round(run, RUNNING, spins=[0, 0], copies=[0] * 6, offsets=[0] * 6, multipliers=[0] * 3)
    expect_equal(run.call(Call(1024, None)).answer, SPENT, "a frame of ones over three")
    expect_equal(run.round_shown().spins, [0, 0], "spins of round 1,024")


def side_change_frame():
    """(4000, 4000, 2000): no negative spin, so the nearest member changes sides.

    96 + 96 + 6096 is 1904 short of 8192, which three members make up in 635 steps.
    """
    run = fresh(tables.three_bits(), [4000, 4000, 2000])
    expect_round(run, CERTIFIED, multipliers=[635], masks=[4], copies=[3365, 3365, 2635],
                 depths=[1904])
    expect_ending(run, 1, [0, 0, 0], "01 00 01 00 00 00 7B 02 00 00 04 00 00 00")


def second_best_frame():
    """A table of two codewords, 0000 and 1101.  Round 5's candidate is 1101, the worse one,
    with a gap of 2598; it must not be marked, and 0000 with agreement 6400 wins later."""
    run = fresh((4, [[0, 3], [0, 1], [0, 1, 2]]), [-5400, -1800, 6000, 7600])
    run.call(Call(5, None))
    expect(all(spin != 0 for spin in run.round_shown().spins), "round 5 has a candidate")
    expect_equal([int(spin < 0) for spin in run.round_shown().spins], [1, 1, 0, 1], "candidate")
    expect_equal(run.record.status, RUNNING, "status after the second best codeword")
    expect_equal(run.call(Call(1019, None)).word, [0, 0, 0, 0], "best codeword")


def empty_check_frame():
    """(4000, 4000, -2000) once more, with an empty check before and after the one with members:
    the same rounds, and 0 for the others whatever stood there."""
    run = fresh((3, [[], [0, 1, 2], []]), [4000, 4000, -2000])
    expect_round(run, RUNNING, multipliers=[0, 1968, 0], masks=[0, 4, 0], depths=[0, 5904, 0],
                 copies=[2032, 2032, -32], offsets=[1968, 1968, -1968])
    expect_round(run, RUNNING, multipliers=[0, 3334, 0], masks=[0, 4, 0])
    expect_round(run, CERTIFIED, multipliers=[0, 3333, 0], masks=[0, 4, 0])
    expect_ending(run, 3, [0, 0, 0], "01 00 01 00 01 00 05 0D 00 00 04 00 00 00")
    expect_equal([cut_search(run.code_file, [1365, 1365, -1367], check) for check in range(3)],
                 [None, Cut(4, 1), None], "cuts beside empty checks")


def empty_check_named():
    """011 is a codeword of agreement 2000 where 000 has 6000.  An entry of 4000 on the empty
    check would take 2 x 4000 from the bound of 10000, and so pass it: no mask may fit."""
    data, frame = tables.code_file((3, [[0, 1, 2], []])), [4000, 4000, -2000]
    for multiplier, mask, number in [(4000, 1, 13), (4000, 0, 13), (4000, 1 << 31, 13),
                                     (0, 1, 12), (1 << 24, 1, 12)]:
        written = write_certificate([Entry(1, multiplier, mask)])
        expect_equal(decoder.answer(decoder.judge, data, frame, [0, 1, 1], written),
                     f"refused {number}", f"entry {multiplier} {mask} on an empty check")


# --- depths ----------------------------------------------------------------------------------

def deepest_frame():
    """One check on one bit, frame (-8191): at spin -4096 the left side is 0, and so it is on
    v = 4096 - 8192 one round later."""
    run = fresh(tables.one_bit(), [-8191])
    expect_round(run, RUNNING, spins=[-4096], multipliers=[8192], depths=[8192])
    expect_round(run, CERTIFIED, spins=[4096], multipliers=[8192], depths=[8192])


def gained_cut_frame():
    """(-1000, 1000, 1000): 3 x 3096 is no cut; twice as far out, 3 x 2096 is."""
    run = fresh(tables.three_bits(), [-1000, 1000, 1000])
    expect_round(run, RUNNING, masks=[0], depths=[0])
    expect_round(run, RUNNING, masks=[1], depths=[8192 - 3 * 2096])


def lost_cut_frame():
    """Two checks that share bit 1.  In round 2 the second has v = (2500, 2500): its left side is
    2U exactly, and its depth of 1000 goes."""
    run = fresh((3, [[0, 1], [1, 2]]), [-1000, 4000, 1000])
    expect_round(run, RUNNING, spins=[-1000, 2000, 1000], multipliers=[1500, 500], masks=[1, 2],
                 depths=[3000, 1000])
    expect_round(run, CERTIFIED, spins=[1000, 2000, 3000], multipliers=[2000, 0], masks=[1, 0],
                 depths=[4000, 0])


def depths_kept():
    """Only a counted round writes depths, whatever stands there: no start, no call for 0 rounds
    and no refused one, as Run holds.  One too few is 41, after 17 and before 42."""
    run = fresh(tables.three_bits(), [4000, 4000, -2000])
    expect_equal(run.lent.depths, run.junk.depths, "depths after a start")
    for shown in (2**32 - 1, 5904):
        run.lent.depths[0] = shown
        for call, answer in [(Call(0, None), RUNNING), (Call(1, "depths"), "refused 41"),
                             (Call(0, "depths"), "refused 41"), (Call(1, "masks"), "refused 41"),
                             (Call(1025, "depths"), "refused 17")]:
            expect_equal(run.call(call).answer, answer, f"{call} on depths of {shown}")
            expect_equal(run.lent.depths[0], shown, f"depth after {call}")
        expect_round(run, RUNNING)
    run.call(Call(1, None))
    for call, answer in [(Call(1, "depths"), "refused 41"), (Call(1, None), "refused 42")]:
        expect_equal(run.call(call).answer, answer, f"{call} on a certified run")
    expect_equal(run.round_shown().depths, [4794], "depth after the end")


# --- sums ------------------------------------------------------------------------------------

def half_done_pair():
    """Two bits and three edges, the last two of them bit 1's: its sum is 180 + 270."""
    run = fresh((2, [[0, 1], [1]]), [5, 7])
    run.record.rounds_done = 1
    run.lent.copies[:3], run.lent.offsets[:3] = [100, 200, 300], [10, 20, 30]
    run.lent.sums[:2] = [90, 450]
    return run


def sums_compared():
    """True sums are taken, whatever stands past them: 95 over 1, and 457 over 2.  No others."""
    expect_round(half_done_pair(), CERTIFIED, spins=[95, 229])
    for wrong in ([91, 450], [90, 449], [89, 451], [450, 90], [90 + 2**16, 450], [0, 0],
                  [90, 450 - 2**16], [90, 2**31 - 1], [-2**31, 450], [-90, -450]):
        for wanted in (0, 1, 1024):
            run = half_done_pair()
            run.lent.sums[:2] = wrong
            expect_equal(run.call(Call(wanted, None)).answer, "refused 43", f"sums {wrong}")


def largest_sums():
    """32 edges at the limits of 43: the sum is 32 x (4096 + 8192 x 1023)."""
    for step, answer in [(0, RUNNING), (1, "refused 43"), (-1, "refused 43")]:
        run = fresh(tables.stacked_singles(32), [5])
        run.record.rounds_done = 1023
        run.lent.copies[:32], run.lent.offsets[:32] = [4096] * 32, [-8192 * 1023] * 32
        run.lent.sums[0] = 268_304_384 + step
        expect_equal(run.call(Call(0, None)).answer, answer, f"the largest sum and {step}")


def sums_in_their_turn():
    """A wrong sum is named after 17, 41 and 42; sums lent too short are 41, in a start too."""
    for status, wanted, short, number in [(RUNNING, 1025, None, 17), (RUNNING, 1, "word", 41),
                                          (RUNNING, 1, "sums", 41), (SPENT, 1, "sums", 41),
                                          (SPENT, 1, None, 42), (CERTIFIED, 0, None, 42)]:
        run = half_done_pair()
        run.record.status, run.lent.sums[1] = status, 451
        expect_equal(run.call(Call(wanted, short)).answer, f"refused {number}", "a wrong sum")
    lent = [[1] * 3, [1] * 3, [1]]
    got = decoder.answer(decoder.start, half_done_pair().code_file, *lent)
    expect_equal((got, lent), ("refused 41", [[1] * 3, [1] * 3, [1]]), "a start on one sum of two")


# --- the report ------------------------------------------------------------------------------

def report_edges():
    """Readings 5 and 6: surplus bytes are frames, a short frame is 8, bad files stand alone."""
    head = bytes.fromhex("01 00 01 00 00 00 01 00 00 00")
    line = "bits 1 checks 1 edges 1\n"
    cases = [(b"", "refused 1\n"), (head[:7], "refused 5\n"), (head[:-1], "refused 5\n"),
             (head, line), (head + b"\5", line + "frame 0 refused 8\n"),
             (head + b"\0\x20\5\0", line + "frame 0 refused 9\nframe 1 certified 1 5 1\n"),
             (head + b"\0\x80\xFB\xFF\0", line + "frame 0 refused 9\nframe 1 certified 2 -5 1\n"
              "frame 2 refused 8\n")]
    for data, text in cases:
        expect_equal(decoder.frame_report(data), text, f"report for {data.hex(' ')}")


FRAME_TESTS = [cut_examples, depth_examples, leaning_frame, two_ones_frame, four_gaps,
               one_bit_frame, three_frame_report, odd_total_frame, first_totals, weak_frame,
               half_frame, too_weak_frame, side_change_frame, second_best_frame, empty_check_frame,
               empty_check_named, deepest_frame, gained_cut_frame, lost_cut_frame, depths_kept,
               sums_compared, largest_sums, sums_in_their_turn, report_edges]


def worked_examples(account):
    account.announce("worked examples")
    for frame_test in FRAME_TESTS:
        frame_test()
        account.add("worked examples")


def wide_degree(account):
    """Degree 32: mask bit 31 is below the degree, and 4,096 entries are still allowed."""
    account.announce("degree 32 certificates")
    data = tables.code_file(tables.one_wide_check())
    frame = [1000] * 31 + [-1]
    for entries in ([Entry(0, 7, 1 << 31)], inputs.many_entries(4096)):
        written = write_certificate(entries)
        got = decoder.judge(data, frame, [0] * 32, written)
        expect(isinstance(got, (Certified, Gap)), f"degree 32 judged {got}")
        account.add("degree 32 certificates")
    # Bound: 31 reduced numbers of 999, one of -1 + 1, and 1 x (32 - 2).
    got = decoder.judge(data, frame, [0] * 32, write_certificate([Entry(0, 1, 1 << 31)]))
    expect_equal(got, Certified(False), "31 x 999 + 0 + 30 against 30999")
    expect_equal(buffer_lengths(parse_code_file(data)).certificate, 14, "certificate length")


TESTS = [worked_examples, wide_degree]
