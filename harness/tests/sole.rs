//! The judge's mark on a gap of 0: when it is set, and what it is worth, on every decoder.

use harness::cases::{make, Case};
use harness::decoder::Verdict;
use harness::gen::certificate::Draft;
use harness::gen::claim::{self, Claim};
use harness::gen::code::{bytes_of, random};
use harness::gen::frame;
use harness::gen::rng::Rng;
use harness::independent::certificate::{parse, Entry};
use harness::independent::limits::{MULTIPLIER_LIMIT, SIZE_LIMIT};
use harness::independent::table::Table;
use harness::seen::{assert_seen, see, Seen};
use harness::ALL;

const SOLE: Verdict = Verdict::Certified { sole: true };
const CERTIFIED: Verdict = Verdict::Certified { sole: false };

fn draft(scale: u16, entries: &[(usize, u32, u32)]) -> Draft {
    let entry = |&(check, multiplier, mask): &(usize, u32, u32)| Entry { check, multiplier, mask };
    Draft { scale, entries: entries.iter().map(entry).collect() }
}

#[track_caller]
fn judged(checks: &[Vec<u16>], frame: &[i16], word: &[u8], draft: &Draft, verdict: Verdict) {
    let code = bytes_of(frame.len(), checks);
    for decoder in ALL {
        let got = decoder.judge(&code, frame, word, &draft.bytes());
        assert_eq!(got, Ok(verdict), "{} on {frame:?}", decoder.name());
    }
}

/// One check on bits 0, 1, 2 and one entry. At scale S and multiplier b the reduced numbers lean to the word by
/// 4000S − b, 4000S − b and b − 2000S.
#[test]
fn one_entry() {
    let three = [vec![0, 1, 2]];
    for scale in [1, 2, 7, 1_023] {
        let times = u32::from(scale);
        for (multiplier, verdict) in [
            (2_000 * times - 1, Verdict::Gap(2)),
            (2_000 * times, CERTIFIED),
            (2_000 * times + 1, SOLE),
            (3_333 * times, SOLE),
            (4_000 * times - 1, SOLE),
            (4_000 * times, CERTIFIED),
            (4_000 * times + 1, Verdict::Gap(4)),
        ] {
            let entries = |mask| draft(scale, &[(0, multiplier, mask)]);
            judged(&three, &[4000, 4000, -2000], &[0, 0, 0], &entries(4), verdict);
            judged(&three, &[-4000, -4000, -2000], &[1, 1, 0], &entries(7), verdict);
            judged(&three, &[-4000, 4000, 2000], &[1, 0, 1], &entries(1), verdict);
        }
    }
}

/// The reduced numbers are S − b, S − b and b: at scale 1 the mark is out of reach, though 000 is alone.
#[test]
fn own_scale() {
    let (three, frame, word) = ([vec![0, 1, 2]], [1, 1, 0], [0, 0, 0]);
    judged(&three, &frame, &word, &draft(1, &[]), CERTIFIED);
    judged(&three, &frame, &word, &draft(1, &[(0, 1, 4)]), CERTIFIED);
    judged(&three, &frame, &word, &draft(1, &[(0, 2, 4)]), Verdict::Gap(4));
    judged(&three, &frame, &word, &draft(2, &[]), CERTIFIED);
    judged(&three, &frame, &word, &draft(2, &[(0, 1, 4)]), SOLE);
    judged(&three, &frame, &word, &draft(2, &[(0, 2, 4)]), CERTIFIED);
    judged(&three, &frame, &word, &draft(3, &[(0, 1, 4)]), SOLE);
    judged(&three, &frame, &word, &draft(3, &[(0, 2, 4)]), SOLE);
    judged(&three, &frame, &word, &draft(1_023, &[(0, 1_022, 4)]), SOLE);
    judged(&three, &frame, &word, &draft(1_023, &[(0, 1_023, 4)]), CERTIFIED);
}

/// Masks of one member each: the multiplier is added there and subtracted at the others.
#[test]
fn masks_of_one_check() {
    let (three, word) = ([vec![0, 1, 2]], [0, 0, 0]);
    let twice = |b| draft(1, &[(0, b, 1), (0, b, 2)]);
    judged(&three, &[10, 20, 30], &word, &twice(4), SOLE);
    judged(&three, &[10, 20, 8], &word, &twice(4), CERTIFIED);
    judged(&three, &[0, 20, 9], &word, &twice(4), CERTIFIED);
    judged(&three, &[10, 20, 7], &word, &twice(4), Verdict::Gap(2));
    let thrice = |b| draft(1, &[(0, b, 1), (0, b, 2), (0, b, 4)]);
    judged(&three, &[5, 5, 5], &word, &thrice(4), SOLE);
    judged(&three, &[5, 5, 5], &word, &thrice(5), CERTIFIED);
    judged(&three, &[5, 5, 5], &word, &thrice(6), Verdict::Gap(6));
    judged(&three, &[6, 5, 6], &word, &thrice(5), CERTIFIED);
    // 9 + 1 − 2 − b, 9 − 1 + 2 − b and b − 1 − 2.
    let unequal = |b| draft(1, &[(0, 1, 1), (0, 2, 2), (0, b, 4)]);
    judged(&three, &[9, 9, 0], &word, &unequal(2), Verdict::Gap(2));
    judged(&three, &[9, 9, 0], &word, &unequal(3), CERTIFIED);
    judged(&three, &[9, 9, 0], &word, &unequal(4), SOLE);
    judged(&three, &[9, 9, 0], &word, &unequal(8), CERTIFIED);
    // 000 is three members away from mask 7, so that each multiplier there leaves a gap.
    judged(&three, &[9, 9, 9], &word, &draft(1, &[(0, 1, 7)]), Verdict::Gap(4));
    // On two members they cancel, however large.
    let two = [vec![0, 1]];
    for b in [1, 5, MULTIPLIER_LIMIT] {
        for (frame, verdict) in
            [([7, 9], SOLE), ([7, 0], CERTIFIED), ([0, 9], CERTIFIED), ([0, 0], CERTIFIED)]
        {
            judged(&two, &frame, &[0, 0], &twice(b), verdict);
            judged(&two, &frame.map(|l| -l), &[1, 1], &twice(b), verdict);
        }
    }
}

/// Multipliers of different checks that cancel, and reduced numbers of bits whose frame number is 0.
#[test]
fn frame_numbers_of_zero() {
    let twins = [vec![0, 1], vec![0, 1]];
    for (frame, verdict) in [([3, 4], SOLE), ([0, 4], CERTIFIED), ([3, 0], CERTIFIED)] {
        judged(&twins, &frame, &[0, 0], &draft(1, &[(0, 9, 1), (1, 9, 2)]), verdict);
    }
    let two = [vec![0, 1]];
    judged(&two, &[6, 0], &[0, 0], &draft(1, &[]), CERTIFIED);
    judged(&two, &[6, 0], &[0, 0], &draft(1, &[(0, 2, 2)]), SOLE);
    judged(&two, &[6, 0], &[0, 0], &draft(1, &[(0, 6, 2)]), CERTIFIED);
    // 00 and 11 agree equally well, so neither can have the mark.
    judged(&two, &[6, -6], &[0, 0], &draft(1, &[(0, 6, 2)]), CERTIFIED);
    judged(&two, &[6, -6], &[1, 1], &draft(1, &[(0, 6, 2)]), CERTIFIED);
    for (number, b, verdict) in [(0, 1, SOLE), (-5, 4, Verdict::Gap(2)), (-5, 5, CERTIFIED), (-5, 6, SOLE)] {
        judged(&[vec![0]], &[number], &[0], &draft(1, &[(0, b, 1)]), verdict);
    }
}

/// Reduced numbers whose lower bits are 0, one of them the largest that a gap of 0 allows.
#[test]
fn large_reduced_numbers() {
    let of_one = |number, checks: usize, scale, b| {
        let entries: Vec<(usize, u32, u32)> = (0..checks).map(|check| (check, b, 1)).collect();
        judged(&vec![vec![0]; checks], &[number], &[0], &draft(scale, &entries), SOLE);
    };
    of_one(0, 1, 1, 1 << 8);
    of_one(0, 1, 1, 1 << 16);
    of_one(1, 1, 1, MULTIPLIER_LIMIT);
    of_one(0, 32, 1, 1 << 23);
    of_one(32, 32, 1, MULTIPLIER_LIMIT);
    of_one(8_191, 32, 1_023, MULTIPLIER_LIMIT);
}

/// A single 0 among the most bits that there may be, and among some, wherever it stands.
#[test]
fn a_single_zero() {
    for bits in [1, 2, 3, 4, 5, 7, 8, 9, 15, 16, 17, 63, 64, 65, 1_000, SIZE_LIMIT] {
        let checks: Vec<Vec<u16>> = (0..bits as u16).map(|bit| vec![bit]).collect();
        let (ones, word, none) = (vec![1; bits], vec![0; bits], draft(1, &[]));
        judged(&checks, &ones, &word, &none, SOLE);
        for zero in [0, 1, 2, 3, bits / 2, bits.saturating_sub(2), bits - 1] {
            let mut frame = ones.clone();
            frame[zero.min(bits - 1)] = 0;
            judged(&checks, &frame, &word, &none, CERTIFIED);
        }
    }
}

/// The reduced numbers, bit by bit as document 01 has them.
fn reduced(table: &Table, frame: &[i16], draft: &Draft) -> Vec<i64> {
    let of_bit = |bit: usize| {
        let added = |entry: &Entry| {
            let place = table.members_of(entry.check).iter().position(|&member| usize::from(member) == bit);
            place.map_or(0, |place| if entry.mask >> place & 1 == 1 { 1 } else { -1 })
                * i64::from(entry.multiplier)
        };
        i64::from(draft.scale) * i64::from(frame[bit]) + draft.entries.iter().map(added).sum::<i64>()
    };
    (0..table.bits).map(of_bit).collect()
}

/// A claim made to pass, or a run's, if that passes.
fn claimed(rng: &mut Rng, code: &[u8]) -> Option<Claim> {
    let table = Table::parse(code).unwrap();
    if rng.one_in(2) {
        return Some(claim::tight(rng, &table));
    }
    let frame = frame::valid(rng, &table);
    let (mut draft, word) = Draft::of_run(code, &frame, 200);
    if rng.one_in(2) {
        draft.rescale(rng);
    }
    word.map(|word| Claim { frame, word, draft })
}

/// Claims of gap 0 on small codes, with the table and the mark, which is the same from every decoder.
fn passing(series: u64, cases: u64, most_bits: usize) -> Vec<(Table, Claim, bool)> {
    let case = |index| {
        let mut rng = Rng::of_case(series, index);
        let code = random(&mut rng, most_bits);
        let claim = claimed(&mut rng, &code)?;
        let verdicts = ALL.map(|decoder| {
            decoder.judge(&code, &claim.frame, &claim.word, &claim.draft.bytes()).expect("a sound claim")
        });
        assert!(verdicts.iter().all(|verdict| *verdict == verdicts[0]), "{verdicts:?}");
        match verdicts[0] {
            Verdict::Certified { sole } => Some((Table::parse(&code).unwrap(), claim, sole)),
            _ => None,
        }
    };
    (0..cases).filter_map(case).collect()
}

/// All points with D for U: each coordinate is from −D to D, in steps.
fn points(bits: usize, d: i64, step: i64) -> impl Iterator<Item = Vec<i64>> {
    let places = 2 * d / step + 1;
    let coordinate = move |point: i64, bit: usize| point / places.pow(bit as u32) % places * step - d;
    (0..places.pow(bits as u32)).map(move |point| (0..bits).map(|bit| coordinate(point, bit)).collect())
}

fn is_codeword(table: &Table, spins: &[i64]) -> bool {
    let product =
        |check| table.members_of(check).iter().map(|&member| spins[usize::from(member)]).product::<i64>();
    (0..table.checks()).all(|check| product(check) == 1)
}

/// Whether a point meets every parity inequality, with D for U.
fn in_relaxation(table: &Table, point: &[i64], d: i64) -> bool {
    let meets = |check: usize, set: u32| {
        let spins = table.members_of(check).iter().map(|&member| point[usize::from(member)]);
        let left: i64 = spins.enumerate().map(|(k, p)| if set >> k & 1 == 1 { d + p } else { d - p }).sum();
        left >= 2 * d
    };
    let odd_sets = |check| (0..1 << table.row(check).len()).filter(|set: &u32| set.count_ones() % 2 == 1);
    (0..table.checks()).all(|check| odd_sets(check).all(|set| meets(check, set)))
}

/// Whether one of these points, with D for U, agrees as well as the claim's word, which is not counted. None may
/// agree better.
fn tied(claim: &Claim, d: i64, points: impl Iterator<Item = Vec<i64>>) -> bool {
    let agreement =
        |point: &[i64]| claim.frame.iter().zip(point).map(|(&l, p)| i64::from(l) * p).sum::<i64>();
    let own: Vec<i64> = claim.word.iter().map(|&bit| if bit == 0 { d } else { -d }).collect();
    let others: Vec<i64> = points.filter(|point| *point != own).map(|point| agreement(&point)).collect();
    assert!(others.iter().all(|&other| other <= agreement(&own)), "{:?} {:?}", claim.frame, claim.word);
    others.contains(&agreement(&own))
}

fn see_worth(seen: &mut Seen, claim: &Claim, sole: bool, tied: bool) {
    assert!(!sole || !tied, "{:?} {:?}", claim.frame, claim.word);
    see(seen, "sole", sole);
    see(seen, "tied", tied);
    see(seen, "alone without the mark", !sole && !tied);
}

#[test]
fn other_codewords_agree_less() {
    let mut seen = Seen::new();
    for (table, claim, sole) in passing(11, 3_000, 10) {
        let codewords = points(table.bits, 1, 2).filter(|spins| is_codeword(&table, spins));
        see_worth(&mut seen, &claim, sole, tied(&claim, 1, codewords));
    }
    assert_seen(&seen, 20, &["sole", "tied", "alone without the mark"]);
}

#[test]
fn other_points_agree_less() {
    let mut seen = Seen::new();
    for (table, claim, sole) in passing(12, 3_000, 4) {
        let tied_at = |d| tied(&claim, d, points(table.bits, d, 1).filter(|p| in_relaxation(&table, p, d)));
        see_worth(&mut seen, &claim, sole, (1..=3).any(tied_at));
    }
    assert_seen(&seen, 20, &["sole", "tied", "alone without the mark"]);
}

/// What a verdict of gap 0 was about.
fn see_claim(seen: &mut Seen, table: &Table, frame: &[i16], draft: &Draft, sole: bool) {
    let numbers = reduced(table, frame, draft);
    assert_eq!(sole, numbers.iter().all(|&r| r != 0));
    let masks = draft.entries.windows(2).any(|pair| pair[0].check == pair[1].check);
    let cancelled = |bit: usize| {
        numbers[bit] == i64::from(draft.scale) * i64::from(frame[bit])
            && draft.entries.iter().any(|entry| table.members_of(entry.check).contains(&(bit as u16)))
    };
    let cancel = (0..table.bits).any(cancelled);
    let named = |with: &'static str, without: &'static str| if sole { with } else { without };
    see(seen, named("sole, scale 1", "no mark, scale 1"), draft.scale == 1);
    see(seen, named("sole, scale above 1", "no mark, scale above 1"), draft.scale > 1);
    see(seen, named("sole, masks of one check", "no mark, masks of one check"), masks);
    see(seen, named("sole, cancelled", "no mark, cancelled"), cancel);
    see(seen, named("sole, frame with 0", "no mark, frame without 0"), frame.contains(&0) == sole);
    let zeros: Vec<usize> = (0..table.bits).filter(|&bit| numbers[bit] == 0).collect();
    see(seen, "only the first is 0", zeros == [0] && table.bits > 1);
    see(seen, "only the last is 0", zeros == [table.bits - 1] && table.bits > 1);
    see(seen, "only one is 0", zeros.len() == 1 && table.bits > 1);
    see(seen, "all are 0", zeros.len() == table.bits);
}

/// The cases of a series have marks of both kinds for many reasons; the mark is as the reduced numbers say.
#[test]
fn series_has_them() {
    let mut seen = Seen::new();
    for case in make::series(1, 40_000) {
        let Case::Judge { code, frame, word, certificate } = case else { continue };
        for decoder in ALL {
            let Ok(Verdict::Certified { sole }) = decoder.judge(&code, &frame, &word, &certificate) else {
                continue;
            };
            let table = Table::parse(&code).unwrap();
            let (scale, entries) = parse(&table, &certificate).unwrap();
            see_claim(&mut seen, &table, &frame, &Draft { scale, entries }, sole);
        }
    }
    let both = ["scale 1", "scale above 1", "masks of one check", "cancelled"];
    for kind in ["sole", "no mark"] {
        let all: Vec<String> = both.iter().map(|what| format!("{kind}, {what}")).collect();
        assert_seen(&seen, 100, &all.iter().map(String::as_str).collect::<Vec<_>>());
    }
    assert_seen(&seen, 60, &["sole, frame with 0", "no mark, frame without 0"]);
    assert_seen(&seen, 60, &["only the first is 0", "only the last is 0", "only one is 0", "all are 0"]);
}
