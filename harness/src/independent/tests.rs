//! The division of totals, the cut search and the projection against the paper's own words.

use super::cut::cut_of;
use super::fast::spin_size;
use super::limits::{DEGREE_LIMIT, FRAME_LIMIT, OFFSET_STEP, ROUND_LIMIT, UNIT};
use super::multiplier::{least, reciprocal_of};
use super::plain::{least_multiplier, nearest};
use crate::decoder::Cut;
use crate::gen::rng::Rng;

#[test]
fn division_by_example() {
    for (total, degree, quotient) in
        [(1, 3, 0), (2, 3, 1), (1, 2, 1), (3, 2, 2), (15, 32, 0), (16, 32, 1), (47, 32, 1), (48, 32, 2)]
    {
        assert_eq!(nearest(total, degree), quotient, "{total} over {degree}");
        assert_eq!(nearest(-total, degree), -quotient, "-{total} over {degree}");
    }
}

/// Whether no whole number is nearer, and none as near is further from zero.
fn is_nearest(quotient: i32, total: i32, degree: i32) -> bool {
    let off = 2 * (total - quotient * degree).abs();
    off < degree || off == degree && (quotient * degree).abs() > total.abs()
}

/// Sizes of totals: all that are not clipped, then some, up to the greatest that passes 43.
fn sizes(degree: i32) -> impl Iterator<Item = i32> {
    let clipped = degree * (UNIT + 1);
    let greatest = i32::from(FRAME_LIMIT) + degree * (UNIT + OFFSET_STEP * (ROUND_LIMIT as i32 - 1));
    (0..clipped).chain((clipped..greatest).step_by(997)).chain([greatest])
}

#[test]
fn division_is_exact() {
    for degree in 1..=DEGREE_LIMIT as i32 {
        let reciprocal = reciprocal_of(degree as u32);
        for total in sizes(degree).flat_map(|size| [size, -size]) {
            let quotient = nearest(total, degree);
            assert!(is_nearest(quotient, total, degree), "{total} over {degree}: {quotient}");
            assert_eq!(spin_size(total, reciprocal), quotient.abs().min(UNIT), "{total} over {degree}");
        }
    }
}

/// The search's answer is the one odd set whose inequality fails, and what it lacks, found by trying them all.
#[test]
fn cut_search_is_exact() {
    let mut rng = Rng::new(1);
    for _ in 0..4_000 {
        let degree = rng.below(9);
        let reach = [3, 400, UNIT][rng.below(3)];
        let values: Vec<i32> = (0..degree).map(|_| spin_near(&mut rng, reach)).collect();
        let left = |mask: u32| -> i32 {
            let signed = |k: usize| if mask >> k & 1 == 1 { values[k] } else { -values[k] };
            (0..degree).map(|k| UNIT + signed(k)).sum()
        };
        let odd = (0..1u32 << degree).filter(|mask| mask.count_ones() % 2 == 1);
        let lacking = odd.map(|mask| (mask, 2 * UNIT - left(mask))).filter(|&(_, lack)| lack > 0);
        let violated: Vec<Cut> = lacking.map(|(mask, lack)| Cut { mask, depth: lack as u32 }).collect();
        assert_eq!(violated, Vec::from_iter(cut_of(values.iter().copied())), "{values:?}");
    }
}

/// A spin near 0 or near ±U.
fn spin_near(rng: &mut Rng, reach: i32) -> i32 {
    let small = rng.signed(reach);
    match rng.below(3) {
        0 => small,
        1 => UNIT - small.abs(),
        _ => small.abs() - UNIT,
    }
}

#[test]
fn projection_is_the_least_multiplier_and_the_depth() {
    let mut rng = Rng::new(2);
    let mut cuts = 0;
    for _ in 0..20_000 {
        let (short, long) = (projected::<5>(&mut rng), projected::<32>(&mut rng));
        cuts += u32::from(short) + u32::from(long);
    }
    assert!(cuts > 4_000, "{cuts}");
}

/// Compares both ways to multiplier and depth on random values; answers whether there was a cut.
fn projected<const D: usize>(rng: &mut Rng) -> bool {
    let reach = rng.pick(&[UNIT, 3 * UNIT, 8_380_000]);
    let far = rng.one_in(4);
    let value = |_| if far { rng.signed(reach) } else { spin_near(rng, reach / 8) };
    let values: [i32; D] = std::array::from_fn(value);
    let negative = values.iter().filter(|v| **v < 0).count();
    let nearest = values.iter().map(|v| v.abs()).min().unwrap();
    let change = if negative % 2 == 0 { 2 * nearest } else { 0 };
    let heights = values.map(|v| UNIT - v.abs());
    let cut = cut_of(values.iter().map(|v| *v.clamp(&-UNIT, &UNIT)));
    let expected = cut.map_or((0, 0), |cut| (least_multiplier(&values, cut.mask), cut.depth as i32));
    let guess = rng.pick(&[0, 1, expected.0 as u32, 5_000, u32::MAX]);
    assert_eq!(least(&heights, nearest, change, guess), expected, "{values:?}");
    cut.is_some()
}
