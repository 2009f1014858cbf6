//! Frames, words and points.

use super::codeword;
use super::rng::Rng;
use crate::independent::limits::{FACET, FRAME_LIMIT, UNIT};
use crate::independent::table::Table;

/// A channel's frame of the all-zero word: gaussian-like round the gain, clipped to the limits.
pub fn noisy(rng: &mut Rng, bits: usize, gain: f64, deviation: f64) -> Vec<i16> {
    let limit = f64::from(FRAME_LIMIT);
    (0..bits).map(|_| (gain + deviation * rng.gaussian()).clamp(-limit, limit) as i16).collect()
}

/// A frame that leans to the word, weakly: a number is at least half its bit's degree in size, and smaller than
/// the degree, but for degree 1.
pub fn weak(rng: &mut Rng, table: &Table, word: &[u8]) -> Vec<i16> {
    let number = |(&degree, &bit): (&u16, &u8)| {
        let (half, most) = (usize::from(degree.div_ceil(2)), usize::from(degree - 1));
        let size = rng.between(half, most.max(half)) as i16;
        if bit == 0 {
            size
        } else {
            -size
        }
    };
    table.degrees.iter().zip(word).map(number).collect()
}

/// A frame in range, of some kind.
pub fn valid(rng: &mut Rng, table: &Table) -> Vec<i16> {
    let bits = table.bits;
    let uniform = |rng: &mut Rng, reach: i16| -> Vec<i16> {
        (0..bits).map(|_| rng.signed(i32::from(reach)) as i16).collect()
    };
    match rng.below(8) {
        0..=1 => noisy(rng, bits, 3000.0, 2200.0),
        2 => {
            let word = codeword::near(rng, table);
            weak(rng, table, &word)
        }
        3 => noisy(rng, bits, 1500.0, 2500.0),
        4 => uniform(rng, FRAME_LIMIT),
        5 => uniform(rng, 3),
        6 => (0..bits).map(|_| rng.pick(&[-FRAME_LIMIT, FRAME_LIMIT, FRAME_LIMIT])).collect(),
        _ => {
            let l = rng.signed(i32::from(FRAME_LIMIT)) as i16;
            vec![l; bits]
        }
    }
}

/// Makes the length or a number wrong (8, 9).
pub fn damage(rng: &mut Rng, frame: &mut Vec<i16>) {
    match rng.below(5) {
        0 => frame.push(0),
        1 => {
            frame.pop();
        }
        2 => frame.clear(),
        _ => {
            let bit = rng.below(frame.len());
            let beyond = FRAME_LIMIT + 1;
            frame[bit] = rng.pick(&[beyond, -beyond, i16::MIN, i16::MAX]);
        }
    }
}

pub fn word(rng: &mut Rng, bits: usize) -> Vec<u8> {
    let ones = rng.pick(&[0, 1, 2]);
    (0..bits).map(|_| u8::from(rng.below(4) < ones)).collect()
}

/// Makes a word's length or a byte wrong (15), or only another word.
pub fn damage_word(rng: &mut Rng, word: &mut Vec<u8>) {
    match rng.below(4) {
        0 => word.push(0),
        1 => {
            word.pop();
        }
        2 => {
            let bit = rng.below(word.len());
            word[bit] = rng.pick(&[2, 3, 254, 255]);
        }
        _ => {
            let bit = rng.below(word.len());
            word[bit] ^= 1;
        }
    }
}

/// Spins in range: anywhere, near a word, or near the facets of small checks.
pub fn point(rng: &mut Rng, bits: usize) -> Vec<i32> {
    let kind = rng.below(4);
    let near = rng.pick(&[2, 40, 1500]);
    (0..bits)
        .map(|_| match kind {
            0 => rng.signed(UNIT),
            1 => rng.pick(&[-UNIT, UNIT]),
            2 => rng.pick(&[-1, 1]) * (UNIT - rng.signed(near).abs()),
            _ => rng.pick(&[-1, 1]) * (UNIT / 3 + rng.signed(2)),
        })
        .collect()
}

/// A depth for `cut_so_deep`, mostly near the edges; with none at all the inequality is met, but only just.
pub fn depth(rng: &mut Rng) -> i32 {
    let any = rng.between(1, FACET as usize) as i32;
    rng.pick(&[0, 1, 2, 3, FACET - 1, FACET, any])
}

/// Sets a check's members so that the inequality of some odd set of them falls short by so much.
pub fn cut_so_deep(rng: &mut Rng, members: &[u16], depth: i32, point: &mut [i32]) {
    // What each member adds to the left side: the distances between marks on the way from 0 to its sum.
    let left = FACET - depth;
    let mut marks: Vec<i32> = members.iter().skip(1).map(|_| rng.between(0, left as usize) as i32).collect();
    marks.extend([0, left]);
    marks.sort_unstable();
    let mut in_set: Vec<bool> = members.iter().map(|_| rng.one_in(2)).collect();
    let odd = in_set.iter().filter(|inside| **inside).count() % 2 == 1;
    in_set.first_mut().into_iter().for_each(|first| *first ^= !odd);
    for ((&member, marks), inside) in members.iter().zip(marks.windows(2)).zip(in_set) {
        let added = marks[1] - marks[0];
        point[usize::from(member)] = if inside { added - UNIT } else { UNIT - added };
    }
}

/// Makes a point's length or a spin wrong (16).
pub fn damage_point(rng: &mut Rng, point: &mut Vec<i32>) {
    match rng.below(4) {
        0 => point.push(0),
        1 => {
            point.pop();
        }
        _ => {
            let bit = rng.below(point.len());
            point[bit] = rng.pick(&[-UNIT - 1, UNIT + 1, i32::MIN, i32::MAX]);
        }
    }
}
