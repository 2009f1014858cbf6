//! Cut, multiplier and depth of a check in one, by projection onto a simplex.
//!
//! The cut search's set holds the negative v, but for the member nearest to 0, which changes sides if
//! they are even in number. So the set's inequality after a step by b reads Σ max(h + b, 0) + change ≥ 2U
//! for the heights h = U − |v|, where change is twice the least |v| or nothing. (The upper clip never
//! matters: one member that reaches 2U meets the inequality alone.) At b = 0 this is the cut search's
//! own test, on v clipped, so what it lacks there is the depth, and the least b from 0 on is the multiplier.
//!
//! Every sum is of 32 bits: 43 keeps |v| to U + 8,192 × 1,023, so 32 heights add up to more than −2^28.

use super::limits::{DEGREE_LIMIT, FACET, MULTIPLIER_LIMIT, UNIT};

/// The upper half of a product: one multiplication on a machine of 32 bits too.
#[inline(always)]
pub fn upper(a: u32, b: u32) -> u32 {
    ((u64::from(a) * u64::from(b)) >> 32) as u32
}

/// 2^31 over a number from 1 on, upward: ⌊x / number⌋ is upper(2x, this) if x × number is at most 2^31.
pub const fn reciprocal_of(number: u32) -> u32 {
    (1u32 << 31).div_ceil(number)
}

/// The reciprocals of counts. The rest is there so that a masked count needs no bounds check.
const RECIPROCALS: [u32; 2 * DEGREE_LIMIT] = {
    let mut table = [0; 2 * DEGREE_LIMIT];
    let mut count = 1;
    while count <= DEGREE_LIMIT {
        table[count] = reciprocal_of(count as u32);
        count += 1;
    }
    table
};

/// Some members of a check: how many, and the sum of their heights.
#[derive(Clone, Copy)]
struct Members {
    count: i32,
    heights: i32,
}

impl Members {
    /// The members with h + b above 0.
    #[inline(always)]
    fn above<const D: usize>(heights: &[i32; D], b: i32) -> Members {
        let mut members = Members { count: 0, heights: 0 };
        for &height in heights {
            // All ones if it is: which members are is hard to predict.
            let inside = -i32::from(height > -b);
            members.count -= inside;
            members.heights += height & inside;
        }
        members
    }

    /// The least b at which Σ (h + b) over these is enough.
    ///
    /// It is worked out from the top, the greatest height: the members are less than 2U below it, so what is
    /// divided is at most 2U for each member and once more.
    #[inline(always)]
    fn least(self, enough: i32, top: i32) -> i32 {
        let lack = enough + self.count * top - self.heights;
        let raised = (lack + self.count - 1) as u32;
        upper(2 * raised, RECIPROCALS[self.count as usize & (2 * DEGREE_LIMIT - 1)]) as i32 - top
    }
}

/// The least b from 0 on that meets the inequality, and what the inequality lacks at 0; without a cut both are 0.
/// `nearest` is the least |v|.
///
/// Each set of members gives a b that is enough. Members with h + b ≤ 0 there add nothing at the least b
/// either, and those left give a b no greater; where the set stays the same, its b is the least. The
/// first set is taken at `guess`, which may be any number; a good one saves steps. It is moved to where the
/// top member is above 0, so that there is one, and at most 2U, which is enough.
#[inline(always)]
pub fn least<const D: usize>(heights: &[i32; D], nearest: i32, change: i32, guess: u32) -> (i32, i32) {
    let enough = FACET - change;
    let depth = enough - Members::above(heights, 0).heights;
    if depth <= 0 {
        return (0, 0);
    }
    let top = UNIT - nearest;
    let guess = (guess.min(MULTIPLIER_LIMIT) as i32 + top).clamp(1, FACET) - top;
    let mut members = Members::above(heights, guess);
    loop {
        let b = members.least(enough, top);
        let before = members.count;
        members = Members::above(heights, b);
        // Of two such sets one holds the other.
        if members.count == before {
            return (b, depth);
        }
    }
}
