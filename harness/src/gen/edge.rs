//! Half-done runs at 43's limits, where values, multipliers and sums are as large as a run's can be.

use super::code::bytes_of;
use super::rng::Rng;
use super::state::{Shape, State};
use crate::decoder::Record;
use crate::independent::limits::{OFFSET_STEP, ROUND_LIMIT, UNIT};
use crate::independent::table::Table;

/// A running run, with its code.
pub struct Resumed {
    pub code: Vec<u8>,
    pub table: Table,
    pub record: Record,
    pub state: State,
}

/// Equal checks, an odd number of them, on the same members. Each member has a sign: its offsets are at the
/// limit with this sign on some checks, and with the other on one more. So all but that one cancel in the total,
/// and the spin is U with the sign, whatever copies and frame are: on the former checks spin and offset add up.
/// An odd number of negative signs makes a cut there.
pub fn resumed(rng: &mut Rng) -> Resumed {
    let degree = rng.pick(&[1, 30, 31, 32, 32, 32]);
    let checks = rng.pick(&[3, 3, 5, 31]);
    let code = bytes_of(degree, &vec![(0..degree as u16).collect(); checks]);
    let table = Table::parse(&code).expect("a sound code");
    let rounds = rng.pick(&[ROUND_LIMIT - 1, ROUND_LIMIT - 1, ROUND_LIMIT - 1, ROUND_LIMIT - 2]);
    let mut state = State::random(rng, &Shape::of_table(&table));
    state.copies.lent_mut()[..table.edges()].copy_from_slice(&copies(rng, table.edges()));
    state.offsets.lent_mut()[..table.edges()].copy_from_slice(&offsets(rng, degree, checks, rounds));
    state.set_sums(&table);
    Resumed { code, table, record: Record { rounds, status: Record::RUNNING }, state }
}

/// Signs with an odd number of negative ones, but for a few.
fn signs(rng: &mut Rng, degree: usize) -> Vec<i32> {
    let mut signs: Vec<i32> = (0..degree).map(|_| rng.pick(&[-1, 1])).collect();
    let odd = signs.iter().product::<i32>() < 0;
    if odd == rng.one_in(8) {
        signs[0] = -signs[0];
    }
    signs
}

fn copies(rng: &mut Rng, edges: usize) -> Vec<i32> {
    let extreme = rng.one_in(3);
    (0..edges).map(|_| if extreme { rng.pick(&[-UNIT, UNIT]) } else { rng.signed(UNIT) }).collect()
}

/// Offsets at the limit; in one run of four some are just inside.
fn offsets(rng: &mut Rng, degree: usize, checks: usize, rounds: u32) -> Vec<i32> {
    let limit = OFFSET_STEP * rounds as i32;
    let signs = signs(rng, degree);
    let mut sides: Vec<i32> = (0..checks).map(|check| if check < checks / 2 { 1 } else { -1 }).collect();
    rng.shuffle(&mut sides);
    let inside = rng.one_in(4);
    let mut size = || if inside && rng.one_in(2) { limit - rng.signed(300).abs() } else { limit };
    sides.into_iter().flat_map(|side| signs.iter().map(move |sign| side * sign)).map(|e| e * size()).collect()
}
