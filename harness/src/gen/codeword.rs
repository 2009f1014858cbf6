//! Random codewords, by elimination modulo 2, and words near them.

use super::rng::Rng;
use crate::independent::table::Table;

/// A check modulo 2, or a sum of some: its members, 64 bits at a time.
type Row = Vec<u64>;

fn holds(row: &Row, bit: usize) -> bool {
    row[bit / 64] >> (bit % 64) & 1 == 1
}

fn row_of(members: &[u16], bits: usize) -> Row {
    let mut row = vec![0; bits.div_ceil(64)];
    members.iter().for_each(|&member| row[usize::from(member) / 64] |= 1 << (member % 64));
    row
}

/// Rows that say what the checks say, each with a pivot: a member which the rows after it don't have.
fn echelon(table: &Table) -> Vec<(usize, Row)> {
    let mut rows: Vec<(usize, Row)> = Vec::new();
    for check in 0..table.checks() {
        let mut row = row_of(table.members_of(check), table.bits);
        for (pivot, above) in &rows {
            if holds(&row, *pivot) {
                row.iter_mut().zip(above).for_each(|(word, other)| *word ^= other);
            }
        }
        let pivot = (0..table.bits).find(|&bit| holds(&row, bit));
        rows.extend(pivot.map(|pivot| (pivot, row)));
    }
    rows
}

/// Any codeword, each as likely as another.
pub fn random(rng: &mut Rng, table: &Table) -> Vec<u8> {
    let mut word: Vec<u8> = (0..table.bits).map(|_| rng.below(2) as u8).collect();
    // From the last row on: a pivot that turns then changes no row that was met before.
    for (pivot, row) in echelon(table).iter().rev() {
        let ones = (0..table.bits).filter(|&bit| holds(row, bit) && word[bit] == 1).count();
        word[*pivot] ^= (ones % 2) as u8;
    }
    word
}

/// A codeword of which no bit is turned, or few, or any.
pub fn near(rng: &mut Rng, table: &Table) -> Vec<u8> {
    let turned = rng.pick(&[0, 1, 8]);
    let codeword = random(rng, table);
    codeword.into_iter().map(|bit| bit ^ u8::from(rng.below(16) < turned)).collect()
}
