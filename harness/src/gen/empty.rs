//! Empty checks, such as shortening leaves, put among checks that have members.

use super::rng::Rng;
use crate::independent::limits::SIZE_LIMIT;
use crate::independent::table::{u16_at, Table};

/// Which checks of a table have members.
pub type Layout = Vec<bool>;

/// Somewhere for empty checks among so many others: in front, behind, in a row between two, here and there;
/// few, most, or as many as there is room for.
pub fn layout(rng: &mut Rng, checks: usize) -> Layout {
    let room = SIZE_LIMIT - checks;
    let few = rng.between(1, 5).min(room);
    let between = rng.between(0, checks);
    match rng.below(40) {
        0..=8 => in_a_row(0, few, checks),
        9..=17 => in_a_row(checks, few, checks),
        18..=26 => in_a_row(between, few, checks),
        27..=35 => scattered(rng, few, checks),
        36..=38 => scattered(rng, room.min(3 * checks), checks),
        _ => scattered(rng, room, checks),
    }
}

/// So many empty checks, with `before` of the others in front of them.
pub fn in_a_row(before: usize, empty: usize, checks: usize) -> Layout {
    (0..checks + empty).map(|check| !(before..before + empty).contains(&check)).collect()
}

fn scattered(rng: &mut Rng, empty: usize, checks: usize) -> Layout {
    let mut layout = in_a_row(0, empty, checks);
    rng.shuffle(&mut layout);
    layout
}

/// The code with empty checks where the layout has them; its own checks keep their order.
pub fn laid_out(code: &[u8], layout: &[bool]) -> Vec<u8> {
    let (contents, bodies) = code[4..].split_at(4 * usize::from(u16_at(code, 2)));
    let mut own = contents.chunks_exact(4);
    let mut wider = [&code[..2], &(layout.len() as u16).to_le_bytes()].concat();
    let mut start = 0;
    for &has_members in layout {
        let count = if has_members { u16_at(own.next().expect("a check of the code"), 2) } else { 0 };
        wider.extend([start, count].into_iter().flat_map(u16::to_le_bytes));
        start += count;
    }
    wider.extend(bodies);
    wider
}

/// The code with empty checks somewhere, if there is room.
pub fn put_in(rng: &mut Rng, code: &[u8]) -> Vec<u8> {
    let layout = layout(rng, usize::from(u16_at(code, 2)));
    laid_out(code, &layout)
}

/// The layout of a table.
pub fn layout_of(table: &Table) -> Layout {
    table.rows().map(|row| !row.is_empty()).collect()
}

/// The checks with members, or those without.
pub fn checks_where(has_members: bool, layout: &[bool]) -> Vec<usize> {
    (0..layout.len()).filter(|&check| layout[check] == has_members).collect()
}

/// One of the table's empty checks, if it has any.
pub fn one_of(rng: &mut Rng, table: &Table) -> Option<usize> {
    let empty = checks_where(false, &layout_of(table));
    (!empty.is_empty()).then(|| rng.pick(&empty))
}
