//! Makes the cases of a seeded series.

use super::{Case, Run};
use crate::decoder::Record;
use crate::gen::certificate::{self, Draft};
use crate::gen::claim::{self, Claim};
use crate::gen::rng::Rng;
use crate::gen::state::{lent_lengths, Lengths, Shape, State};
use crate::gen::{code, damage, edge, empty, frame};
use crate::independent::limits::ROUND_LIMIT;
use crate::independent::table::Table;

/// Edges, or checks where they are more, times rounds of a usual case; few are longer.
const USUAL_WORK: usize = 60_000;

/// One case in so many is a run at 43's limits.
const EDGE: usize = 400;

fn usual_rounds(checks: usize, edges: usize) -> u32 {
    (USUAL_WORK / edges.max(checks)).clamp(1, ROUND_LIMIT as usize) as u32
}

/// The first cases of a series.
pub fn series(seed: u64, count: u64) -> impl Iterator<Item = Case> {
    (0..count).map(move |index| case(&mut Rng::of_case(seed, index)))
}

pub fn case(rng: &mut Rng) -> Case {
    if rng.one_in(EDGE) {
        return Case::Run(Box::new(at_edge(rng)));
    }
    let sound = code::any(rng);
    let table = Table::parse(&sound).expect("a sound code");
    let mut code = sound.clone();
    if rng.one_in(12) {
        damage::damage(rng, &mut code);
    }
    match rng.below(20) {
        0..=1 => code_file(rng, code),
        2..=4 => cut(rng, code, &table),
        5..=8 => judge(rng, code, &sound, &table),
        9 => agreement(rng, code, &table),
        10..=15 => Case::Run(Box::new(fresh(rng, code, &table))),
        _ => Case::Run(Box::new(half_done(rng, code, &table))),
    }
}

fn code_file(rng: &mut Rng, mut code: Vec<u8>) -> Case {
    if !rng.one_in(4) {
        damage::damage(rng, &mut code);
    }
    Case::Table { code }
}

fn cut(rng: &mut Rng, code: Vec<u8>, table: &Table) -> Case {
    let mut point = frame::point(rng, table.bits);
    let check = match empty::one_of(rng, table) {
        Some(empty) if rng.one_in(2) => empty,
        _ if rng.one_in(12) => rng.pick(&[table.checks(), table.checks() + 1, 65_536, usize::MAX]),
        _ => rng.below(table.checks()),
    };
    if check < table.checks() && rng.one_in(2) {
        let depth = frame::depth(rng);
        frame::cut_so_deep(rng, table.members_of(check), depth, &mut point);
    }
    if rng.one_in(12) {
        frame::damage_point(rng, &mut point);
    }
    Case::Cut { code, point, check }
}

fn any_frame(rng: &mut Rng, table: &Table) -> Vec<i16> {
    let mut numbers = frame::valid(rng, table);
    if rng.one_in(16) {
        frame::damage(rng, &mut numbers);
    }
    numbers
}

fn agreement(rng: &mut Rng, code: Vec<u8>, table: &Table) -> Case {
    let frame = any_frame(rng, table);
    let mut word = frame::word(rng, table.bits);
    if rng.one_in(4) {
        frame::damage_word(rng, &mut word);
    }
    Case::Agreement { code, frame, word }
}

/// A claim that passes or not, on purpose or from a run, damaged or not.
fn judge(rng: &mut Rng, code: Vec<u8>, sound: &[u8], table: &Table) -> Case {
    let claim = if rng.one_in(3) { tight(rng, table) } else { of_run(rng, sound, table) };
    let Claim { mut frame, mut word, draft } = claim;
    let mut certificate = draft.bytes();
    if rng.one_in(10) {
        certificate::damage(rng, &mut certificate);
    }
    if rng.one_in(8) {
        frame::damage_word(rng, &mut word);
    }
    if rng.one_in(20) {
        frame::damage(rng, &mut frame);
    }
    Case::Judge { code, frame, word, certificate }
}

fn tight(rng: &mut Rng, table: &Table) -> Claim {
    let mut claim = claim::tight(rng, table);
    if rng.one_in(8) {
        claim.draft.edit_entry(rng, table);
    }
    claim
}

/// A certificate from a run, edited or not, or a random one; with the run's word or another.
fn of_run(rng: &mut Rng, sound: &[u8], table: &Table) -> Claim {
    let frame = frame::valid(rng, table);
    let rounds = usual_rounds(table.checks(), table.edges());
    let (mut draft, certified) = Draft::of_run(sound, &frame, rounds);
    if rng.one_in(4) {
        draft = Draft::random(rng, table);
    } else if rng.one_in(2) {
        draft.rescale(rng);
    }
    if let Some(check) = empty::one_of(rng, table).filter(|_| rng.one_in(3)) {
        draft.name_empty(rng, check);
    }
    if rng.one_in(2) {
        draft.edit_entry(rng, table);
    }
    let word = certified.unwrap_or_else(|| vec![0; table.bits]);
    Claim { frame, word, draft }
}

/// Rounds wanted: from none to more than there may be, kept short on large codes but for a few.
fn wanted(rng: &mut Rng, shape: &Shape) -> u32 {
    let some = rng.between(0, 60) as u32;
    let beyond = rng.between(ROUND_LIMIT as usize + 1, 5000) as u32;
    let choice = match rng.below(40) {
        0..=1 => 0,
        2..=13 => 1,
        14..=17 => 2,
        18..=33 => some,
        34..=37 => ROUND_LIMIT,
        38 => beyond,
        _ => rng.pick(&[ROUND_LIMIT + 1, u32::MAX, 1 << 16]),
    };
    let usual = usual_rounds(shape.checks, shape.edges);
    if choice <= ROUND_LIMIT && choice > usual && !rng.one_in(40) {
        usual
    } else {
        choice
    }
}

fn calls(rng: &mut Rng, shape: &Shape, state: &State) -> Vec<(u32, Lengths)> {
    let count = rng.between(1, 5);
    (0..count).map(|_| (wanted(rng, shape), lent_lengths(rng, shape, state))).collect()
}

/// A list of calls from a start, each handed what the last one left.
fn fresh(rng: &mut Rng, code: Vec<u8>, table: &Table) -> Run {
    let (frame, shape) = (any_frame(rng, table), &Shape::of_table(table));
    let state = State::random(rng, shape);
    let start = Some(lent_lengths(rng, shape, &state));
    let calls = calls(rng, shape, &state);
    // Refused, the start leaves this record to the calls.
    let record = Record { rounds: 7, status: Record::SPENT };
    Run { code, frame, record, state, start, calls }
}

/// A list of calls on a run that some other program claims to have begun.
fn half_done(rng: &mut Rng, code: Vec<u8>, table: &Table) -> Run {
    let (frame, shape) = (any_frame(rng, table), &Shape::of_table(table));
    let mut state = State::random(rng, shape);
    let any = rng.below(ROUND_LIMIT as usize) as u32;
    let rounds = rng.pick(&[0, 1, 3, any, any, ROUND_LIMIT - 4, ROUND_LIMIT - 1]);
    let mut record = Record { rounds, status: Record::RUNNING };
    state.half_done(rng, table, rounds);
    for _ in 0..rng.pick(&[0, 0, 0, 1, 1, 2]) {
        state.overstep(rng, table, &mut record);
    }
    let calls = calls(rng, shape, &state);
    Run { code, frame, record, state, start: None, calls }
}

/// A list of calls on a run that stands at 43's limits.
fn at_edge(rng: &mut Rng) -> Run {
    let edge::Resumed { code, table, record, state } = edge::resumed(rng);
    let frame = any_frame(rng, &table);
    let calls = calls(rng, &Shape::of_table(&table), &state);
    Run { code, frame, record, state, start: None, calls }
}
