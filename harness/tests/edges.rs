//! Runs resumed at 43's limits, where values, multipliers and sums are as large as they can be, by the numbers
//! worked out by hand. On every decoder.

use harness::cases::EDGES;
use harness::decoder::{Called, Decoder, Record, Refusal};
use harness::gen::code::bytes_of;
use harness::gen::edge;
use harness::gen::rng::Rng;
use harness::gen::state::{Shape, State};
use harness::independent::limits::{FRAME_LIMIT, UNIT};
use harness::independent::table::Table;
use harness::ALL;

const RUNNING: Record = Record { rounds: 1_023, status: Record::RUNNING };
/// 8,192 for each round done.
const FAR: i32 = 8_380_416;

/// Three equal checks on as many bits as there are signs: the offsets have the signs on check 0 and the opposite
/// ones on checks 1 and 2.
fn resumed(signs: &[i32], copies: &[i32]) -> (Vec<u8>, State) {
    let code = bytes_of(signs.len(), &vec![(0..signs.len() as u16).collect(); 3]);
    let table = Table::parse(&code).unwrap();
    let mut state = State::zeroed(&Shape::of_table(&table));
    let offsets: Vec<i32> =
        [FAR, -FAR, -FAR].iter().flat_map(|far| signs.iter().map(move |e| e * far)).collect();
    state.offsets.lent_mut().copy_from_slice(&offsets);
    state.copies.lent_mut().copy_from_slice(copies);
    state.set_sums(&table);
    (code, state)
}

/// The last round of such a run.
fn last_round(decoder: &dyn Decoder, signs: &[i32], copies: &[i32], frame: &[i16]) -> State {
    let (code, mut state) = resumed(signs, copies);
    let called = decoder.rounds(&code, frame, RUNNING, 1, state.lend_all());
    assert_eq!(called, Called::done(Record { rounds: 1_024, status: Record::SPENT }), "{}", decoder.name());
    state
}

/// Signs with an odd number of negative ones.
fn odd_signs(rng: &mut Rng, degree: usize) -> Vec<i32> {
    let mut signs: Vec<i32> = (0..degree).map(|_| rng.pick(&[-1, 1])).collect();
    signs[0] *= -signs.iter().product::<i32>();
    signs
}

fn negative(signs: &[i32]) -> u32 {
    signs.iter().rev().fold(0, |mask, sign| mask << 1 | u32::from(*sign < 0))
}

/// 32 members. The spins are U with the signs, whatever the copies: the totals are the offset, once, but for
/// 3U + 8,191 at most. So the values on check 0 are 8,384,512 in size, and 32 × (b − 8,380,416) ≥ 8,192 for
/// b = 8,380,672. On checks 1 and 2 they are 8,376,320 in size, with the other signs.
#[test]
fn thirty_two_members() {
    let mut rng = Rng::new(1);
    for _ in 0..200 {
        let signs = odd_signs(&mut rng, 32);
        let extreme = rng.one_in(2);
        let mut copy = || if extreme { rng.pick(&[-UNIT, UNIT]) } else { rng.signed(UNIT) };
        let copies: Vec<i32> = (0..96).map(|_| copy()).collect();
        let frame: Vec<i16> = (0..32).map(|_| rng.signed(i32::from(FRAME_LIMIT)) as i16).collect();
        for decoder in ALL {
            let state = last_round(decoder, &signs, &copies, &frame);
            let set = negative(&signs);
            assert_eq!(state.spins.lent(), signs.iter().map(|e| e * UNIT).collect::<Vec<_>>());
            assert_eq!(state.multipliers.lent(), [8_380_672, 8_372_480, 8_372_480]);
            assert_eq!(state.masks.lent(), [set, !set, !set]);
            assert_eq!(state.depths.lent(), [8_192; 3]);
            // Each copy is 256 short of U, toward 0.
            let kept = |k: usize| [1, -1, -1][k / 32] * signs[k % 32] * 3_840;
            assert_eq!(state.copies.lent(), (0..96).map(kept).collect::<Vec<_>>());
            let moved = |k: usize| [8_380_672, -8_372_480, -8_372_480][k / 32] * signs[k % 32];
            assert_eq!(state.offsets.lent(), (0..96).map(moved).collect::<Vec<_>>());
            // −3,840 − (8,380,672 − 2 × 8,372,480)
            assert_eq!(state.sums.lent(), signs.iter().map(|e| e * 8_360_448).collect::<Vec<_>>());
        }
    }
}

/// 8,192 shared among fewer members, upward: 265 each of 31, 274 each of 30.
#[test]
fn thirty_and_thirty_one_members() {
    let mut rng = Rng::new(2);
    for (degree, share) in [(31, 265), (30, 274), (2, 4_096)] {
        let signs = odd_signs(&mut rng, degree);
        for decoder in ALL {
            let state = last_round(decoder, &signs, &vec![0; 3 * degree], &vec![0; degree]);
            // With an odd number of members the other signs are even in number, so checks 1 and 2 have no cut.
            let other = if degree % 2 == 0 { FAR as u32 - 8_192 + share } else { 0 };
            assert_eq!(state.multipliers.lent(), [FAR as u32 + share, other, other]);
        }
    }
}

/// One member, with the only sign that makes a cut: b takes the value, 8,384,512 below 0, to U.
#[test]
fn one_member() {
    for decoder in ALL {
        for copy in [-UNIT, 0, UNIT] {
            let state = last_round(decoder, &[-1], &[copy; 3], &[FRAME_LIMIT]);
            assert_eq!(state.spins.lent(), [-UNIT]);
            assert_eq!(state.multipliers.lent(), [8_388_608, 0, 0]);
            assert_eq!(state.copies.lent(), [UNIT, UNIT, UNIT]);
            // v is −8,384,512 on check 0, and 8,376,320 on the others.
            assert_eq!(state.offsets.lent(), [-8_388_608, 8_372_224, 8_372_224]);
        }
    }
}

/// The same runs with an offset one further, and its sum true, are refused.
#[test]
fn one_beyond() {
    let mut rng = Rng::new(3);
    for decoder in ALL {
        for edge in 0..96 {
            let (code, mut state) = resumed(&odd_signs(&mut rng, 32), &[0; 96]);
            let table = Table::parse(&code).unwrap();
            state.offsets.lent_mut()[edge] += state.offsets.lent()[edge].signum();
            state.set_sums(&table);
            let before = state.clone();
            let called = decoder.rounds(&code, &[0; 32], RUNNING, 1, state.lend_all());
            assert_eq!(called, Called::refused(Refusal::STATE, RUNNING));
            assert_eq!(before.differing(&state), None);
        }
    }
}

/// One more round of a run, and all that it leaves.
fn after(decoder: &dyn Decoder, run: &edge::Resumed) -> State {
    let mut state = run.state.clone();
    let called = decoder.rounds(&run.code, &vec![0; run.table.bits], run.record, 1, state.lend_all());
    assert_eq!(called.refusal, None);
    state
}

/// The generator's runs at the limits meet both multipliers, and never a greater one.
#[test]
fn generated_runs() {
    let mut met = [0; 2];
    for index in 0..2_000 {
        let run = edge::resumed(&mut Rng::of_case(4, index));
        let left = ALL.map(|decoder| after(decoder, &run));
        assert!(left.iter().all(|other| left[0].differing(other).is_none()), "{index}");
        let multipliers = &left[0].multipliers.lent()[..run.table.checks()];
        assert!(multipliers.iter().all(|multiplier| *multiplier <= 8_388_608), "{index}");
        for (count, (edge, _)) in met.iter_mut().zip(EDGES) {
            *count += u32::from(multipliers.contains(&edge));
        }
    }
    assert!(met.iter().all(|&count| count >= 100), "{met:?}");
}
