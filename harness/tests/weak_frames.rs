//! The nearest division of totals, and weak frames, which it moves: numbers smaller in size than the bits'
//! degrees. On every decoder.

use harness::cases::{make, Case};
use harness::decoder::{Decoder, Record};
use harness::gen::certificate::Draft;
use harness::gen::rng::Rng;
use harness::gen::state::{Shape, State};
use harness::gen::{code, codeword, frame};
use harness::independent::limits::{DEGREE_LIMIT, ROUND_LIMIT, UNIT};
use harness::independent::table::Table;
use harness::{each, ALL};

/// Record and buffers of a run from its start, after each of these calls for rounds.
fn run(decoder: &dyn Decoder, code: &[u8], frame: &[i16], calls: &[u32]) -> Vec<(Record, State)> {
    let mut state = State::zeroed(&Shape::of(code).unwrap());
    let mut record = decoder.start(code, state.lend_all().for_start()).unwrap();
    let call = |&wanted: &u32| {
        record = decoder.rounds(code, frame, record, wanted, state.lend_all()).record;
        (record, state.clone())
    };
    calls.iter().map(call).collect()
}

/// The spins of at most 256 bits of one degree whose totals are these: a round of a half-done run.
fn spins(decoder: &dyn Decoder, degree: usize, totals: &[i32]) -> Vec<i32> {
    // Blocks of 32 bits, the members of as many checks as the degree says.
    let block = |first: u16| vec![(32 * first..32 * first + 32).collect(); degree];
    let checks: Vec<Vec<u16>> = (0..8).flat_map(block).collect();
    let code = code::bytes_of(256, &checks);
    let mut state = State::zeroed(&Shape::of(&code).unwrap());
    for (bit, total) in totals.iter().enumerate() {
        // The bit's edge in the first check of its block.
        state.offsets.lent_mut()[bit / 32 * 32 * degree + bit % 32] = -total;
        state.sums.lent_mut()[bit] = *total;
    }
    // So many rounds that 43 allows the offsets.
    let record = Record { rounds: 20, status: Record::RUNNING };
    let called = decoder.rounds(&code, &[0; 256], record, 1, state.lend_all());
    assert_eq!((called.refusal, called.record.rounds), (None, 21));
    state.spins.lent()[..totals.len()].to_vec()
}

/// On each side of 0, the last total that goes to each spin and the first that goes to the next one, which is
/// clipped at the end; with their spins.
fn steps(degree: i32) -> impl Iterator<Item = (i32, i32)> {
    let upward = (0..=UNIT).flat_map(move |spin| {
        let first = spin * degree + (degree + 1) / 2;
        [(first - 1, spin), (first, UNIT.min(spin + 1))]
    });
    upward.flat_map(|(total, spin)| [(total, spin), (-total, -spin)])
}

#[test]
fn totals_go_to_the_nearest_spin() {
    for degree in 1..=DEGREE_LIMIT {
        let (totals, expected): (Vec<i32>, Vec<i32>) = steps(degree as i32).unzip();
        for decoder in ALL {
            let found: Vec<i32> =
                totals.chunks(256).flat_map(|totals| spins(decoder, degree, totals)).collect();
            assert!(found == expected, "degree {degree}, {}", decoder.name());
        }
    }
}

/// +1 for bit 0, −1 for bit 1.
fn side(bit: u8) -> i32 {
    1 - 2 * i32::from(bit)
}

/// A code whose bits are all in 3 checks, and a codeword.
fn regular(rng: &mut Rng) -> (Vec<u8>, Vec<u8>) {
    let bits = 2 * rng.between(12, 120);
    let code = code::regular(rng, bits, 3, 6);
    let word = codeword::random(rng, &Table::parse(&code).unwrap());
    (code, word)
}

#[test]
fn two_over_three_is_certified_at_once() {
    for (decoder, mut rng) in each(7, 100) {
        let (code, word) = regular(&mut rng);
        let sides: Vec<i32> = word.iter().copied().map(side).collect();
        let frame: Vec<i16> = sides.iter().map(|side| 2 * *side as i16).collect();
        let (record, state) = run(decoder, &code, &frame, &[ROUND_LIMIT]).pop().unwrap();
        assert_eq!(record, Record { rounds: 1, status: Record::CERTIFIED }, "{}", decoder.name());
        assert_eq!((state.spins.lent(), state.word.lent()), (&sides[..], &word[..]));
        assert_eq!(state.certificate.lent()[..4], [0, 0, 1, 0]);
    }
}

#[test]
fn one_over_three_never_moves() {
    for (decoder, mut rng) in each(8, 20) {
        let (code, word) = regular(&mut rng);
        let frame: Vec<i16> = word.iter().map(|&bit| side(bit) as i16).collect();
        let (record, state) = run(decoder, &code, &frame, &[ROUND_LIMIT]).pop().unwrap();
        assert_eq!(record, Record { rounds: ROUND_LIMIT, status: Record::SPENT }, "{}", decoder.name());
        assert_eq!(state.differing(&State::zeroed(&Shape::of(&code).unwrap())), None);
    }
}

/// Turns what a call has left into what it must leave if the frame is negated by a codeword.
fn negate(table: &Table, codeword: &[u8], record: Record, state: &mut State) {
    for numbers in [state.spins.lent_mut(), state.sums.lent_mut()] {
        let bits = numbers.iter_mut().zip(codeword);
        bits.for_each(|(number, &bit)| *number *= side(bit));
    }
    for numbers in [state.copies.lent_mut(), state.offsets.lent_mut()] {
        let edges = numbers.iter_mut().zip(&table.members);
        edges.for_each(|(number, &member)| *number *= side(codeword[usize::from(member)]));
    }
    for (check, mask) in state.masks.lent_mut().iter_mut().enumerate().filter(|(_, mask)| **mask != 0) {
        let places = table.members_of(check).iter().enumerate();
        places.for_each(|(place, &member)| *mask ^= u32::from(codeword[usize::from(member)]) << place);
    }
    if record.status == Record::CERTIFIED {
        state.word.lent_mut().iter_mut().zip(codeword).for_each(|(bit, turned)| *bit ^= turned);
        let certificate = Draft::of_cuts(state).bytes();
        state.certificate.lent_mut()[..certificate.len()].copy_from_slice(&certificate);
    }
}

#[test]
fn negation_by_a_codeword_carries_over() {
    let (mut at_once, mut later, mut spent) = (0, 0, 0);
    for (decoder, mut rng) in each(9, 1_000) {
        let code = code::random(&mut rng, 40);
        let table = Table::parse(&code).unwrap();
        let (word, codeword) = (codeword::near(&mut rng, &table), codeword::random(&mut rng, &table));
        let frame = frame::weak(&mut rng, &table, &word);
        let negated = frame.iter().zip(&codeword).map(|(l, &bit)| l * side(bit) as i16).collect();
        let calls = [1, rng.between(0, 40) as u32, ROUND_LIMIT];
        let [left, other] = [frame, negated].map(|frame| run(decoder, &code, &frame, &calls));
        if codeword.contains(&1) {
            match left[2].0 {
                Record { status: Record::SPENT, .. } => spent += 1,
                Record { rounds: 1, .. } => at_once += 1,
                _ => later += 1,
            }
        }
        for ((record, mut state), (other_record, other)) in left.into_iter().zip(other) {
            negate(&table, &codeword, record, &mut state);
            assert_eq!((record, state.differing(&other)), (other_record, None), "{}", decoder.name());
        }
    }
    assert!(at_once >= 500 && later >= 50 && spent >= 400, "{at_once}, {later} and {spent}");
}

/// Whether each number is at least half its bit's degree in size, and some are smaller than the degree.
fn is_weak(table: &Table, frame: &[i16]) -> bool {
    let sizes = || frame.iter().zip(&table.degrees).map(|(l, degree)| (l.unsigned_abs(), *degree));
    sizes().all(|(size, degree)| 2 * size >= degree && size < degree.max(2))
        && sizes().any(|(size, degree)| size < degree)
}

/// Of the runs of a series many have a weak frame, fresh ones and half-done ones.
#[test]
fn series_has_them() {
    let (mut fresh, mut half_done) = (0, 0);
    for case in make::series(1, 20_000) {
        let Case::Run(run) = case else { continue };
        if Table::parse(&run.code).is_ok_and(|table| is_weak(&table, &run.frame)) {
            match run.start {
                Some(_) => fresh += 1,
                None => half_done += 1,
            }
        }
    }
    assert!(fresh >= 400 && half_done >= 250, "{fresh} and {half_done}");
}
