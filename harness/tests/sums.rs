//! The sums carried between rounds: true after every call that is not refused, and refused with 43 where they
//! are not. On every decoder.

use harness::cases::{make, Case, Run};
use harness::decoder::{Called, Decoder, Record, Refusal};
use harness::gen::code::{self, bytes_of};
use harness::gen::frame;
use harness::gen::rng::Rng;
use harness::gen::state::{Shape, State};
use harness::independent::limits::{DEGREE_LIMIT, FRAME_LIMIT, OFFSET_STEP, ROUND_LIMIT, UNIT};
use harness::independent::table::Table;
use harness::{each, ALL};

/// A code, its table and a frame in range.
fn any_input(rng: &mut Rng) -> (Vec<u8>, Table, Vec<i16>) {
    let most_bits = rng.pick(&[3, 10, 60]);
    let code = code::random(rng, most_bits);
    let table = Table::parse(&code).unwrap();
    let frame = frame::valid(rng, &table);
    (code, table, frame)
}

fn assert_true(decoder: &dyn Decoder, table: &Table, state: &State) {
    assert_eq!(state.sums.lent()[..table.bits], state.true_sums(table), "{}", decoder.name());
}

/// Whether the call is refused so, and leaves record and all buffers as they were.
fn assert_refused(called: Called, refusal: Refusal, record: Record, before: &State, after: &State) {
    assert_eq!(called, Called::refused(refusal, record));
    assert_eq!(before.differing(after), None);
}

/// From a start, among numbers of anything, to the end of the run; what is past the bits stays.
#[test]
fn true_after_every_call() {
    let (mut certified, mut spent) = (0, 0);
    for (decoder, mut rng) in each(10, 600) {
        let (code, table, frame) = any_input(&mut rng);
        let mut state = State::random(&mut rng, &Shape::of_table(&table));
        let past = state.sums.lent()[table.bits..].to_vec();
        let mut record = decoder.start(&code, state.lend_all().for_start()).unwrap();
        assert!(state.sums.lent()[..table.bits].iter().all(|&sum| sum == 0));
        while record.status == Record::RUNNING {
            let wanted = if record.rounds < 8 { 1 } else { rng.between(0, 60) as u32 };
            let called = decoder.rounds(&code, &frame, record, wanted, state.lend_all());
            assert_eq!(called.refusal, None);
            assert_true(decoder, &table, &state);
            record = called.record;
        }
        assert_eq!(state.sums.lent()[table.bits..], past);
        certified += u32::from(record.status == Record::CERTIFIED);
        spent += u32::from(record.status == Record::SPENT);
    }
    assert!(certified >= 500 && spent >= 200, "{certified} and {spent}");
}

#[test]
fn true_after_calls_on_half_done_runs() {
    for (decoder, mut rng) in each(11, 600) {
        let (code, table, frame) = any_input(&mut rng);
        let mut state = State::random(&mut rng, &Shape::of_table(&table));
        let rounds = rng.below(ROUND_LIMIT as usize) as u32;
        state.half_done(&mut rng, &table, rounds);
        let mut record = Record { rounds, status: Record::RUNNING };
        for wanted in [0, 1, 1, 5, ROUND_LIMIT] {
            if record.status == Record::RUNNING {
                let called = decoder.rounds(&code, &frame, record, wanted, state.lend_all());
                assert_eq!(called.refusal, None);
                assert_true(decoder, &table, &state);
                record = called.record;
            }
        }
        assert_ne!(record.status, Record::RUNNING);
    }
}

/// Each bit's sum in turn is off by something; 42 comes before 43, and mended the run goes on.
#[test]
fn one_wrong_sum_is_refused() {
    for (decoder, mut rng) in each(12, 200) {
        let (code, table, frame) = any_input(&mut rng);
        let mut state = State::random(&mut rng, &Shape::of_table(&table));
        let rounds = rng.between(1, ROUND_LIMIT as usize - 1) as u32;
        state.half_done(&mut rng, &table, rounds);
        let record = Record { rounds, status: Record::RUNNING };
        let ended = Record { rounds, status: rng.pick(&[Record::CERTIFIED, Record::SPENT]) };
        for bit in 0..table.bits {
            let true_sum = state.sums.lent()[bit];
            let off = rng.pick(&[1, -1, 1 << 8, 1 << 16, 1 << 24, i32::MIN]);
            state.sums.lent_mut()[bit] = true_sum.wrapping_add(off);
            let before = state.clone();
            for wanted in [0, 1, ROUND_LIMIT] {
                let called = decoder.rounds(&code, &frame, record, wanted, state.lend_all());
                assert_refused(called, Refusal::STATE, record, &before, &state);
            }
            let called = decoder.rounds(&code, &frame, ended, 1, state.lend_all());
            assert_refused(called, Refusal::ENDED, ended, &before, &state);
            state.sums.lent_mut()[bit] = true_sum;
        }
        let called = decoder.rounds(&code, &frame, record, 1, state.lend_all());
        assert_eq!((called.refusal, called.record.rounds), (None, rounds + 1));
    }
}

/// Errors that cancel over all bits, sums that changed places, and those of the round before.
#[test]
fn sums_of_other_places_are_refused() {
    let code = bytes_of(4, &[vec![0, 1, 2], vec![1, 2, 3]]);
    let (table, frame) = (Table::parse(&code).unwrap(), [4000, 3000, -2000, 900]);
    for decoder in ALL {
        let mut state = State::zeroed(&Shape::of_table(&table));
        let first = decoder.rounds(&code, &frame, Record::FRESH, 1, state.lend_all()).record;
        let early = state.sums.lent().to_vec();
        let record = decoder.rounds(&code, &frame, first, 1, state.lend_all()).record;
        assert_eq!(record, Record { rounds: 2, status: Record::RUNNING });
        let sums = state.sums.lent().to_vec();
        let cancelling = [sums[0] + 1, sums[1] - 1, sums[2], sums[3]].to_vec();
        let rotated = [&sums[1..], &sums[..1]].concat();
        for wrong in [cancelling, rotated, early, vec![0; 4], sums.iter().map(|sum| -sum).collect()] {
            assert_ne!(wrong, sums);
            state.sums.lent_mut().copy_from_slice(&wrong);
            let before = state.clone();
            let called = decoder.rounds(&code, &frame, record, 1, state.lend_all());
            assert_refused(called, Refusal::STATE, record, &before, &state);
        }
        state.sums.lent_mut().copy_from_slice(&sums);
        assert_eq!(decoder.rounds(&code, &frame, record, 0, state.lend_all()), Called::done(record));
    }
}

/// A bit in 32 checks, with all copies and offsets at their limits: no sum is greater.
#[test]
fn greatest_sums() {
    let code = bytes_of(1, &vec![vec![0]; DEGREE_LIMIT]);
    let table = Table::parse(&code).unwrap();
    let rounds = ROUND_LIMIT - 1;
    let far = OFFSET_STEP * rounds as i32;
    let record = Record { rounds, status: Record::RUNNING };
    for (decoder, sign) in ALL.into_iter().flat_map(|decoder| [(decoder, 1), (decoder, -1)]) {
        let mut state = State::zeroed(&Shape::of_table(&table));
        state.copies.lent_mut().fill(sign * UNIT);
        state.offsets.lent_mut().fill(-sign * far);
        state.sums.lent_mut()[0] = sign * 268_304_384;
        assert_true(decoder, &table, &state);
        for (off, wanted) in [-1, 1, i32::MIN].into_iter().flat_map(|off| [(off, 0), (off, 1)]) {
            let mut wrong = state.clone();
            wrong.sums.lent_mut()[0] = state.sums.lent()[0].wrapping_add(off);
            let before = wrong.clone();
            let called = decoder.rounds(&code, &[FRAME_LIMIT], record, wanted, wrong.lend_all());
            assert_refused(called, Refusal::STATE, record, &before, &wrong);
        }
        // An offset one further, with its sum.
        let mut beyond = state.clone();
        beyond.offsets.lent_mut()[7] -= sign;
        beyond.set_sums(&table);
        let before = beyond.clone();
        let called = decoder.rounds(&code, &[FRAME_LIMIT], record, 1, beyond.lend_all());
        assert_refused(called, Refusal::STATE, record, &before, &beyond);
        let frame = [sign as i16 * FRAME_LIMIT];
        assert_eq!(decoder.rounds(&code, &frame, record, 0, state.lend_all()), Called::done(record));
        let called = decoder.rounds(&code, &frame, record, 1, state.lend_all());
        assert_eq!((called.refusal, called.record.rounds), (None, ROUND_LIMIT));
        assert_eq!(state.spins.lent(), [sign * UNIT]);
        assert_true(decoder, &table, &state);
    }
}

/// Whether 43 finds nothing in the record, the copies and the offsets.
fn within_limits(run: &Run, table: &Table) -> bool {
    let within =
        |values: &[i32], limit: i32| values[..table.edges()].iter().all(|x| (-limit..=limit).contains(x));
    run.record.status == Record::RUNNING
        && run.record.rounds < ROUND_LIMIT
        && within(run.state.copies.lent(), UNIT)
        && within(run.state.offsets.lent(), OFFSET_STEP * run.record.rounds as i32)
}

/// Of the half-done runs of a series some have nothing wrong but a sum, some only sums whose errors cancel, and
/// some true sums with copies or offsets beyond their limits.
#[test]
fn series_has_them() {
    let (mut wrong, mut cancelling, mut true_beyond) = (0, 0, 0);
    for case in make::series(1, 20_000) {
        let Case::Run(run) = case else { continue };
        let Ok(table) = Table::parse(&run.code) else { continue };
        if run.start.is_some() || run.record.status != Record::RUNNING {
            continue;
        }
        let sums = run.state.sums.lent().iter().zip(run.state.true_sums(&table));
        let off: Vec<i64> = sums.map(|(&sum, true_sum)| i64::from(sum) - i64::from(true_sum)).collect();
        let (all_true, cancels) = (off.iter().all(|&off| off == 0), off.iter().sum::<i64>() == 0);
        match within_limits(&run, &table) {
            true if !all_true && cancels => cancelling += 1,
            true if !all_true => wrong += 1,
            false if all_true => true_beyond += 1,
            _ => {}
        }
    }
    assert!(
        wrong >= 200 && cancelling >= 60 && true_beyond >= 200,
        "{wrong}, {cancelling} and {true_beyond}"
    );
}
