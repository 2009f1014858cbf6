//! Document 01's reference frames, on every decoder.

use harness::decoder::{Called, Cut, Decoder, Record, Refusal, Verdict};
use harness::gen::code::{bytes_of, three_bits};
use harness::gen::state::{Shape, State};
use harness::independent::limits::UNIT;
use harness::ALL;

fn fresh(code: &[u8]) -> State {
    State::zeroed(&Shape::of(code).unwrap())
}

/// Starts a run and asks for one round at a time.
fn after(decoder: &dyn Decoder, code: &[u8], frame: &[i16], rounds: u32) -> (Record, State) {
    let mut state = fresh(code);
    let mut record = decoder.start(code, state.lend_all().for_start()).unwrap();
    for _ in 0..rounds {
        let called = decoder.rounds(code, frame, record, 1, state.lend_all());
        assert_eq!(called.refusal, None);
        record = called.record;
    }
    (record, state)
}

#[test]
fn three_bit_frame() {
    let (code, frame) = (three_bits(), [4000, 4000, -2000]);
    for decoder in ALL {
        let (record, state) = after(decoder, &code, &frame, 1);
        assert_eq!(record, Record { rounds: 1, status: Record::RUNNING });
        assert_eq!(state.spins.lent(), [4000, 4000, -2000]);
        assert_eq!(state.multipliers.lent(), [1968]);
        // 8192 − (96 + 96 + 2096)
        assert_eq!(state.depths.lent(), [5904]);
        assert_eq!(state.copies.lent(), [2032, 2032, -32]);
        assert_eq!(state.sums.lent(), [64, 64, 1936]);
        let (_, state) = after(decoder, &code, &frame, 2);
        assert_eq!(state.multipliers.lent(), [3334]);
        // v is (6032, 6032, −2032), clipped (4096, 4096, −2032).
        assert_eq!(state.depths.lent(), [6128]);
        assert_eq!(state.copies.lent(), [2698, 2698, 1302]);
        assert_eq!(state.sums.lent(), [-636, -636, 4636]);
        let (record, state) = after(decoder, &code, &frame, 3);
        assert_eq!(record, Record { rounds: 3, status: Record::CERTIFIED });
        assert_eq!(state.spins.lent(), [3364, 3364, 2636]);
        assert_eq!(state.multipliers.lent(), [3333]);
        // v is (6698, 6698, −698), clipped (4096, 4096, −698).
        assert_eq!(state.depths.lent(), [4794]);
        assert_eq!(state.word.lent(), [0, 0, 0]);
        assert_eq!(state.certificate.lent(), [1, 0, 1, 0, 0, 0, 5, 13, 0, 0, 4, 0, 0, 0]);
        assert_eq!(decoder.agreement(&code, &frame, state.word.lent()), Ok(6000));
    }
}

#[test]
fn negated_three_bit_frame() {
    for decoder in ALL {
        let (record, state) = after(decoder, &three_bits(), &[-4000, -4000, -2000], 3);
        assert_eq!(record, Record { rounds: 3, status: Record::CERTIFIED });
        assert_eq!(state.word.lent(), [1, 1, 0]);
        assert_eq!((state.multipliers.lent(), state.masks.lent()), (&[3333][..], &[7][..]));
        assert_eq!(state.depths.lent(), [4794]);
    }
}

#[test]
fn one_bit_frame() {
    let code = bytes_of(1, &[vec![0]]);
    for decoder in ALL {
        let (record, state) = after(decoder, &code, &[-5], 2);
        assert_eq!(record, Record { rounds: 2, status: Record::CERTIFIED });
        assert_eq!((state.word.lent(), state.multipliers.lent()), (&[0][..], &[4101][..]));
        assert_eq!(state.depths.lent(), [4101]);
        // Bound −5 and agreement −5.
        assert_eq!(decoder.agreement(&code, &[-5], &[0]), Ok(-5));
        // The reduced number is −5 + 4101.
        let verdict = decoder.judge(&code, &[-5], &[0], state.certificate.lent());
        assert_eq!(verdict, Ok(Verdict::Certified { sole: true }));
    }
}

#[test]
fn frames_of_the_report() {
    for decoder in ALL {
        let code = three_bits();
        let mut state = fresh(&code);
        let called = decoder.rounds(&code, &[10, 10, 10], Record::FRESH, 1024, state.lend_all());
        assert_eq!(called, Called::done(Record { rounds: 1, status: Record::CERTIFIED }));
        assert_eq!(state.certificate.lent()[..4], [0, 0, 1, 0]);
        let mut state = fresh(&code);
        let called = decoder.rounds(&code, &[0, 0, 0], Record::FRESH, 1024, state.lend_all());
        assert_eq!(called, Called::done(Record { rounds: 1024, status: Record::SPENT }));
    }
}

/// The reduced numbers are 4000 less the multiplier, twice, and the multiplier less 2000.
#[test]
fn gaps_of_the_three_bit_frame() {
    for (multiplier, verdict) in [
        (1999u32, Verdict::Gap(2)),
        (2000, Verdict::Certified { sole: false }),
        (3333, Verdict::Certified { sole: true }),
        (4000, Verdict::Certified { sole: false }),
        (4001, Verdict::Gap(4)),
    ] {
        let mut certificate = vec![1, 0, 1, 0, 0, 0];
        certificate.extend(multiplier.to_le_bytes());
        certificate.extend(4u32.to_le_bytes());
        let (code, frame) = (three_bits(), [4000, 4000, -2000]);
        for decoder in ALL {
            assert_eq!(decoder.judge(&code, &frame, &[0, 0, 0], &certificate), Ok(verdict));
            assert_eq!(decoder.judge(&code, &frame, &[1, 0, 0], &certificate), Ok(Verdict::Broken(0)));
        }
    }
}

#[test]
fn cuts_of_degree_three() {
    let code = three_bits();
    for decoder in ALL {
        assert_eq!(decoder.search_cut(&code, &[1365, 1365, -1366], 0), Ok(None));
        let cut = Cut { mask: 4, depth: 1 };
        assert_eq!(decoder.search_cut(&code, &[1365, 1365, -1367], 0), Ok(Some(cut)));
        assert_eq!(decoder.search_cut(&code, &[0, 0, UNIT + 1], 1), Err(Refusal::POINT));
        assert_eq!(decoder.search_cut(&code, &[0, 0, 0], 1), Err(Refusal::REQUEST));
    }
}

/// One bit in three checks of one member, resumed where the offsets' limit is exact: no multiplier is
/// larger, so 44 can't occur.
#[test]
fn greatest_multiplier() {
    let code = bytes_of(1, &[vec![0], vec![0], vec![0]]);
    let far = 8_192 * 1_023;
    for decoder in ALL {
        let mut state = fresh(&code);
        state.copies.lent_mut().copy_from_slice(&[-UNIT, -UNIT, -UNIT]);
        state.offsets.lent_mut().copy_from_slice(&[-far, far, far]);
        state.sums.lent_mut()[0] = -3 * UNIT - far;
        let record = Record { rounds: 1_023, status: Record::RUNNING };
        let called = decoder.rounds(&code, &[0], record, 1, state.lend_all());
        assert_eq!(called, Called::done(Record { rounds: 1_024, status: Record::SPENT }));
        assert_eq!(state.multipliers.lent(), [8_388_608, 0, 0]);
        assert_eq!(state.depths.lent(), [8_192, 0, 0]);
    }
}
