//! Calls on plain slices: what the types that own their buffers never hand in.

use jugnayap::calls::{rounds, start, Buffers, Called, Record, StartBuffers};
use jugnayap::{Code, Refusal};

const FRAME: [i16; 3] = [4000, 4000, -2000];

/// One check on bits 0, 1 and 2.
fn three() -> Code {
    Code::from_checks(3, &[[0, 1, 2]]).unwrap()
}

/// What is left of a run, but for word and certificate; each buffer has an element more than is needed.
#[derive(Clone, Debug, PartialEq)]
struct Left {
    spins: [i32; 4],
    copies: [i32; 4],
    offsets: [i32; 4],
    sums: [i32; 4],
    multipliers: [u32; 2],
    masks: [u32; 2],
    depths: [u32; 2],
}

/// How many sums and depths there are to lend.
const ALL: [usize; 2] = [4, 2];

impl Left {
    /// What a start leaves among numbers that no call writes.
    fn started() -> Left {
        let started = [0, 0, 0, -77];
        let junk = [-77; 4];
        let (copies, offsets, sums) = (started, started, started);
        let (multipliers, masks, depths) = ([77; 2], [77; 2], [77; 2]);
        Left { spins: junk, copies, offsets, sums, multipliers, masks, depths }
    }

    /// A call for rounds that lends so many sums and depths.
    fn call(&mut self, record: Record, wanted: u32, [sums, depths]: [usize; 2]) -> Called {
        let (word, certificate) = (&mut [0; 3], &mut [0; 14]);
        let lent = Buffers {
            spins: &mut self.spins,
            copies: &mut self.copies,
            offsets: &mut self.offsets,
            sums: &mut self.sums[..sums],
            multipliers: &mut self.multipliers,
            masks: &mut self.masks,
            depths: &mut self.depths[..depths],
            word,
            certificate,
        };
        rounds(three().file(), &FRAME, record, wanted, lent)
    }

    fn is_refused(&mut self, record: Record, wanted: u32, lent: [usize; 2], refusal: Refusal) {
        let before = self.clone();
        assert_eq!(self.call(record, wanted, lent), Called::refused(refusal, record));
        assert_eq!(*self, before);
    }
}

#[test]
fn start_wants_a_sum_for_each_bit() {
    let mut left = [[7; 4]; 3];
    let mut call = |lent: usize| {
        let [copies, offsets, sums] = &mut left;
        let answer = start(three().file(), StartBuffers { copies, offsets, sums: &mut sums[..lent] });
        (answer, left)
    };
    assert_eq!(call(2), (Err(Refusal::BUFFER), [[7; 4]; 3]));
    assert_eq!(call(4), (Ok(Record::FRESH), [[0, 0, 0, 7]; 3]));
}

#[test]
fn round_takes_and_leaves_sums() {
    let mut left = Left::started();
    let first = Record { rounds: 1, status: Record::RUNNING };
    assert_eq!(left.call(Record::FRESH, 1, ALL), Called::done(first));
    assert_eq!(left.sums, [64, 64, 1936, -77]);
    assert_eq!(left.call(first, 1, [3, 1]), Called::done(Record { rounds: 2, status: Record::RUNNING }));
    assert_eq!((left.spins, left.sums), ([4064, 4064, -64, -77], [-636, -636, 4636, -77]));
}

#[test]
fn wrong_and_missing_sums_are_refused() {
    let mut left = Left::started();
    let Called { record, .. } = left.call(Record::FRESH, 1, ALL);
    left.is_refused(record, 1, [2, 2], Refusal::BUFFER);
    for wrong in [65, 63, 0, i32::MIN, i32::MAX] {
        left.sums[1] = wrong;
        for wanted in [0, 1, 1024] {
            left.is_refused(record, wanted, ALL, Refusal::STATE);
        }
        left.is_refused(Record { status: Record::SPENT, ..record }, 1, ALL, Refusal::ENDED);
    }
    left.sums[1] = 64;
    assert_eq!(left.call(record, 0, ALL), Called::done(record));
}

/// Whatever stands in the depths: a round writes them, and is refused without room for them.
#[test]
fn round_leaves_depths() {
    let mut left = Left::started();
    left.is_refused(Record::FRESH, 1, [4, 0], Refusal::BUFFER);
    left.is_refused(Record { rounds: 1, status: Record::SPENT }, 0, [4, 0], Refusal::BUFFER);
    let mut record = Record::FRESH;
    for depth in [5904, 6128, 4794] {
        assert_eq!(left.call(record, 0, ALL), Called::done(record));
        assert_eq!(left.depths[1], 77);
        left.depths[0] = u32::MAX;
        record = left.call(record, 1, ALL).record;
        assert_eq!(left.depths, [depth, 77]);
    }
    assert_eq!(record, Record { rounds: 3, status: Record::CERTIFIED });
}
