//! Empty checks change nothing but the numbers of other checks: a table that has some beside the same table
//! without them, on every decoder.

use harness::cases::{make, Case};
use harness::decoder::{Decoder, Record, Refusal, Verdict};
use harness::gen::certificate::Draft;
use harness::gen::code::{bytes_of, random, three_bits};
use harness::gen::empty::{checks_where, in_a_row, laid_out, layout, layout_of, Layout};
use harness::gen::frame;
use harness::gen::rng::Rng;
use harness::gen::state::{Shape, State};
use harness::independent::certificate::Entry;
use harness::independent::limits::{certificate_length, ENTRY_LIMIT, ROUND_LIMIT, SIZE_LIMIT};
use harness::independent::table::{u16_at, Table};
use harness::seen::{assert_seen, see, Seen};
use harness::ALL;

/// A code, the same one with empty checks among its own, and the numbers of its own and of the empty ones
/// there.
struct Pair {
    code: Vec<u8>,
    wider: Vec<u8>,
    own: Vec<usize>,
    empty: Vec<usize>,
}

impl Pair {
    fn new(code: Vec<u8>, layout: &[bool]) -> Pair {
        let wider = laid_out(&code, layout);
        Pair { code, wider, own: checks_where(true, layout), empty: checks_where(false, layout) }
    }

    fn random(rng: &mut Rng) -> Pair {
        let most_bits = rng.pick(&[4, 10, 40]);
        let code = random(rng, most_bits);
        let layout = layout(rng, usize::from(u16_at(&code, 2)));
        Pair::new(code, &layout)
    }

    /// A certificate at the front of longer bytes, with the checks' numbers of the wider table.
    fn renumbered(&self, certificate: &[u8]) -> Vec<u8> {
        let entries = usize::from(u16_at(certificate, 0));
        let mut bytes = certificate[..certificate_length(entries)].to_vec();
        for entry in bytes[4..4 + 6 * entries].chunks_exact_mut(6) {
            let check = self.own[usize::from(u16_at(entry, 0))] as u16;
            entry[..2].copy_from_slice(&check.to_le_bytes());
        }
        bytes
    }

    /// Numbers of the code's checks, as they must stand in the wider table: 0 at the empty ones.
    fn spread(&self, numbers: &[u32]) -> Vec<u32> {
        let mut spread = vec![0; self.own.len() + self.empty.len()];
        self.own.iter().zip(numbers).for_each(|(&check, &number)| spread[check] = number);
        spread
    }

    /// What a call that did a round has left, on both tables.
    fn assert_same(&self, record: Record, narrow: &State, wide: &State) {
        let shape = Shape::of(&self.code).unwrap();
        let (bits, checks, edges) = (shape.bits, shape.checks, shape.edges);
        assert_eq!(narrow.spins.lent()[..bits], wide.spins.lent()[..bits]);
        assert_eq!(narrow.copies.lent()[..edges], wide.copies.lent()[..edges]);
        assert_eq!(narrow.offsets.lent()[..edges], wide.offsets.lent()[..edges]);
        assert_eq!(narrow.sums.lent()[..bits], wide.sums.lent()[..bits]);
        let numbered = |lent: &[u32]| lent[..self.own.len() + self.empty.len()].to_vec();
        assert_eq!(self.spread(&narrow.multipliers.lent()[..checks]), numbered(wide.multipliers.lent()));
        assert_eq!(self.spread(&narrow.masks.lent()[..checks]), numbered(wide.masks.lent()));
        assert_eq!(self.spread(&narrow.depths.lent()[..checks]), numbered(wide.depths.lent()));
        if record.status == Record::CERTIFIED {
            assert_eq!(narrow.word.lent()[..bits], wide.word.lent()[..bits]);
            let expected = self.renumbered(narrow.certificate.lent());
            assert_eq!(wide.certificate.lent()[..expected.len()], expected);
        }
    }
}

/// A run on both tables, from a start or, with rounds done before, half-done. Multipliers, masks and depths are
/// anything at first. Answers the last record and the narrower table's buffers.
fn same_run(
    rng: &mut Rng,
    decoder: &dyn Decoder,
    pair: &Pair,
    frame: &[i16],
    done: u32,
    calls: &[u32],
) -> (Record, State) {
    let shapes = [&pair.code, &pair.wider].map(|code| Shape::of(code).unwrap());
    let [mut narrow, mut wide] = shapes.map(|shape| State::random(rng, &shape));
    narrow.half_done(rng, &Table::parse(&pair.code).unwrap(), done);
    let (bits, edges) = (shapes[0].bits, shapes[0].edges);
    wide.copies.lent_mut()[..edges].copy_from_slice(&narrow.copies.lent()[..edges]);
    wide.offsets.lent_mut()[..edges].copy_from_slice(&narrow.offsets.lent()[..edges]);
    wide.sums.lent_mut()[..bits].copy_from_slice(&narrow.sums.lent()[..bits]);
    let mut record = Record { rounds: done, status: Record::RUNNING };
    for (code, state) in [(&pair.code, &mut narrow), (&pair.wider, &mut wide)] {
        if done == 0 {
            assert_eq!(decoder.start(code, state.lend_all().for_start()), Ok(Record::FRESH));
        }
    }
    for &wanted in calls {
        let before = record;
        let called = decoder.rounds(&pair.code, frame, before, wanted, narrow.lend_all());
        assert_eq!(decoder.rounds(&pair.wider, frame, before, wanted, wide.lend_all()), called);
        record = called.record;
        if record.rounds > before.rounds {
            pair.assert_same(record, &narrow, &wide);
        }
    }
    (record, narrow)
}

/// A thousand random pairs, each with its own source of numbers.
fn pairs(series: u64) -> impl Iterator<Item = (Rng, Pair)> {
    (0..1_000).map(move |index| {
        let mut rng = Rng::of_case(series, index);
        let pair = Pair::random(&mut rng);
        (rng, pair)
    })
}

#[test]
fn runs() {
    let mut seen = Seen::new();
    for (mut rng, pair) in pairs(3) {
        let frame = frame::valid(&mut rng, &Table::parse(&pair.code).unwrap());
        let any = rng.below(ROUND_LIMIT as usize) as u32;
        let done = rng.pick(&[0, 0, 0, 1, any]);
        let calls = [1, rng.between(0, 40) as u32, ROUND_LIMIT];
        for decoder in ALL {
            let (record, state) = same_run(&mut rng, decoder, &pair, &frame, done, &calls);
            let certified = record.status == Record::CERTIFIED;
            see(&mut seen, "certified", certified);
            see(&mut seen, "spent", !certified);
            if certified {
                let cuts = usize::from(u16_at(state.certificate.lent(), 0));
                see(&mut seen, "with cuts", cuts > 0);
            }
        }
    }
    assert_seen(&seen, 300, &["certified", "spent", "with cuts"]);
}

/// The verdict with the checks' numbers of the wider table.
fn renumbered(pair: &Pair, verdict: Result<Verdict, Refusal>) -> Result<Verdict, Refusal> {
    verdict.map(|verdict| match verdict {
        Verdict::Broken(check) => Verdict::Broken(pair.own[check as usize] as u32),
        other => other,
    })
}

#[test]
fn verdicts() {
    let mut seen = Seen::new();
    for (mut rng, pair) in pairs(4) {
        let table = Table::parse(&pair.code).unwrap();
        let frame = frame::valid(&mut rng, &table);
        let (mut draft, word) = Draft::of_run(&pair.code, &frame, 60);
        if rng.one_in(3) {
            draft = Draft::random(&mut rng, &table);
        } else {
            draft.rescale(&mut rng);
        }
        let word = word.filter(|_| !rng.one_in(4)).unwrap_or_else(|| frame::word(&mut rng, table.bits));
        let certificate = draft.bytes();
        let wider = pair.renumbered(&certificate);
        for decoder in ALL {
            let verdict = decoder.judge(&pair.code, &frame, &word, &certificate);
            assert_eq!(decoder.judge(&pair.wider, &frame, &word, &wider), renumbered(&pair, verdict));
            match verdict.unwrap() {
                Verdict::Broken(_) => see(&mut seen, "broken", true),
                Verdict::Certified { .. } => see(&mut seen, "certified", true),
                Verdict::Gap(_) => see(&mut seen, "gap", true),
            }
        }
    }
    assert_seen(&seen, 300, &["broken", "certified", "gap"]);
}

#[test]
fn cuts() {
    let mut seen = Seen::new();
    for (mut rng, pair) in pairs(5) {
        let point = frame::point(&mut rng, Shape::of(&pair.code).unwrap().bits);
        for decoder in ALL {
            for (check, &there) in pair.own.iter().enumerate() {
                let cut = decoder.search_cut(&pair.code, &point, check);
                assert_eq!(decoder.search_cut(&pair.wider, &point, there), cut);
                see(&mut seen, cut.unwrap().map_or("none", |_| "cut"), true);
            }
            for &check in pair.empty.iter().take(8) {
                assert_eq!(decoder.search_cut(&pair.wider, &point, check), Ok(None));
                see(&mut seen, "empty", true);
            }
        }
    }
    assert_seen(&seen, 1_000, &["none", "cut", "empty"]);
}

/// Every place that has a name, among two checks: what is left must be the same, whatever stood there.
#[test]
fn named_places() {
    let (yes, no) = (true, false);
    let places: [Layout; 8] = [
        vec![no, yes, yes],
        vec![yes, no, yes],
        vec![yes, yes, no],
        vec![yes, no, no, no, no, yes],
        vec![no, yes, no, yes, no],
        vec![no, no, no, yes, yes, no, no],
        in_a_row(1, SIZE_LIMIT - 2, 2),
        [in_a_row(0, 1_000, 1), in_a_row(1, 1_046, 1)].concat(),
    ];
    for (place, layout) in places.iter().enumerate() {
        let mut rng = Rng::of_case(6, place as u64);
        let pair = Pair::new(bytes_of(5, &[vec![0, 1, 2], vec![2, 3, 4]]), layout);
        for decoder in ALL {
            let frame = [4000, 4000, -3000, 900, 700];
            let (record, state) = same_run(&mut rng, decoder, &pair, &frame, 0, &[0, 1, 1, 2, 1_024]);
            assert_eq!(record.status, Record::CERTIFIED, "{layout:?}");
            assert!(u16_at(state.certificate.lent(), 0) > 0, "{layout:?}");
        }
    }
}

/// All checks but one are empty: document 01's frame (4000, 4000, −2000), its numbers at the one check.
#[test]
fn all_but_one() {
    for (before, after) in [(1, 0), (0, 1), (3, 2), (0, 2_047), (2_047, 0), (700, 1_347)] {
        let code = laid_out(&three_bits(), &[in_a_row(0, before, 1), in_a_row(0, after, 0)].concat());
        for decoder in ALL {
            let mut state = State::random(&mut Rng::new(7), &Shape::of(&code).unwrap());
            let record = decoder.start(&code, state.lend_all().for_start()).unwrap();
            let called = decoder.rounds(&code, &[4000, 4000, -2000], record, 1_024, state.lend_all());
            assert_eq!(called.record, Record { rounds: 3, status: Record::CERTIFIED });
            let alone = |number: u32| (0..=before + after).map(move |k| if k == before { number } else { 0 });
            assert!(alone(3333).eq(state.multipliers.lent()[..=before + after].iter().copied()));
            assert!(alone(4).eq(state.masks.lent()[..=before + after].iter().copied()));
            assert!(alone(4794).eq(state.depths.lent()[..=before + after].iter().copied()));
            assert_eq!(state.word.lent()[..3], [0, 0, 0]);
            let entry = Entry { check: before, multiplier: 3333, mask: 4 };
            let certificate = Draft { scale: 1, entries: vec![entry] }.bytes();
            assert_eq!(state.certificate.lent()[..14], certificate);
            let verdict = decoder.judge(&code, &[4000, 4000, -2000], &[0, 0, 0], &certificate);
            assert_eq!(verdict, Ok(Verdict::Certified { sole: true }));
        }
    }
}

fn see_layout(seen: &mut Seen, layout: &[bool]) {
    let empty = layout.iter().filter(|&&has_members| !has_members).count();
    let between = |three: &[bool]| *three == [true, false, true];
    see(seen, "first", !layout[0]);
    see(seen, "last", !layout[layout.len() - 1]);
    see(seen, "between", layout.windows(3).any(between));
    see(seen, "in a row", layout.windows(3).any(|three| *three == [false; 3]));
    see(seen, "all but one", empty > 0 && empty + 1 == layout.len());
    see(seen, "most of 2,048", layout.len() == SIZE_LIMIT && 2 * empty > SIZE_LIMIT);
}

/// Entries that name an empty check, by their masks.
fn see_entries(seen: &mut Seen, layout: &[bool], certificate: &[u8]) {
    let Some(front) = certificate.get(..4) else { return };
    let entries = usize::from(u16_at(front, 0));
    if entries > ENTRY_LIMIT || certificate.len() != certificate_length(entries) {
        return;
    }
    let (contents, masks) = certificate[4..].split_at(6 * entries);
    for (content, mask) in contents.chunks_exact(6).zip(masks.chunks_exact(4)) {
        if layout.get(usize::from(u16_at(content, 0))) == Some(&false) {
            let ones: u32 = mask.iter().map(|byte| byte.count_ones()).sum();
            see(seen, if ones == 0 { "mask 0" } else { ["even mask", "odd mask"][ones as usize % 2] }, true);
        }
    }
}

/// The cases of a series have empty checks at every place, and calls that name them.
#[test]
fn series_has_them() {
    let mut seen = Seen::new();
    for case in make::series(1, 20_000) {
        let code = match &case {
            Case::Run(run) => &run.code,
            Case::Table { code } | Case::Agreement { code, .. } => code,
            Case::Cut { code, .. } | Case::Judge { code, .. } => code,
        };
        let Ok(table) = Table::parse(code) else { continue };
        let layout = layout_of(&table);
        see_layout(&mut seen, &layout);
        match &case {
            Case::Cut { check, .. } => see(&mut seen, "cut", layout.get(*check) == Some(&false)),
            Case::Judge { certificate, .. } => see_entries(&mut seen, &layout, certificate),
            _ => {}
        }
    }
    let places = ["first", "last", "between", "in a row", "all but one", "most of 2,048"];
    assert_seen(&seen, 20, &places);
    assert_seen(&seen, 20, &["cut", "mask 0", "even mask", "odd mask"]);
}
