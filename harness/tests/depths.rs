//! Depths: by how much the inequality of a cut falls short, as the cut search tells and as each round leaves
//! them. On every decoder.

use harness::cases::{make, Case};
use harness::decoder::{Called, Cut, Decoder, Record, Refusal};
use harness::gen::code::{self, bytes_of, three_bits};
use harness::gen::frame;
use harness::gen::rng::Rng;
use harness::gen::state::{Shape, State};
use harness::independent::limits::{DEGREE_LIMIT, FACET, ROUND_LIMIT, UNIT};
use harness::independent::table::Table;
use harness::independent::Independent;
use harness::{each, ALL};

/// A code of one check that has all bits, at these spins: mask and depth of its cut, or two zeros.
fn cut_at(spins: &[i32]) -> (u32, u32) {
    let code = bytes_of(spins.len(), &[(0..spins.len() as u16).collect()]);
    let cuts = ALL.map(|decoder| decoder.search_cut(&code, spins, 0).unwrap());
    assert!(cuts.iter().all(|cut| *cut == cuts[0]), "{spins:?}: {cuts:?}");
    cuts[0].map_or((0, 0), |Cut { mask, depth }| (mask, depth))
}

/// On one member the left side is U plus its spin.
#[test]
fn one_member() {
    for spin in -UNIT..UNIT {
        assert_eq!(cut_at(&[spin]), (1, (UNIT - spin) as u32));
    }
    assert_eq!(cut_at(&[UNIT]), (0, 0));
}

/// On two members the spins have to be equal, and the depth is how far they are apart.
#[test]
fn two_members() {
    let sizes = [0, 1, 2, 1365, UNIT - 1, UNIT];
    let spins = || sizes.into_iter().flat_map(|size| [size, -size]);
    for (first, second) in spins().flat_map(|first| spins().map(move |second| (first, second))) {
        let mask = [0, 1, 2][usize::from(first < second) + 2 * usize::from(second < first)];
        assert_eq!(cut_at(&[first, second]), (mask, first.abs_diff(second)));
    }
}

/// As far as the third spin is from the first that has no cut.
#[test]
fn three_members() {
    assert_eq!(cut_at(&[1365, 1365, -1366]), (0, 0));
    for beyond in 1..=UNIT - 1366 {
        assert_eq!(cut_at(&[1365, 1365, -1366 - beyond]), (4, beyond as u32));
    }
    // The member that changes sides adds twice its size.
    assert_eq!(cut_at(&[100, 3000, 3000]), (1, 1804));
    assert_eq!(cut_at(&[-100, -3000, 3000]), (2, 1804));
}

/// Left sides of 8,191 and 8,192 made up by 32 members, and of 0.
#[test]
fn most_members() {
    for (others, last, mask) in [(UNIT - 255, -1, 1 << 31), (255 - UNIT, 1, u32::MAX >> 1)] {
        let mut spins = [others; DEGREE_LIMIT];
        spins[31] = last * (UNIT - 286);
        assert_eq!(cut_at(&spins), (mask, 1));
        spins[31] -= last;
        assert_eq!(cut_at(&spins), (0, 0));
    }
    for ones in 0..=DEGREE_LIMIT {
        let corner: Vec<i32> = (0..DEGREE_LIMIT).map(|k| if k < ones { -UNIT } else { UNIT }).collect();
        let set = ((1u64 << ones) - 1) as u32;
        assert_eq!(cut_at(&corner), if ones % 2 == 1 { (set, 8192) } else { (0, 0) });
    }
}

#[test]
fn search_finds_the_depth_that_was_made() {
    let mut edges = [0; 3];
    for (decoder, mut rng) in each(13, 3_000) {
        let most_bits = rng.pick(&[3, 10, 60]);
        let code = code::random(&mut rng, most_bits);
        let table = Table::parse(&code).unwrap();
        let (check, depth) = (rng.below(table.checks()), frame::depth(&mut rng));
        let mut point = frame::point(&mut rng, table.bits);
        frame::cut_so_deep(&mut rng, table.members_of(check), depth, &mut point);
        let found = decoder.search_cut(&code, &point, check).unwrap();
        assert_eq!(found.map_or(0, |cut| cut.depth), depth as u32, "{}", decoder.name());
        for (edge, seen) in [0, 1, FACET].into_iter().zip(&mut edges) {
            *seen += u32::from(depth == edge);
        }
    }
    assert!(edges.into_iter().all(|seen| seen >= 500), "{edges:?}");
}

/// A run from its start, among numbers of anything: depths after each of these calls.
fn depths(decoder: &dyn Decoder, code: &[u8], frame: &[i16], calls: &[u32]) -> (Record, Vec<Vec<u32>>) {
    let shape = Shape::of(code).unwrap();
    let mut state = State::random(&mut Rng::new(14), &shape);
    let mut record = decoder.start(code, state.lend_all().for_start()).unwrap();
    let call = |&wanted: &u32| {
        record = decoder.rounds(code, frame, record, wanted, state.lend_all()).record;
        state.depths.lent()[..shape.checks].to_vec()
    };
    let left = calls.iter().map(call).collect();
    (record, left)
}

/// Two checks of two members. v in round 1: (0, 3000) and (3000, −4000); in round 2: (1500, 2500) and
/// (4500, −4500); in round 3: (2000, 2000), whose cut is gone, and (6000, −4000).
#[test]
fn round_by_round() {
    let (code, frame) = (bytes_of(3, &[vec![0, 1], vec![1, 2]]), [0, 6000, -4000]);
    let rounds = [[3000, 7000], [1000, 8192], [0, 8096]];
    let certified = Record { rounds: 3, status: Record::CERTIFIED };
    for decoder in ALL {
        assert_eq!(depths(decoder, &code, &frame, &[1, 1, 1]), (certified, rounds.map(Vec::from).to_vec()));
        // A call leaves those of its last round; one for no round, those that were there.
        assert_eq!(depths(decoder, &code, &frame, &[2, 0, 1]).1, [rounds[1], rounds[1], rounds[2]]);
        assert_eq!(depths(decoder, &code, &frame, &[1, 2]).1, [rounds[0], rounds[2]]);
        assert_eq!(depths(decoder, &code, &frame, &[ROUND_LIMIT]).1, [rounds[2]]);
    }
}

#[test]
fn least_and_greatest_in_a_round() {
    for (frame, depth) in [
        (&[1365, 1365, -1367][..], 1),
        (&[1365, 1365, -1366], 0),
        (&[8191, 8191, -8191], 8192),
        (&[8191, -4096, -8191], 0),
        (&[0, 0, 0], 0),
        (&[-8191], 8192),
        (&[4095], 1),
        (&[4096], 0),
        (&[8191], 0),
    ] {
        let code = if frame.len() == 3 { three_bits() } else { bytes_of(1, &[vec![0]]) };
        for decoder in ALL {
            assert_eq!(depths(decoder, &code, frame, &[1]).1, [[depth]], "{frame:?}, {}", decoder.name());
        }
    }
}

/// A call for no round, and one that is refused, leave whatever stands in the depths, also what no round leaves.
#[test]
fn anything_may_be_lent() {
    let (code, frame) = (three_bits(), [4000, 4000, -2000]);
    for decoder in ALL {
        for junk in [1, 8193, u32::MAX] {
            let mut state = State::zeroed(&Shape::of(&code).unwrap());
            state.depths.lent_mut()[0] = junk;
            let before = state.clone();
            let mut call = |wanted| decoder.rounds(&code, &frame, Record::FRESH, wanted, state.lend_all());
            assert_eq!(call(0), Called::done(Record::FRESH));
            assert_eq!(call(1025), Called::refused(Refusal(17), Record::FRESH));
            assert_eq!(before.differing(&state), None, "{}", decoder.name());
            decoder.rounds(&code, &frame, Record::FRESH, 1, state.lend_all());
            assert_eq!(state.depths.lent(), [5904], "{}", decoder.name());
        }
    }
}

/// v clipped on a check's edges after a round, where it is copy plus offset.
fn clipped(table: &Table, state: &State, check: usize) -> Vec<i32> {
    let edges = table.row(check).map(|edge| state.copies.lent()[edge] + state.offsets.lent()[edge]);
    edges.map(|v| v.clamp(-UNIT, UNIT)).collect()
}

/// 2U less the left side of the set's inequality.
fn lack(values: &[i32], mask: u32) -> i32 {
    let term = |(place, v): (usize, &i32)| if mask >> place & 1 == 1 { UNIT + v } else { UNIT - v };
    FACET - values.iter().enumerate().map(term).sum::<i32>()
}

/// What the last round left for a check is what its inequality lacks, and what the cut search says of v clipped.
fn assert_of_cut(
    decoder: &dyn Decoder,
    code: &[u8],
    table: &Table,
    state: &State,
    check: usize,
) -> Option<Cut> {
    let values = clipped(table, state, check);
    let (mask, depth) = (state.masks.lent()[check], state.depths.lent()[check]);
    let cut = (mask != 0).then(|| Cut { mask, depth: lack(&values, mask) as u32 });
    assert_eq!(cut.map_or(0, |cut| cut.depth), depth, "{}", decoder.name());
    let mut point = vec![0; table.bits];
    table.members_of(check).iter().zip(values).for_each(|(&bit, v)| point[usize::from(bit)] = v);
    assert_eq!(decoder.search_cut(code, &point, check), Ok(cut), "{}", decoder.name());
    cut
}

/// On runs from their start and half-done ones; what is past the checks stays.
#[test]
fn each_is_what_its_inequality_lacks() {
    let (mut cuts, mut lost) = (0, 0);
    for (decoder, mut rng) in each(15, 300) {
        let most_bits = rng.pick(&[3, 8, 20]);
        let code = code::random(&mut rng, most_bits);
        let table = Table::parse(&code).unwrap();
        let frame = frame::valid(&mut rng, &table);
        let mut state = State::random(&mut rng, &Shape::of_table(&table));
        let rounds = rng.pick(&[0, 0, 1, 100, ROUND_LIMIT - 1]);
        state.half_done(&mut rng, &table, rounds);
        let past = state.depths.lent()[table.checks()..].to_vec();
        let mut record = Record { rounds, status: Record::RUNNING };
        let mut before = vec![None; table.checks()];
        for wanted in [1, 1, 1, 1, 7, 1, 60, ROUND_LIMIT] {
            if record.status != Record::RUNNING {
                break;
            }
            record = decoder.rounds(&code, &frame, record, wanted, state.lend_all()).record;
            for (check, before) in before.iter_mut().enumerate() {
                let cut = assert_of_cut(decoder, &code, &table, &state, check);
                cuts += u32::from(cut.is_some());
                lost += u32::from(before.is_some() && cut.is_none());
                *before = cut;
            }
        }
        assert_eq!(state.depths.lent()[table.checks()..], past, "{}", decoder.name());
    }
    assert!(cuts >= 5_000 && lost >= 500, "{cuts} and {lost}");
}

/// The runs of a series leave depths of every kind, and take some away.
#[test]
fn series_has_them() {
    let (mut least, mut greatest, mut lost) = (0, 0, 0);
    for case in make::series(1, 20_000) {
        let Case::Run(mut run) = case else { continue };
        let Ok(shape) = Shape::of(&run.code) else { continue };
        let mut before = vec![0; shape.checks];
        if run.start.is_some() {
            run.record = Independent.start(&run.code, run.state.lend_all().for_start()).unwrap();
        }
        for (wanted, lengths) in run.calls {
            let lent = run.state.lend(&lengths);
            let called = Independent.rounds(&run.code, &run.frame, run.record, wanted, lent);
            if called.record.rounds > run.record.rounds {
                let depths = run.state.depths.lent()[..shape.checks].to_vec();
                least += depths.iter().filter(|depth| **depth == 1).count();
                greatest += depths.iter().filter(|depth| **depth == 8192).count();
                lost += before.iter().zip(&depths).filter(|(was, is)| **was > 0 && **is == 0).count();
                before = depths;
            }
            run.record = called.record;
        }
    }
    assert!(least >= 100 && greatest >= 1_000 && lost >= 100, "{least}, {greatest} and {lost}");
}
