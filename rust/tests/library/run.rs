//! Runs, round by round and whole.

use jugnayap::{Answer, Code, Cut, Refusal, Run, Verdict};

use crate::gen::{frame, small, Rng};

/// Three checks in a ring: (30, 30, -31) is certified, a frame of zeros is spent.
fn ring() -> Code {
    Code::from_checks(3, &[[0, 1], [1, 2], [0, 2]]).unwrap()
}

/// All that a run shows.
type View<'r> = (u32, [&'r [i32]; 4], [&'r [u32]; 3]);

fn view<'r>(run: &'r Run) -> View<'r> {
    let edges_and_bits = [run.spins(), run.copies(), run.offsets(), run.sums()];
    (run.rounds_done(), edges_and_bits, [run.multipliers(), run.masks(), run.depths()])
}

/// The first reference frame, after its first round.
#[test]
fn shows_what_a_round_leaves() {
    let code = Code::from_checks(3, &[[0, 1, 2]]).unwrap();
    let mut run = Run::start(&code);
    run.rounds(&[4000, 4000, -2000], 1).unwrap();
    let (spins, copies, offsets) = ([4000, 4000, -2000], [2032, 2032, -32], [1968, 1968, -1968]);
    let left: View = (1, [&spins, &copies, &offsets, &[64, 64, 1936]], [&[1968], &[4], &[5904]]);
    assert_eq!(view(&run), left);
}

/// The same frame with an empty check on either side.
#[test]
fn empty_checks_have_no_cut() {
    let checks: [&[u16]; 3] = [&[], &[0, 1, 2], &[]];
    let code = Code::from_checks(3, &checks).unwrap();
    let (mut run, frame) = (Run::start(&code), [4000, 4000, -2000]);
    let Answer::Certified(found) = run.rounds(&frame, 1024).unwrap() else { panic!("spent") };
    assert_eq!((found.rounds, found.word.to_string().as_str()), (3, "000"));
    assert_eq!(found.certificate.to_string(), "scale 1 1:3333:4");
    assert_eq!((run.multipliers(), run.masks()), (&[0, 3333, 0][..], &[0, 4, 0][..]));
    assert_eq!(run.depths(), [0, 4794, 0]);
    assert_eq!(code.search_cut(&[-4096, 4096, 4096], 2), Ok(None));
    let verdict = code.judge(&frame, &found.word, &found.certificate);
    assert_eq!(verdict, Ok(Verdict::Certified { sole: true }));
    for (entry, refusal) in
        [("0:1:1", Refusal::ENTRY_MASK), ("2:1:0", Refusal::ENTRY_MASK), ("0:0:1", Refusal::ENTRY)]
    {
        let certificate = format!("scale 1 {entry}").parse().unwrap();
        assert_eq!(code.judge(&frame, &found.word, &certificate), Err(refusal), "{entry}");
    }
}

/// Two checks of two members, whose depth is how far v clipped is apart on them: (0, 3000) and (3000, -4000),
/// then (1500, 2500) and (4096, -4096), then (2000, 2000), which is no cut, and (4096, -4000).
#[test]
fn depths_follow_the_cuts() {
    let code = Code::from_checks(3, &[[0, 1], [1, 2]]).unwrap();
    let mut run = Run::start(&code);
    for depths in [[3000, 7000], [1000, 8192], [0, 8096]] {
        run.rounds(&[0, 6000, -4000], 1).unwrap();
        assert_eq!(run.depths(), depths);
    }
}

#[test]
fn depths_of_the_cut_search() {
    let code = Code::from_checks(4, &[vec![0, 1, 2], vec![3]]).unwrap();
    for (spins, cuts) in [
        ([1365, 1365, -1366, 4096], [None, None]),
        ([1365, 1365, -1367, 4095], [Some((4, 1)), Some((1, 1))]),
        ([4096, -4096, 4096, -4096], [Some((2, 8192)), Some((1, 8192))]),
        ([-4096, -3000, -2000, 0], [Some((7, 5000)), Some((1, 4096))]),
    ] {
        let expected = cuts.map(|cut| Ok(cut.map(|(mask, depth)| Cut { mask, depth })));
        assert_eq!([0, 1].map(|check| code.search_cut(&spins, check)), expected, "{spins:?}");
    }
}

/// Calls for the rounds given by `wanted` until the run ends.
fn to_the_end(run: &mut Run, frame: &[i16], mut wanted: impl FnMut() -> u32) -> Answer {
    loop {
        let (before, wanted) = (run.rounds_done(), wanted());
        let answer = run.rounds(frame, wanted).unwrap();
        if answer != Answer::Running {
            return answer;
        }
        assert_eq!(run.rounds_done(), before + wanted);
    }
}

/// Each bit's sum of copies less offsets, added up edge by edge.
fn added_up(run: &Run) -> Vec<i32> {
    let code = run.code();
    let mut sums = vec![0; code.bits()];
    let edges = (0..code.checks()).flat_map(|check| code.members(check));
    for (bit, (copy, offset)) in edges.zip(run.copies().iter().zip(run.offsets())) {
        sums[usize::from(bit)] += copy - offset;
    }
    sums
}

#[test]
fn sums_are_true_after_every_call() {
    let mut rng = Rng::new(7);
    let (mut certified, mut spent) = (0, 0);
    for _ in 0..100 {
        let code = small(&mut rng);
        let frame = frame(&mut rng, code.bits(), 20, 900);
        let mut run = Run::start(&code);
        let mut answer = Answer::Running;
        while answer == Answer::Running {
            assert_eq!(run.sums(), added_up(&run));
            answer = run.rounds(&frame, rng.between(0, 40) as u32).unwrap();
        }
        assert_eq!(run.sums(), added_up(&run));
        match answer {
            Answer::Certified(_) => certified += 1,
            _ => spent += 1,
        }
    }
    assert!(certified >= 20 && spent >= 5, "{certified} certified, {spent} spent");
}

/// However a run's rounds are called for, its answer is that of one call, and so is what it leaves.
#[test]
fn rounds_add_up() {
    let mut rng = Rng::new(4);
    let (mut certified, mut spent) = (0, 0);
    for _ in 0..300 {
        let code = small(&mut rng);
        let mean = [0, 20, 900][rng.between(0, 2)];
        let frame = frame(&mut rng, code.bits(), mean, mean + 5);
        let answer = code.decode(&frame).unwrap();
        let mut runs = [Run::start(&code), Run::start(&code), Run::start(&code)];
        assert_eq!(runs[0].rounds(&frame, 1024).unwrap(), answer);
        assert_eq!(to_the_end(&mut runs[1], &frame, || 1), answer);
        assert_eq!(to_the_end(&mut runs[2], &frame, || rng.between(0, 40) as u32), answer);
        assert_eq!([view(&runs[1]), view(&runs[2])], [view(&runs[0]), view(&runs[0])]);
        match answer {
            Answer::Certified(found) => {
                assert_eq!(found.rounds, runs[1].rounds_done());
                certified += 1;
            }
            _ => spent += 1,
        }
    }
    assert!(certified >= 50 && spent >= 20, "{certified} certified, {spent} spent");
}

#[test]
fn ended_runs_refuse_and_stay() {
    let code = ring();
    for (frame, rounds) in [([30, 30, -31], 1..1024), ([0, 0, 0], 1024..1025)] {
        let mut run = Run::start(&code);
        assert_ne!(run.rounds(&frame, 1024), Ok(Answer::Running));
        assert!(rounds.contains(&run.rounds_done()), "{}", run.rounds_done());
        let ended = run.clone();
        for wanted in [0, 1, 1024] {
            assert_eq!(run.rounds(&frame, wanted), Err(Refusal::ENDED));
        }
        assert_eq!(view(&run), view(&ended));
    }
}

#[test]
fn refused_calls_and_calls_for_no_round_change_nothing() {
    let code = ring();
    let mut run = Run::start(&code);
    assert_eq!(run.rounds(&[30, 30, -31], 1), Ok(Answer::Running));
    let before = run.clone();
    assert_eq!(run.rounds(&[30, 30], 1), Err(Refusal::FRAME_LENGTH));
    assert_eq!(run.rounds(&[30, 30, -8192], 1), Err(Refusal::FRAME_NUMBER));
    assert_eq!(run.rounds(&[30, 30, -31], 1025), Err(Refusal::REQUEST));
    assert_eq!(run.rounds(&[30, 30, -31], 0), Ok(Answer::Running));
    assert_eq!(view(&run), view(&before));
}

#[test]
fn restarted_is_fresh() {
    let mut rng = Rng::new(5);
    let code = small(&mut rng);
    let mut run = Run::start(&code);
    for _ in 0..40 {
        let frame = frame(&mut rng, code.bits(), 900, 1200);
        let wanted = rng.between(1, 1024) as u32;
        let answer = run.rounds(&frame, wanted).unwrap();
        assert_eq!(Run::start(&code).rounds(&frame, wanted), Ok(answer));
        run.restart();
        assert_eq!(view(&run), view(&Run::start(&code)));
    }
    let zeros = vec![0; code.edges()];
    let (bits, checks) = (&zeros[..code.bits()], vec![0; code.checks()]);
    assert_eq!(view(&run), (0, [bits, &zeros, &zeros, bits], [&checks[..]; 3]));
}

/// What a certified run shows is what it answers.
#[test]
fn certificate_is_the_last_round_s_cuts() {
    let mut rng = Rng::new(6);
    let mut cuts = 0;
    for _ in 0..100 {
        let code = small(&mut rng);
        let mut run = Run::start(&code);
        let frame = frame(&mut rng, code.bits(), 900, 1500);
        let Answer::Certified(found) = run.rounds(&frame, 1024).unwrap() else { continue };
        let shown = run.multipliers().iter().zip(run.masks()).enumerate();
        let shown: Vec<String> = shown
            .filter(|(_, (&multiplier, _))| multiplier != 0)
            .map(|(check, (multiplier, mask))| format!("{check}:{multiplier}:{mask}"))
            .collect();
        let entries: Vec<String> = found.certificate.entries().map(|entry| entry.to_string()).collect();
        assert_eq!((entries, found.certificate.scale()), (shown, 1));
        let word: String = run.spins().iter().map(|spin| if *spin < 0 { '1' } else { '0' }).collect();
        assert_eq!(found.word.to_string(), word);
        cuts += found.certificate.cuts();
    }
    assert!(cuts >= 50, "{cuts}");
}
