//! Scaled frames.

use jugnayap::{limits, scale, Answer, Code, Refusal, Verdict};

use crate::gen::{frame, small, Rng};

#[test]
fn greatest_at_the_ends() {
    for (frame, greatest) in [
        (&[][..], 1023),
        (&[0, 0], 1023),
        (&[1], 1023),
        (&[8, -3], 1023),
        (&[-9, 1], 910),
        (&[4095], 2),
        (&[-4096], 1),
        (&[8191, 0], 1),
        (&[-8191], 1),
        (&[8192], 1),
        (&[0, i16::MAX], 1),
        (&[-32768], 1),
    ] {
        assert_eq!(scale::greatest(frame), greatest, "{frame:?}");
    }
}

#[test]
fn times_at_the_ends() {
    for (scale, frame, scaled) in [
        (1, [0, 8191, -8191, -32768, 32767], [0, 8191, -8191, -32768, 32767]),
        (1023, [0, 8, -8, 32, -32], [0, 8184, -8184, 32736, -32736]),
        (2, [0, 16383, -16384, 16384, -16385], [0, 32766, -32768, 32767, -32768]),
        (65535, [0, 1, -1, 32767, -32768], [0, 32767, -32768, 32767, -32768]),
        (0, [0, 1, -1, 32767, -32768], [0; 5]),
    ] {
        assert_eq!(scale::times(scale, &frame), scaled, "{scale} times {frame:?}");
    }
}

#[test]
fn greatest_is_the_greatest() {
    let mut rng = Rng::new(7);
    let within = |frame: &[i16]| frame.iter().all(|number| number.unsigned_abs() <= 8191);
    let mut below = 0;
    for _ in 0..1000 {
        let reach = rng.between(1, 8191) as i16 >> rng.between(0, 12);
        let frame = frame(&mut rng, 3, 0, reach);
        let k = scale::greatest(&frame);
        assert!(within(&scale::times(k, &frame)), "{frame:?}");
        if k < limits::SCALE {
            assert!(!within(&scale::times(k + 1, &frame)), "{frame:?}");
            below += 1;
        }
    }
    assert!((100..1000).contains(&below), "{below}");
}

/// A frame out of range stays so.
#[test]
fn too_large_a_frame_is_refused() {
    let code = Code::from_checks(2, &[[0, 1]]).unwrap();
    for number in [8192, -8192, i16::MAX, i16::MIN] {
        let frame = [number, 1];
        let scaled = scale::times(scale::greatest(&frame), &frame);
        assert_eq!(code.decode(&scaled), Err(Refusal::FRAME_NUMBER), "{number}");
    }
}

/// A certificate of a frame k times as large is one of the frame, at scale k, and mostly at no other.
#[test]
fn scaled_certificates_are_the_frame_s() {
    let mut rng = Rng::new(8);
    let (mut certified, mut sole, mut with_cuts, mut unscaled) = (0, 0, 0, 0);
    let passes = |verdict| matches!(verdict, Ok(Verdict::Certified { .. }));
    for _ in 0..400 {
        let code = small(&mut rng);
        let mean = rng.between(0, 12) as i16;
        let frame = frame(&mut rng, code.bits(), mean, 12);
        let k = scale::greatest(&frame);
        let scaled = scale::times(k, &frame);
        let Answer::Certified(found) = code.decode(&scaled).unwrap() else { continue };
        let verdict = code.judge(&frame, &found.word, &found.certificate.at_scale(k));
        assert!(passes(verdict), "{verdict:?}: {frame:?} {}", found.certificate);
        assert_eq!(verdict, code.judge(&scaled, &found.word, &found.certificate));
        let agreements = [&frame, &scaled].map(|frame| code.agreement(frame, &found.word).unwrap());
        assert_eq!(agreements[1], i64::from(k) * agreements[0]);
        certified += 1;
        sole += usize::from(verdict == Ok(Verdict::Certified { sole: true }));
        with_cuts += usize::from(found.certificate.cuts() > 0);
        unscaled += usize::from(passes(code.judge(&frame, &found.word, &found.certificate)));
    }
    assert!(certified >= 200 && with_cuts >= 100, "{certified} certified, {with_cuts} with cuts");
    assert!(sole >= 100, "{sole} sole of {certified}");
    assert!(unscaled < certified - 100, "{unscaled} of {certified} at scale 1 too");
}
