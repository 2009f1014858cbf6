//! Frames of small numbers, scaled without loss.

use crate::limits;

/// The greatest scale, 1 to 1,023, at which a frame's numbers are still within the limit; 1 if none is.
///
/// A frame l that is run k times as large gives a certificate at scale 1. With its scale set to k it is a
/// certificate of l: the judge's answer, its mark included, is proved to be the same.
///
/// ```
/// use jugnayap::{scale, Answer, Code, Verdict};
/// let code = Code::from_checks(3, &[[0, 1, 2]])?;
/// let frame = [40, 40, -20];
/// let k = scale::greatest(&frame);
/// assert_eq!(k, 204);
/// let Answer::Certified(found) = code.decode(&scale::times(k, &frame))? else { panic!("spent") };
/// let certificate = found.certificate.at_scale(k);
/// assert_eq!(certificate.to_string(), "scale 204 0:6202:4");
/// assert_eq!(code.judge(&frame, &found.word, &certificate)?, Verdict::Certified { sole: true });
/// # Ok::<(), jugnayap::Refusal>(())
/// ```
pub fn greatest(frame: &[i16]) -> u16 {
    let most = frame.iter().map(|number| number.unsigned_abs()).max().unwrap_or(0);
    let fits = limits::FRAME.unsigned_abs().checked_div(most).unwrap_or(limits::SCALE);
    fits.clamp(1, limits::SCALE)
}

/// The frame's numbers times a scale. What leaves 16 bits stays at their end, and so out of range.
pub fn times(scale: u16, frame: &[i16]) -> Vec<i16> {
    let scaled =
        |&number: &i16| (i32::from(number) * i32::from(scale)).clamp(i16::MIN.into(), i16::MAX.into());
    frame.iter().map(|number| scaled(number) as i16).collect()
}
