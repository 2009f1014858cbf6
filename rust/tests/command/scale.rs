//! Frames of small numbers, as they are and run at a scale.

use super::support::{as_text, frames_of, sample, Folder};

/// The Hamming sample with numbers of at most 31.
fn small_frames() -> Vec<Vec<i16>> {
    let frames = frames_of(&sample("hamming", "frames.txt"));
    frames.into_iter().map(|frame| frame.into_iter().map(|number| number / 100).collect()).collect()
}

fn decode(frames: &[Vec<i16>], options: &str) -> (Folder, Vec<Vec<String>>) {
    let folder = Folder::with_sample("hamming");
    folder.write("frames", as_text(frames));
    let report =
        folder.run(&format!("decode code.alist frames --words w --certificates c --quiet {options}"));
    assert_eq!(report.status, 0);
    let lines = report.text().lines().skip(1);
    let parts = lines.map(|line| line.split(' ').map(str::to_owned).collect()).collect();
    (folder, parts)
}

#[test]
fn a_scaled_frame_is_decoded_as_its_multiple() {
    let frames = small_frames();
    let greatest = |frame: &Vec<i16>| 8191 / frame.iter().map(|number| number.abs()).max().unwrap();
    let scales: Vec<i16> = frames.iter().map(greatest).collect();
    let multiples: Vec<Vec<i16>> = frames
        .iter()
        .zip(&scales)
        .map(|(frame, scale)| frame.iter().map(|number| number * scale).collect())
        .collect();
    let (folder, scaled) = decode(&frames, "--scale auto");
    let (other, plain) = decode(&multiples, "--scale 1");
    assert_eq!(folder.text("w"), other.text("w"));
    let certificates = folder.text("c");
    for (number, (line, other_line)) in certificates.lines().zip(other.text("c").lines()).enumerate() {
        let scale = scales[number];
        assert!(scale >= 256);
        assert_eq!(line, other_line.replace("scale 1", &format!("scale {scale}")));
        let (mark, multiple) = (&scaled[number], &plain[number]);
        assert_eq!((&mark[..4], mark.get(5)), (&multiple[..4], multiple.get(5)));
        if let Some(agreement) = mark.get(4) {
            let whole: i64 = agreement.parse().unwrap();
            assert_eq!((whole * i64::from(scale)).to_string(), multiple[4]);
        }
    }
    assert!(scaled.iter().filter(|line| line[2] == "certified").count() > 30);
    let judged = folder.run("judge code.alist frames w c");
    assert_eq!(judged.status, 0, "{}", judged.text());
}

#[test]
fn frames_that_fill_the_range_and_bad_ones_stay() {
    let frames = vec![vec![8191, 99, 99, 99, 99, 99, 99], vec![9000, 1, 1, 1, 1, 1, 1], vec![0; 7]];
    let folder = Folder::with_sample("hamming");
    folder.write("frames", as_text(&frames));
    let scaled = folder.run("decode code.alist frames --scale auto --certificates c");
    assert_eq!(scaled.bytes, folder.run("decode code.alist frames").bytes);
    assert!(folder.text("c").starts_with("scale 1"));
    assert!(scaled.text().ends_with("frame 1 refused 9\nframe 2 spent 1024\n"));
}

#[test]
fn small_numbers_are_warned_of() {
    let folder = Folder::with_sample("hamming");
    let warning =
        "warning: 2 of the frames use less than a tenth of the range (no number beyond 819 either way): \
                   take a larger --gain, or --scale auto\n";
    folder.write("frames", "819 -819 1 1 1 1 1\n820 1 1 1 1 1 1\n1 1 1 1 1 1 1\n-820 1 1 1 1 1 1\n");
    assert!(folder.run("decode code.alist frames").errors.ends_with(warning));
    for option in ["--scale 1", "--scale auto", "--quiet"] {
        let errors = folder.run(&format!("decode code.alist frames {option}")).errors;
        assert!(!errors.contains("warning"), "{errors}");
    }
    // Refused frames are not meant: this is one of 820s, and the begin of one.
    folder.write("frames", [&[0x34, 0x03].repeat(7)[..], &[1, 0]].concat());
    let done = folder.run("decode code.alist frames --binary");
    assert!(done.text().ends_with("frame 1 refused 8\n") && !done.errors.contains("warning"), "{done:?}");
}

/// Frames that lean to the words found in a sample whose bits are all in three checks. Numbers of size 2 are
/// certified at once. Numbers of size 1 never move, unless they are run at a scale.
#[test]
fn numbers_below_the_degree() {
    let folder = Folder::with_sample("regular");
    folder.run("decode code.alist frames --binary --words words --quiet");
    let words = folder.text("words").replace("none\n", "");
    let count = words.lines().count();
    assert!(count > 20, "{count}");
    let decode = |size: i16, options: &str| {
        let number = |bit| if bit == b'0' { size } else { -size };
        let frames: Vec<Vec<i16>> = words.lines().map(|word| word.bytes().map(number).collect()).collect();
        folder.write("frames", as_text(&frames));
        folder.run(&format!("decode code.alist frames --words w {options}"))
    };
    let report = |mark: &str| {
        let lines: String = (0..count).map(|number| format!("frame {number} {mark}\n")).collect();
        format!("bits 504 checks 252 edges 1512\n{lines}")
    };
    decode(2, "").says(0, &report("certified 1 1008 0"));
    assert_eq!(folder.text("w"), words);
    decode(1, "").says(0, &report("spent 1024"));
    decode(1, "--scale auto").says(0, &report("certified 1 504 0"));
    assert_eq!(folder.text("w"), words);
}
