//! Judge: what decode writes passes, and what is altered does not.

use super::support::{Done, Folder, THREE};

/// Document 01's frame (4000, 4000, -2000) and word 000, as often as there are certificates.
fn judged(words: &str, certificates: &str) -> Done {
    let frames = "4000 4000 -2000\n".repeat(certificates.lines().count());
    let files = [("code", THREE), ("frames", &frames), ("words", words), ("certificates", certificates)];
    Folder::with(&files).run("judge code frames words certificates")
}

/// Whether a frame's line calls it certified.
fn passes(line: &str) -> bool {
    line.ends_with(" certified") || line.ends_with(" certified sole")
}

#[test]
fn what_decode_writes_passes() {
    for (sample, form, total) in [
        ("hamming", "", "frames 40 certified 38 gap 0 broken 0 refused 0 none 2 sole 38"),
        ("array", "--binary", "frames 37 certified 33 gap 0 broken 0 refused 0 none 4 sole 20"),
        ("regular", "--binary", "frames 26 certified 23 gap 0 broken 0 refused 0 none 3 sole 21"),
    ] {
        let folder = Folder::with_sample(sample);
        for out in ["", "--binary-out"] {
            folder.run(&format!("decode code.code frames --words w --certificates c {form} {out}"));
            let done = folder.run(&format!("judge code.alist frames w c {form}"));
            assert_eq!((done.status, done.errors.as_str()), (0, ""));
            assert_eq!(done.text().lines().last(), Some(total));
            let report = folder.text("report.txt");
            for (said, reported) in done.text().lines().zip(report.lines().skip(1)) {
                assert_eq!(passes(said), reported.contains(" certified "), "{said} {reported}");
            }
            let sole = done.text().lines().filter(|line| line.ends_with(" certified sole")).count();
            assert!(total.ends_with(&format!(" sole {sole}")), "{sole}");
        }
    }
}

#[test]
fn each_answer_has_its_line() {
    let words = "000\n000\n000\n000\n100\n000\nnone\n000\n";
    let certificates = [
        "scale 1 0:1999:4",
        "scale 1 0:2000:4",
        "scale 1 0:4001:4",
        "scale 2 0:4000:4",
        "scale 1 0:2000:4",
        "scale 0 0:2000:4",
        "none",
        "scale 1 0:3333:4",
    ];
    judged(words, &certificates.join("\n")).says(
        1,
        "frame 0 gap 2\nframe 1 certified\nframe 2 gap 4\nframe 3 certified\nframe 4 breaks check 0\n\
         frame 5 refused 11\nframe 6 none\nframe 7 certified sole\n\
         frames 8 certified 3 gap 2 broken 1 refused 1 none 1 sole 1\n",
    );
}

/// The reduced numbers are 4000 times the scale less the multiplier, twice, and the multiplier less 2000 times the
/// scale. Where one is 0 the mark is missing, and the status is the same.
#[test]
fn sole_where_no_reduced_number_is_zero() {
    for (certificate, sole) in [
        ("scale 1 0:2000:4", false),
        ("scale 1 0:2001:4", true),
        ("scale 1 0:3999:4", true),
        ("scale 1 0:4000:4", false),
        ("scale 2 0:4000:4", false),
        ("scale 2 0:4001:4", true),
        ("scale 1023 0:4091999:4", true),
        ("scale 1023 0:4092000:4", false),
    ] {
        let (mark, count) = if sole { (" sole", 1) } else { ("", 0) };
        let total = format!("frames 1 certified 1 gap 0 broken 0 refused 0 none 0 sole {count}");
        judged("000\n", certificate).says(0, &format!("frame 0 certified{mark}\n{total}\n"));
    }
}

#[test]
fn refusals_by_number() {
    for (word, certificate, number) in [
        ("00", "scale 1", 15),
        ("0000", "scale 1", 15),
        ("000", "scale 1024", 11),
        ("000", "scale 1 1:5:1", 12),
        ("000", "scale 1 0:0:1", 12),
        ("000", "scale 1 0:5:3", 13),
        ("000", "scale 1 0:5:8", 13),
        ("000", "scale 1 0:5:4 0:5:1", 14),
    ] {
        let total = "frames 1 certified 0 gap 0 broken 0 refused 1 none 0 sole 0";
        judged(word, certificate).says(1, &format!("frame 0 refused {number}\n{total}\n"));
    }
}

#[test]
fn refused_frames_with_a_claim() {
    let folder =
        Folder::with(&[("code", THREE), ("words", "000\n000\n"), ("certificates", "scale 1\nscale 1\n")]);
    folder.write("frames", "9000 1 1\n1 1 1\n");
    let total = "frames 2 certified 1 gap 0 broken 0 refused 1 none 0 sole 1\n";
    let done = folder.run("judge code frames words certificates");
    done.says(1, &format!("frame 0 refused 9\nframe 1 certified sole\n{total}"));
    folder.write("frames", [1, 0, 1, 0, 1, 0, 1]);
    let done = folder.run("judge code frames words certificates --binary");
    done.says(1, &format!("frame 0 certified sole\nframe 1 refused 8\n{total}"));
}

#[test]
fn binary_claims_that_are_none_of_decode() {
    let folder = Folder::with(&[("code", THREE), ("frames", "4000 4000 -2000\n4000 4000 -2000\n")]);
    let certificate = [1, 0, 1, 0, 0, 0, 0xd0, 0x07, 0, 0, 4, 0, 0, 0];
    let too_many = [&[1, 0x10, 1, 0][..], &[0; 10 * 4097]].concat();
    let total = "frames 2 certified 1 gap 0 broken 0 refused 1 none 0 sole 0";
    let judge = |words: &[u8], certificates: &[u8], line: &str| {
        folder.write("w", words);
        folder.write("c", certificates);
        folder.run("judge code frames w c").says(1, &format!("{line}\n{total}\n"));
    };
    let twice = [certificate, certificate].concat();
    judge(&[0, 7, 0, 0, 0, 0], &twice, "frame 0 refused 15\nframe 1 certified");
    judge(&[0, 255, 0, 0, 0, 0], &twice, "frame 0 refused 15\nframe 1 certified");
    judge(&[0; 5], &twice, "frame 0 certified\nframe 1 refused 15");
    judge(&[0, 0, 0, 255, 255], &twice, "frame 0 certified\nframe 1 refused 15");
    judge(&[0; 6], &twice[..27], "frame 0 certified\nframe 1 refused 10");
    judge(&[0; 6], &twice[..17], "frame 0 certified\nframe 1 refused 10");
    judge(&[0; 6], &[&too_many[..], &certificate].concat(), "frame 0 refused 10\nframe 1 certified");
}

#[test]
fn an_altered_word_or_multiplier_fails() {
    let folder = Folder::with_sample("hamming");
    folder.run("decode code.alist frames --words w --certificates c");
    let (words, certificates) = (folder.text("w"), folder.text("c"));
    // Frame 4 and its certificate: scale 1, with three cuts.
    let altered = |text: &str, change: &dyn Fn(&str) -> String| -> String {
        let line = |(number, line): (usize, &str)| if number == 4 { change(line) } else { line.into() };
        text.lines().enumerate().map(line).collect::<Vec<_>>().join("\n")
    };
    let judge = |words: &str, certificates: &str| {
        folder.write("w", words);
        folder.write("c", certificates);
        let done = folder.run("judge code.alist frames w c");
        assert_eq!(done.status, 1);
        assert_eq!(done.text().lines().filter(|line| passes(line)).count(), 37);
        done.text().lines().nth(4).unwrap().to_owned()
    };
    let flipped = altered(&words, &|word| word.replace('0', "x").replace('1', "0").replace('x', "1"));
    assert!(judge(&flipped, &certificates).starts_with("frame 4 gap "), "all ones is a codeword");
    let broken = altered(&words, &|word| word[..6].to_owned() + if word.ends_with('0') { "1" } else { "0" });
    assert_eq!(judge(&broken, &certificates), "frame 4 breaks check 0");
    let raised = altered(&certificates, &|certificate| {
        let (front, mask) = certificate.rsplit_once(':').unwrap();
        format!("{front}999:{mask}")
    });
    assert!(judge(&words, &raised).starts_with("frame 4 gap "));
    let rescaled = altered(&certificates, &|certificate| certificate.replace("scale 1", "scale 99"));
    assert!(judge(&words, &rescaled).starts_with("frame 4 gap "));
}

#[test]
fn half_a_claim_is_bad_input() {
    judged("000\nnone\n", "none\nnone\n")
        .fails(1, "jugnayap: certificates:1: none, one for what words:1 has wanted");
    judged("000\n# the second\nnone\n", "scale 1\nscale 1\n")
        .fails(1, "jugnayap: words:3: none, one for what certificates:2 has wanted");
    let folder = Folder::with(&[("code", THREE), ("frames", "1 1 1\n"), ("c", "scale 1\n")]);
    folder.write("w", [255; 3]);
    folder.run("judge code frames w c").fails(1, "jugnayap: w: frame 0: none, one for what c:1 has wanted");
}

#[test]
fn files_of_different_lengths() {
    let folder =
        Folder::with(&[("code", THREE), ("frames", "1 1 1\n1 1 1\n"), ("w", "000\n"), ("c", "scale 1\n")]);
    let shorter = folder.run("judge code frames w c");
    shorter.says(1, "frame 0 certified sole\n");
    shorter.fails(1, "jugnayap: w: nothing for frame 1, which frames has");
    folder.write("w", "000\n000\n");
    folder.run("judge code frames w c").fails(1, "jugnayap: c: nothing for frame 1, which frames has");
    folder.write("c", "scale 1\nscale 1\n");
    folder.write("frames", "1 1 1\n");
    folder.run("judge code frames w c").fails(1, "jugnayap: frames: nothing for frame 1, which w has");
    assert_eq!(folder.run("judge code frames w c --count 1").status, 0);
}

#[test]
fn what_is_no_word_or_certificate_is_named_by_its_line() {
    judged("000\n012\n", "scale 1 0:2000:4\nscale 1\n")
        .fails(1, "jugnayap: words:2: \"012\", a word of 0s and 1s or none wanted");
    judged("000\n", "scale 1 0:2000\n").fails(
        1,
        "jugnayap: certificates:1: \"0:2000\" where CHECK:MULTIPLIER:MASK should stand, \
         a certificate or none wanted",
    );
}

#[test]
fn amplitudes_and_standard_input() {
    let folder = Folder::with(&[("code", THREE), ("words", "000\n"), ("certificates", "scale 1 0:2000:4\n")]);
    let certified = "frame 0 certified\nframes 1 certified 1 gap 0 broken 0 refused 0 none 0 sole 0\n";
    folder.run_on("4 4 -2\n", "judge code - words certificates --gain 1000").says(0, certified);
    folder.write("frames", "4000,4000,-2000");
    folder.run_on("000\n", "judge code frames - certificates").says(0, certified);
    folder.run_on("scale 1 0:2000:4\n", "judge code frames words -").says(0, certified);
    folder.run_on(THREE, "judge - frames words certificates").says(0, certified);
    let both =
        [&[3, 0, 1, 0, 0, 0, 3, 0, 0, 0, 1, 0, 2, 0][..], &[0xa0, 0x0f, 0xa0, 0x0f, 0x30, 0xf8]].concat();
    folder.run_on(both, "judge - - words certificates --binary").says(0, certified);
}

#[test]
fn a_refused_code() {
    let folder = Folder::with(&[("code", "\0"), ("frames", ""), ("w", ""), ("c", "")]);
    folder.run("judge code frames w c").says(1, "refused 1\n");
}
