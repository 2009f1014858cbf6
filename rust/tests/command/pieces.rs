//! --from and --count: pieces, put together, are the whole.

use super::support::{Done, Folder};

const PIECES: [&str; 5] =
    ["--count 10", "--from 10 --count 1", "--from 11 --count 0", "--from 11", "--from 1000 --count 9"];

/// Decodes, with the frames as a file or on standard input.
fn decode(folder: &Folder, piped: bool, options: &str) -> Done {
    let outputs = "--report r --words w --certificates c --quiet";
    match piped {
        true => folder.run_on(folder.read("frames"), &format!("decode code.alist - {outputs} {options}")),
        false => folder.run(&format!("decode code.alist frames {outputs} {options}")),
    }
}

fn results(folder: &Folder) -> [Vec<u8>; 3] {
    ["r", "w", "c"].map(|name| folder.read(name))
}

#[test]
fn pieces_are_the_whole() {
    for (sample, form) in [("hamming", ""), ("hamming", "--binary-out"), ("array", "--binary --binary-out")] {
        let folder = Folder::with_sample(sample);
        decode(&folder, false, form);
        let whole = results(&folder);
        assert_eq!(whole[0], folder.read("report.txt"));
        for piped in [false, true] {
            let mut together = [vec![], vec![], vec![]];
            for piece in PIECES {
                decode(&folder, piped, &format!("{form} {piece}"));
                for (all, part) in together.iter_mut().zip(results(&folder)) {
                    all.extend(part);
                }
            }
            assert!(together == whole, "{sample} {form} {piped}");
        }
    }
}

#[test]
fn frames_before_the_piece_are_not_read() {
    let folder = Folder::with_sample("hamming");
    let frames = format!("what\nis # this\n{}", folder.text("frames"));
    folder.write("frames", frames);
    let report = folder.run("decode code.alist frames --from 2 --count 2");
    report.says(0, "frame 2 certified 8 7900 3\nframe 3 spent 1024\n");
}

#[test]
fn a_refused_code_is_told_by_the_first_piece() {
    let folder = Folder::with(&[("code", "\0"), ("frames", "1\n")]);
    folder.run("decode code frames --count 1").says(1, "refused 1\n");
    let later = folder.run("decode code frames --from 1");
    later.says(1, "");
    later.fails(1, "jugnayap: code: as a code file it is refused 1: code file under 4 bytes");
}

#[test]
fn what_is_sent_is_counted_likewise() {
    let folder = Folder::with_sample("hamming");
    decode(&folder, false, "");
    // Another word for frames 3, 12 and 13.
    let words = folder.text("w");
    let changed: Vec<String> = words
        .lines()
        .enumerate()
        .map(|(number, word)| if [3, 12, 13].contains(&number) { "0".repeat(6) + "1" } else { word.into() })
        .collect();
    folder.write("sent", changed.join("\n"));
    let binary = |word: &String| match word.as_str() {
        "none" => vec![255; 7],
        word => word.bytes().map(|digit| digit - b'0').collect(),
    };
    folder.write("sent.bin", changed.iter().flat_map(binary).collect::<Vec<u8>>());
    for sent in ["sent", "sent.bin"] {
        let mut together = String::new();
        for piece in ["--count 12", "--from 12"] {
            let done = decode(&folder, false, &format!("--sent {sent} --wrong x {piece}"));
            assert_eq!(done.status, 0, "{}", done.errors);
            together += &folder.text("x");
        }
        assert_eq!(together, "3\n12\n13\n");
    }
}

#[test]
fn judge_takes_the_same_piece_of_all_files() {
    for (sample, form, binary_out) in [("hamming", "", ""), ("array", "--binary", "--binary-out")] {
        let folder = Folder::with_sample(sample);
        decode(&folder, false, &format!("{form} {binary_out}"));
        let judge = |piece: &str| folder.run(&format!("judge code.alist frames w c --quiet {form} {piece}"));
        let whole = judge("").text().to_owned();
        let (frames, _) = whole.rsplit_once("frames ").unwrap();
        let mut together = String::new();
        for piece in PIECES {
            let done = judge(piece);
            assert_eq!(done.status, 0, "{}", done.errors);
            together += done.text().rsplit_once("frames ").unwrap().0;
        }
        assert_eq!(together, frames);
    }
}
