//! The forms that an alist may have, and codes that come back from their alist.

use std::fs;
use std::path::PathBuf;

use jugnayap::{limits, Code};

use crate::gen::{Rng, Table};

/// The (7,4) Hamming code: lines 5 to 11 are columns, 12 to 14 rows.
pub const HAMMING: &str = "\
7 3
3 4
1 1 2 1 2 2 3
4 4 4
1 0 0
2 0 0
1 2 0
3 0 0
1 3 0
2 3 0
1 2 3
1 3 5 7
2 3 6 7
4 5 6 7
";

fn hamming() -> Code {
    Code::from_checks(7, &[[0, 2, 4, 6], [1, 2, 5, 6], [3, 4, 5, 6]]).unwrap()
}

fn assert_hamming(text: &str) {
    assert_eq!(Code::from_alist(text.as_bytes()), Ok(hamming()), "{text:?}");
}

/// The Hamming code's alist with each line, by its number, turned into another.
fn dressed(line: impl Fn(usize, &str) -> String) -> String {
    HAMMING.lines().enumerate().map(|(place, text)| line(place + 1, text)).collect()
}

#[test]
fn padded_as_usual() {
    assert_hamming(HAMMING);
    assert_eq!(hamming().to_alist(), HAMMING);
}

#[test]
fn padded_with_any_number_of_zeros() {
    for zeros in [0, 1, 2, 5, 3000] {
        assert_hamming(&dressed(|number, line| {
            let bare = if number > 4 { line.trim_end_matches(" 0") } else { line };
            let zeros = if number > 4 { zeros } else { 0 };
            bare.to_string() + &" 0".repeat(zeros) + "\n"
        }));
    }
}

#[test]
fn comments() {
    assert_hamming(&dressed(|number, line| match number % 4 {
        0 => format!("# 7 3\n{line} # 1 // 2 % 3\n"),
        1 => format!("{line}#sizes\n%\n"),
        2 => format!(" \t// 9 9 9\n{line}% 0 0 # é\n"),
        _ => format!("{line}//0\n"),
    }));
}

#[test]
fn blank_lines_anywhere() {
    for place in 1..=14 {
        for blank in ["\n", " \t \n", "\r\n\n"] {
            assert_hamming(&dressed(|number, line| {
                let before = if number == place { blank } else { "" };
                format!("{before}{line}\n")
            }));
        }
    }
    assert_hamming(&(HAMMING.to_string() + "\n\n \n"));
}

#[test]
fn byte_order_mark_and_line_ends() {
    assert_hamming(&format!("\u{feff}{HAMMING}"));
    assert_hamming(&format!("\u{feff}\r\n{}", dressed(|_, line| format!("{line}\r\n"))));
    assert_hamming(&dressed(|_, line| format!("\t{}  \n", line.replace(' ', " \t "))));
    assert_hamming(HAMMING.trim_end());
}

/// Four of six rows are empty: lines 8, 10, 11 and 13.
pub const SHORTENED: &str = "\
3 6
2 3
1 2 2
0 3 0 0 2 0
2 0
2 5
2 5
0 0 0
1 2 3
0 0 0
0 0 0
2 3 0
0 0 0
";

/// An empty row's line has zeros, any number of them, or nothing, or is not there.
#[test]
fn empty_rows() {
    let checks: [&[u16]; 6] = [&[], &[0, 1, 2], &[], &[], &[1, 2], &[]];
    let code = Code::from_checks(3, &checks).unwrap();
    assert_eq!(code.to_alist(), SHORTENED);
    let forms = ["0 0 0\n", "0\n", "0 0 0 0 0 0 0\r\n", "\n", " \r\n\n", "", "# none\n", "// 0\n0 % 1\n"];
    let mut rng = Rng::new(7);
    for _ in 0..500 {
        let line = |(place, line): (usize, &str)| match place + 1 {
            8 | 10 | 11 | 13 => forms[rng.between(0, forms.len() - 1)].to_string(),
            _ => format!("{line}\n"),
        };
        let text: String = SHORTENED.lines().enumerate().map(line).collect();
        assert_eq!(Code::from_alist(text.as_bytes()), Ok(code.clone()), "{text}");
    }
}

#[test]
fn lists_in_any_order() {
    let mut rng = Rng::new(1);
    for _ in 0..50 {
        let code = Table::random(&mut rng, 9, 7).code();
        let alist = code.to_alist();
        let shuffled = |(place, line): (usize, &str)| {
            let mut words: Vec<&str> = line.split(' ').filter(|&word| word != "0").collect();
            if place >= 4 {
                rng.shuffle(&mut words);
            }
            words.join(" ") + "\n"
        };
        let text: String = alist.lines().enumerate().map(shuffled).collect();
        assert_ne!(text, alist);
        assert_eq!(Code::from_alist(text.as_bytes()), Ok(code));
    }
}

/// What the generated codes reached, so that none of the limits goes untried.
#[derive(Debug, Default, PartialEq)]
struct Reached {
    bits: usize,
    checks: usize,
    edges: usize,
    check_degrees: Vec<bool>,
    bit_degrees: Vec<bool>,
}

impl Reached {
    fn note(&mut self, code: &Code) {
        self.bits = self.bits.max(code.bits());
        self.checks = self.checks.max(code.checks());
        self.edges = self.edges.max(code.edges());
        let check_degrees = (0..code.checks()).map(|check| code.members(check).len());
        mark(&mut self.check_degrees, check_degrees);
        mark(&mut self.bit_degrees, code.bit_degrees().into_iter());
    }
}

fn mark(seen: &mut Vec<bool>, degrees: impl Iterator<Item = usize>) {
    seen.resize(limits::DEGREE + 1, false);
    degrees.for_each(|degree| seen[degree] = true);
}

#[test]
fn generated_codes_come_back() {
    let mut rng = Rng::new(2);
    let mut reached = Reached::default();
    for checks in [1, 2, 3, 8, 40, 300, limits::CHECKS] {
        for most in [1, 2, 6, 20, limits::DEGREE] {
            for most_empty in [0, 0, 2, 100] {
                let code = Table::random(&mut rng, checks, most).with_empty(&mut rng, most_empty).code();
                reached.note(&code);
                let alist = code.to_alist();
                assert_eq!(Code::from_alist(alist.as_bytes()).unwrap(), code);
                assert_eq!(Code::from_alist(alist.as_bytes()).unwrap().to_alist(), alist);
            }
        }
    }
    let check_degrees = vec![true; limits::DEGREE + 1];
    let mut bit_degrees = check_degrees.clone();
    bit_degrees[0] = false;
    let (bits, checks, edges) = (limits::BITS, limits::CHECKS, limits::EDGES);
    assert_eq!(reached, Reached { bits, checks, edges, check_degrees, bit_degrees });
}

#[test]
fn samples_are_their_code_files() {
    let samples = concat!(env!("CARGO_MANIFEST_DIR"), "/../samples");
    let entries = fs::read_dir(samples).unwrap().map(|entry| entry.unwrap().path());
    let folders: Vec<PathBuf> = entries.filter(|path| path.is_dir()).collect();
    assert!(folders.len() >= 5, "{folders:?}");
    for folder in folders {
        let [alist, file] = ["code.alist", "code.code"].map(|file| fs::read(folder.join(file)).unwrap());
        let code = Code::from_alist(&alist).unwrap();
        assert_eq!(code.file(), file, "{folder:?}");
        assert_eq!(code.to_alist().as_bytes(), alist, "{folder:?}");
    }
}
