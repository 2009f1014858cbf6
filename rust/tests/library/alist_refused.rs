//! Every refusal of an alist, with its line.

use jugnayap::Code;

use crate::alist::{HAMMING, SHORTENED};

fn assert_refused(text: impl AsRef<[u8]>, message: &str) {
    let error = Code::from_alist(text.as_ref()).expect_err(message);
    assert_eq!(error.to_string(), message);
}

/// The Hamming code's alist with one line in the place of another.
fn with_line(number: usize, text: &str) -> String {
    let mut lines: Vec<&str> = HAMMING.lines().collect();
    lines[number - 1] = text;
    lines.join("\n") + "\n"
}

fn line_refused(number: usize, text: &str, message: &str) {
    assert_refused(with_line(number, text), &format!("line {number}: {message}"));
}

/// The first lines of the Hamming code's alist.
fn up_to(lines: usize) -> String {
    HAMMING.split_inclusive('\n').take(lines).collect()
}

#[test]
fn sizes() {
    line_refused(1, "0 3", "0 bits, 1 to 2048 wanted");
    line_refused(1, "2049 3", "2049 bits, 1 to 2048 wanted");
    line_refused(1, "7 0", "0 checks, 1 to 2048 wanted");
    line_refused(1, "7 2049", "2049 checks, 1 to 2048 wanted");
    line_refused(1, "7", "1 number where N and M should stand");
    line_refused(1, "7 3 4", "3 numbers where N and M should stand (the field of a non-binary alist?)");
    line_refused(1, "7 3 4 4", "4 numbers where N and M should stand");
}

#[test]
fn weights() {
    line_refused(3, "1 1 2 1 2 2", "6 column weights, 7 wanted");
    line_refused(3, "1 1 2 1 2 2 3 1", "8 column weights, 7 wanted");
    line_refused(4, "4", "1 row weight, 3 wanted");
    line_refused(3, "1 1 2 0 2 2 3", "column 4 has weight 0, 1 to 32 wanted");
    line_refused(3, "1 1 2 1 2 2 33", "column 7 has weight 33, 1 to 32 wanted");
    line_refused(4, "4 33 4", "row 2 has weight 33, 0 to 32 wanted");
}

#[test]
fn greatest_weights() {
    let wanted = "the greatest column weight and the greatest row weight";
    line_refused(2, "3", &format!("1 number where {wanted} should stand"));
    line_refused(2, "4 4", "4 for the greatest column weight, which is 3");
    line_refused(2, "2 4", "2 for the greatest column weight, which is 3");
    line_refused(2, "3 3", "3 for the greatest row weight, which is 4");
    line_refused(2, "3 5", "5 for the greatest row weight, which is 4");
}

#[test]
fn sums() {
    line_refused(4, "4 4 3", "the row weights add up to 11, the column weights to 12");
    line_refused(4, "0 4 4", "the row weights add up to 8, the column weights to 12");
    let none = with_line(4, "0 0 0").replace("\n3 4\n", "\n3 0\n");
    assert_refused(none, "line 4: the row weights add up to 0, the column weights to 12");
    let text = with_line(3, "1 1 2 1 2 1 3");
    assert_refused(text, "line 4: the row weights add up to 12, the column weights to 11");
}

#[test]
fn edges() {
    let weights = |count: usize, last: usize| format!("{}{last}\n", "32 ".repeat(count));
    let alist = |last| format!("257 257\n32 32\n{}", weights(256, last).repeat(2));
    assert_refused(alist(32), "line 4: 8224 edges, at most 8192 wanted");
    assert_refused(alist(1), "line 4: 8193 edges, at most 8192 wanted");
}

#[test]
fn lengths_of_lists() {
    line_refused(5, "1 2", "2 numbers for column 1, 1 wanted");
    line_refused(5, "0", "0 numbers for column 1, 1 wanted");
    line_refused(7, "2 0 0", "1 number for column 3, 2 wanted");
    line_refused(7, "1 0 2", "3 numbers for column 3, 2 wanted");
    line_refused(12, "1 3 5", "3 numbers for row 1, 4 wanted");
    line_refused(14, "4 5 6 7 1 0", "5 numbers for row 3, 4 wanted");
}

/// A line with other numbers than zeros is never an empty row's, but the next row's.
#[test]
fn lines_of_empty_rows() {
    let with = |number: usize, text: &str| {
        let mut lines: Vec<&str> = SHORTENED.lines().collect();
        lines[number - 1] = text;
        lines.join("\n") + "\n"
    };
    assert_refused(with(8, "1 0 0"), "line 8: 1 number for row 2, 3 wanted");
    assert_refused(with(8, "0 0 1"), "line 8: row 2 lists column 0, 1 to 3 wanted");
    assert_refused(with(8, "none"), "line 8: \"none\" is not a whole number");
    assert_refused(with(10, "1 2 3"), "line 10: 3 numbers for row 5, 2 wanted");
    assert_refused(with(13, "3"), "line 13: numbers after the last row");
    assert_refused(with(13, "0\n0"), "line 14: numbers after the last row");
    // One line of zeros too many in front of a row that has members.
    assert_refused(with(8, "0\n0"), "line 9: 0 numbers for row 2, 3 wanted");
    assert_refused(with(9, "# row 2"), "line 10: 0 numbers for row 2, 3 wanted");
    let ended: String = SHORTENED.split_inclusive('\n').take(8).collect();
    assert_refused(ended, "line 8: the file ends where the list of row 2 should stand");
    // Of a column, no line and no weight may be missing.
    assert_refused(with(5, "0 0"), "line 5: 0 numbers for column 1, 1 wanted");
    assert_refused(with(3, "0 2 3"), "line 3: column 1 has weight 0, 1 to 32 wanted");
}

#[test]
fn items() {
    line_refused(7, "1 4 0", "column 3 lists row 4, 1 to 3 wanted");
    line_refused(7, "0 2 0", "column 3 lists row 0, 1 to 3 wanted");
    line_refused(11, "1 2 1", "column 7 lists row 1 twice");
    line_refused(13, "2 3 6 8", "row 2 lists column 8, 1 to 7 wanted");
    line_refused(13, "2 0 6 7", "row 2 lists column 0, 1 to 7 wanted");
    line_refused(13, "2 2 6 7", "row 2 lists column 2 twice");
}

#[test]
fn disagreement_of_the_halves() {
    line_refused(12, "1 3 6 7", "row 1 lists column 6, but column 6 (line 10) does not list row 1");
    let spaced = with_line(7, "1 3 0").replace("\n2 0 0", "\n# column 2\n2 0 0");
    assert_refused(spaced, "line 14: row 2 lists column 3, but column 3 (line 8) does not list row 2");
}

#[test]
fn early_ends() {
    for (lines, wanted) in [
        (1, "the greatest column weight and the greatest row weight"),
        (2, "the column weights"),
        (3, "the row weights"),
        (4, "the list of column 1"),
        (10, "the list of column 7"),
        (11, "the list of row 1"),
        (13, "the list of row 3"),
    ] {
        let message = format!("line {lines}: the file ends where {wanted} should stand");
        assert_refused(up_to(lines), &message);
        assert_refused(up_to(lines).trim_end(), &message);
    }
    assert_refused("", "line 1: the file ends where N and M should stand");
    assert_refused("# nothing\n\n", "line 2: the file ends where N and M should stand");
}

#[test]
fn more_after_the_end() {
    assert_refused(format!("{HAMMING}\n1 2 3 # ones\n"), "line 16: numbers after the last row");
    assert_refused(format!("{HAMMING}0\n"), "line 15: numbers after the last row");
    assert_refused(format!("{HAMMING}end\n"), "line 15: \"end\" is not a whole number");
}

#[test]
fn words_that_are_no_numbers() {
    for word in ["seven", "7.0", "1_0", "-7", "+7", "0x7", "7/", "/", "７", "7;"] {
        line_refused(1, &format!("{word} 3"), &format!("{word:?} is not a whole number"));
    }
    line_refused(6, "2 0 \u{7}", "\"\\u{7}\" is not a whole number");
    assert_refused("7\u{feff} 3\n", "line 1: \"7\\u{feff}\" is not a whole number");
}

#[test]
fn huge_numbers() {
    let cut = "\"99999999999999999999...\" is not a whole number";
    line_refused(1, &format!("{} 3", "9".repeat(5000)), cut);
    line_refused(12, &format!("1 3 5 {}", "9".repeat(21)), cut);
    line_refused(1, "18446744073709551616 3", "\"18446744073709551616\" is not a whole number");
    // What is 7, 4 or 1 in 16 bits.
    line_refused(1, "65543 3", "65543 bits, 1 to 2048 wanted");
    line_refused(4, "4 4 65540", "row 3 has weight 65540, 0 to 32 wanted");
    line_refused(5, "65537 0 0", "column 1 lists row 65537, 1 to 3 wanted");
}

#[test]
fn bytes_that_are_no_text() {
    let mut bytes = with_line(8, "3 0 ?").into_bytes();
    let place = bytes.iter().position(|&byte| byte == b'?').unwrap();
    bytes[place] = 233;
    assert_refused(&bytes, "line 8: byte 233 is not plain text");
    // In a comment too.
    bytes[place - 2] = b'#';
    assert_refused(&bytes, "line 8: byte 233 is not plain text");
    assert_refused([0xff, 0xfe, b'7', 0], "line 1: byte 255 is not plain text");
}

/// Lines are those of the file, blank ones and comments too.
#[test]
fn lines_are_counted_from_the_top() {
    let text = format!("\u{feff}# Hamming\r\n\r\n{}", with_line(4, "4 4\r").replace("7 3\n", "7 3\n\n// \n"));
    assert_refused(text, "line 8: 2 row weights, 3 wanted");
}

#[test]
fn no_other_number_slips_through() {
    for (place, line) in HAMMING.lines().enumerate() {
        let words: Vec<&str> = line.split(' ').collect();
        for changed in 0..words.len() {
            for other in ["0", "1", "2", "3", "5", "8"] {
                let mut words = words.clone();
                if std::mem::replace(&mut words[changed], other) != other {
                    let text = with_line(place + 1, &words.join(" "));
                    assert!(Code::from_alist(text.as_bytes()).is_err(), "{text}");
                }
            }
        }
    }
}
