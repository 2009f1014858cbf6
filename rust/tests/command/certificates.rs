//! Certificates, from text to binary form and back.

use super::support::Folder;

#[test]
fn both_forms_of_a_sample() {
    let folder = Folder::with_sample("array");
    folder.run("decode code.code frames --binary --words w --certificates text");
    folder.run("decode code.code frames --binary --words w --certificates binary --binary-out");
    folder.run("certificates text -").says_bytes(&folder.read("binary"));
    folder.run("certificates binary -").says_bytes(&folder.read("text"));
    folder.run_on(folder.read("text"), "certificates - out").says(0, "");
    assert_eq!(folder.read("out"), folder.read("binary"));
    folder.run("certificates out back").says(0, "");
    assert_eq!(folder.read("back"), folder.read("text"));
}

#[test]
fn a_count_of_entries_that_reads_like_text() {
    // 115 entries begin like the text that begins with s.
    let entries: String = (0..115).map(|check| format!(" {check}:1:1")).collect();
    let text = format!("scale 99{entries}\nnone\nscale 1023\n");
    let folder = Folder::with(&[("text", &text)]);
    folder.run("certificates text binary").says(0, "");
    assert_eq!(folder.read("binary")[..4], [b's', 0, 99, 0]);
    folder.run("certificates binary -").says(0, &text);
}

#[test]
fn nothing_and_comments() {
    let folder = Folder::with(&[("text", "# none\r\n\r\n"), ("empty", "")]);
    folder.run("certificates text -").says(0, "");
    folder.run("certificates empty -").says(0, "");
}

#[test]
fn what_is_no_certificate() {
    let folder = Folder::with(&[("text", "scale 1\nscale 1 0:70000000000:1\n"), ("zero", "none\nscale 0\n")]);
    folder.run("certificates text -").fails(
        1,
        "jugnayap: text:2: \"70000000000\" where a multiplier should stand, a certificate or none wanted",
    );
    folder
        .run("certificates zero -")
        .fails(1, "jugnayap: zero:2: scale 0 and no entries, which in binary form is none");
    folder.write("cut", [0, 0, 1, 0, 1, 0, 1, 0, 0, 0]);
    folder.run("certificates cut -").fails(1, "jugnayap: cut: frame 1: cut short, or more than 4096 entries");
    folder.write("many", [&[1, 0x10, 1, 0][..], &[0; 10 * 4097]].concat());
    folder
        .run("certificates many -")
        .fails(1, "jugnayap: many: frame 0: cut short, or more than 4096 entries");
}
