//! Code: the description, and both forms of a code.

use super::support::{sample, Folder, ONE};

#[test]
fn the_description() {
    let folder = Folder::with_sample("hamming");
    let text = "bits 7 checks 3 edges 12\nbits of degree 1: 3\nbits of degree 2: 3\nbits of degree 3: 1\n\
                checks of degree 4: 3\nrate at least 4/7 = 0.5714\n";
    folder.run("code code.alist").says(0, text);
    folder.run("code code.code").says(0, text);
    folder.run_on(folder.read("code.code"), "code -").says(0, text);
    folder.run_on(ONE, "code -").says(
        0,
        "bits 1 checks 1 edges 1\nbits of degree 1: 1\nchecks of degree 1: 1\nrate at least 0/1 = 0.0000\n",
    );
}

/// A check without members is a line like the others, and takes nothing from the rate.
#[test]
fn empty_checks() {
    let alist = "3 3\n1 3\n1 1 1\n0 3 0\n2\n2\n2\n0 0 0\n1 2 3\n0 0 0\n";
    let file = "\x03\0\x03\0\0\0\0\0\0\0\x03\0\x03\0\0\0\0\0\x01\0\x02\0";
    let folder = Folder::with(&[("alist", alist), ("file", file), ("frames", "4000 4000 -2000\n")]);
    let text = "bits 3 checks 3 edges 3\nbits of degree 1: 3\nchecks of degree 0: 2\nchecks of degree 3: 1\n\
                rate at least 2/3 = 0.6667\n";
    folder.run("code alist").says(0, text);
    folder.run("code file").says(0, text);
    folder.run("code alist --code -").says_bytes(file.as_bytes());
    folder.run("code file --alist -").says_bytes(alist.as_bytes());
    let report = "bits 3 checks 3 edges 3\nframe 0 certified 3 6000 1\n";
    for code in ["alist", "file"] {
        folder.run(&format!("decode {code} frames --quiet --words w --certificates c")).says(0, report);
        assert_eq!((folder.text("w").as_str(), folder.text("c").as_str()), ("000\n", "scale 1 1:3333:4\n"));
        folder
            .run(&format!("judge {code} frames w c --quiet"))
            .says(0, "frame 0 certified sole\nframes 1 certified 1 gap 0 broken 0 refused 0 none 0 sole 1\n");
    }
    folder.write("c", "scale 1 0:1:1\n");
    folder
        .run("judge alist frames w c --quiet")
        .says(1, "frame 0 refused 13\nframes 1 certified 0 gap 0 broken 0 refused 1 none 0 sole 0\n");
}

#[test]
fn both_forms() {
    for name in ["hamming", "array", "regular"] {
        let (alist, file) = (sample(name, "code.alist"), sample(name, "code.code"));
        let folder = Folder::with_sample(name);
        folder.run("code code.alist --code -").says_bytes(&file);
        folder.run("code code.code --alist -").says_bytes(&alist);
        let done = folder.run("code code.code --alist a --code=c");
        assert!(done.text().starts_with("bits "));
        assert_eq!((folder.read("a"), folder.read("c")), (alist, file));
    }
}

#[test]
fn alists_as_they_come() {
    let folder = Folder::new();
    for front in ["\u{feff}", "\u{feff}# one bit\n", "# für ein Bit\n", "#ü\n", "\n\n", "%\t"] {
        let one = ONE.replace('\n', "\r\n");
        folder.write("code", format!("{front}\n{one}"));
        let done = folder.run("code code");
        assert_eq!(done.status, 0, "{front:?}: {}", done.errors);
    }
}

#[test]
fn what_is_no_code() {
    let folder =
        Folder::with(&[("text", "3 1\n1 3\n1 1\n"), ("file", "\x03\0\x01\0\0\0\x21\0"), ("empty", "")]);
    folder.run("code text").fails(1, "jugnayap: text:3: 2 column weights, 3 wanted");
    folder
        .run("code file --alist out")
        .fails(1, "jugnayap: file: as a code file it is refused 3: a check's count above 32");
    assert!(!folder.has("out"));
    folder
        .run("code empty")
        .fails(1, "jugnayap: empty: as a code file it is refused 1: code file under 4 bytes");
    folder.write("long", "1 ".repeat(1 << 24));
    folder
        .run("code long")
        .fails(1, "jugnayap: long: more than 16777216 bytes, an alist of a code within the limits wanted");
}
