//! A receiver at work: results come before more frames are waited for, and no input fills the memory.

use std::io::{BufRead, BufReader, Write};
use std::process::Stdio;

use super::support::{Folder, THREE};

/// Sends frame after frame, each when the line of the last one has come.
fn answered(arguments: &str, frame: &[u8], first: Option<&str>, line: &str) {
    let folder = Folder::with(&[("code", THREE), ("w", &"000\n".repeat(3)), ("c", &"scale 1\n".repeat(3))]);
    let mut command = folder.command(arguments);
    let mut child = command.stdin(Stdio::piped()).stdout(Stdio::piped()).spawn().unwrap();
    let (mut input, output) = (child.stdin.take().unwrap(), child.stdout.take().unwrap());
    let mut lines = BufReader::new(output).lines().map(Result::unwrap);
    if first.is_some() {
        assert_eq!(lines.next().as_deref(), first);
    }
    for number in 0..3 {
        input.write_all(frame).unwrap();
        assert_eq!(lines.next().unwrap(), format!("frame {number} {line}"));
    }
    drop(input);
    assert!(child.wait().unwrap().success());
}

#[test]
fn each_frame_is_answered_before_the_next() {
    let (code, line) = (Some("bits 3 checks 1 edges 3"), "certified 1 30 0");
    answered("decode code - --quiet", b"10 10 10\n", code, line);
    answered("decode code - --quiet --gain 10", b"1 1 1\r\n", code, line);
    answered("decode code - --quiet --binary", &[10, 0, 10, 0, 10, 0], code, line);
    answered("judge code - w c", b"10 10 10\n", None, "certified sole");
    answered("judge code - w c --binary", &[10, 0, 10, 0, 10, 0], None, "certified sole");
}

#[test]
fn memory_does_not_grow_with_the_frames() {
    let folder = Folder::with(&[("code", THREE), ("sent", &"110\n".repeat(1_000_000))]);
    // Some 16 MB of addresses: 4 for the program, and less than a number for each frame.
    let line = "yes '10 10 10' | head -n 1000000 | (ulimit -v 16000; exec $JUGNAYAP decode code - --quiet \
                --report r --words w --certificates c --sent sent --wrong wrong) && tail -n 1 r";
    let done = folder.shell(line).output().unwrap();
    assert_eq!(String::from_utf8(done.stdout).unwrap(), "frame 999999 certified 1 30 0\n");
}
