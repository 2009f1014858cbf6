//! `jugnayap code`: what a code is like; and alist to code file and back.

use std::collections::BTreeMap;
use std::ffi::OsStr;

use jugnayap::Code;

use super::arguments::{Arguments, Command};
use super::errors::{Failure, Status};
use super::inputs::{read_code, Source};
use super::outputs::{clash, Output};

pub const COMMAND: Command = Command {
    name: "code",
    operands: &["FILE"],
    flags: &[],
    valued: &[("--alist", "a file"), ("--code", "a file")],
    help: include_str!("help/code.txt"),
    run,
};

fn run(arguments: &Arguments) -> Result<Status, Failure> {
    let input = arguments.operand(0);
    let [alist, file] = ["--alist", "--code"].map(|option| arguments.value(option));
    let written: Vec<&OsStr> = alist.into_iter().chain(file).collect();
    if let Some(message) = clash(&[input], &written) {
        return Err(arguments.usage(message));
    }
    let code = read_code(&mut Source::open(input, "an alist or a code file")?)?;
    if let Some(operand) = alist {
        write(operand, code.to_alist().as_bytes())?;
    }
    if let Some(operand) = file {
        write(operand, code.file())?;
    }
    if !written.contains(&OsStr::new("-")) {
        write(OsStr::new("-"), description(&code).as_bytes())?;
    }
    Ok(Status::Done)
}

fn write(operand: &OsStr, bytes: &[u8]) -> Result<(), Failure> {
    let mut output = Output::create(operand)?;
    output.write(bytes)?;
    output.flush()
}

fn description(code: &Code) -> String {
    let (bits, checks) = (code.bits(), code.checks());
    let check_degrees: Vec<usize> = (0..checks).map(|check| code.members(check).len()).collect();
    let mut text = format!("bits {bits} checks {checks} edges {}\n", code.edges());
    text += &degrees("bits", code.bit_degrees());
    text += &degrees("checks", check_degrees.iter().copied());
    // An empty check asks nothing of the bits. Checks that follow from others make it higher.
    let information = bits.saturating_sub(check_degrees.iter().filter(|&&degree| degree > 0).count());
    text + &format!("rate at least {information}/{bits} = {:.4}\n", information as f64 / bits as f64)
}

/// How many have each degree.
fn degrees(of: &str, degrees: impl IntoIterator<Item = usize>) -> String {
    let mut counts = BTreeMap::<usize, usize>::new();
    for degree in degrees {
        *counts.entry(degree).or_default() += 1;
    }
    counts.iter().map(|(degree, count)| format!("{of} of degree {degree}: {count}\n")).collect()
}
