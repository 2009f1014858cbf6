//! The commands, and which of them the first argument names.

mod arguments;
mod certificates;
mod code;
mod decode;
mod decoder;
mod errors;
mod inputs;
mod judge;
mod outputs;
mod progress;
mod results;
mod summary;

use std::ffi::{OsStr, OsString};
use std::process::ExitCode;

use arguments::{Arguments, Command};
use errors::{Failure, Status};
use outputs::Output;

const COMMANDS: [&Command; 4] = [&decode::COMMAND, &judge::COMMAND, &code::COMMAND, &certificates::COMMAND];

const HELP: &str = include_str!("help/jugnayap.txt");
const VERSION: &str = concat!("jugnayap ", env!("CARGO_PKG_VERSION"), "\n");

pub fn run(given: Vec<OsString>) -> ExitCode {
    match perform(&given) {
        Ok(status) => status.into(),
        Err(failure) => failure.tell(),
    }
}

fn perform(given: &[OsString]) -> Result<Status, Failure> {
    let Some((first, rest)) = given.split_first() else {
        return Err(Failure::Usage("a command is wanted: decode, judge, code or certificates".into()));
    };
    match first.to_str() {
        Some("--help" | "-h") => return print(HELP),
        Some("--version" | "-V") => return print(VERSION),
        _ => {}
    }
    let Some(command) = COMMANDS.into_iter().find(|command| first == command.name) else {
        let found = first.to_string_lossy();
        return Err(Failure::Usage(format!(
            "{found:?} is no command, decode, judge, code or certificates wanted"
        )));
    };
    match Arguments::parse(command, rest)? {
        None => print(command.help),
        Some(arguments) => (command.run)(&arguments),
    }
}

fn print(text: &str) -> Result<Status, Failure> {
    let mut output = Output::create(OsStr::new("-"))?;
    output.write(text.as_bytes())?;
    output.flush()?;
    Ok(Status::Done)
}
