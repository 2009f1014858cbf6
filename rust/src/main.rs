//! The command `jugnayap`: the proved decoder and judge at a terminal.

mod command;

use std::process::ExitCode;

fn main() -> ExitCode {
    command::run(std::env::args_os().skip(1).collect())
}
