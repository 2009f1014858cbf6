//! `jugnayap certificates`: from text to binary form and back.

use std::fmt::Display;

use jugnayap::Certificate;

use super::arguments::{Arguments, Command};
use super::errors::{Failure, Status};
use super::inputs::{Certificates, Claim, NO_CERTIFICATE};
use super::outputs::{clash, Output};

pub const COMMAND: Command = Command {
    name: "certificates",
    operands: &["FILE", "OUT"],
    flags: &[],
    valued: &[],
    help: include_str!("help/certificates.txt"),
    run,
};

fn run(arguments: &Arguments) -> Result<Status, Failure> {
    let (input, output) = (arguments.operand(0), arguments.operand(1));
    if let Some(message) = clash(&[input], &[output]) {
        return Err(arguments.usage(message));
    }
    let mut certificates = Certificates::open(input, 0)?;
    let mut output = Output::create(output)?;
    let converted = convert(&mut certificates, &mut output);
    let flushed = output.flush();
    converted.and(flushed)?;
    Ok(Status::Done)
}

fn convert(certificates: &mut Certificates, output: &mut Output) -> Result<(), Failure> {
    let to_binary = certificates.is_text();
    let mut number = 0;
    while certificates.advance()? {
        let refuse = |what: &str| Err(Failure::Input(format!("{}: {what}", certificates.place(number))));
        let certificate = match certificates.claim() {
            Claim::Absent => None,
            Claim::Is(bytes) => match Certificate::from_bytes(bytes) {
                Ok(_) if bytes == NO_CERTIFICATE => {
                    return refuse("scale 0 and no entries, which in binary form is none")
                }
                Ok(certificate) => Some(certificate),
                Err(_) => return refuse("cut short, or more than 4096 entries"),
            },
        };
        let item = certificate.as_ref().map(|one| (one as &dyn Display, one.bytes()));
        output.write_item(item, to_binary, &NO_CERTIFICATE)?;
        number += 1;
    }
    Ok(())
}
