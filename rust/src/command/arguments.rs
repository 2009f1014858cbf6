//! The arguments of a command: operands, flags, and options with a value.

use std::ffi::{OsStr, OsString};
use std::os::unix::ffi::OsStrExt;
use std::str::FromStr;

use super::errors::{Failure, Status};

/// A command: what it takes, what `--help` prints, and what it does.
pub struct Command {
    pub name: &'static str,
    pub operands: &'static [&'static str],
    pub flags: &'static [&'static str],
    /// Options with a value, and what the value is called.
    pub valued: &'static [(&'static str, &'static str)],
    pub help: &'static str,
    pub run: fn(&Arguments) -> Result<Status, Failure>,
}

/// What a command was given, as many operands as it takes.
pub struct Arguments {
    command: &'static Command,
    operands: Vec<OsString>,
    options: Vec<(&'static str, OsString)>,
}

impl Arguments {
    /// The arguments; none if help was asked for.
    pub fn parse(command: &'static Command, given: &[OsString]) -> Result<Option<Arguments>, Failure> {
        let mut parsed = Arguments { command, operands: Vec::new(), options: Vec::new() };
        let mut rest = given.iter();
        while let Some(argument) = rest.next() {
            match argument.as_bytes() {
                b"--help" | b"-h" => return Ok(None),
                b"--" => parsed.operands.extend(rest.by_ref().cloned()),
                [b'-', _, ..] => parsed.take_option(argument, &mut rest)?,
                _ => parsed.operands.push(argument.clone()),
            }
        }
        parsed.refuse_operands()?;
        Ok(Some(parsed))
    }

    fn take_option<'a>(
        &mut self,
        argument: &OsStr,
        rest: &mut impl Iterator<Item = &'a OsString>,
    ) -> Result<(), Failure> {
        let bytes = argument.as_bytes();
        let end = bytes.iter().position(|&byte| byte == b'=').unwrap_or(bytes.len());
        let (name, inside) = (&bytes[..end], bytes.get(end + 1..).map(OsStr::from_bytes));
        let is = |known: &str| known.as_bytes() == name;
        let option = if let Some(&flag) = self.command.flags.iter().find(|flag| is(flag)) {
            if inside.is_some() {
                return Err(self.usage(format!("{flag} takes no value")));
            }
            (flag, OsString::new())
        } else if let Some(&(option, value)) = self.command.valued.iter().find(|valued| is(valued.0)) {
            let value = match inside {
                Some(value) => value.to_owned(),
                None => next_value(rest).ok_or_else(|| self.usage(format!("{option} needs {value}")))?,
            };
            (option, value)
        } else {
            return Err(self.usage(format!("there is no option {}", String::from_utf8_lossy(name))));
        };
        if self.value(option.0).is_some() {
            return Err(self.usage(format!("{} is given twice", option.0)));
        }
        self.options.push(option);
        Ok(())
    }

    fn refuse_operands(&self) -> Result<(), Failure> {
        let wanted = self.command.operands;
        if let Some(missing) = wanted.get(self.operands.len()) {
            return Err(self.usage(format!("{missing} is missing, {} wanted", wanted.join(" "))));
        }
        match self.operands.get(wanted.len()) {
            None => Ok(()),
            Some(surplus) => {
                let found = surplus.to_string_lossy();
                Err(self.usage(format!("{found:?} is too much, {} wanted", wanted.join(" "))))
            }
        }
    }

    /// Arguments that make no sense.
    pub fn usage(&self, message: String) -> Failure {
        let name = self.command.name;
        Failure::Usage(format!("{name}: {message} (jugnayap {name} --help tells more)"))
    }

    pub fn operand(&self, place: usize) -> &OsStr {
        &self.operands[place]
    }

    pub fn has(&self, flag: &str) -> bool {
        self.value(flag).is_some()
    }

    pub fn value(&self, option: &str) -> Option<&OsStr> {
        self.options.iter().find(|given| given.0 == option).map(|given| given.1.as_os_str())
    }

    /// An option's value, read as a number that fits.
    pub fn number<T: FromStr>(
        &self,
        option: &str,
        wanted: &str,
        fits: impl Fn(&T) -> bool,
    ) -> Result<Option<T>, Failure> {
        let Some(value) = self.value(option) else { return Ok(None) };
        match value.to_str().and_then(|text| text.parse().ok()).filter(fits) {
            Some(number) => Ok(Some(number)),
            None => Err(self.usage(format!("{option} is {:?}, {wanted} wanted", value.to_string_lossy()))),
        }
    }
}

/// An option in a value's place is none: its value was forgotten.
fn next_value<'a>(rest: &mut impl Iterator<Item = &'a OsString>) -> Option<OsString> {
    rest.next().filter(|value| !value.as_bytes().starts_with(b"--")).cloned()
}
