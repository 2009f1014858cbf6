//! The files that the commands write, and standard output.

use std::ffi::OsStr;
use std::fmt;
use std::fs::{self, File, Metadata};
use std::io::{self, BufWriter, IsTerminal, Write};
use std::os::fd::AsFd;
use std::os::unix::fs::MetadataExt;
use std::path::{Path, PathBuf};

use super::errors::Failure;
use super::inputs::NONE;

/// A file to write, or standard output.
pub struct Output {
    name: String,
    file: BufWriter<File>,
    terminal: bool,
}

impl Output {
    /// Creates a file, or takes standard output for `-`.
    pub fn create(operand: &OsStr) -> Result<Output, Failure> {
        let standard = operand == "-";
        let name = if standard { "standard output".into() } else { operand.to_string_lossy().into_owned() };
        let created = if standard { duplicate(io::stdout()) } else { File::create(operand) };
        let file = created.map_err(|error| Failure::device(&name, &error))?;
        let terminal = standard && file.is_terminal();
        Ok(Output { name, file: BufWriter::with_capacity(1 << 16, file), terminal })
    }

    pub fn write(&mut self, bytes: &[u8]) -> Result<(), Failure> {
        self.file.write_all(bytes).map_err(|error| Failure::device(&self.name, &error))
    }

    pub fn write_line(&mut self, line: fmt::Arguments) -> Result<(), Failure> {
        writeln!(self.file, "{line}").map_err(|error| Failure::device(&self.name, &error))
    }

    /// A word or a certificate, its text in a line or its bytes; or what stands where there is none.
    pub fn write_item(
        &mut self,
        item: Option<(&dyn fmt::Display, &[u8])>,
        binary: bool,
        absent: &[u8],
    ) -> Result<(), Failure> {
        match item {
            Some((_, bytes)) if binary => self.write(bytes),
            Some((text, _)) => self.write_line(format_args!("{text}")),
            None if binary => self.write(absent),
            None => self.write_line(format_args!("{NONE}")),
        }
    }

    pub fn flush(&mut self) -> Result<(), Failure> {
        self.file.flush().map_err(|error| Failure::device(&self.name, &error))
    }

    pub fn is_terminal(&self) -> bool {
        self.terminal
    }
}

fn duplicate(stream: impl AsFd) -> io::Result<File> {
    Ok(File::from(stream.as_fd().try_clone_to_owned()?))
}

/// What tells a file from others. Devices and pipes may be named twice.
#[derive(PartialEq, Eq)]
enum Identity {
    Device(u64, u64),
    NotThereYet(PathBuf),
}

fn regular(about: io::Result<Metadata>) -> Option<Identity> {
    let about = about.ok().filter(Metadata::is_file)?;
    Some(Identity::Device(about.dev(), about.ino()))
}

fn input_identity(operand: &OsStr) -> Option<Identity> {
    if operand == "-" {
        return regular(duplicate(io::stdin()).and_then(|file| file.metadata()));
    }
    regular(fs::metadata(operand))
}

fn output_identity(operand: &OsStr) -> Option<Identity> {
    if operand == "-" {
        return regular(duplicate(io::stdout()).and_then(|file| file.metadata()));
    }
    let path = Path::new(operand);
    if path.exists() {
        return regular(fs::metadata(path));
    }
    let folder = path.parent().filter(|folder| !folder.as_os_str().is_empty()).unwrap_or(Path::new("."));
    let folder = folder.canonicalize().ok()?;
    Some(Identity::NotThereYet(folder.join(path.file_name()?)))
}

/// Refuses an output that is an input, and two outputs that are one. Answers what is wrong.
pub fn clash(inputs: &[&OsStr], outputs: &[&OsStr]) -> Option<String> {
    let read: Vec<_> = inputs.iter().filter_map(|operand| input_identity(operand)).collect();
    let mut written = Vec::new();
    for &output in outputs {
        let name = output.to_string_lossy();
        if output == "-" && outputs.iter().filter(|other| **other == "-").count() > 1 {
            return Some("only one output can be standard output".into());
        }
        let Some(identity) = output_identity(output) else { continue };
        if read.contains(&identity) {
            return Some(format!("{name} is an input, and an output too"));
        }
        if written.contains(&identity) {
            return Some(format!("{name} is named for two outputs"));
        }
        written.push(identity);
    }
    None
}
