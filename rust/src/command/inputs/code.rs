//! The code: an alist or a code file.

use jugnayap::{limits, Code, Refusal};

use super::{is_text, Source};
use crate::command::errors::Failure;

/// Bytes of an alist, at most: many times what a code within the limits needs.
const LONGEST_ALIST: usize = 1 << 24;

/// The code of a whole input, an alist or a code file by its first bytes.
pub fn read_code(source: &mut Source) -> Result<Code, Failure> {
    if is_text(source.fill(4)?) {
        return read_alist(source);
    }
    // A byte behind the file's end is enough to show that it is too long.
    let length = length_announced(source)? + 1;
    let file = source.fill(length)?;
    accepted(file[..file.len().min(length)].to_vec(), source.name())
}

/// The code file in front of frames, as long as its contents say. Of one that can't be a code file no more
/// is read than shows it.
pub fn read_code_in_front(source: &mut Source) -> Result<Code, Failure> {
    source.read_ahead(false);
    let length = length_announced(source)?;
    let there = source.fill(length)?.len();
    let file = source.take(length.min(there));
    let code = accepted(source.bytes(file).to_vec(), source.name());
    source.read_ahead(true);
    code
}

fn accepted(file: Vec<u8>, name: &str) -> Result<Code, Failure> {
    Code::from_file(file).map_err(|refusal: Refusal| Failure::Refused { name: name.to_owned(), refusal })
}

fn read_alist(source: &mut Source) -> Result<Code, Failure> {
    let name = source.name().to_owned();
    let text = source.fill_to_end(LONGEST_ALIST)?;
    if text.len() > LONGEST_ALIST {
        return Err(Failure::Input(format!(
            "{name}: more than {LONGEST_ALIST} bytes, an alist of a code within the limits wanted"
        )));
    }
    Code::from_alist(text)
        .map_err(|error| Failure::Input(format!("{name}:{}: {}", error.line, error.message)))
}

/// The length of the code file as far as its bytes tell: the four in front tell of the contents, these of
/// the bodies. With more checks or edges than a code has, nothing is told of what follows.
fn length_announced(source: &mut Source) -> Result<usize, Failure> {
    let u16_at =
        |bytes: &[u8], place: usize| usize::from(u16::from_le_bytes([bytes[place], bytes[place + 1]]));
    let head = source.fill(4)?;
    if head.len() < 4 || u16_at(head, 2) > limits::CHECKS {
        return Ok(4);
    }
    let checks = u16_at(head, 2);
    let contents_end = 4 + 4 * checks;
    let contents = source.fill(contents_end)?;
    if contents.len() < contents_end {
        return Ok(contents_end);
    }
    let edges: usize = (0..checks).map(|check| u16_at(contents, 6 + 4 * check)).sum();
    Ok(if edges > limits::EDGES { contents_end } else { contents_end + 2 * edges })
}
