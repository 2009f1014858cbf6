//! alist, the text in which sparse parity-check codes are exchanged.
//!
//! N columns (bits) and M rows (checks), numbered from 1: a line N M; a line of the greatest column and row
//! weights; the N column weights; the M row weights; for each column a line of its rows; for each row a line
//! of its columns. Each list may be followed by zeros, any number of them. A row of weight 0, which shortening
//! leaves, has a line of zeros alone, or no line. Blank lines, comments (from `#`, `%` or `//` to the end of
//! the line) and a byte-order mark are passed over.

use std::fmt;

use crate::text::{counted, quoted, whole_number};
use crate::{limits, Code, Refusal};

/// Why a text is no alist of a code within the limits, and the line of the text that shows it.
#[derive(Clone, Debug, PartialEq, Eq)]
pub struct Error {
    /// The line, from 1.
    pub line: usize,
    /// What is wrong, without the line.
    pub message: String,
}

impl fmt::Display for Error {
    fn fmt(&self, f: &mut fmt::Formatter) -> fmt::Result {
        write!(f, "line {}: {}", self.line, self.message)
    }
}

impl std::error::Error for Error {}

/// A side of the table: what a line is called, what its numbers are called, and how few they may be.
struct Side {
    name: &'static str,
    listed: &'static str,
    least_weight: usize,
}

const COLUMN: Side = Side { name: "column", listed: "row", least_weight: 1 };
const ROW: Side = Side { name: "row", listed: "column", least_weight: 0 };

/// A line of numbers, with its number in the file.
struct Line {
    at: usize,
    numbers: Vec<usize>,
}

impl Line {
    fn refuse<T>(&self, message: String) -> Result<T, Error> {
        Err(Error { line: self.at, message })
    }
}

/// The list of a column or row, without the zeros behind it, and its line; an empty list may have none.
#[derive(Default)]
struct List {
    at: usize,
    items: Vec<usize>,
}

// ---- lines

/// A line up to its comment.
fn without_comment(line: &str) -> &str {
    let end = [line.find(['#', '%']), line.find("//")].into_iter().flatten().min();
    &line[..end.unwrap_or(line.len())]
}

fn parse_number(at: usize, word: &str) -> Result<usize, Error> {
    whole_number(word)
        .ok_or_else(|| Error { line: at, message: format!("{} is not a whole number", quoted(word)) })
}

/// The lines that have numbers, one after the other.
struct Lines<'t> {
    rest: std::iter::Enumerate<std::str::Split<'t, char>>,
    /// The next line, if it was looked at and left.
    left: Option<Result<Line, Error>>,
    last: usize,
}

impl<'t> Lines<'t> {
    fn of(text: &'t str) -> Lines<'t> {
        let text = text.strip_prefix('\u{feff}').unwrap_or(text);
        Lines { rest: text.split('\n').enumerate(), left: None, last: text.lines().count().max(1) }
    }

    fn next(&mut self) -> Option<Result<Line, Error>> {
        self.left.take().or_else(|| self.read())
    }

    fn read(&mut self) -> Option<Result<Line, Error>> {
        self.rest.by_ref().find_map(|(place, line)| {
            let mut words = without_comment(line).split_ascii_whitespace().peekable();
            words.peek()?;
            let at = place + 1;
            let numbers: Result<_, Error> = words.map(|word| parse_number(at, word)).collect();
            Some(numbers.map(|numbers| Line { at, numbers }))
        })
    }

    fn take(&mut self, wanted: &str) -> Result<Line, Error> {
        let last = self.last;
        let ended = || Error { line: last, message: format!("the file ends where {wanted} should stand") };
        self.next().unwrap_or_else(|| Err(ended()))
    }

    /// Takes the next line if it has nothing but zeros.
    fn pass_zeros(&mut self) {
        match self.next() {
            Some(Ok(line)) if line.numbers.iter().all(|&number| number == 0) => {}
            other => self.left = other,
        }
    }

    fn refuse_more(&mut self) -> Result<(), Error> {
        match self.next() {
            None => Ok(()),
            Some(line) => line?.refuse("numbers after the last row".into()),
        }
    }
}

/// The text, or the line of the first byte that is none.
fn as_text(bytes: &[u8]) -> Result<&str, Error> {
    std::str::from_utf8(bytes).map_err(|error| {
        let place = error.valid_up_to();
        let line = 1 + bytes[..place].iter().filter(|&&byte| byte == b'\n').count();
        Error { line, message: format!("byte {} is not plain text", bytes[place]) }
    })
}

// ---- alist to table

/// The code of an alist.
pub fn read(bytes: &[u8]) -> Result<Code, Error> {
    let mut lines = Lines::of(as_text(bytes)?);
    let (columns, rows) = read_sizes(&mut lines)?;
    let greatest = read_pair(&mut lines, "the greatest column weight and the greatest row weight")?;
    let column_weights = read_weights(&mut lines, &COLUMN, columns)?;
    let row_weights = read_weights(&mut lines, &ROW, rows)?;
    refuse_greatest(&greatest, &column_weights, &row_weights)?;
    refuse_edges(&column_weights, &row_weights)?;
    let of_columns = read_lists(&mut lines, &COLUMN, &column_weights.numbers, rows)?;
    let of_rows = read_lists(&mut lines, &ROW, &row_weights.numbers, columns)?;
    lines.refuse_more()?;
    refuse_disagreement(&of_columns, &of_rows)?;
    let checks: Vec<Vec<u16>> = of_rows.iter().map(members).collect();
    Code::from_checks(columns, &checks)
        .map_err(|refusal: Refusal| Error { line: 1, message: format!("as a code file it is {refusal}") })
}

fn members(list: &List) -> Vec<u16> {
    let mut bits: Vec<u16> = list.items.iter().map(|&column| (column - 1) as u16).collect();
    bits.sort_unstable();
    bits
}

fn read_pair(lines: &mut Lines, wanted: &str) -> Result<Line, Error> {
    let line = lines.take(wanted)?;
    match line.numbers.len() {
        2 => Ok(line),
        3 => line.refuse(format!("3 numbers where {wanted} should stand (the field of a non-binary alist?)")),
        count => line.refuse(format!("{} where {wanted} should stand", counted(count, "number"))),
    }
}

fn read_sizes(lines: &mut Lines) -> Result<(usize, usize), Error> {
    let line = read_pair(lines, "N and M")?;
    let (columns, rows) = (line.numbers[0], line.numbers[1]);
    for (name, number, limit) in [("bits", columns, limits::BITS), ("checks", rows, limits::CHECKS)] {
        if !(1..=limit).contains(&number) {
            return line.refuse(format!("{number} {name}, 1 to {limit} wanted"));
        }
    }
    Ok((columns, rows))
}

fn read_weights(lines: &mut Lines, side: &Side, count: usize) -> Result<Line, Error> {
    let name = side.name;
    let line = lines.take(&format!("the {name} weights"))?;
    if line.numbers.len() != count {
        return line
            .refuse(format!("{}, {count} wanted", counted(line.numbers.len(), &format!("{name} weight"))));
    }
    let wrong = |weight: &usize| !(side.least_weight..=limits::DEGREE).contains(weight);
    match line.numbers.iter().position(wrong) {
        None => Ok(line),
        Some(place) => line.refuse(format!(
            "{name} {} has weight {}, {} to {} wanted",
            place + 1,
            line.numbers[place],
            side.least_weight,
            limits::DEGREE
        )),
    }
}

fn refuse_greatest(stated: &Line, columns: &Line, rows: &Line) -> Result<(), Error> {
    for (side, &number, weights) in [(COLUMN, &stated.numbers[0], columns), (ROW, &stated.numbers[1], rows)] {
        let greatest = *weights.numbers.iter().max().expect("a weight");
        if number != greatest {
            return stated
                .refuse(format!("{number} for the greatest {} weight, which is {greatest}", side.name));
        }
    }
    Ok(())
}

fn refuse_edges(columns: &Line, rows: &Line) -> Result<(), Error> {
    let [in_columns, edges] = [columns, rows].map(|line| line.numbers.iter().sum::<usize>());
    if in_columns != edges {
        return rows.refuse(format!("the row weights add up to {edges}, the column weights to {in_columns}"));
    }
    if edges > limits::EDGES {
        return rows.refuse(format!("{edges} edges, at most {} wanted", limits::EDGES));
    }
    Ok(())
}

fn read_lists(lines: &mut Lines, side: &Side, weights: &[usize], highest: usize) -> Result<Vec<List>, Error> {
    let list = |(place, &weight): (usize, &usize)| read_list(lines, side, place + 1, weight, highest);
    weights.iter().enumerate().map(list).collect()
}

fn read_list(
    lines: &mut Lines,
    side: &Side,
    number: usize,
    weight: usize,
    highest: usize,
) -> Result<List, Error> {
    if weight == 0 {
        lines.pass_zeros();
        return Ok(List::default());
    }
    let name = format!("{} {number}", side.name);
    let mut line = lines.take(&format!("the list of {name}"))?;
    let end = line.numbers.iter().rposition(|&item| item != 0).map_or(0, |place| place + 1);
    if end != weight {
        return line.refuse(format!("{} for {name}, {weight} wanted", counted(end, "number")));
    }
    line.numbers.truncate(end);
    for (place, item) in line.numbers.iter().enumerate() {
        if !(1..=highest).contains(item) {
            return line.refuse(format!("{name} lists {} {item}, 1 to {highest} wanted", side.listed));
        }
        if line.numbers[..place].contains(item) {
            return line.refuse(format!("{name} lists {} {item} twice", side.listed));
        }
    }
    Ok(List { at: line.at, items: line.numbers })
}

/// The weights add up alike on both sides, so nothing missing in the columns is nothing missing in the rows.
fn refuse_disagreement(of_columns: &[List], of_rows: &[List]) -> Result<(), Error> {
    for (place, list) in of_rows.iter().enumerate() {
        let row = place + 1;
        for &column in &list.items {
            let other = &of_columns[column - 1];
            if !other.items.contains(&row) {
                let message = format!(
                    "row {row} lists column {column}, but column {column} (line {}) does not list row {row}",
                    other.at
                );
                return Err(Error { line: list.at, message });
            }
        }
    }
    Ok(())
}

// ---- table to alist

/// The alist of a code, its lists filled up with zeros as is usual.
pub fn write(code: &Code) -> String {
    let of_rows: Vec<Vec<usize>> = (0..code.checks())
        .map(|check| code.members(check).iter().map(|&bit| usize::from(bit) + 1).collect())
        .collect();
    let mut of_columns = vec![Vec::new(); code.bits()];
    for (place, columns) in of_rows.iter().enumerate() {
        for &column in columns {
            of_columns[column - 1].push(place + 1);
        }
    }
    let sides = [of_columns, of_rows];
    let weights = sides.each_ref().map(|side| side.iter().map(Vec::len).collect::<Vec<_>>());
    let greatest = weights.each_ref().map(|side| *side.iter().max().expect("a weight"));
    let mut lines = vec![vec![code.bits(), code.checks()], greatest.to_vec()];
    lines.extend(weights);
    for (side, most) in sides.into_iter().zip(greatest) {
        lines.extend(side.into_iter().map(|mut list| {
            list.resize(most, 0);
            list
        }));
    }
    lines.iter().map(|line| line.iter().map(usize::to_string).collect::<Vec<_>>().join(" ") + "\n").collect()
}
