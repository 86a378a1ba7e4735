//! Why an input is refused.
use std::error::Error;
use std::fmt;

/// Why the library refused, with the status and the fault line that the program would end with (docs/command-line.md, "Statuses").
#[derive(Clone, Debug, PartialEq, Eq)]
pub struct Fault {
    pub status: u32,
    pub line: String,
    pub kind: Kind,
}

/// The causes.
#[derive(Clone, Debug, PartialEq, Eq)]
pub enum Kind {
    /// The words have no meaning.
    Words,
    OutOfMemory,
    /// The input has more than 2^36 bytes.
    TooLong,
    /// Separator, quote, line end and comment prefix are no dialect.
    Dialect,
    /// A word, or an array, can't be met.
    Option,
    /// The quote of the output is not ASCII.
    Quote,
    /// The input begins as a compressed stream does.
    Compressed,
    /// There is no record to take names from.
    Empty,
    /// Two columns would have this name.
    Duplicate(String),
    /// More types are given than there are columns.
    Overrides { given: usize, columns: usize },
    /// The type of the column at this place can't be read.
    Type { column: usize },
    /// There is no column of this name.
    NotFound(String),
    /// There are fewer items than are to be skipped.
    Skip,
    /// There is no column at this place.
    OutOfBounds { index: usize, length: usize },
    /// No column is read.
    EmptyProjection,
    /// The record of this number, from 0, has a fault in the column at this place: `value`, `utf8`, `escape` or `fields`.
    Record { record: usize, column: usize, kind: String },
    /// A row or a category would have too great a number.
    Index,
    /// A status that this version doesn't know.
    Other,
}

impl fmt::Display for Fault {
    fn fmt(&self, f: &mut fmt::Formatter<'_>) -> fmt::Result {
        match &self.kind {
            Kind::Record { record, column, kind } => write!(f, "record {}, column {}: {kind}", record + 1, column + 1),
            _ => f.write_str(&self.line),
        }
    }
}

impl Error for Fault {}

const ROOM: usize = 4096;

// Room for a fault line.
pub(crate) struct Line {
    bytes: [u8; ROOM],
    len: usize,
}

impl Line {
    pub(crate) fn new() -> Self {
        Line { bytes: [0; ROOM], len: 0 }
    }

    pub(crate) fn parts(&mut self) -> (*mut u8, usize, *mut usize) {
        (self.bytes.as_mut_ptr(), ROOM, &mut self.len)
    }

    // What a status tells: nothing is wrong at 0.
    pub(crate) fn fault_of(&self, status: u32) -> Result<(), Fault> {
        if status == 0 {
            return Ok(());
        }
        let line = String::from_utf8_lossy(&self.bytes[..self.len.min(ROOM)]).into_owned();
        let kind = kind_of(status, &line);
        Err(Fault { status, line, kind })
    }
}

// The word of a line at a place, as a number.
fn number(line: &str, place: usize) -> usize {
    line.split(' ').nth(place).and_then(|it| it.parse().ok()).unwrap_or(0)
}

// What stands in a line behind this number of blanks.
fn rest(line: &str, blanks: usize) -> String {
    line.splitn(blanks + 1, ' ').nth(blanks).unwrap_or("").to_string()
}

fn kind_of(status: u32, line: &str) -> Kind {
    match status {
        2 => Kind::Words,
        5 => Kind::OutOfMemory,
        6 => Kind::TooLong,
        11 => Kind::Dialect,
        12 => Kind::Option,
        13 => Kind::Quote,
        14 => Kind::Compressed,
        15 => Kind::Empty,
        16 | 22 => Kind::Duplicate(rest(line, 3)),
        17 => Kind::Overrides { given: number(line, 3), columns: number(line, 4) },
        18 => Kind::Type { column: number(line, 4) },
        19 => Kind::NotFound(rest(line, 4)),
        20 => Kind::Skip,
        21 => Kind::OutOfBounds { index: number(line, 3), length: number(line, 4) },
        23 => Kind::EmptyProjection,
        24 => Kind::Record { record: number(line, 3), column: number(line, 5), kind: rest(line, 6) },
        25 => Kind::Index,
        _ => Kind::Other,
    }
}
