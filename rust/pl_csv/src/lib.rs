//! CSV into frames and back, by libpl_csv, whose every function is proved to meet its contract.
//!
//! ```
//! let frame = pl_csv::read(b"shop,units\nOslo,12\nBergen,\n", &[]).unwrap();
//! let units = frame.column("units").unwrap();
//! assert_eq!(units.numbers(), [12, 0]);
//! assert_eq!(units.present(), [true, false]);
//! ```
//!
//! How an input is read is told by words, those of the program's command line: `&["--sep=;", "--schema=day:date,units:int64"]`
//! (docs/command-line.md). What this crate itself adds, the pointers turned into slices, is not proved.

mod column;
mod fault;
mod frame;
mod parts;
mod words;

pub use column::{Column, Texts, Type, Unit};
pub use fault::{Fault, Kind};
pub use frame::Frame;
pub use parts::{read_part, ranges, summarize, Parts, State, Summary};

use fault::Line;
use pl_csv_sys as sys;
use words::Words;

/// Reads an input into a frame, by one thread.
pub fn read(input: &[u8], words: &[&str]) -> Result<Frame, Fault> {
    let words = Words::new(words);
    let (mut view, mut line) = (Frame::no_view(), Line::new());
    // The pointers come from slices, so none is null; the outputs are variables of this call.
    let status = unsafe {
        let (at, room, len) = line.parts();
        sys::pl_csv_read(input.as_ptr(), input.len(), words.at(), words.len(), &mut view, at, room, len)
    };
    line.fault_of(status)?;
    Ok(Frame::owning(view))
}

/// How many rows an input has, without reading their cells.
pub fn count_rows(input: &[u8], words: &[&str]) -> Result<usize, Fault> {
    let words = Words::new(words);
    let (mut rows, mut line) = (0, Line::new());
    let status = unsafe {
        let (at, room, len) = line.parts();
        sys::pl_csv_count_rows(input.as_ptr(), input.len(), words.at(), words.len(), &mut rows, at, room, len)
    };
    line.fault_of(status)?;
    Ok(rows)
}

/// The text of the schema that an input is read by, as `--schema` takes it.
pub fn schema(input: &[u8], words: &[&str]) -> Result<String, Fault> {
    let words = Words::new(words);
    let (mut text, mut line) = (frame::no_bytes(), Line::new());
    let status = unsafe {
        let (at, room, len) = line.parts();
        sys::pl_csv_schema(input.as_ptr(), input.len(), words.at(), words.len(), &mut text, at, room, len)
    };
    line.fault_of(status)?;
    Ok(String::from_utf8_lossy(&frame::taken(text)).into_owned())
}

/// The offset at which the data of an input begins: behind a byte order mark, what the words skip, and the header.
pub fn data_start(input: &[u8], words: &[&str]) -> Result<usize, Fault> {
    let words = Words::new(words);
    let (mut start, mut line) = (0, Line::new());
    let status = unsafe {
        let (at, room, len) = line.parts();
        sys::pl_csv_data_start(input.as_ptr(), input.len(), words.at(), words.len(), &mut start, at, room, len)
    };
    line.fault_of(status)?;
    Ok(start)
}
