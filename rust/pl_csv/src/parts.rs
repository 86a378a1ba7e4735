//! An input in parts that can be read apart, on threads of the host: where they begin is never guessed.
use crate::data_start;
use crate::fault::{Fault, Line};
use crate::frame::Frame;
use crate::words::Words;
use pl_csv_sys as sys;
use std::ops::Range;

/// Where a scan stands behind a line end.
#[derive(Clone, Copy, Debug, PartialEq, Eq)]
pub enum State {
    /// At the start of an item.
    Start,
    /// Inside an open quoted field.
    Open,
}

/// The state behind a piece, for each state in front of it.
#[derive(Clone, Copy, Debug, PartialEq, Eq)]
pub struct Summary(sys::pl_csv_summary);

impl Summary {
    /// The state behind the piece, where this one is in front of it.
    pub fn behind(&self, state: State) -> State {
        let code = match state {
            State::Start => self.0.from_start,
            State::Open => self.0.from_open,
        };
        if code == 0 {
            State::Start
        } else {
            State::Open
        }
    }

    /// The summary of this piece and the next one together.
    pub fn then(&self, next: &Summary) -> Summary {
        let mut both = sys::pl_csv_summary { from_start: 0, from_open: 0 };
        unsafe { sys::pl_csv_compose(&self.0, &next.0, &mut both) };
        Summary(both)
    }
}

/// What a piece tells of itself, whose last byte is a line end. The words tell the separator, the quote, the line end and the comments.
pub fn summarize(piece: &[u8], words: &[&str]) -> Result<Summary, Fault> {
    let words = Words::new(words);
    let (mut summary, mut line) = (sys::pl_csv_summary { from_start: 0, from_open: 0 }, Line::new());
    let status = unsafe {
        let (at, room, len) = line.parts();
        sys::pl_csv_summarize(piece.as_ptr(), piece.len(), words.at(), words.len(), &mut summary, at, room, len)
    };
    line.fault_of(status)?;
    Ok(Summary(summary))
}

/// Reads records of a part alone: from number `skip` on, at most `length`. The words give the schema of the whole (`--schema`); a fault
/// tells the number of a record in the part.
pub fn read_part(part: &[u8], words: &[&str], skip: usize, length: usize) -> Result<Frame, Fault> {
    let words = Words::new(words);
    let (mut view, mut line) = (Frame::no_view(), Line::new());
    let status = unsafe {
        let (at, room, len) = line.parts();
        sys::pl_csv_read_part(part.as_ptr(), part.len(), words.at(), words.len(), skip, length, &mut view, at, room, len)
    };
    line.fault_of(status)?;
    Ok(Frame::owning(view))
}

/// The ranges of some data that begin and end at whole records, each of this size or more but the last. `summary_of` summarises a piece;
/// pieces can be summarised in any order and on any thread.
pub fn ranges<E>(data: &[u8], eol_char: u8, size: usize, mut summary_of: impl FnMut(&[u8]) -> Result<Summary, E>) -> Result<Vec<Range<usize>>, E> {
    let (mut found, mut first, mut at, mut state) = (Vec::new(), 0, 0, State::Start);
    while at < data.len() {
        let end = behind_line_end(data, eol_char, at + size.max(1));
        if end == data.len() {
            break;
        }
        state = summary_of(&data[at..end])?.behind(state);
        at = end;
        if state == State::Start {
            found.push(first..end);
            first = end;
        }
    }
    found.push(first..data.len());
    Ok(found)
}

// The place behind the first line end at or behind the byte before this place.
fn behind_line_end(data: &[u8], eol_char: u8, place: usize) -> usize {
    let from = place.min(data.len()).saturating_sub(1);
    data[from..].iter().position(|it| *it == eol_char).map_or(data.len(), |it| from + it + 1)
}

/// The parts of an input, in order, each with the words by which it is read: an iterator whose items can go to threads of the host.
pub struct Parts<'a> {
    data: &'a [u8],
    ranges: std::vec::IntoIter<Range<usize>>,
}

impl<'a> Parts<'a> {
    /// The parts of the data of an input, each of about this size. The words are those by which the input is read.
    pub fn new(input: &'a [u8], eol_char: u8, size: usize, words: &[&str]) -> Result<Self, Fault> {
        let data = &input[data_start(input, words)?..];
        let ranges = ranges(data, eol_char, size, |piece| summarize(piece, words))?.into_iter();
        Ok(Parts { data, ranges })
    }
}

impl<'a> Iterator for Parts<'a> {
    type Item = &'a [u8];

    fn next(&mut self) -> Option<&'a [u8]> {
        self.ranges.next().map(|it| &self.data[it])
    }
}
