//! Columns of a frame, as slices of its memory.
use pl_csv_sys as sys;
use std::{slice, str};

/// The unit in which a datetime counts from 1970-01-01T00:00:00.
#[derive(Clone, Copy, Debug, PartialEq, Eq)]
pub enum Unit {
    Milliseconds,
    Microseconds,
    Nanoseconds,
}

/// The type of a column.
#[derive(Clone, Copy, Debug, PartialEq, Eq)]
pub enum Type {
    Boolean,
    Int8,
    Int16,
    Int32,
    Int64,
    Int128,
    UInt8,
    UInt16,
    UInt32,
    UInt64,
    String,
    Categorical,
    Enum,
    Date,
    Time,
    Datetime(Unit),
    /// Precision, where it is set, and scale.
    Decimal(Option<u32>, u32),
    Null,
}

const TYPES: [Type; 18] = [
    Type::Boolean,
    Type::Int8,
    Type::Int16,
    Type::Int32,
    Type::Int64,
    Type::Int128,
    Type::UInt8,
    Type::UInt16,
    Type::UInt32,
    Type::UInt64,
    Type::String,
    Type::Categorical,
    Type::Enum,
    Type::Date,
    Type::Time,
    Type::Datetime(Unit::Milliseconds),
    Type::Decimal(None, 0),
    Type::Null,
];

/// A column: a name, a type, values, and which of them are there. A null is 0 among the values.
#[derive(Clone, Copy)]
pub struct Column<'a> {
    view: &'a sys::pl_csv_column,
}

// A slice of memory that the library filled; without elements the pointer is not looked at.
pub(crate) unsafe fn slice_of<'a, T>(at: *const T, len: usize) -> &'a [T] {
    if len == 0 {
        &[]
    } else {
        slice::from_raw_parts(at, len)
    }
}

// A text of the library, which is UTF-8.
fn text_of(text: &sys::pl_csv_text) -> &str {
    unsafe { str::from_utf8(slice_of(text.at, text.len)) }.unwrap_or("")
}

impl<'a> Column<'a> {
    pub(crate) fn new(view: &'a sys::pl_csv_column) -> Self {
        Column { view }
    }

    pub fn name(&self) -> &'a str {
        text_of(&self.view.name)
    }

    pub fn dtype(&self) -> Type {
        match TYPES[self.view.r#type as usize] {
            Type::Datetime(_) => Type::Datetime([Unit::Milliseconds, Unit::Microseconds, Unit::Nanoseconds][self.view.unit as usize]),
            Type::Decimal(..) => Type::Decimal(Some(self.view.precision).filter(|it| *it > 0), self.view.scale),
            other => other,
        }
    }

    /// The number of rows.
    pub fn len(&self) -> usize {
        self.view.present_len
    }

    pub fn is_empty(&self) -> bool {
        self.len() == 0
    }

    pub fn null_count(&self) -> usize {
        self.view.null_count
    }

    /// Which rows have a value.
    pub fn present(&self) -> &'a [bool] {
        unsafe { slice_of(self.view.present, self.view.present_len) }
    }

    /// Booleans (0, 1), whole numbers of up to 64 bits with a sign and of up to 32 without, days from 1970-01-01, nanoseconds of the day,
    /// datetimes in milli- and microseconds, and places of categories. No numbers for other types.
    pub fn numbers(&self) -> &'a [i64] {
        unsafe { slice_of(self.view.numbers, self.view.numbers_len) }
    }

    /// The value of a row of a wide type: `Int128`, `UInt64`, `Decimal` (times 10^scale), `Datetime` in nanoseconds.
    pub fn wide(&self, row: usize) -> Option<i128> {
        let words = unsafe { slice_of(self.view.words, self.view.words_len) };
        let (low, high) = (*words.get(2 * row)?, *words.get(2 * row + 1)?);
        Some((i128::from(high as i64) << 64) | i128::from(low))
    }

    /// The texts of a column of strings.
    pub fn texts(&self) -> Texts<'a> {
        unsafe {
            Texts {
                ends: slice_of(self.view.ends, self.view.ends_len),
                bytes: slice_of(self.view.bytes, self.view.bytes_len),
            }
        }
    }

    /// The categories of a column of categories.
    pub fn categories(&self) -> impl Iterator<Item = &'a str> {
        unsafe { slice_of(self.view.categories, self.view.categories_len) }.iter().map(text_of)
    }
}

/// Texts, one behind the other.
#[derive(Clone, Copy)]
pub struct Texts<'a> {
    ends: &'a [usize],
    bytes: &'a [u8],
}

impl<'a> Texts<'a> {
    /// The text of a row; empty at a null.
    pub fn get(&self, row: usize) -> Option<&'a str> {
        let (start, end) = (*self.ends.get(row)?, *self.ends.get(row + 1)?);
        str::from_utf8(&self.bytes[start..end]).ok()
    }

    pub fn iter(self) -> impl Iterator<Item = &'a str> {
        let count = self.ends.len().saturating_sub(1);
        (0..count).map(move |row| self.get(row).unwrap_or(""))
    }
}
