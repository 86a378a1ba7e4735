//! The calls of libpl_csv as `c/pl_csv.h` declares them: that header says what each gives, and what its caller has to keep.
#![no_std]

/// A text: where it lies, which is not null, and how many bytes it has.
#[repr(C)]
#[derive(Clone, Copy, Debug)]
pub struct pl_csv_text {
    pub at: *const u8,
    pub len: usize,
}

/// A column: a view into a frame, or arrays of the caller.
#[repr(C)]
#[derive(Clone, Copy, Debug)]
pub struct pl_csv_column {
    pub name: pl_csv_text,
    pub r#type: u32,
    pub unit: u32,
    pub precision: u32,
    pub scale: u32,
    pub present: *const bool,
    pub present_len: usize,
    pub numbers: *const i64,
    pub numbers_len: usize,
    pub words: *const u64,
    pub words_len: usize,
    pub ends: *const usize,
    pub ends_len: usize,
    pub bytes: *const u8,
    pub bytes_len: usize,
    pub categories: *const pl_csv_text,
    pub categories_len: usize,
    pub null_count: usize,
}

/// A frame that the library made.
#[repr(C)]
#[derive(Clone, Copy, Debug)]
pub struct pl_csv_frame {
    pub handle: *mut u8,
    pub columns: *const pl_csv_column,
    pub width: usize,
    pub height: usize,
}

/// Bytes that the library made.
#[repr(C)]
#[derive(Clone, Copy, Debug)]
pub struct pl_csv_bytes {
    pub handle: *mut u8,
    pub at: *const u8,
    pub len: usize,
}

/// In which state a scan ends, by the state in front of a piece: 0 at the start of an item, 1 inside an open quoted field.
#[repr(C)]
#[derive(Clone, Copy, Debug, PartialEq, Eq)]
pub struct pl_csv_summary {
    pub from_start: u8,
    pub from_open: u8,
}

extern "C" {
    pub fn pl_csv_count_rows(
        input: *const u8,
        input_len: usize,
        words: *const pl_csv_text,
        words_len: usize,
        rows: *mut usize,
        line: *mut u8,
        room: usize,
        line_len: *mut usize,
    ) -> u32;
    pub fn pl_csv_schema(
        input: *const u8,
        input_len: usize,
        words: *const pl_csv_text,
        words_len: usize,
        text: *mut pl_csv_bytes,
        line: *mut u8,
        room: usize,
        line_len: *mut usize,
    ) -> u32;
    pub fn pl_csv_data_start(
        input: *const u8,
        input_len: usize,
        words: *const pl_csv_text,
        words_len: usize,
        start: *mut usize,
        line: *mut u8,
        room: usize,
        line_len: *mut usize,
    ) -> u32;
    pub fn pl_csv_read(
        input: *const u8,
        input_len: usize,
        words: *const pl_csv_text,
        words_len: usize,
        frame: *mut pl_csv_frame,
        line: *mut u8,
        room: usize,
        line_len: *mut usize,
    ) -> u32;
    pub fn pl_csv_read_part(
        part: *const u8,
        part_len: usize,
        words: *const pl_csv_text,
        words_len: usize,
        skip: usize,
        length: usize,
        frame: *mut pl_csv_frame,
        line: *mut u8,
        room: usize,
        line_len: *mut usize,
    ) -> u32;
    pub fn pl_csv_summarize(
        piece: *const u8,
        piece_len: usize,
        words: *const pl_csv_text,
        words_len: usize,
        summary: *mut pl_csv_summary,
        line: *mut u8,
        room: usize,
        line_len: *mut usize,
    ) -> u32;
    pub fn pl_csv_compose(first: *const pl_csv_summary, second: *const pl_csv_summary, both: *mut pl_csv_summary);
    pub fn pl_csv_write(
        columns: *const pl_csv_column,
        columns_len: usize,
        words: *const pl_csv_text,
        words_len: usize,
        text: *mut pl_csv_bytes,
        line: *mut u8,
        room: usize,
        line_len: *mut usize,
    ) -> u32;
    pub fn pl_csv_free_frame(handle: *mut u8);
    pub fn pl_csv_free_bytes(handle: *mut u8);
}
