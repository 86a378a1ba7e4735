//! Frames, and bytes that the library made.
use crate::column::Column;
use crate::fault::{Fault, Line};
use crate::words::Words;
use pl_csv_sys as sys;
use std::{ptr, slice};

/// A frame: columns of one height, each with a name of its own. It owns memory of the library, and its columns borrow it.
pub struct Frame {
    view: sys::pl_csv_frame,
}

// The handle is in one call at a time, the one that frees it, and what the columns show is only read.
unsafe impl Send for Frame {}
unsafe impl Sync for Frame {}

impl Drop for Frame {
    fn drop(&mut self) {
        unsafe { sys::pl_csv_free_frame(self.view.handle) }
    }
}

impl Frame {
    pub(crate) fn no_view() -> sys::pl_csv_frame {
        sys::pl_csv_frame { handle: ptr::null_mut(), columns: ptr::null(), width: 0, height: 0 }
    }

    // The frame of a view that a call has filled.
    pub(crate) fn owning(view: sys::pl_csv_frame) -> Self {
        Frame { view }
    }

    /// The number of rows.
    pub fn height(&self) -> usize {
        self.view.height
    }

    /// The number of columns.
    pub fn width(&self) -> usize {
        self.view.width
    }

    fn views(&self) -> &[sys::pl_csv_column] {
        // What the library filled stands until the frame is freed.
        unsafe { crate::column::slice_of(self.view.columns, self.view.width) }
    }

    /// The columns, in order.
    pub fn columns(&self) -> impl Iterator<Item = Column<'_>> {
        self.views().iter().map(Column::new)
    }

    /// The column of a name.
    pub fn column(&self, name: &str) -> Option<Column<'_>> {
        self.columns().find(|it| it.name() == name)
    }

    /// The text of the frame. The words are those of the command line that tell how it is written.
    pub fn write(&self, words: &[&str]) -> Result<Vec<u8>, Fault> {
        let words = Words::new(words);
        let (mut text, mut line) = (no_bytes(), Line::new());
        let views = self.views();
        let status = unsafe {
            let (at, room, len) = line.parts();
            sys::pl_csv_write(views.as_ptr(), views.len(), words.at(), words.len(), &mut text, at, room, len)
        };
        line.fault_of(status)?;
        Ok(taken(text))
    }
}

pub(crate) fn no_bytes() -> sys::pl_csv_bytes {
    sys::pl_csv_bytes { handle: ptr::null_mut(), at: ptr::null(), len: 0 }
}

// The bytes of a view that a call has filled. They are freed in the library.
pub(crate) fn taken(view: sys::pl_csv_bytes) -> Vec<u8> {
    unsafe {
        let bytes = if view.len == 0 { Vec::new() } else { slice::from_raw_parts(view.at, view.len).to_vec() };
        sys::pl_csv_free_bytes(view.handle);
        bytes
    }
}
