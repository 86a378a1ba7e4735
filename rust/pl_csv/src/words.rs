//! Words of the command line, as the library takes them.
use pl_csv_sys::pl_csv_text;
use std::marker::PhantomData;

pub(crate) struct Words<'a> {
    texts: Vec<pl_csv_text>,
    of: PhantomData<&'a str>,
}

impl<'a> Words<'a> {
    pub(crate) fn new(words: &[&'a str]) -> Self {
        let texts = words.iter().map(|it| pl_csv_text { at: it.as_ptr(), len: it.len() }).collect();
        Words { texts, of: PhantomData }
    }

    pub(crate) fn at(&self) -> *const pl_csv_text {
        self.texts.as_ptr()
    }

    pub(crate) fn len(&self) -> usize {
        self.texts.len()
    }
}
