//! The twelve calls, for the model and for whatever is run against it.

use crate::model;

pub trait Subject {
    fn event_check(&self, event: &[u8]) -> u32;
    fn step(&self, snapshot: &mut [u8], event: &[u8]) -> u64;
    fn read(&self, snapshot: &[u8], fields: &mut [i32; 32]) -> u64;
    fn replay(&self, image: &mut [u8], last: &mut [u8; 68]) -> u64;
    fn mend(&self, image: &mut [u8], first: u64, patch: &[u8], span: &mut [u32; 3]) -> u64;
    fn compare(&self, first: &[u8], second: &[u8], row: &mut [u32], count: &mut u32) -> u64;
    fn rest(&self, first: &[u8], second: &[u8], part: &mut [u64; 2]) -> u32;
    fn draw(&self, snapshot: &mut [u8], events: &[u8], row: &mut [i32]) -> u64;
    fn first_difference(&self, first: &[u8], second: &[u8]) -> u64;
    fn reader_new(&self, reader: &mut [u8; 116]);
    fn reader_feed(
        &self,
        reader: &mut [u8; 116],
        chunk: &[u8],
        buffer: &mut [u8],
        taken: &mut [u64; 2],
    ) -> u64;
    fn reader_end(&self, reader: &mut [u8; 116], buffer: &mut [u8]) -> u64;
}

pub struct Model;

impl Subject for Model {
    fn event_check(&self, event: &[u8]) -> u32 {
        model::event_check(event)
    }

    fn step(&self, snapshot: &mut [u8], event: &[u8]) -> u64 {
        model::step(snapshot, event)
    }

    fn read(&self, snapshot: &[u8], fields: &mut [i32; 32]) -> u64 {
        model::read(snapshot, fields)
    }

    fn replay(&self, image: &mut [u8], last: &mut [u8; 68]) -> u64 {
        model::replay(image, last)
    }

    fn mend(&self, image: &mut [u8], first: u64, patch: &[u8], span: &mut [u32; 3]) -> u64 {
        model::mend(image, first, patch, span)
    }

    fn compare(&self, first: &[u8], second: &[u8], row: &mut [u32], count: &mut u32) -> u64 {
        model::compare(first, second, row, count)
    }

    fn rest(&self, first: &[u8], second: &[u8], part: &mut [u64; 2]) -> u32 {
        model::rest(first, second, part)
    }

    fn draw(&self, snapshot: &mut [u8], events: &[u8], row: &mut [i32]) -> u64 {
        model::draw(snapshot, events, row)
    }

    fn first_difference(&self, first: &[u8], second: &[u8]) -> u64 {
        model::first_difference(first, second)
    }

    fn reader_new(&self, reader: &mut [u8; 116]) {
        model::reader_new(reader)
    }

    fn reader_feed(
        &self,
        reader: &mut [u8; 116],
        chunk: &[u8],
        buffer: &mut [u8],
        taken: &mut [u64; 2],
    ) -> u64 {
        model::reader_feed(reader, chunk, buffer, taken)
    }

    fn reader_end(&self, reader: &mut [u8; 116], buffer: &mut [u8]) -> u64 {
        model::reader_end(reader, buffer)
    }
}

/// The archive where it is linked; without it the model stands in, so that the cases and the
/// harness themselves are run.
#[cfg(feature = "archive")]
pub const UNDER_TEST: crate::ffi::Archive = crate::ffi::Archive;
#[cfg(not(feature = "archive"))]
pub const UNDER_TEST: Model = Model;

/// What `UNDER_TEST` is.
pub const UNDER_TEST_NAME: &str =
    if cfg!(feature = "archive") { "the archive" } else { "the model (feature archive is off)" };

/// Runs a test on the model and on what is under test.
pub fn on_each(test: impl Fn(&dyn Subject)) {
    test(&Model);
    test(&UNDER_TEST);
}
