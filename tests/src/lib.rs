//! An independent model of document 01 and of document 02's requests 1 to 7, the harness that
//! runs the same cases on the model and on a subject, and the declarations of the archive.

#[cfg(feature = "archive")]
pub mod ffi;
pub mod generate;
pub mod harness;
pub mod model;
pub mod subject;

pub use model::{compare, draw, event_check, first_difference, mend, read, replay, rest, step};
pub use model::{reader_end, reader_feed, reader_new};
