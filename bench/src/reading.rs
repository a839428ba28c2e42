//! The night read in chunks: beside the model, and beside the library's own replay.

use hsc_tests::generate::image::Parts;
use hsc_tests::model::snapshot::{Bytes, SIZE};
use hsc_tests::subject::{on_each, Model, Subject};

use crate::night;
use crate::timing::{compare, in_turn, timed, SIDES};

/// Chunks of one byte are cut from as many of the night's first events, so that a round stays well
/// below a second.
pub const FIRST_EVENTS: usize = 65536;

/// Reads an image in chunks of one length, the rest of a chunk again after each snapshot, which is
/// handed on. Returns the final state.
fn read(subject: &dyn Subject, image: &[u8], length: usize, mut held: impl FnMut(&Bytes)) -> Bytes {
    let (mut reader, mut buffer, mut taken) = ([0; 116], [0; SIZE], [0; 2]);
    subject.reader_new(&mut reader);
    for mut chunk in image.chunks(length) {
        while !chunk.is_empty() {
            assert_eq!(subject.reader_feed(&mut reader, chunk, &mut buffer, &mut taken), 0);
            chunk = &chunk[taken[0] as usize..];
            if taken[1] == 1 {
                held(&buffer);
            }
        }
    }
    assert_eq!(subject.reader_end(&mut reader, &mut buffer), 0);
    buffer
}

/// The final state and the count of snapshots.
fn counted(subject: &dyn Subject, image: &[u8], length: usize) -> (Bytes, usize) {
    let mut count = 0;
    let last = read(subject, image, length, |_| count += 1);
    (last, count)
}

/// Both sides hand out the replay's snapshots and end as it does.
fn check(image: &[u8], length: usize) {
    let mut replayed = image.to_vec();
    let mut last = [0; SIZE];
    assert_eq!(Model.replay(&mut replayed, &mut last), 0);
    let table = &replayed[Parts::of(image).snapshot(0)..];
    on_each(|subject| {
        let mut snapshots = table.as_chunks().0.iter();
        let end = read(subject, image, length, |snapshot| {
            assert!(snapshots.next() == Some(snapshot), "chunks of {length}: a snapshot");
        });
        assert!(snapshots.next().is_none() && end == last, "chunks of {length}: the end");
    });
}

fn beside_model(name: &str, image: &[u8], length: usize) {
    check(image, length);
    compare(name, |subject| counted(subject, image, length));
}

/// The lines of one image, which replay writes its table to.
pub fn chunks(image: &mut [u8]) {
    let whole = image.len();
    beside_model("read, whole image", image, whole);
    in_turn("whole image, library/replay", |side| {
        let mut last = [0; SIZE];
        timed(|| match side {
            0 => counted(SIDES[0], image, whole).0,
            _ => {
                assert_eq!(SIDES[0].replay(image, &mut last), 0);
                last
            }
        })
    });
    beside_model("read, 4096-byte chunks", image, 4096);
    beside_model("read, 12-byte chunks", image, 12);
    beside_model("read, 1-byte chunks", &night::first(FIRST_EVENTS, Parts::of(image).spacing), 1);
}
