//! What a drawing is lent: a snapshot, events and a row with a number for each.

use super::{change_length, event, image, state, Rng};
use crate::model::counter::Counter;
use crate::model::event::Bytes;
use crate::model::snapshot;
use crate::model::trace::MAX_EVENTS;

/// A well-formed snapshot, at times fresh, and legal events.
pub fn legal(rng: &mut Rng) -> (snapshot::Bytes, Vec<Bytes>) {
    let state = if rng.once_in(4) { Counter::fresh() } else { state::state(rng) };
    let count = image::event_count(rng);
    (snapshot::encode(&state), image::events(rng, count))
}

/// Any snapshot and events, at times with an illegal event or two, or a length that is no
/// multiple of 12; seldom one blank more than an image may have events.
pub fn any(rng: &mut Rng) -> (Vec<u8>, Vec<u8>) {
    let (start, events) = legal(rng);
    let start = if rng.once_in(2) { state::lent(rng) } else { start.to_vec() };
    let mut events = events.into_flattened();
    if rng.once_in(65536) {
        events = vec![0; 12 * (MAX_EVENTS as usize + 1)];
    }
    match rng.below(16) {
        0 => change_length(rng, &mut events),
        1 => event::damage_one(rng, &mut events),
        2 => (0..2).for_each(|_| event::damage_one(rng, &mut events)),
        _ => {}
    }
    (start, events)
}

/// A count of numbers for the row: mostly one for each event, at times one more or less, none,
/// or the count of the row's bytes.
pub fn row_length(rng: &mut Rng, events: &[u8]) -> usize {
    let count = events.len() / 12;
    match rng.below(32) {
        0 => count + 1,
        1 => count.saturating_sub(1),
        2 => rng.pick(&[0, 4 * count]),
        _ => count,
    }
}
