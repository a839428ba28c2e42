//! A sample on a state, so that every input matters: any levels before and after it, CE off as
//! often as on, and often in mode 7.

use super::{event, state, Rng};
use crate::model::event::Bytes;
use crate::model::{flags, snapshot};

/// A well-formed snapshot and a sample.
pub fn any(rng: &mut Rng) -> (snapshot::Bytes, Bytes) {
    let mut state = state::state(rng);
    if rng.once_in(2) {
        state.flags ^= flags::CE;
    }
    // The rules of loading are the same for modes 2 to 7.
    if state.active.both_ways() && rng.once_in(2) {
        state.active.mode = 7;
    }
    let mut sample = event::event(1, 0, rng.below(16) as i32);
    event::stamp(rng, &mut sample);
    (snapshot::encode(&state), sample)
}
