//! A load on a state, so that every rule matters: by SP, by enter run, or of the presets alone; often
//! of settings that break rules 5 and 6 at most.

use super::{event, mask, state, Rng};
use crate::model::event::Bytes;
use crate::model::settings::Settings;
use crate::model::{flags, snapshot};

/// A well-formed snapshot and an event that loads.
pub fn any(rng: &mut Rng) -> (snapshot::Bytes, Bytes) {
    let mut state = state::state(rng);
    if rng.once_in(2) {
        state.staged = Settings { omb: mask(rng), ..state::settings(rng) };
    }
    if rng.once_in(4) {
        state.staged.lop = state.staged.unf.wrapping_sub(1);
    }
    if rng.once_in(4) {
        state.staged.omb |= 1 << (12 + rng.below(4));
    }
    let mut load = match rng.below(3) {
        0 => {
            state.flags &= !flags::SP;
            event::event(4, 6, 1)
        }
        1 => {
            state.flags |= flags::AS;
            event::event(8, 0, 0)
        }
        _ => event::event(6, 0, 0),
    };
    event::stamp(rng, &mut load);
    (snapshot::encode(&state), load)
}
