//! Events: legal ones, damaged ones, and the events that load given settings.

use super::{change_byte, mask, value, Rng, EDGES};
use crate::model::event::Bytes;
use crate::model::settings::Settings;

/// The flags that kind 4 may write.
const WRITABLE: [u8; 16] = [0, 2, 5, 6, 7, 8, 9, 10, 1, 11, 12, 13, 14, 16, 17, 18];
/// How many of them, from the first, take 1 as well as 0.
const TAKE_ONE: usize = 8;

const CE: u8 = 5;
const SP: u8 = 6;

/// The 12 bytes of an event with stamp 0.
pub fn event(kind: u8, sub: u8, value: i32) -> Bytes {
    let mut bytes = [0; 12];
    bytes[..2].copy_from_slice(&[kind, sub]);
    bytes[4..8].copy_from_slice(&value.to_le_bytes());
    bytes
}

pub fn stamp(rng: &mut Rng, bytes: &mut Bytes) {
    bytes[8..].copy_from_slice(&(rng.bits() as u32).to_le_bytes());
}

/// Gives each event of a row another stamp.
pub fn restamp(rng: &mut Rng, events: &mut [u8]) {
    events.as_chunks_mut().0.iter_mut().for_each(|event| stamp(rng, event));
}

/// Levels with pulses on inputs 0 and 1, seldom with input 2 or a hold.
fn levels(rng: &mut Rng) -> i32 {
    let mut levels = rng.below(4) as i32;
    if rng.once_in(8) {
        levels |= 4;
    }
    if rng.once_in(8) {
        levels |= 8;
    }
    levels
}

fn word(rng: &mut Rng) -> i32 {
    rng.bits() as u16 as i32
}

fn flag_write(rng: &mut Rng) -> Bytes {
    let which = rng.below(WRITABLE.len());
    let flag = if rng.once_in(3) { SP } else { WRITABLE[which] };
    let one = (flag == SP || which < TAKE_ONE) && !rng.once_in(3);
    event(4, flag, one.into())
}

fn programming(rng: &mut Rng) -> Bytes {
    let edge = |rng: &mut Rng| rng.pick(&EDGES) as i16 as i32;
    match rng.below(8) {
        0 => event(3, 1, edge(rng)),
        1 | 2 => event(3, 1, 3 + rng.below(253) as i32),
        3 => event(3, 2, edge(rng)),
        4 | 5 => event(3, 2, rng.below(8) as i32),
        6 => event(3, 3, mask(rng).into()),
        _ => event(3, 4, rng.below(2) as i32),
    }
}

/// An input sample with a stamp.
pub fn sample(rng: &mut Rng) -> Bytes {
    let mut bytes = event(1, 0, levels(rng));
    stamp(rng, &mut bytes);
    bytes
}

/// Any legal event with a stamp; half of them are samples.
pub fn legal(rng: &mut Rng) -> Bytes {
    let mut bytes = match rng.below(32) {
        0 => event(0, 0, 0),
        1 | 2 => event(2, 5 + rng.below(2) as u8, word(rng)),
        3..=5 => event(2, 1 + rng.below(4) as u8, value(rng)),
        6 | 7 => programming(rng),
        8..=10 => flag_write(rng),
        11 | 12 => event(5, 0, value(rng)),
        13 => event(6, 0, 0),
        14 => event(7, 0, 0),
        15 => event(8, 0, 0),
        16 => event(9, 0, word(rng)),
        _ => event(1, 0, levels(rng)),
    };
    stamp(rng, &mut bytes);
    bytes
}

/// A legal event with its kind, sub, zeros or value changed: mostly illegal.
pub fn damaged(rng: &mut Rng) -> Bytes {
    let mut bytes = legal(rng);
    damage(rng, &mut bytes);
    bytes
}

pub fn damage(rng: &mut Rng, event: &mut [u8]) {
    match rng.below(8) {
        0 => event[0] = rng.below(11) as u8,
        1 | 2 => event[1] = rng.below(21) as u8,
        3 | 4 => event[4..8].copy_from_slice(&rng.pick(&EDGES).to_le_bytes()),
        _ => change_byte(rng, &mut event[..8]),
    }
}

/// Damages one event of a row, if it has any.
pub fn damage_one(rng: &mut Rng, events: &mut [u8]) {
    let count = events.len() / 12;
    if count > 0 {
        let place = rng.below(count);
        damage(rng, &mut events[12 * place..][..12]);
    }
}

/// Writes the settings, turns counting and interrupts on, and loads by SP or by enter run.
pub fn load(rng: &mut Rng, settings: &Settings) -> Vec<Bytes> {
    let mut events = vec![
        event(3, 1, settings.pfn.into()),
        event(3, 2, settings.mode.into()),
        event(3, 3, settings.omb.into()),
        event(2, 1, settings.hip),
        event(2, 2, settings.lop),
        event(2, 3, settings.ovf),
        event(2, 4, settings.unf),
        event(2, 5, settings.hpo.into()),
        event(2, 6, settings.lpo.into()),
        event(4, CE, 1),
        event(4, 0, 1),
    ];
    if rng.once_in(3) {
        events.extend([event(3, 4, 1), event(8, 0, 0)]);
    } else {
        events.extend([event(4, 2, 1), event(4, SP, 1)]);
    }
    events
}
