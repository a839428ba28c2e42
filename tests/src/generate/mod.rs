//! Inputs for the cases: legal and damaged, at the edges more often than chance has it.

pub mod drawing;
pub mod event;
pub mod image;
pub mod loading;
pub mod pair;
pub mod parts;
pub mod patch;
pub mod reader;
mod rng;
pub mod sampling;
pub mod state;

pub use rng::Rng;

use crate::model::counter::OUTPUTS;

/// Values at the limits that document 01 names, and beside them.
#[rustfmt::skip]
pub const EDGES: [i32; 24] = [
    0, 1, -1, 2, 3, 7, 8, 15, 16, 255, 256, 32766, 32767, 32768, -32767, -32768, -32769,
    65535, 65536, -65536, i32::MAX, i32::MAX - 1, i32::MIN, i32::MIN + 1,
];

/// Mostly a small number, so that counts reach presets and limits often.
pub fn value(rng: &mut Rng) -> i32 {
    match rng.below(16) {
        0 | 1 => rng.pick(&EDGES),
        2 => rng.bits() as i32,
        _ => rng.below(11) as i32 - 5,
    }
}

/// A mask of outputs, seldom with one of the bits that are none, or any bits.
pub fn mask(rng: &mut Rng) -> u16 {
    let bits = rng.bits() as u16;
    match rng.below(16) {
        0 => bits,
        1 => bits & OUTPUTS | 1 << (12 + rng.below(4)),
        2 => rng.pick(&[0, 1 << 11, OUTPUTS, 1 << 12, u16::MAX]),
        _ => bits & OUTPUTS,
    }
}

/// Changes one byte of the range to another value.
pub fn change_byte(rng: &mut Rng, bytes: &mut [u8]) {
    if !bytes.is_empty() {
        let at = rng.below(bytes.len());
        bytes[at] ^= 1 + rng.below(255) as u8;
    }
}

/// Cuts or lengthens a row of bytes by up to 15.
pub fn change_length(rng: &mut Rng, bytes: &mut Vec<u8>) {
    let by = 1 + rng.below(15);
    if rng.once_in(2) {
        bytes.truncate(bytes.len().saturating_sub(by));
    } else {
        bytes.extend((0..by).map(|_| rng.bits() as u8));
    }
}
