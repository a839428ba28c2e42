//! Two parts of bytes to compare: each in memory of its own, and both in one.

use std::ops::Range;

use super::{change_byte, Rng};

/// The most bytes that a part has.
const LONGEST: usize = 200;
/// As many bytes as a comparison may take at once, or a multiple of them.
pub const BLOCK: usize = 64;

/// A length, at times near none or near a multiple of half a block.
fn length(rng: &mut Rng) -> usize {
    match rng.below(4) {
        0 => rng.below(4),
        1 => BLOCK / 2 * (1 + rng.below(6)) + rng.below(3) - 1,
        _ => rng.below(LONGEST + 1),
    }
}

/// Bytes at random, or all of them zero or `paint`.
fn bytes(rng: &mut Rng, length: usize, paint: u8) -> Vec<u8> {
    match rng.below(4) {
        0 => vec![paint; length],
        1 => vec![0; length],
        _ => (0..length).map(|_| rng.bits() as u8).collect(),
    }
}

/// Changes a byte, at times the first or the last.
fn change(rng: &mut Rng, bytes: &mut [u8]) {
    let length = bytes.len();
    match rng.below(4) {
        0 => change_byte(rng, &mut bytes[..length.min(1)]),
        1 => change_byte(rng, &mut bytes[length.saturating_sub(1)..]),
        _ => change_byte(rng, bytes),
    }
}

/// Two parts: the second has the first's bytes, with none, one or several of them changed, or
/// new ones; often one part is cut. `paint` is what stands around the parts, so that at times the
/// longer goes on with it.
pub fn apart(rng: &mut Rng, paint: u8) -> [Vec<u8>; 2] {
    let length = length(rng);
    let first = bytes(rng, length, paint);
    let mut pair = [first.clone(), first];
    if rng.once_in(2) {
        pair[rng.below(2)].truncate(rng.below(length + 1));
    }
    let shorter = pair[0].len().min(pair[1].len());
    let within = &mut pair[1][..shorter];
    match rng.below(8) {
        0 | 1 => {}
        2..=4 => change(rng, within),
        5 | 6 => (0..2 + rng.below(4)).for_each(|_| change(rng, within)),
        _ => within.fill_with(|| rng.bits() as u8),
    }
    pair
}

/// Memory of bytes that repeat after a few, at times but for one, and two parts of it: one and
/// the same, with the same begin, as far from each other as bytes repeat, or anywhere.
pub fn shared(rng: &mut Rng, paint: u8) -> (Vec<u8>, [Range<usize>; 2]) {
    const FARTHEST: usize = 99;
    let period = 1 + rng.below(40);
    let repeated = bytes(rng, period, paint);
    let mut memory: Vec<u8> = repeated.into_iter().cycle().take(FARTHEST + LONGEST).collect();
    if rng.once_in(2) {
        change_byte(rng, &mut memory);
    }
    let begin = rng.below(FARTHEST + 1);
    let first = begin..begin + length(rng);
    let begin = match rng.below(4) {
        0 => return (memory, [first.clone(), first]),
        1 => begin,
        2 => begin % period + period * rng.below(2),
        _ => rng.below(FARTHEST + 1),
    };
    let second = begin..begin + length(rng);
    (memory, [first, second])
}
