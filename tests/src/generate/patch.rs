//! Where a patch goes and what it holds.

use super::image::Parts;
use super::{change_length, event, Rng};
use crate::model::event::Bytes;

/// A run within the image: its place and its length.
pub fn run(rng: &mut Rng, parts: Parts) -> (usize, usize) {
    let events = parts.events;
    match rng.below(16) {
        0 => (events, 0),
        1 => (0, events),
        2 => (rng.below(events + 1), 0),
        _ => {
            let first = rng.below(events + 1);
            (first, rng.below((events - first).min(9) + 1))
        }
    }
}

/// Legal events for a run: the old ones, some of them with other stamps or replaced, or new ones.
pub fn legal(rng: &mut Rng, image: &[u8], (first, count): (usize, usize)) -> Vec<Bytes> {
    let at = Parts::of(image).event(first);
    let old = image[at..at + 12 * count].as_chunks::<12>().0.iter();
    let how = rng.below(8);
    let only = rng.below(count + 1);
    old.enumerate()
        .map(|(i, &bytes)| {
            let mut bytes = bytes;
            match how {
                0 => {}
                1 => event::stamp(rng, &mut bytes),
                2 => bytes = [0; 12],
                3..=5 if i != only => {}
                _ => bytes = event::legal(rng),
            }
            bytes
        })
        .collect()
}

/// A place and patch bytes for any image with these events, often refused.
pub fn any(rng: &mut Rng, image: &[u8], parts: Parts) -> (u64, Vec<u8>) {
    let events = parts.events as u64;
    let run = run(rng, parts);
    let mut patch = legal(rng, image, run).into_flattened();
    let mut first = run.0 as u64;
    match rng.below(24) {
        0 => first = rng.pick(&[events, events + 1, events + 9, 1 << 32, u64::MAX - 1, u64::MAX]),
        1 => first = 0u64.wrapping_sub(patch.len() as u64 / 12),
        2 => first += 1 << (32 + rng.below(32)),
        3 => {
            let surplus = parts.events - run.0 - run.1 + 1 + rng.below(3);
            patch.extend((0..surplus).flat_map(|_| event::legal(rng)));
        }
        4 => change_length(rng, &mut patch),
        5 | 6 => event::damage_one(rng, &mut patch),
        _ => {}
    }
    (first, patch)
}
