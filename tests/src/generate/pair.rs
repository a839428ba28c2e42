//! Two traces to compare: mostly the second is made from the first.

use super::{change_length, event, image, Rng};
use crate::model::event::{row, Bytes, Event};
use crate::model::trace::MAX_EVENTS;

/// A legal event that differs from this one by a bit of its kind, sub or value.
fn other(rng: &mut Rng, event: &Bytes) -> Bytes {
    loop {
        let mut other = *event;
        other[rng.pick(&[0, 1, 4, 5, 6, 7])] ^= 1 << rng.below(8);
        if Event::from_bytes(&other).is_legal() {
            return other;
        }
    }
}

/// Two traces of legal events: the second has the first's events, none, one, some or all of them
/// changed, or new ones; often with other stamps, and often one trace is cut.
pub fn legal(rng: &mut Rng) -> [Vec<Bytes>; 2] {
    let count = image::event_count(rng);
    let first = image::events(rng, count);
    let mut second = first.clone();
    let how = rng.below(8);
    let only = rng.below(count + 1);
    let restamped = rng.once_in(2);
    for (place, event) in second.iter_mut().enumerate() {
        match how {
            0 | 1 => {}
            2 | 3 if place != only => {}
            4 | 5 if !rng.once_in(4) => {}
            6 => *event = event::legal(rng),
            _ => *event = other(rng, event),
        }
        if restamped {
            event::stamp(rng, event);
        }
    }
    let mut pair = [first, second];
    if rng.once_in(2) {
        pair[rng.below(2)].truncate(rng.below(count + 1));
    }
    pair
}

/// Two traces, at times with an illegal event or a length that is no multiple of 12; seldom one
/// has as many blanks as a trace may have, or one more.
pub fn any(rng: &mut Rng) -> [Vec<u8>; 2] {
    let mut pair = legal(rng).map(Vec::into_flattened);
    if rng.once_in(16384) {
        pair[rng.below(2)] = vec![0; 12 * (MAX_EVENTS as usize + rng.below(2))];
    }
    for trace in &mut pair {
        match rng.below(16) {
            0 => change_length(rng, trace),
            1 | 2 => event::damage_one(rng, trace),
            _ => {}
        }
    }
    pair
}

/// Two traces of any lengths.
pub fn any_lengths(rng: &mut Rng) -> [Vec<u8>; 2] {
    let mut pair = legal(rng).map(Vec::into_flattened);
    for trace in &mut pair {
        if rng.once_in(2) {
            change_length(rng, trace);
        }
    }
    pair
}

/// How many places of the shorter trace differ, stamps disregarded.
pub fn differences(first: &[u8], second: &[u8]) -> usize {
    row(first).iter().zip(row(second)).filter(|(a, b)| a[..8] != b[..8]).count()
}

/// A count of numbers for the row: mostly that of the differences, or one more or less.
pub fn row_length(rng: &mut Rng, first: &[u8], second: &[u8]) -> usize {
    let differences = differences(first, second);
    match rng.below(8) {
        0 => 0,
        1 => rng.below(2 * differences + 9),
        2 | 3 => differences.saturating_sub(1),
        4 => differences + 1,
        _ => differences,
    }
}
