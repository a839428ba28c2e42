//! Trace images: valid ones with true and untrue tables, and damage to them.

use super::{change_byte, change_length, event, state, Rng};
use crate::model;
use crate::model::event::Bytes;
use crate::model::snapshot;
use crate::model::trace::{HEADER_SIZE, MAX_EVENTS, MAX_SPACING};

/// The header of an image with so many events.
pub fn header(events: usize, spacing: usize) -> [u8; HEADER_SIZE] {
    let numbers = [events, HEADER_SIZE, events / spacing + 1, HEADER_SIZE + 12 * events, spacing, 0];
    let mut bytes = [0; HEADER_SIZE];
    for (word, number) in bytes.as_chunks_mut().0.iter_mut().zip(numbers) {
        *word = (number as u32).to_le_bytes();
    }
    bytes
}

/// The header and the events, then a table of zeros.
pub fn image(events: &[Bytes], spacing: usize) -> Vec<u8> {
    let header = header(events.len(), spacing);
    let parts = Parts::of(&header);
    let size = parts.snapshot(parts.snapshots);
    let mut bytes = Vec::with_capacity(size);
    bytes.extend_from_slice(&header);
    bytes.extend_from_slice(events.as_flattened());
    bytes.resize(size, 0);
    bytes
}

/// Where the parts of an image lie, by its header.
#[derive(Clone, Copy)]
pub struct Parts {
    pub events: usize,
    pub spacing: usize,
    pub snapshots: usize,
}

impl Parts {
    /// The parts of a valid image.
    pub fn of(image: &[u8]) -> Parts {
        let number = |i: usize| u32::from_le_bytes(image[4 * i..][..4].try_into().unwrap()) as usize;
        Parts { events: number(0), spacing: number(4), snapshots: number(2) }
    }

    /// The first byte of an event, or the one after the last event.
    pub fn event(&self, place: usize) -> usize {
        HEADER_SIZE + 12 * place
    }

    /// The first byte of a snapshot, or the one after the last.
    pub fn snapshot(&self, index: usize) -> usize {
        self.event(self.events) + snapshot::SIZE * index
    }
}

pub(super) fn event_count(rng: &mut Rng) -> usize {
    match rng.below(4096) {
        0 => rng.below(9000),
        1..=127 => rng.below(400),
        128..=511 => rng.below(4),
        _ => rng.below(60),
    }
}

fn spacing(rng: &mut Rng, events: usize) -> usize {
    match rng.below(8) {
        0 => rng.pick(&[1, 16, 64, 4095, 4096]),
        1 | 2 => 1 + rng.below(events.min(4095) + 1),
        _ => 1 + rng.below(6),
    }
}

/// A row of legal events: mostly a load first, then samples with other events among them.
pub fn events(rng: &mut Rng, count: usize) -> Vec<Bytes> {
    let settings = state::settings(rng);
    let mut events = if rng.once_in(4) { Vec::new() } else { event::load(rng, &settings) };
    let other = rng.pick(&[1, 4, 16]);
    events.resize_with(count, || if rng.once_in(other) { event::legal(rng) } else { event::sample(rng) });
    events
}

/// A valid image with a true table.
pub fn with_true_table(rng: &mut Rng) -> Vec<u8> {
    let count = event_count(rng);
    let events = events(rng, count);
    let mut bytes = image(&events, spacing(rng, count));
    model::replay(&mut bytes, &mut [0; snapshot::SIZE]);
    bytes
}

/// What a table holds.
#[derive(Clone, Copy, PartialEq, Eq, Debug)]
pub enum Table {
    True,
    OneWrongByte,
    /// True but for one event that was changed since.
    Stale,
    /// Each snapshot follows from the one before, and the first is not fresh.
    OtherStart,
    /// Some snapshots are of states from elsewhere.
    States,
    /// Some snapshots are random bytes.
    Noise,
}

/// A valid image and what its table holds.
pub fn valid(rng: &mut Rng) -> (Vec<u8>, Table) {
    let mut bytes = with_true_table(rng);
    let parts = Parts::of(&bytes);
    let table = parts.snapshot(0);
    let kind = match rng.below(16) {
        0 | 1 => Table::OneWrongByte,
        2 | 3 => Table::Stale,
        4 | 5 => Table::OtherStart,
        6 => Table::States,
        7 => Table::Noise,
        _ => Table::True,
    };
    match kind {
        Table::True => {}
        Table::OneWrongByte => change_byte(rng, &mut bytes[table..]),
        Table::Stale if parts.events > 0 => {
            let at = parts.event(rng.below(parts.events));
            bytes[at..at + 12].copy_from_slice(&event::legal(rng));
        }
        Table::Stale => {}
        Table::OtherStart => {
            bytes[table..table + snapshot::SIZE].copy_from_slice(&snapshot::encode(&state::state(rng)));
            model::mend(&mut bytes, 0, &[], &mut [0; 3]);
        }
        Table::States => replace_some(rng, &mut bytes[table..], state::snapshot),
        Table::Noise => replace_some(rng, &mut bytes[table..], state::noise),
    }
    (bytes, kind)
}

/// Replaces each snapshot of a table, or leaves it, by chance.
fn replace_some(rng: &mut Rng, table: &mut [u8], new: fn(&mut Rng) -> snapshot::Bytes) {
    for snapshot in table.as_chunks_mut().0 {
        if rng.once_in(2) {
            *snapshot = new(rng);
        }
    }
}

/// Damages a valid image once or twice, so that the order of refusals matters.
pub fn damage(rng: &mut Rng, image: &mut Vec<u8>) {
    let parts = Parts::of(image);
    for _ in 0..1 + rng.below(2) {
        match rng.below(8) {
            0 => image.truncate(rng.below(HEADER_SIZE + 2)),
            1 | 2 => change_length(rng, image),
            3 | 4 if image.len() >= HEADER_SIZE => change_header(rng, image),
            _ if parts.events > 0 && image.len() >= parts.snapshot(0) => {
                let at = parts.event(rng.below(parts.events));
                event::damage(rng, &mut image[at..at + 12]);
            }
            _ => change_length(rng, image),
        }
    }
}

/// Header numbers at the limits and beyond them.
const LIMITS: [u32; 9] =
    [0, 1, 24, MAX_SPACING, MAX_SPACING + 1, MAX_EVENTS, MAX_EVENTS + 1, 1 << 31, u32::MAX];

pub(super) fn change_header(rng: &mut Rng, image: &mut [u8]) {
    let word = &mut image.as_chunks_mut().0[rng.below(6)];
    let old = u32::from_le_bytes(*word);
    let new = match rng.below(3) {
        0 => old.wrapping_add(1),
        1 => old.wrapping_sub(1),
        _ => rng.pick(&LIMITS),
    };
    *word = new.to_le_bytes();
}
