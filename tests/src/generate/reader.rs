//! Readers that a history left, readers by their layout, bent ones, and the bytes that come next.

use super::{change_byte, change_length, event, image, state, Rng};
use crate::model::event::{SIZE, STAMP};
use crate::model::reader::{number, refused, Bytes, EVENT, HEADER, NEW, NUMBER, PLACE, STATE, TAKEN};
use crate::model::trace::{Header, HEADER_SIZE, MAX_EVENTS, MAX_SPACING};
use crate::model::{self, snapshot, Refusal};
use image::Parts;

/// The bytes that a sender sent: an image, valid or damaged, or as much as came of one.
pub fn sent(rng: &mut Rng) -> Vec<u8> {
    let (mut bytes, _) = image::valid(rng);
    match rng.below(16) {
        0 => (0..2).for_each(|_| image::change_header(rng, &mut bytes)),
        1..=7 => image::damage(rng, &mut bytes),
        _ => {}
    }
    if rng.once_in(4) {
        bytes.truncate(rng.below(bytes.len() + 1));
    }
    bytes
}

/// The lengths of the chunks that so many bytes come in: one chunk, equal ones, or any, at times an
/// empty one. Where the bytes are many the chunks are neither short nor long, so that the calls stay
/// few and what each is lent little.
pub fn cutting(rng: &mut Rng, length: usize) -> Vec<usize> {
    let longest = length.clamp(1, 4096);
    let least = 1 + longest / 32;
    let most = match rng.below(8) {
        0 | 1 => longest,
        2 | 3 => least,
        4 => rng.pick(&[SIZE, HEADER_SIZE, snapshot::SIZE]).max(least),
        _ => least + rng.below(longest),
    };
    let equal = rng.once_in(2);
    let mut cutting = Vec::new();
    let mut rest = length;
    while rest > 0 {
        let next = if equal { most } else { rng.below(most + 1) }.min(rest);
        cutting.push(next);
        rest -= next;
    }
    if rng.once_in(4) {
        cutting.insert(rng.below(cutting.len() + 1), 0);
    }
    cutting
}

/// The reader that the model leaves after these bytes.
pub fn after(mut bytes: &[u8]) -> Bytes {
    let (mut reader, mut taken) = (NEW, [0; 2]);
    let mut buffer = [0; snapshot::SIZE];
    while !bytes.is_empty() && model::reader_feed(&mut reader, bytes, &mut buffer, &mut taken) == 0 {
        bytes = &bytes[taken[0] as usize..];
    }
    reader
}

/// A reader that a history left, at times the end told too early, and the bytes sent from there on.
pub fn left(rng: &mut Rng) -> (Bytes, Vec<u8>) {
    let mut bytes = sent(rng);
    let length = bytes.len();
    let cut = match rng.below(8) {
        0 => 0,
        1 => length,
        2 => length.saturating_sub(rng.below(20)),
        3 => HEADER_SIZE - 1 + rng.below(2),
        4 => HEADER_SIZE + SIZE * rng.below(length / SIZE + 1),
        _ => rng.below(length + 1),
    };
    let rest = bytes.split_off(cut.min(length));
    let mut reader = after(&bytes);
    if rng.once_in(16) {
        model::reader_end(&mut reader, &mut [0; snapshot::SIZE]);
    }
    (reader, rest)
}

/// The counts of an image's events and of the events between snapshots, at the limits and within
/// them.
fn counts(rng: &mut Rng) -> (usize, usize) {
    let most = MAX_EVENTS as usize;
    let spacing = match rng.below(4) {
        0 => rng.pick(&[1, 64, 4095, 4096]),
        1 => 1 + rng.below(MAX_SPACING as usize),
        _ => 1 + rng.below(6),
    };
    let events = match rng.below(8) {
        0 => rng.below(3),
        1 => most - rng.below(2),
        2 => spacing * rng.below(most / spacing + 1),
        3 => rng.below(most + 1),
        _ => rng.below(60),
    };
    (events, spacing)
}

/// A number up to `most`, often near an end of it or near a multiple of `step`.
fn near(rng: &mut Rng, step: usize, most: usize) -> usize {
    let at = match rng.below(4) {
        0 => 0,
        1 => most,
        2 => step * rng.below(most / step + 1),
        _ => return rng.below(most + 1),
    };
    (at + rng.below(9)).saturating_sub(4).min(most)
}

/// A well-formed reader of any image by the layout, its header complete, and bytes that may come
/// from there on; at times with an illegal event.
pub fn made(rng: &mut Rng) -> (Bytes, Vec<u8>) {
    const MOST_AHEAD: usize = 40;
    let (events, spacing) = counts(rng);
    let header = image::header(events, spacing);
    let parts = Parts::of(&header);
    let place = near(rng, spacing, events);
    let ahead = (events - place).min(MOST_AHEAD);
    let mut bytes = image::events(rng, ahead).into_flattened();
    match rng.below(8) {
        0 | 1 if ahead > 0 => event::damage(rng, &mut bytes[..SIZE]),
        2 => event::damage_one(rng, &mut bytes),
        _ => {}
    }
    let begun = match rng.below(4) {
        0 if ahead > 0 => rng.below(SIZE),
        1 if ahead > 0 => STAMP + rng.below(SIZE - STAMP),
        _ => 0,
    };
    let mut reader = NEW;
    reader[EVENT][..begun].copy_from_slice(&bytes[..begun]);
    bytes.drain(..begun);
    let mut taken = parts.event(place) + begun;
    if place + ahead == events {
        let table = snapshot::SIZE * parts.snapshots;
        if ahead == 0 {
            taken += near(rng, snapshot::SIZE, table);
        }
        let end = parts.snapshot(parts.snapshots);
        let more = (end - taken - bytes.len() + rng.below(3)).min(4 * snapshot::SIZE);
        bytes.extend((0..more).map(|_| rng.bits() as u8));
    }
    reader[TAKEN].copy_from_slice(&(taken as u32).to_le_bytes());
    reader[HEADER].copy_from_slice(&header);
    reader[STATE].copy_from_slice(&snapshot::encode(&state::state(rng)));
    (reader, bytes)
}

/// Any well-formed reader, and bytes that may come from there on.
pub fn well_formed(rng: &mut Rng) -> (Bytes, Vec<u8>) {
    match rng.below(16) {
        0 => {
            let refusal = match rng.below(8) {
                0 => Refusal::new(5, rng.pick(&[0, 1, MAX_EVENTS as usize - 1])),
                1 => Refusal::new(5, rng.below(MAX_EVENTS as usize)),
                _ => Refusal::new(1 + rng.below(5) as u32, 0),
            };
            (refused(refusal), event::legal(rng).to_vec())
        }
        1..=8 => left(rng),
        _ => made(rng),
    }
}

/// Changes some of a reader's bytes, often one alone, so that it may be no longer well formed.
pub fn bend(rng: &mut Rng, reader: &mut Bytes) {
    let (taken, refusal) = (number(reader, TAKEN), number(reader, NUMBER));
    match rng.below(16) {
        0 => reader.fill_with(|| rng.bits() as u8),
        1 => {
            let new = rng.pick(&[0, 1, 23, 24, 25, 36, taken + 1, taken.wrapping_sub(1), taken + 12]);
            reader[TAKEN].copy_from_slice(&new.to_le_bytes());
        }
        2 => reader[NUMBER].copy_from_slice(&(rng.below(11) as u32).to_le_bytes()),
        3 => *reader = refused(Refusal::new(rng.below(11) as u32, 0)),
        4 => {
            let new = rng.pick(&[1, MAX_EVENTS - 1, MAX_EVENTS, MAX_EVENTS + 1, u32::MAX]);
            reader[PLACE].copy_from_slice(&new.to_le_bytes());
            if refusal != 0 && rng.once_in(2) {
                reader[NUMBER.start] = 5;
            }
        }
        5 => change_byte(rng, &mut reader[HEADER]),
        6 => change_byte(rng, &mut reader[EVENT]),
        7 => {
            let state = state::snapshot(rng);
            reader[STATE].copy_from_slice(&state);
        }
        8..=11 => reader[rng.below(NEW.len())] ^= 1 << rng.below(8),
        _ => change_byte(rng, reader),
    }
}

/// So many of the bytes as one chunk has: all, none, a few, or any number.
pub fn chunk(rng: &mut Rng, bytes: &mut Vec<u8>) {
    match rng.below(8) {
        0 => bytes.clear(),
        1 => bytes.truncate(1),
        2 => bytes.truncate(SIZE * (1 + rng.below(4))),
        3 | 4 => bytes.truncate(rng.below(bytes.len() + 1)),
        _ => {}
    }
}

/// A buffer for a snapshot: seldom of another length, or of none.
pub fn buffer(rng: &mut Rng) -> Vec<u8> {
    let mut buffer = state::noise(rng).to_vec();
    match rng.below(64) {
        0..=3 => change_length(rng, &mut buffer),
        4 => buffer.clear(),
        5 => buffer.resize(NEW.len(), 0),
        _ => {}
    }
    buffer
}

/// The first rule of a well-formed reader that the bytes break: 0 the number of a refusal, its
/// place 1 where it has none, 2 past any event, 3 bytes beside it, 4 a place without a number;
/// before the header is whole 5 bytes of it that did not come, 6 of an event or a state; from there
/// on 7 and 8 the header's refusals 2 and 3, 9 more bytes than the image has, 10 the state, bytes of
/// an event 11 that did not come, 12 past the last event.
pub fn fault(reader: &Bytes) -> Option<u32> {
    let zero = |bytes: &[u8]| bytes.iter().all(|&byte| byte == 0);
    let taken = number(reader, TAKEN) as usize;
    let (number, place) = (number(reader, NUMBER), number(reader, PLACE));
    let (event, state) = (&reader[EVENT], &reader[STATE]);
    let broken = if number != 0 {
        let beside = [&reader[..NUMBER.start], state].concat();
        vec![
            (0, number > 5),
            (1, number < 5 && place != 0),
            (2, number == 5 && place >= MAX_EVENTS),
            (3, !zero(&beside)),
        ]
    } else if taken < HEADER_SIZE {
        let header = &reader[HEADER][taken..];
        vec![(4, place != 0), (5, !zero(header)), (6, !zero(event) || !zero(state))]
    } else {
        let header = reader[HEADER].try_into().unwrap();
        let refusal = Header::read(header).err().map_or(0, |refusal| refusal.number);
        let parts = Parts::of(header);
        let (events_end, end) = (parts.snapshot(0), parts.snapshot(parts.snapshots));
        let state = snapshot::decode(state.try_into().unwrap());
        vec![
            (4, place != 0),
            (7, refusal == 2),
            (8, refusal == 3),
            (9, taken > end),
            (10, !state.is_well_formed()),
            (11, taken < events_end && !zero(&event[(taken - HEADER_SIZE) % SIZE..])),
            (12, taken >= events_end && !zero(event)),
        ]
    };
    broken.into_iter().find(|&(_, broken)| broken).map(|(rule, _)| rule)
}
