//! Wrong readers of a trace in chunks (document 02, request 5).

use std::cell::Cell;
use std::hash::{DefaultHasher, Hash, Hasher};

use crate::generate::image::Parts;
use crate::generate::reader::fault;
use crate::harness::receiver::Phase;
use crate::model::event::Event;
use crate::model::reader::{number, refused, Bytes, EVENT, HEADER, NUMBER, STATE, TAKEN};
use crate::model::trace::HEADER_SIZE;
use crate::model::{event, snapshot, Refusal};
use crate::subject::{Model, Subject};

const WRONG_LENGTH: Refusal = Refusal::new(4, 0);

#[derive(Clone, Debug)]
pub enum Reading {
    /// Hands out each snapshot past the first one event late.
    OneEventLate,
    /// Takes a byte past a snapshot's place.
    TakesPast,
    /// Says that the whole chunk was taken where it stopped at a snapshot's place.
    CountsChunk,
    /// Looks at what follows a snapshot's place before it stops there.
    LooksAhead,
    /// Does not hand out a snapshot that no event follows.
    LastKept,
    /// Refuses by 4 for a byte too many although an illegal event came earlier.
    LengthFirst,
    /// Refuses by 3 although 2 concerns the header too.
    OffsetsFirst,
    /// Refuses an illegal event before its stamp came.
    StampUnawaited,
    /// Refuses an illegal event by 5 that the end cut off before its stamp came.
    CutOffIllegal,
    /// Writes the state to the buffer where no snapshot is held.
    BufferWritten,
    /// Writes `taken` with a refusal.
    RefusalTakes,
    /// Remembers a 9.
    Remembers9,
    /// Answers the remembered refusal where the buffer is not 68 bytes.
    RememberedBefore9,
    /// Forgets a refusal of a chunk.
    ForgetsChunk,
    /// Forgets that the end was told early.
    ForgetsEnd,
    /// Answers a remembered 5 at 0.
    PlaceForgotten,
    /// Refuses the end that is told again for the same reader, of which it keeps a hash.
    EndOnce(Cell<u64>),
    /// Refuses an empty chunk once the image is complete.
    EmptyRefused,
    /// Hands out a snapshot again for an empty chunk at its place.
    EmptyHolds,
    /// Refuses an image for a snapshot of its snapshot area that is not well formed.
    TableRead,
    /// Leaves an event's bytes in the reader when it is whole.
    EventLeft,
    /// Takes a reader for well formed that breaks this rule.
    Unchecked(u32),
    /// Leaves the state of the reader that it writes anew.
    StateLeft,
}

impl Reading {
    pub fn all() -> Vec<Reading> {
        let mut all = vec![
            Reading::OneEventLate,
            Reading::TakesPast,
            Reading::CountsChunk,
            Reading::LooksAhead,
            Reading::LastKept,
            Reading::LengthFirst,
            Reading::OffsetsFirst,
            Reading::StampUnawaited,
            Reading::CutOffIllegal,
            Reading::BufferWritten,
            Reading::RefusalTakes,
            Reading::Remembers9,
            Reading::RememberedBefore9,
            Reading::ForgetsChunk,
            Reading::ForgetsEnd,
            Reading::PlaceForgotten,
            Reading::EndOnce(Cell::new(0)),
            Reading::EmptyRefused,
            Reading::EmptyHolds,
            Reading::TableRead,
            Reading::EventLeft,
            Reading::StateLeft,
        ];
        all.extend((0..=12).map(Reading::Unchecked));
        all
    }

    pub fn write_new(&self, reader: &mut Bytes) {
        let state = reader[STATE].to_vec();
        Model.reader_new(reader);
        if matches!(self, Reading::StateLeft) {
            reader[STATE].copy_from_slice(&state);
        }
    }

    pub fn feed(&self, reader: &mut Bytes, chunk: &[u8], buffer: &mut [u8], taken: &mut [u64; 2]) -> u64 {
        if matches!(self, Reading::OneEventLate) && !chunk.is_empty() {
            return one_event_late(reader, chunk, buffer, taken);
        }
        let (before, old_buffer, old_taken) = (*reader, buffer.to_vec(), *taken);
        let status = Model.reader_feed(reader, chunk, buffer, taken);
        if let Some(refusal) = Refusal::from_status(status) {
            return self.refused(refusal, &before, reader, chunk, buffer.len(), taken);
        }
        if let Some(refusal) = self.refusal(&before, reader, chunk, *taken) {
            (*reader, *taken) = (refused(refusal), old_taken);
            buffer.copy_from_slice(&old_buffer);
            return refusal.status();
        }
        let held = taken[1] == 1;
        let rest = &chunk[taken[0] as usize..];
        let now = number(reader, TAKEN) as usize;
        let parts = Parts::of(&reader[HEADER]);
        match self {
            Reading::TakesPast if !rest.is_empty() => {
                taken[0] += 1;
                return Model.reader_feed(reader, &rest[..1], &mut [0; snapshot::SIZE], &mut [0; 2]);
            }
            Reading::CountsChunk => taken[0] = chunk.len() as u64,
            Reading::LastKept if held && now > HEADER_SIZE && now == parts.event(parts.events) => {
                buffer.copy_from_slice(&old_buffer);
                taken[1] = 0;
            }
            Reading::BufferWritten if now >= HEADER_SIZE => buffer.copy_from_slice(&reader[STATE]),
            Reading::EmptyHolds if chunk.is_empty() && Phase::of(reader) == Phase::AtSnapshot => {
                buffer.copy_from_slice(&reader[STATE]);
                taken[1] = 1;
            }
            Reading::EventLeft if matches!(Phase::of(reader), Phase::AtSnapshot | Phase::BetweenEvents) => {
                let came = &chunk[..chunk.len() - rest.len()];
                if let Some(event) = came.last_chunk::<{ event::SIZE }>().filter(|_| now > HEADER_SIZE) {
                    reader[EVENT].copy_from_slice(event);
                }
            }
            _ => {}
        }
        0
    }

    /// Why a chunk is refused of which the model took so many bytes.
    fn refusal(
        &self,
        before: &Bytes,
        reader: &Bytes,
        chunk: &[u8],
        [count, held]: [u64; 2],
    ) -> Option<Refusal> {
        let (came, rest) = chunk.split_at(count as usize);
        match self {
            Reading::LooksAhead if held == 1 => {
                let mut ahead = *reader;
                let status = Model.reader_feed(&mut ahead, rest, &mut [0; snapshot::SIZE], &mut [0; 2]);
                Refusal::from_status(status)
            }
            Reading::StampUnawaited => illegal_so_far(reader),
            Reading::EmptyRefused if chunk.is_empty() && Phase::of(before) == Phase::Complete => {
                Some(WRONG_LENGTH)
            }
            Reading::TableRead if has_bad_snapshot(before, reader, came) => Some(WRONG_LENGTH),
            _ => None,
        }
    }

    /// What becomes of a chunk that the model refuses.
    fn refused(
        &self,
        refusal: Refusal,
        before: &Bytes,
        reader: &mut Bytes,
        chunk: &[u8],
        buffer: usize,
        taken: &mut [u64; 2],
    ) -> u64 {
        let begun = number(before, TAKEN) as usize;
        let remembered = number(before, NUMBER) != 0;
        match (self, refusal.number) {
            (_, 9) if !matches!(self, Reading::RefusalTakes) => return self.nine(reader, buffer),
            (Reading::LengthFirst, 5) if !remembered => {
                let parts = Parts::of(&before[HEADER]);
                if begun + chunk.len() > parts.snapshot(parts.snapshots) {
                    *reader = refused(WRONG_LENGTH);
                    return WRONG_LENGTH.status();
                }
            }
            (Reading::OffsetsFirst, 2) if !remembered => {
                let came = [&before[HEADER][..begun], chunk].concat();
                if came[4..8] != 24u32.to_le_bytes() {
                    *reader = refused(Refusal::new(3, 0));
                    return 3;
                }
            }
            (Reading::RefusalTakes, _) => *taken = [0, 0],
            (Reading::ForgetsChunk, _) => *reader = *before,
            (Reading::PlaceForgotten, 5) if remembered => return 5,
            _ => {}
        }
        refusal.status()
    }

    /// What becomes of a 9.
    fn nine(&self, reader: &mut Bytes, buffer: usize) -> u64 {
        match (self, fault(reader)) {
            (Reading::Remembers9, None) => *reader = refused(Refusal::new(9, 0)),
            (Reading::RememberedBefore9, None) if number(reader, NUMBER) != 0 => {
                return Model.reader_end(reader, &mut [0; snapshot::SIZE]);
            }
            (Reading::Unchecked(rule), Some(broken)) if *rule == broken && buffer == snapshot::SIZE => {
                return 0;
            }
            _ => {}
        }
        9
    }

    pub fn end(&self, reader: &mut Bytes, buffer: &mut [u8]) -> u64 {
        let (before, old_buffer) = (*reader, buffer.to_vec());
        let status = Model.reader_end(reader, buffer);
        let refusal = match (self, status as u16) {
            (Reading::CutOffIllegal, 4) => illegal_so_far(&before),
            (Reading::EndOnce(ended), 0) if ended.replace(hash(&before)) == hash(&before) => {
                Some(WRONG_LENGTH)
            }
            (Reading::ForgetsEnd, 1 | 4) => {
                *reader = before;
                None
            }
            (Reading::PlaceForgotten, 5) => return 5,
            (_, 9) => return self.nine(reader, buffer.len()),
            _ => None,
        };
        let Some(refusal) = refusal else {
            return status;
        };
        *reader = refused(refusal);
        buffer.copy_from_slice(&old_buffer);
        refusal.status()
    }
}

fn hash(reader: &Bytes) -> u64 {
    let mut hasher = DefaultHasher::new();
    reader.hash(&mut hasher);
    hasher.finish()
}

/// The refusal of an event that came but for its stamp, if it is illegal.
fn illegal_so_far(reader: &Bytes) -> Option<Refusal> {
    let past_header = (number(reader, TAKEN) as usize).checked_sub(HEADER_SIZE)?;
    let came = Phase::of(reader) == Phase::InEvent && past_header % event::SIZE >= event::STAMP;
    let illegal = !Event::from_bytes(reader[EVENT].try_into().unwrap()).is_legal();
    (came && illegal).then(|| Refusal::new(5, past_header / event::SIZE))
}

/// Whether these bytes, with which one reader became the other, have a whole snapshot of the
/// snapshot area that is not well formed.
fn has_bad_snapshot(before: &Bytes, reader: &Bytes, came: &[u8]) -> bool {
    let (begun, now) = (number(before, TAKEN) as usize, number(reader, TAKEN) as usize);
    let table = Parts::of(&reader[HEADER]).snapshot(0);
    if now < HEADER_SIZE || now <= table {
        return false;
    }
    let skipped = match begun.checked_sub(table) {
        Some(past) => past.next_multiple_of(snapshot::SIZE) - past,
        None => table - begun,
    };
    let whole = came.get(skipped..).unwrap_or_default().as_chunks().0;
    whole.iter().any(|bytes| !snapshot::decode(bytes).is_well_formed())
}

/// Stops at the header's end and one event past each further snapshot's place.
fn one_event_late(reader: &mut Bytes, chunk: &[u8], buffer: &mut [u8], taken: &mut [u64; 2]) -> u64 {
    let mut scratch = buffer.to_vec();
    for (count, byte) in (1..).zip(chunk.chunks(1)) {
        let status = Model.reader_feed(reader, byte, &mut scratch, &mut [0; 2]);
        if status != 0 {
            return status;
        }
        let now = number(reader, TAKEN) as usize;
        let parts = Parts::of(&reader[HEADER]);
        let place = now.saturating_sub(HEADER_SIZE) / event::SIZE;
        let whole = place <= parts.events && now == parts.event(place);
        if now == HEADER_SIZE || whole && place > 1 && (place - 1).is_multiple_of(parts.spacing) {
            buffer.copy_from_slice(&reader[STATE]);
            *taken = [count, 1];
            return 0;
        }
    }
    *taken = [chunk.len() as u64, 0];
    0
}
