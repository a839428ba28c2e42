//! The model's twelve calls, on slices as the C surface has them. A status holds the refusal's
//! number in bits 0 to 15, the trace it speaks of in bits 16 to 31 and its place in bits 32 to
//! 63; 0 is done. A refusal leaves every lent buffer as it was, but for a reader, which remembers
//! it.

mod compare;
pub mod counter;
mod difference;
mod draw;
pub mod event;
pub mod flags;
mod interrupt;
pub mod reader;
mod sample;
pub mod settings;
pub mod snapshot;
pub mod trace;

pub use interrupt::Fate;

use event::Event;

/// Why a call was refused: a number of the refusal table, the trace it speaks of (1 or 2; 0
/// where it names none) and its place.
#[derive(Clone, Copy, PartialEq, Eq, Debug)]
pub struct Refusal {
    pub number: u32,
    pub trace: u32,
    pub place: usize,
}

impl Refusal {
    pub const fn new(number: u32, place: usize) -> Refusal {
        Refusal { number, trace: 0, place }
    }

    pub const fn of_trace(self, trace: u32) -> Refusal {
        Refusal { trace, ..self }
    }

    /// A place past 2^32 - 1, which only drawing can have, stands as 2^32 - 1.
    pub fn status(self) -> u64 {
        let place = u32::try_from(self.place).unwrap_or(u32::MAX);
        u64::from(self.number) | u64::from(self.trace) << 16 | u64::from(place) << 32
    }

    /// The refusal that a status tells, none if it is done.
    pub fn from_status(status: u64) -> Option<Refusal> {
        let [number, trace] = [status, status >> 16].map(|bits| u32::from(bits as u16));
        (status != 0).then_some(Refusal { number, trace, place: (status >> 32) as usize })
    }
}

const WRONG_SIZE: Refusal = Refusal::new(9, 0);

fn status(answer: Result<(), Refusal>) -> u64 {
    answer.map_or_else(Refusal::status, |()| 0)
}

/// 1 for a legal event, 0 for an illegal one, 9 for a length other than 12.
pub fn event_check(event: &[u8]) -> u32 {
    match event.try_into() {
        Ok(bytes) => Event::from_bytes(bytes).is_legal().into(),
        Err(_) => WRONG_SIZE.number,
    }
}

/// Writes the snapshot after the event over the lent one. Refusals 9, 5, 6.
pub fn step(snapshot: &mut [u8], event: &[u8]) -> u64 {
    status(try_step(snapshot, event))
}

fn try_step(snapshot: &mut [u8], event: &[u8]) -> Result<(), Refusal> {
    let snapshot: &mut snapshot::Bytes = snapshot.try_into().map_err(|_| WRONG_SIZE)?;
    let event = Event::from_bytes(event.try_into().map_err(|_| WRONG_SIZE)?);
    if !event.is_legal() {
        return Err(Refusal::new(5, 0));
    }
    let mut counter = snapshot::decode_at(snapshot, 0)?;
    counter.step(event);
    *snapshot = snapshot::encode(&counter);
    Ok(())
}

/// Writes the state and the bits that are shown but not stored. Refusals 9, 6.
pub fn read(snapshot: &[u8], fields: &mut [i32; 32]) -> u64 {
    status(try_read(snapshot, fields))
}

fn try_read(snapshot: &[u8], fields: &mut [i32; 32]) -> Result<(), Refusal> {
    let snapshot = snapshot.try_into().map_err(|_| WRONG_SIZE)?;
    *fields = snapshot::decode_at(snapshot, 0)?.fields();
    Ok(())
}

/// Writes every snapshot of the image, and the final state over `last`. Refusals 1 to 5.
pub fn replay(image: &mut [u8], last: &mut snapshot::Bytes) -> u64 {
    status(trace::replay(image).map(|state| *last = snapshot::encode(&state)))
}

/// Copies the patch over the events from `first` and mends the table after them; `span`
/// takes s + 1, the stop and the events run. Refusals 1 to 5, 7, 8, 6.
pub fn mend(image: &mut [u8], first: u64, patch: &[u8], span: &mut [u32; 3]) -> u64 {
    status(trace::mend(image, first, patch).map(|answer| *span = answer))
}

/// Writes to the row, rising, each place within the shorter trace where kind, sub or value
/// differ, and how many they are to `count`. Refusals 9, 5 of the first trace, 5 of the second,
/// 12.
pub fn compare(first: &[u8], second: &[u8], row: &mut [u32], count: &mut u32) -> u64 {
    status(compare::compare(first, second, row).map(|answer| *count = answer))
}

/// Answers the longer trace, 1 if neither is; `part` takes the place and the length of its part
/// past the shorter's length. A call, as the archive's is, so that `bench/` times the two alike.
#[inline(never)]
pub fn rest(first: &[u8], second: &[u8], part: &mut [u64; 2]) -> u32 {
    let (trace, answer) = compare::rest(first, second);
    *part = answer;
    trace
}

/// Takes the events one after another, writes the accumulator after each to the row, and the
/// snapshot after all of them over the lent one. Refusals 9, 5, 6.
pub fn draw(snapshot: &mut [u8], events: &[u8], row: &mut [i32]) -> u64 {
    status(draw::draw(snapshot, events, row))
}

/// Answers the first place where two parts of bytes differ, the shorter's length if there is none
/// within it. A call, as `rest` is.
#[inline(never)]
pub fn first_difference(first: &[u8], second: &[u8]) -> u64 {
    difference::first_difference(first, second) as u64
}

/// Writes a reader that no byte came to.
pub fn reader_new(reader: &mut reader::Bytes) {
    *reader = reader::NEW;
}

/// Takes the chunk's bytes up to the next snapshot's place; `taken` takes their count and 1 if the
/// buffer now holds that snapshot, else 0. Refusals 9, which leaves the reader too, the one it
/// remembers, and 2, 3, 5 and 4 in the order of the bytes.
pub fn reader_feed(reader: &mut reader::Bytes, chunk: &[u8], buffer: &mut [u8], taken: &mut [u64; 2]) -> u64 {
    status(reader::feed(reader, chunk, buffer).map(|answer| *taken = answer))
}

/// Writes the final state over the buffer. Refusals 9, which leaves the reader too, the one it
/// remembers, 1 and 4.
pub fn reader_end(reader: &mut reader::Bytes, buffer: &mut [u8]) -> u64 {
    status(reader::end(reader, buffer))
}
