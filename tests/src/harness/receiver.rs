//! A receiver of a trace in chunks: it lends the rest of a chunk again after each snapshot, then
//! tells the sender's end. What holds of it is checked on the subject alone.

use super::case::{Answer, Case, PAINT};
use crate::generate::image::Parts;
use crate::model::reader::{self, number, HEADER, NUMBER, TAKEN};
use crate::model::trace::HEADER_SIZE;
use crate::model::{event, snapshot, Refusal};
use crate::subject::Subject;

/// Where a reader stands before a call.
#[derive(Clone, Copy, PartialEq, Eq, Debug)]
pub enum Phase {
    NoByte,
    /// The header is not whole.
    Header,
    /// The last byte of the header alone is missing.
    HeaderEnd,
    InEvent,
    BetweenEvents,
    /// A snapshot was handed out with the last byte.
    AtSnapshot,
    /// In the snapshot area, or at its begin past an event that no snapshot follows.
    Table,
    Complete,
    /// Complete, and the end was told.
    Ended,
    Refused,
}

impl Phase {
    /// Of a well-formed reader, to which no end was told yet.
    pub fn of(reader: &reader::Bytes) -> Phase {
        if number(reader, NUMBER) != 0 {
            return Phase::Refused;
        }
        let taken = number(reader, TAKEN) as usize;
        let Some(past_header) = taken.checked_sub(HEADER_SIZE) else {
            return match taken {
                0 => Phase::NoByte,
                23 => Phase::HeaderEnd,
                _ => Phase::Header,
            };
        };
        let parts = Parts::of(&reader[HEADER]);
        let (place, begun) = (past_header / event::SIZE, past_header % event::SIZE);
        if taken == parts.snapshot(parts.snapshots) {
            Phase::Complete
        } else if taken > parts.event(parts.events) {
            Phase::Table
        } else if begun > 0 {
            Phase::InEvent
        } else if place.checked_rem(parts.spacing) == Some(0) {
            Phase::AtSnapshot
        } else if place < parts.events {
            Phase::BetweenEvents
        } else {
            Phase::Table
        }
    }
}

/// What a receiver has of the bytes that were sent.
#[derive(PartialEq, Eq, Debug)]
pub struct Received {
    pub snapshots: Vec<snapshot::Bytes>,
    /// The reader after the last byte.
    pub reader: reader::Bytes,
    /// The refusal, or the final state.
    pub end: Result<snapshot::Bytes, Refusal>,
}

fn check(holds: bool, claim: &str) -> Result<(), String> {
    holds.then_some(()).ok_or_else(|| format!("a trace in chunks: {claim}"))
}

/// A buffer's bytes before each call.
const BLANK: snapshot::Bytes = [PAINT; snapshot::SIZE];

struct Receiver<C> {
    call: C,
    reader: reader::Bytes,
    ended: bool,
}

impl<C: FnMut(&Case, Phase) -> Result<Answer, String>> Receiver<C> {
    /// Makes a call, which may write nothing but the reader if it is refused, and that only to
    /// remember it.
    fn answer(&mut self, case: Case) -> Result<Answer, String> {
        let phase = match Phase::of(&self.reader) {
            Phase::Complete if self.ended => Phase::Ended,
            phase => phase,
        };
        let answer = (self.call)(&case, phase)?;
        self.reader = answer.results.reader;
        if let Some(refusal) = answer.refusal() {
            let remembers =
                if refusal.number == 9 { case.refused_by(refusal) } else { case.remembered(refusal) };
            check(answer == remembers, "a refusal is not remembered, or more is written")?;
        }
        Ok(answer)
    }

    fn feed(&mut self, chunk: &[u8]) -> Result<Answer, String> {
        let answer = self.answer(Case::reader_feed(&self.reader, chunk, &BLANK))?;
        if answer.status == 0 {
            let [count, held] = answer.results.taken;
            let used_up = count == chunk.len() as u64;
            check(held == 1 || held == 0 && used_up, "a chunk is left over, and no snapshot is held")?;
            check(used_up || count < chunk.len() as u64, "more is taken than there was")?;
            check(held == 1 || answer.buffer() == BLANK, "the buffer is written, and holds no snapshot")?;
            let reached = count > 0 && Phase::of(&self.reader) == Phase::AtSnapshot;
            check((held == 1) == reached, "a snapshot is held elsewhere than at its place, or not there")?;
        }
        Ok(answer)
    }

    /// Tells the end; a good one leaves the reader.
    fn end(&mut self) -> Result<Result<snapshot::Bytes, Refusal>, String> {
        let before = self.reader;
        let answer = self.answer(Case::reader_end(&self.reader, &BLANK))?;
        match answer.refusal() {
            Some(refusal) => Ok(Err(refusal)),
            None => {
                check(self.reader == before, "a good end changes the reader")?;
                self.ended = true;
                Ok(Ok(answer.buffer().try_into().unwrap()))
            }
        }
    }

    /// Lends buffers of other lengths, which must change nothing.
    fn wrong_lengths(&mut self) -> Result<(), String> {
        let before = self.reader;
        let long = [PAINT; snapshot::SIZE + 1];
        for buffer in [&[][..], &long[2..], &long] {
            let fed = self.answer(Case::reader_feed(&before, &[0], buffer))?;
            let ended = self.answer(Case::reader_end(&before, buffer))?;
            check([fed.status, ended.status] == [9, 9], "a buffer of another length is taken")?;
            check(self.reader == before, "9 changes the reader")?;
        }
        Ok(())
    }

    /// Every further call gets the refusal that came.
    fn stays_refused(&mut self, refusal: Refusal, chunk: &[u8]) -> Result<(), String> {
        for chunk in [chunk, &[], &[0]] {
            let answer = self.feed(chunk)?;
            check(answer.refusal() == Some(refusal), "a refusal is not given again")?;
            check(self.end()? == Err(refusal), "a refusal is not given again at the end")?;
        }
        Ok(())
    }
}

/// Receives bytes in chunks of these lengths and tells the end, then tries what may come after it.
/// Each call is made by `call`, which is told where the reader stands.
pub fn receive(
    bytes: &[u8],
    cutting: &[usize],
    call: impl FnMut(&Case, Phase) -> Result<Answer, String>,
) -> Result<Received, String> {
    let mut receiver = Receiver { call, reader: reader::NEW, ended: false };
    receiver.answer(Case::reader_new(&[PAINT; reader::SIZE]))?;
    let mut snapshots = Vec::new();
    let mut refused = None;
    let mut rest = bytes;
    'chunks: for &length in cutting {
        let (mut chunk, behind) = rest.split_at(length);
        rest = behind;
        loop {
            let answer = receiver.feed(chunk)?;
            refused = answer.refusal();
            if refused.is_some() {
                break 'chunks;
            }
            let [count, held] = answer.results.taken;
            chunk = &chunk[count as usize..];
            snapshots.extend((held == 1).then(|| snapshot::Bytes::try_from(answer.buffer()).unwrap()));
            if chunk.is_empty() {
                break;
            }
        }
    }
    let reader = receiver.reader;
    let end = match refused {
        Some(refusal) => Err(refusal),
        None => receiver.end()?,
    };
    receiver.wrong_lengths()?;
    match end {
        Err(refusal) => receiver.stays_refused(refusal, rest)?,
        Ok(_) => {
            check(receiver.end()? == end, "the end told again answers another")?;
            check(receiver.feed(&[])?.status == 0, "an empty chunk is not taken after the end")?;
            check(receiver.end()? == end, "the end told again answers another")?;
            let surplus = Refusal::new(4, 0);
            let answer = receiver.feed(&[0])?;
            check(answer.refusal() == Some(surplus), "a byte is taken after the end")?;
            receiver.stays_refused(surplus, &[])?;
        }
    }
    Ok(Received { snapshots, reader, end })
}

/// Receives on a subject alone, where no call may touch more than it is lent.
pub fn received(subject: &dyn Subject, bytes: &[u8], cutting: &[usize]) -> Result<Received, String> {
    receive(bytes, cutting, |case, _| {
        let answer = case.answer(subject);
        check(answer.stays_within(case), &format!("{:?} touches a guard or the chunk", case.call))?;
        Ok(answer)
    })
}

/// Checks that the same bytes by two cuttings leave the same, and, if they are a valid image, the
/// snapshots and the final state of its replay. Says by what the bytes were refused.
pub fn holds(subject: &dyn Subject, bytes: &[u8], cuttings: [&[usize]; 2]) -> Result<u32, String> {
    let one = received(subject, bytes, cuttings[0])?;
    let other = received(subject, bytes, cuttings[1])?;
    check(one == other, "two cuttings differ")?;
    let replayed = Case::replay(bytes).answer(subject);
    if replayed.status == 0 {
        let table = &replayed.buffer()[Parts::of(bytes).snapshot(0)..];
        check(one.snapshots.as_flattened() == table, "the snapshots are not those of the replay")?;
        check(one.end == Ok(replayed.results.last), "the final state is not that of the replay")?;
    }
    check(one.end.is_err() == (replayed.status != 0), "replay and the reader do not both refuse")?;
    Ok(one.end.map_or_else(|refusal| refusal.number, |_| 0))
}
