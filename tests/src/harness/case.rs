//! One call with its inputs, and all that can be seen of it afterwards.

use std::fmt;
use std::ops::Range;

use crate::model::{reader, snapshot, Refusal};
use crate::subject::Subject;

#[derive(Clone, Copy, PartialEq, Eq, Debug)]
pub enum Call {
    EventCheck,
    Step,
    Read,
    Replay,
    Mend,
    Compare,
    Rest,
    Draw,
    FirstDifference,
    ReaderNew,
    ReaderFeed,
    ReaderEnd,
}

impl Call {
    /// Whether it is lent a reader.
    pub fn of_reader(self) -> bool {
        matches!(self, Call::ReaderNew | Call::ReaderFeed | Call::ReaderEnd)
    }
}

/// A call and what it is lent: `buffer` is the snapshot, image, first trace or first part, `input`
/// the event or events, patch, second trace, second part or chunk, `row` the count of the row's
/// numbers. Two parts that are `shared` both lie in the buffer.
#[derive(Debug)]
pub struct Case {
    pub call: Call,
    pub buffer: Vec<u8>,
    pub first: u64,
    pub input: Vec<u8>,
    pub row: usize,
    pub shared: Option<[Range<usize>; 2]>,
    pub reader: reader::Bytes,
}

/// Bytes, or numbers of the row, on each side of a lent buffer that no call may touch: more than
/// a snapshot.
const GUARD: usize = 80;

/// What a guard byte and a result hold before the call.
pub const PAINT: u8 = 0xa5;
const PAINTED_NUMBER: u32 = u32::from_le_bytes([PAINT; 4]);
const PAINTED_SIGNED: i32 = i32::from_le_bytes([PAINT; 4]);
const PAINTED_LONG: u64 = u64::from_le_bytes([PAINT; 8]);

/// The results with guards between them, in one block so that a stray write shows.
#[repr(C)]
#[derive(Clone, Copy, PartialEq, Eq, Debug)]
pub struct Results {
    guard_0: [u8; GUARD],
    pub fields: [i32; 32],
    guard_1: [u8; GUARD],
    pub last: [u8; 68],
    guard_2: [u8; GUARD],
    pub span: [u32; 3],
    guard_3: [u8; GUARD],
    pub count: u32,
    guard_4: [u8; GUARD],
    pub part: [u64; 2],
    guard_5: [u8; GUARD],
    pub taken: [u64; 2],
    guard_6: [u8; GUARD],
    pub reader: reader::Bytes,
    guard_7: [u8; GUARD],
}

impl Results {
    pub const PAINTED: Results = Results {
        guard_0: [PAINT; GUARD],
        fields: [PAINTED_SIGNED; 32],
        guard_1: [PAINT; GUARD],
        last: [PAINT; 68],
        guard_2: [PAINT; GUARD],
        span: [PAINTED_NUMBER; 3],
        guard_3: [PAINT; GUARD],
        count: PAINTED_NUMBER,
        guard_4: [PAINT; GUARD],
        part: [PAINTED_LONG; 2],
        guard_5: [PAINT; GUARD],
        taken: [PAINTED_LONG; 2],
        guard_6: [PAINT; GUARD],
        reader: [PAINT; reader::SIZE],
        guard_7: [PAINT; GUARD],
    };
}

/// All that a call left: equal answers include untouched guards. A comparison is lent the row, a
/// drawing the curve.
#[derive(PartialEq, Eq)]
pub struct Answer {
    pub status: u64,
    buffer: Vec<u8>,
    input: Vec<u8>,
    row: Vec<u32>,
    curve: Vec<i32>,
    pub results: Results,
}

fn guarded(bytes: &[u8]) -> Vec<u8> {
    [&[PAINT; GUARD], bytes, &[PAINT; GUARD]].concat()
}

fn inside<T>(guarded: &mut [T]) -> &mut [T] {
    let end = guarded.len() - GUARD;
    &mut guarded[GUARD..end]
}

impl Answer {
    /// The status and lent bytes of a call that changed nothing.
    pub(super) fn unchanged(case: &Case, status: u64) -> Answer {
        Answer {
            status,
            buffer: guarded(&case.buffer),
            input: guarded(&case.input),
            row: vec![PAINTED_NUMBER; GUARD + case.row + GUARD],
            curve: vec![PAINTED_SIGNED; GUARD + case.row + GUARD],
            results: Results { reader: case.reader, ..Results::PAINTED },
        }
    }

    /// The snapshot, image or first trace after the call.
    pub fn buffer(&self) -> &[u8] {
        &self.buffer[GUARD..self.buffer.len() - GUARD]
    }

    /// The row after the call.
    pub fn row(&self) -> &[u32] {
        &self.row[GUARD..self.row.len() - GUARD]
    }

    /// The curve after the call.
    pub fn curve(&self) -> &[i32] {
        &self.curve[GUARD..self.curve.len() - GUARD]
    }

    /// Whether the guards and the read-only input are as they were.
    pub fn stays_within(&self, case: &Case) -> bool {
        let mut want = Answer::unchanged(case, self.status);
        inside(&mut want.buffer).copy_from_slice(self.buffer());
        inside(&mut want.row).copy_from_slice(self.row());
        inside(&mut want.curve).copy_from_slice(self.curve());
        let Results { fields, last, span, count, part, taken, reader, .. } = self.results;
        want.results = Results { fields, last, span, count, part, taken, reader, ..Results::PAINTED };
        *self == want
    }

    /// The refusal's number, 0 if there was none; for the event check and the rest the answer. A
    /// first difference is the whole status.
    pub fn number(&self) -> u32 {
        (self.status as u16).into()
    }

    /// The trace that the refusal speaks of, 0 if none.
    pub fn trace(&self) -> u32 {
        ((self.status >> 16) as u16).into()
    }

    pub fn place(&self) -> usize {
        (self.status >> 32) as usize
    }

    /// The refusal, if there was one, of a call that may be refused.
    pub fn refusal(&self) -> Option<Refusal> {
        Refusal::from_status(self.status)
    }

    /// The first place at which each part differs; lent bytes count from the guard's end.
    fn difference(&self, want: &Answer) -> String {
        let (ours, theirs) = (&self.results, &want.results);
        let guards = |results: &Results| {
            let &Results { guard_0, guard_1, guard_2, guard_3, .. } = results;
            let &Results { guard_4, guard_5, guard_6, guard_7, .. } = results;
            [guard_0, guard_1, guard_2, guard_3, guard_4, guard_5, guard_6, guard_7].concat()
        };
        let parts = [
            first_difference("status", &[self.status], &[want.status], 0),
            first_difference("buffer", &self.buffer, &want.buffer, GUARD),
            first_difference("input", &self.input, &want.input, GUARD),
            first_difference("row", &self.row, &want.row, GUARD),
            first_difference("curve", &self.curve, &want.curve, GUARD),
            first_difference("fields", &ours.fields, &theirs.fields, 0),
            first_difference("last", &ours.last, &theirs.last, 0),
            first_difference("span", &ours.span, &theirs.span, 0),
            first_difference("count", &[ours.count], &[theirs.count], 0),
            first_difference("part", &ours.part, &theirs.part, 0),
            first_difference("taken", &ours.taken, &theirs.taken, 0),
            first_difference("reader", &ours.reader, &theirs.reader, 0),
            first_difference("guards", &guards(ours), &guards(theirs), 0),
        ];
        parts.into_iter().flatten().collect::<Vec<_>>().join("; ")
    }
}

fn first_difference<T: PartialEq + fmt::Debug>(
    name: &str,
    ours: &[T],
    want: &[T],
    origin: usize,
) -> Option<String> {
    let at = (0..ours.len()).find(|&at| ours[at] != want[at])?;
    let place = at as isize - origin as isize;
    Some(format!("{name} at {place} is {:?}, not {:?}", ours[at], want[at]))
}

impl Case {
    pub fn event_check(event: &[u8]) -> Case {
        Case::lend(Call::EventCheck, &[], 0, event)
    }

    pub fn step(snapshot: &[u8], event: &[u8]) -> Case {
        Case::lend(Call::Step, snapshot, 0, event)
    }

    pub fn read(snapshot: &[u8]) -> Case {
        Case::lend(Call::Read, snapshot, 0, &[])
    }

    pub fn replay(image: &[u8]) -> Case {
        Case::lend(Call::Replay, image, 0, &[])
    }

    pub fn mend(image: &[u8], first: u64, patch: &[u8]) -> Case {
        Case::lend(Call::Mend, image, first, patch)
    }

    pub fn compare(first: &[u8], second: &[u8], row: usize) -> Case {
        Case { row, ..Case::lend(Call::Compare, first, 0, second) }
    }

    pub fn rest(first: &[u8], second: &[u8]) -> Case {
        Case::lend(Call::Rest, first, 0, second)
    }

    pub fn draw(snapshot: &[u8], events: &[u8], row: usize) -> Case {
        Case { row, ..Case::lend(Call::Draw, snapshot, 0, events) }
    }

    pub fn first_difference(first: &[u8], second: &[u8]) -> Case {
        Case::lend(Call::FirstDifference, first, 0, second)
    }

    pub fn first_difference_within(memory: &[u8], parts: [Range<usize>; 2]) -> Case {
        Case { shared: Some(parts), ..Case::lend(Call::FirstDifference, memory, 0, &[]) }
    }

    pub fn reader_new(reader: &reader::Bytes) -> Case {
        Case { reader: *reader, ..Case::lend(Call::ReaderNew, &[], 0, &[]) }
    }

    pub fn reader_feed(reader: &reader::Bytes, chunk: &[u8], buffer: &[u8]) -> Case {
        Case { reader: *reader, ..Case::lend(Call::ReaderFeed, buffer, 0, chunk) }
    }

    pub fn reader_end(reader: &reader::Bytes, buffer: &[u8]) -> Case {
        Case { reader: *reader, ..Case::lend(Call::ReaderEnd, buffer, 0, &[]) }
    }

    fn lend(call: Call, buffer: &[u8], first: u64, input: &[u8]) -> Case {
        let (buffer, input) = (buffer.to_vec(), input.to_vec());
        Case { call, buffer, first, input, row: 0, shared: None, reader: [PAINT; reader::SIZE] }
    }

    /// The two parts of bytes that the case compares.
    pub fn parts(&self) -> [&[u8]; 2] {
        self.parts_of(&self.buffer, &self.input)
    }

    fn parts_of<'a>(&self, buffer: &'a [u8], input: &'a [u8]) -> [&'a [u8]; 2] {
        match self.shared.clone() {
            Some(parts) => parts.map(|part| &buffer[part]),
            None => [buffer, input],
        }
    }

    /// Makes the call on guarded copies of the inputs.
    pub fn answer(&self, subject: &dyn Subject) -> Answer {
        let mut answer = Answer::unchanged(self, 0);
        let buffer = inside(&mut answer.buffer);
        let input = &*inside(&mut answer.input);
        let row = inside(&mut answer.row);
        let curve = inside(&mut answer.curve);
        let results = &mut answer.results;
        answer.status = match self.call {
            Call::EventCheck => subject.event_check(input).into(),
            Call::Step => subject.step(buffer, input),
            Call::Read => subject.read(buffer, &mut results.fields),
            Call::Replay => subject.replay(buffer, &mut results.last),
            Call::Mend => subject.mend(buffer, self.first, input, &mut results.span),
            Call::Compare => subject.compare(buffer, input, row, &mut results.count),
            Call::Rest => subject.rest(buffer, input, &mut results.part).into(),
            Call::Draw => subject.draw(buffer, input, curve),
            Call::FirstDifference => {
                let [first, second] = self.parts_of(buffer, input);
                subject.first_difference(first, second)
            }
            Call::ReaderNew => {
                subject.reader_new(&mut results.reader);
                0
            }
            Call::ReaderFeed => subject.reader_feed(&mut results.reader, input, buffer, &mut results.taken),
            Call::ReaderEnd => subject.reader_end(&mut results.reader, buffer),
        };
        // The optimizer may not take the guards for unchanged.
        std::hint::black_box(answer)
    }

    /// Answers a refusal with every buffer as it was.
    pub fn refused(&self, number: u32, place: usize) -> Answer {
        self.refused_by(Refusal::new(number, place))
    }

    pub fn refused_by(&self, refusal: Refusal) -> Answer {
        Answer::unchanged(self, refusal.status())
    }

    /// Answers these places in the row, which stays past them, and their count.
    pub fn listed(&self, places: &[u32]) -> Answer {
        let mut answer = Answer::unchanged(self, 0);
        inside(&mut answer.row)[..places.len()].copy_from_slice(places);
        answer.results.count = places.len() as u32;
        answer
    }

    /// Answers a part of a trace.
    pub fn part(&self, trace: u32, part: [u64; 2]) -> Answer {
        let mut answer = Answer::unchanged(self, trace.into());
        answer.results.part = part;
        answer
    }

    /// Answers this snapshot and these numbers in the curve.
    pub fn drawn(&self, snapshot: &[u8], numbers: &[i32]) -> Answer {
        let mut answer = Answer::unchanged(self, 0);
        inside(&mut answer.buffer).copy_from_slice(snapshot);
        inside(&mut answer.curve).copy_from_slice(numbers);
        answer
    }

    /// Answers this place.
    pub fn differs_at(&self, place: usize) -> Answer {
        Answer::unchanged(self, place as u64)
    }

    /// Answers a refusal that the reader remembers from now on, with all else as it was.
    pub fn remembered(&self, refusal: Refusal) -> Answer {
        let mut answer = self.refused_by(refusal);
        answer.results.reader = reader::refused(refusal);
        answer
    }

    /// Answers this reader, that so many bytes were taken, and the snapshot that the buffer now
    /// holds, if any.
    pub fn taken(&self, reader: &reader::Bytes, count: usize, held: Option<&snapshot::Bytes>) -> Answer {
        let mut answer = self.left(reader, held);
        answer.results.taken = [count as u64, held.is_some().into()];
        answer
    }

    /// Answers this reader and the final state.
    pub fn ended(&self, reader: &reader::Bytes, last: &snapshot::Bytes) -> Answer {
        self.left(reader, Some(last))
    }

    fn left(&self, reader: &reader::Bytes, held: Option<&snapshot::Bytes>) -> Answer {
        let mut answer = Answer::unchanged(self, 0);
        if let Some(snapshot) = held {
            inside(&mut answer.buffer).copy_from_slice(snapshot);
        }
        answer.results.reader = *reader;
        answer
    }

    /// Whether the subject's answer is this one.
    pub fn expect(&self, subject: &dyn Subject, want: &Answer) -> Result<(), String> {
        let answer = self.answer(subject);
        if answer == *want {
            return Ok(());
        }
        let Case { call, buffer, first, input, row, shared, reader } = self;
        let shared = shared.as_ref().map(|parts| format!(", parts {parts:?}")).unwrap_or_default();
        let reader = if call.of_reader() { format!("\nreader {}", hex(reader)) } else { String::new() };
        Err(format!(
            "{call:?} of {} bytes, first {first}, {} bytes of input, row {row}{shared}: {}\nbuffer {}\ninput {}",
            buffer.len(),
            input.len(),
            answer.difference(want),
            hex(buffer),
            hex(input) + &reader,
        ))
    }
}

/// Up to 4096 bytes in hex; a longer case is run again from its seed.
fn hex(bytes: &[u8]) -> String {
    bytes.iter().take(4096).map(|byte| format!("{byte:02x}")).collect()
}

#[cfg(test)]
mod tests {
    use super::*;

    #[test]
    fn a_touched_guard_makes_answers_differ() {
        let case = Case::read(&[0; 68]);
        let mut touched = case.refused(6, 0);
        *touched.buffer.last_mut().unwrap() ^= 1;
        assert!(touched != case.refused(6, 0));
        assert_eq!(touched.difference(&case.refused(6, 0)), "buffer at 147 is 164, not 165");
        let mut touched = case.refused(6, 0);
        touched.results.guard_1[0] = 0;
        assert!(touched != case.refused(6, 0));
        let case = Case::compare(&[0; 12], &[0; 12], 1);
        let mut touched = case.listed(&[0]);
        *touched.row.last_mut().unwrap() = 7;
        assert!(touched != case.listed(&[0]) && !touched.stays_within(&case));
        assert_eq!(touched.difference(&case.listed(&[0])), "row at 80 is 7, not 2779096485");
        let case = Case::draw(&[0; 68], &[0; 12], 1);
        let mut touched = case.drawn(&[0; 68], &[0]);
        touched.curve[GUARD - 1] = 7;
        assert!(touched != case.drawn(&[0; 68], &[0]) && !touched.stays_within(&case));
        assert_eq!(touched.difference(&case.drawn(&[0; 68], &[0])), "curve at -1 is 7, not -1515870811");
        let case = Case::reader_feed(&reader::NEW, &[], &[0; 68]);
        let mut touched = case.taken(&reader::NEW, 0, None);
        touched.results.guard_7[GUARD - 1] = 0;
        assert!(touched != case.taken(&reader::NEW, 0, None) && !touched.stays_within(&case));
        assert_eq!(touched.difference(&case.taken(&reader::NEW, 0, None)), "guards at 639 is 0, not 165");
    }
}
