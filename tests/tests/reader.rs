//! Document 02, request 5: its sentences by hand, small images cut at every place, readers bent in
//! every byte, a full night, and any bytes in any chunks beside a definition that looks at all of
//! them at once.

use hsc_tests::generate::event::event;
use hsc_tests::generate::image::{self, Parts};
use hsc_tests::generate::reader::{cutting, fault, sent};
use hsc_tests::generate::Rng;
use hsc_tests::harness::alone::generated;
use hsc_tests::harness::case::{Answer, Case};
use hsc_tests::harness::receiver::{holds, received};
use hsc_tests::model::counter::Counter;
use hsc_tests::model::event::Bytes;
use hsc_tests::model::snapshot::{self, encode};
use hsc_tests::model::trace::MAX_EVENTS;
use hsc_tests::model::{reader, Refusal};
use hsc_tests::subject::{on_each, Model, Subject};

const ILLEGAL: Bytes = [10, 0, 0, 0, 0, 0, 0, 0, 0, 0, 0, 0];
const TOO_SHORT: Refusal = Refusal::new(1, 0);
const WRONG_LENGTH: Refusal = Refusal::new(4, 0);
const WRONG_SIZE: Refusal = Refusal::new(9, 0);

/// What a buffer holds before a call.
const BUFFER: snapshot::Bytes = [0x5a; 68];

fn acc(value: i32) -> Bytes {
    event(5, 0, value)
}

fn snapshot_of(acc: i32) -> snapshot::Bytes {
    encode(&Counter { acc, ..Counter::fresh() })
}

/// An image of the events ACC := 1, ACC := 2 and so on, its table not yet written.
fn counting(events: i32, spacing: usize) -> Vec<u8> {
    image::image(&(1..=events).map(acc).collect::<Vec<_>>(), spacing)
}

/// Five events and a snapshot before each second one: 24 bytes of header, 60 of events, 204 of
/// snapshots. The snapshots' places are 24, 48 and 72.
fn five() -> Vec<u8> {
    counting(5, 2)
}

fn with_number(mut image: Vec<u8>, at: usize, number: u32) -> Vec<u8> {
    image[4 * at..][..4].copy_from_slice(&number.to_le_bytes());
    image
}

fn with_event(mut image: Vec<u8>, place: usize, event: Bytes) -> Vec<u8> {
    image[24 + 12 * place..][..12].copy_from_slice(&event);
    image
}

/// The image with so many bytes behind it.
fn with_surplus(image: Vec<u8>, count: usize) -> Vec<u8> {
    [image, vec![0xee; count]].concat()
}

/// The reader after the first `taken` bytes of `five`, or of an image that has the same events up
/// to there.
fn reader_at(image: &[u8], taken: usize) -> reader::Bytes {
    let mut reader = [0; 116];
    reader[..4].copy_from_slice(&(taken as u32).to_le_bytes());
    let header = taken.min(24);
    reader[4..4 + header].copy_from_slice(&image[..header]);
    if taken >= 24 {
        let whole = ((taken - 24) / 12).min(5);
        let begun = if taken < 84 { (taken - 24) % 12 } else { 0 };
        reader[28..28 + begun].copy_from_slice(&image[taken - begun..taken]);
        reader[48..].copy_from_slice(&snapshot_of(whole as i32));
    }
    reader
}

/// The reader that remembers a refusal.
fn refused(number: u8, place: u32) -> reader::Bytes {
    let mut reader = [0; 116];
    reader[40] = number;
    reader[44..48].copy_from_slice(&place.to_le_bytes());
    reader
}

#[test]
fn a_new_reader() {
    on_each(|subject| {
        for byte in [0, 1, 0xff] {
            let case = Case::reader_new(&[byte; 116]);
            let mut want = case.refused(0, 0);
            want.results.reader = [0; 116];
            case.expect(subject, &want).unwrap();
        }
    });
}

#[test]
fn chunks_by_hand() {
    // The bytes taken before, the chunk's length, the bytes taken of it, ACC of the snapshot held.
    let rows = [
        (0, 0, 0, None),
        (0, 1, 1, None),
        (0, 23, 23, None),
        (0, 24, 24, Some(0)),
        (0, 25, 24, Some(0)),
        (0, 288, 24, Some(0)),
        (1, 0, 0, None),
        (1, 22, 22, None),
        (1, 23, 23, Some(0)),
        (1, 287, 23, Some(0)),
        (23, 0, 0, None),
        (23, 1, 1, Some(0)),
        (23, 2, 1, Some(0)),
        // At a snapshot's place: the next one is event 1's end.
        (24, 0, 0, None),
        (24, 1, 1, None),
        (24, 12, 12, None),
        (24, 23, 23, None),
        (24, 24, 24, Some(2)),
        (24, 25, 24, Some(2)),
        (24, 264, 24, Some(2)),
        (25, 0, 0, None),
        (25, 10, 10, None),
        (25, 11, 11, None),
        (25, 22, 22, None),
        (25, 23, 23, Some(2)),
        (35, 1, 1, None),
        (35, 13, 13, Some(2)),
        // Between events.
        (36, 0, 0, None),
        (36, 11, 11, None),
        (36, 12, 12, Some(2)),
        (36, 252, 12, Some(2)),
        (47, 0, 0, None),
        (47, 1, 1, Some(2)),
        (47, 241, 1, Some(2)),
        (48, 23, 23, None),
        (48, 24, 24, Some(4)),
        (48, 240, 24, Some(4)),
        (71, 1, 1, Some(4)),
        (71, 217, 1, Some(4)),
        // The last event is followed by no snapshot's place.
        (72, 0, 0, None),
        (72, 12, 12, None),
        (72, 13, 13, None),
        (72, 216, 216, None),
        (83, 1, 1, None),
        (83, 205, 205, None),
        // The snapshot area.
        (84, 0, 0, None),
        (84, 1, 1, None),
        (84, 204, 204, None),
        (150, 0, 0, None),
        (150, 137, 137, None),
        (150, 138, 138, None),
        (287, 1, 1, None),
        (288, 0, 0, None),
    ];
    let image = five();
    on_each(|subject| {
        for (taken, length, count, held) in rows {
            let chunk = &image[taken..taken + length];
            let case = Case::reader_feed(&reader_at(&image, taken), chunk, &BUFFER);
            let held = held.map(snapshot_of);
            let want = case.taken(&reader_at(&image, taken + count), count, held.as_ref());
            case.expect(subject, &want).unwrap();
        }
    });
}

#[test]
fn refusals_by_hand() {
    let no_spacing = with_number(five(), 4, 0);
    let both = with_number(no_spacing.clone(), 1, 25);
    let other_table = with_number(five(), 3, 85);
    let first = with_event(five(), 0, ILLEGAL);
    let second = with_event(five(), 1, ILLEGAL);
    let third = with_event(five(), 2, ILLEGAL);
    let last = with_event(five(), 4, ILLEGAL);
    let long = with_surplus(five(), 100);
    let both_long = with_surplus(last.clone(), 100);
    let illegal = |place| Refusal::new(5, place);
    // The bytes sent, those taken before, the chunk's length.
    let rows = [
        // The header's 24th byte, whatever follows it.
        (&no_spacing, 0, 24, Refusal::new(2, 0)),
        (&no_spacing, 0, 288, Refusal::new(2, 0)),
        (&no_spacing, 1, 23, Refusal::new(2, 0)),
        (&no_spacing, 23, 1, Refusal::new(2, 0)),
        (&no_spacing, 23, 265, Refusal::new(2, 0)),
        (&both, 0, 24, Refusal::new(2, 0)),
        (&both, 23, 1, Refusal::new(2, 0)),
        (&other_table, 0, 24, Refusal::new(3, 0)),
        (&other_table, 0, 288, Refusal::new(3, 0)),
        (&other_table, 5, 19, Refusal::new(3, 0)),
        (&other_table, 23, 1, Refusal::new(3, 0)),
        // The event's 12th byte.
        (&first, 24, 12, illegal(0)),
        (&first, 24, 264, illegal(0)),
        (&first, 25, 11, illegal(0)),
        (&first, 35, 1, illegal(0)),
        (&first, 35, 253, illegal(0)),
        // No snapshot is held at the end of an illegal event.
        (&second, 24, 24, illegal(1)),
        (&second, 24, 264, illegal(1)),
        (&second, 25, 23, illegal(1)),
        (&second, 35, 253, illegal(1)),
        (&second, 36, 12, illegal(1)),
        (&second, 47, 1, illegal(1)),
        (&third, 48, 12, illegal(2)),
        (&third, 59, 1, illegal(2)),
        (&last, 72, 12, illegal(4)),
        (&last, 72, 216, illegal(4)),
        (&last, 83, 1, illegal(4)),
        // A byte too many.
        (&long, 72, 217, WRONG_LENGTH),
        (&long, 72, 316, WRONG_LENGTH),
        (&long, 83, 206, WRONG_LENGTH),
        (&long, 84, 205, WRONG_LENGTH),
        (&long, 85, 204, WRONG_LENGTH),
        (&long, 287, 2, WRONG_LENGTH),
        (&long, 288, 1, WRONG_LENGTH),
        (&long, 288, 100, WRONG_LENGTH),
        // 5 comes before 4.
        (&both_long, 72, 217, illegal(4)),
        (&both_long, 83, 206, illegal(4)),
    ];
    // Not one byte earlier, and not past a snapshot's place.
    let taken = [
        (&no_spacing, 0, 23, 23),
        (&other_table, 22, 1, 1),
        (&first, 0, 288, 24),
        (&first, 24, 11, 11),
        (&first, 25, 10, 10),
        (&second, 24, 23, 23),
        (&third, 24, 264, 24),
        (&third, 47, 241, 1),
        (&last, 48, 240, 24),
        (&last, 72, 11, 11),
        (&long, 0, 388, 24),
        (&long, 24, 364, 24),
        (&long, 48, 340, 24),
        (&long, 72, 216, 216),
        (&long, 71, 317, 1),
    ];
    on_each(|subject| {
        for (sent, taken, length, refusal) in rows {
            let case = Case::reader_feed(&reader_at(sent, taken), &sent[taken..taken + length], &BUFFER);
            case.expect(subject, &case.remembered(refusal)).unwrap();
        }
        for (sent, taken, length, count) in taken {
            let case = Case::reader_feed(&reader_at(sent, taken), &sent[taken..taken + length], &BUFFER);
            let answer = case.answer(subject);
            assert_eq!((answer.status, answer.results.taken[0]), (0, count));
        }
    });
}

#[test]
fn the_end_by_hand() {
    let image = five();
    let last = with_event(image.clone(), 4, ILLEGAL);
    on_each(|subject| {
        for taken in 0..=288 {
            let reader = reader_at(&image, taken);
            let case = Case::reader_end(&reader, &BUFFER);
            let want = match taken {
                0..24 => case.remembered(TOO_SHORT),
                24..288 => case.remembered(WRONG_LENGTH),
                _ => case.ended(&reader, &snapshot_of(5)),
            };
            case.expect(subject, &want).unwrap();
        }
        // An event that is cut off is 4, illegal or not.
        for taken in 73..84 {
            let case = Case::reader_end(&reader_at(&last, taken), &BUFFER);
            case.expect(subject, &case.remembered(WRONG_LENGTH)).unwrap();
        }
    });
}

#[test]
fn the_end_is_told_again() {
    let complete = reader_at(&five(), 288);
    let last = snapshot_of(5);
    on_each(|subject| {
        let mut reader = complete;
        let (mut buffer, mut taken) = (BUFFER, [7; 2]);
        for _ in 0..3 {
            buffer = BUFFER;
            assert_eq!(subject.reader_end(&mut reader, &mut buffer), 0);
            assert!(buffer == last && reader == complete);
            // 9 between, and an empty chunk.
            assert_eq!(subject.reader_end(&mut reader, &mut buffer[..67]), 9);
            assert_eq!(subject.reader_feed(&mut reader, &[1], &mut [0; 69], &mut taken), 9);
            assert_eq!(subject.reader_feed(&mut reader, &[], &mut buffer, &mut taken), 0);
            assert!(buffer == last && reader == complete && taken == [0, 0]);
            taken = [7; 2];
        }
        assert_eq!(subject.reader_feed(&mut reader, &[0], &mut buffer, &mut taken), 4);
        assert!(buffer == last && reader == refused(4, 0) && taken == [7; 2]);
        assert_eq!(subject.reader_end(&mut reader, &mut buffer), 4);
        assert!(buffer == last && reader == refused(4, 0));
    });
}

#[test]
fn after_a_refusal_each_call_gets_it() {
    let image = five();
    let most = MAX_EVENTS - 1;
    let refusals = [(1, 0), (2, 0), (3, 0), (4, 0), (5, 0), (5, 1), (5, most)];
    on_each(|subject| {
        for (number, place) in refusals {
            let reader = refused(number, place);
            for chunk in [&[][..], &[0], &image[..24], &image] {
                let case = Case::reader_feed(&reader, chunk, &BUFFER);
                case.expect(subject, &case.refused(number.into(), place as usize)).unwrap();
            }
            let case = Case::reader_end(&reader, &BUFFER);
            case.expect(subject, &case.refused(number.into(), place as usize)).unwrap();
        }
    });
}

/// In every phase, after a refusal too, and with readers that are not well formed.
#[test]
fn nine_leaves_all_as_it_was() {
    let image = with_surplus(five(), 1);
    let mut readers: Vec<_> = (0..=288).map(|taken| (reader_at(&image, taken), taken)).collect();
    readers.extend([1, 2, 3, 4, 5].map(|number| (refused(number, 0), 0)));
    readers.extend([[0xff; 116], refused(9, 0)].map(|reader| (reader, 0)));
    let buffers = [0, 1, 67, 69, 84, 116, 136].map(|length| vec![0x5a; length]);
    on_each(|subject| {
        for (reader, taken) in &readers {
            for buffer in &buffers {
                for chunk in [&[][..], &image[*taken..taken + 1], &image[*taken..]] {
                    let case = Case::reader_feed(reader, chunk, buffer);
                    case.expect(subject, &case.refused_by(WRONG_SIZE)).unwrap();
                }
                let case = Case::reader_end(reader, buffer);
                case.expect(subject, &case.refused_by(WRONG_SIZE)).unwrap();
            }
        }
    });
}

/// The answers to an empty chunk and to the end are 9, or neither is.
fn is_well_formed(subject: &dyn Subject, reader: &reader::Bytes) -> bool {
    let cases = [Case::reader_feed(reader, &[], &BUFFER), Case::reader_end(reader, &BUFFER)];
    let [fed, ended] = cases.map(|case| {
        let answer = case.answer(subject);
        let nine = answer.number() == 9;
        assert!(!nine || answer == case.refused_by(WRONG_SIZE));
        nine
    });
    assert_eq!(fed, ended);
    !fed
}

#[test]
fn well_formed_by_hand() {
    let image = five();
    let at = |taken| reader_at(&image, taken);
    let with = |mut reader: reader::Bytes, at: usize, byte: u8| {
        reader[at] = byte;
        reader
    };
    let no_spacing = with_number(image.clone(), 4, 0);
    let no_snapshots = with_number(image.clone(), 2, 0);
    let well_formed = [
        [0; 116],
        refused(1, 0),
        refused(4, 0),
        refused(5, 0),
        refused(5, 1),
        refused(5, 1048575),
        // A header that is not whole may hold anything.
        [&[1, 0, 0, 0, 0xff][..], &[0; 111]].concat().try_into().unwrap(),
        reader_at(&no_spacing, 23),
        reader_at(&[0xff; 24], 23),
        // So may an event, as far as it came.
        with(at(30), 33, 0xff),
        with(at(35), 38, 0xff),
        with(at(25), 28, 0xff),
        // Any state will do that is well formed, and zeros are.
        with(at(24), 48, 0xff),
        with(at(288), 112, 15),
        [&at(24)[..48], &[0; 68]].concat().try_into().unwrap(),
        at(288),
    ];
    let ill_formed = [
        [0xff; 116],
        refused(1, 1),
        refused(2, 1),
        refused(3, 1048575),
        refused(4, u32::MAX),
        refused(5, 1048576),
        refused(5, u32::MAX),
        refused(0, 1),
        refused(6, 0),
        refused(7, 0),
        refused(8, 0),
        refused(9, 0),
        refused(12, 0),
        with(refused(0, 0), 41, 1),
        with(refused(5, 0), 42, 1),
        with(refused(5, 0), 43, 1),
        // Bytes beside a refusal.
        with(refused(5, 0), 0, 1),
        with(refused(4, 0), 3, 1),
        with(refused(4, 0), 4, 1),
        with(refused(4, 0), 27, 1),
        with(refused(4, 0), 28, 1),
        with(refused(4, 0), 39, 1),
        with(refused(4, 0), 48, 1),
        with(refused(4, 0), 115, 1),
        with(at(24), 40, 4),
        // A place without a refusal.
        with(at(5), 44, 1),
        with(at(24), 47, 1),
        // Before the header is whole: its bytes that did not come, and all others.
        with(at(0), 4, 1),
        with(at(5), 9, 1),
        with(at(5), 27, 1),
        with(at(23), 27, 1),
        with(at(0), 28, 1),
        with(at(23), 39, 1),
        with(at(0), 48, 1),
        with(at(23), 115, 1),
        [&at(23)[..48], &snapshot_of(0)].concat().try_into().unwrap(),
        // A header that is refused.
        reader_at(&no_spacing, 24),
        reader_at(&no_snapshots, 24),
        with(at(24), 24, 1),
        // More bytes than the image has.
        with(at(288), 0, 33),
        with(at(288), 3, 1),
        // A state that is not well formed.
        with(at(24), 112, 16),
        with(at(48), 113, 5),
        with(at(288), 115, 1),
        with(at(288), 111, 0x80),
        // Bytes of an event that did not come.
        with(at(24), 28, 1),
        with(at(30), 34, 1),
        with(at(35), 39, 1),
        with(at(36), 39, 1),
        with(at(72), 28, 1),
        // No event is begun past the last.
        with(at(84), 28, 1),
        with(at(90), 28, 1),
        with(at(288), 28, 1),
        with(at(287), 39, 1),
    ];
    on_each(|subject| {
        for reader in &well_formed {
            assert!(is_well_formed(subject, reader), "{reader:?}");
        }
        for reader in &ill_formed {
            assert!(!is_well_formed(subject, reader), "{reader:?}");
        }
    });
}

/// Each byte of a reader in each phase takes each value.
#[test]
fn readers_bent_in_every_byte() {
    let image = five();
    let mut readers: Vec<_> = [0, 1, 5, 23, 24, 25, 35, 36, 48, 72, 83, 84, 85, 90, 287, 288]
        .map(|at| reader_at(&image, at))
        .into();
    readers.extend([refused(1, 0), refused(4, 0), refused(5, 3)]);
    on_each(|subject| {
        for reader in &readers {
            for at in 0..116 {
                for byte in 0..=255 {
                    let mut bent = *reader;
                    bent[at] = byte;
                    let well_formed = fault(&bent).is_none();
                    assert_eq!(
                        is_well_formed(subject, &bent),
                        well_formed,
                        "byte {at} {byte:#x} of {reader:?}"
                    );
                }
            }
        }
    });
}

/// What all of some bytes say together, whatever chunks they come in: worked out by single steps.
struct Whole<'a> {
    bytes: &'a [u8],
    /// The state before the first event and after each that came whole, up to an illegal one.
    states: Vec<snapshot::Bytes>,
    /// The places of the snapshots by a good header, each the count of bytes before it.
    places: Vec<usize>,
    events: usize,
    spacing: usize,
    /// How many bytes an image with that header has.
    length: usize,
    /// The first byte that is refused.
    fault: Option<(usize, Refusal)>,
}

impl Whole<'_> {
    fn of(bytes: &[u8]) -> Whole<'_> {
        let (states, places) = (Vec::new(), Vec::new());
        let mut whole = Whole { bytes, states, places, events: 0, spacing: 1, length: 24, fault: None };
        if bytes.len() >= 24 {
            whole.fault = whole.header().or_else(|| whole.event()).or_else(|| whole.surplus());
        }
        whole
    }

    fn header(&mut self) -> Option<(usize, Refusal)> {
        let number = |at: usize| u32::from_le_bytes(self.bytes[4 * at..][..4].try_into().unwrap()) as usize;
        let [events, event_offset, snapshots, snapshot_offset, spacing, zero] =
            [0, 1, 2, 3, 4, 5].map(number);
        if events > 1048576 || spacing == 0 || spacing > 4096 || zero != 0 {
            return Some((23, Refusal::new(2, 0)));
        }
        let table = 24 + 12 * events;
        if event_offset != 24 || snapshots != events / spacing + 1 || snapshot_offset != table {
            return Some((23, Refusal::new(3, 0)));
        }
        self.places = (0..snapshots).map(|index| 24 + 12 * spacing * index).collect();
        (self.events, self.spacing, self.length) = (events, spacing, table + 68 * snapshots);
        None
    }

    fn event(&mut self) -> Option<(usize, Refusal)> {
        let mut state = encode(&Counter::fresh());
        self.states.push(state);
        for (place, event) in self.bytes[24..].chunks_exact(12).take(self.events).enumerate() {
            if Model.event_check(event) != 1 {
                return Some((24 + 12 * place + 11, Refusal::new(5, place)));
            }
            assert_eq!(Model.step(&mut state, event), 0);
            self.states.push(state);
        }
        None
    }

    fn surplus(&self) -> Option<(usize, Refusal)> {
        (self.bytes.len() > self.length).then_some((self.length, WRONG_LENGTH))
    }

    /// The snapshots handed out up to the end of the bytes or the fault.
    fn snapshots(&self) -> Vec<snapshot::Bytes> {
        let end = self.fault.map_or(self.bytes.len(), |(at, _)| at);
        let reached = self.places.iter().take_while(|&&place| place <= end).count();
        self.states.iter().step_by(self.spacing).take(reached).copied().collect()
    }

    /// What the end answers after all bytes.
    fn end(&self) -> Result<snapshot::Bytes, Refusal> {
        match self.fault {
            Some((_, refusal)) => Err(refusal),
            None if self.bytes.len() < 24 => Err(TOO_SHORT),
            None if self.bytes.len() < self.length => Err(WRONG_LENGTH),
            None => Ok(self.states[self.events]),
        }
    }

    /// The reader after so many bytes.
    fn reader(&self, taken: usize) -> reader::Bytes {
        let mut reader = [0; 116];
        match self.fault {
            Some((at, refusal)) if at < taken => return refused(refusal.number as u8, refusal.place as u32),
            _ => reader[..4].copy_from_slice(&(taken as u32).to_le_bytes()),
        }
        let header = taken.min(24);
        reader[4..4 + header].copy_from_slice(&self.bytes[..header]);
        if taken >= 24 {
            let whole = ((taken - 24) / 12).min(self.events);
            let begun = if whole < self.events { (taken - 24) % 12 } else { 0 };
            reader[28..28 + begun].copy_from_slice(&self.bytes[taken - begun..taken]);
            reader[48..].copy_from_slice(&self.states[whole]);
        }
        reader
    }

    /// What a chunk answers that begins and ends there.
    fn fed(&self, case: &Case, begin: usize, end: usize) -> Answer {
        let next = self.places.iter().find(|&&place| place > begin && place <= end);
        let stop = next.copied().unwrap_or(end);
        match self.fault {
            Some((at, refusal)) if at < stop || at < begin => case.remembered(refusal),
            _ => {
                let held = next.map(|place| &self.states[(place - 24) / 12]);
                case.taken(&self.reader(stop), stop - begin, held)
            }
        }
    }
}

/// The image with bytes in its snapshot area that are no snapshots.
fn scribbled(mut image: Vec<u8>) -> Vec<u8> {
    let mut rng = Rng::new(4);
    let table = Parts::of(&image).snapshot(0);
    image[table..].fill_with(|| rng.bits() as u8);
    image
}

/// Small images, good and bad, each with three bytes behind it.
fn small_images() -> Vec<Vec<u8>> {
    let good = [(0, 1), (0, 4096), (1, 1), (1, 2), (2, 1), (3, 2), (4, 2), (2, 4096)];
    let mut images: Vec<_> = good.map(|(events, spacing)| counting(events, spacing)).into();
    let three = scribbled(counting(3, 2));
    images.extend([
        with_number(three.clone(), 0, MAX_EVENTS + 1),
        with_number(three.clone(), 4, 4097),
        with_number(three.clone(), 5, 1),
        with_number(three.clone(), 1, 23),
        with_number(three.clone(), 2, 3),
        with_number(with_number(three.clone(), 2, 3), 4, 0),
        with_event(three.clone(), 0, ILLEGAL),
        with_event(three.clone(), 1, ILLEGAL),
        with_event(three.clone(), 2, ILLEGAL),
        with_event(with_event(three.clone(), 1, ILLEGAL), 2, ILLEGAL),
        with_event(counting(1, 1), 0, ILLEGAL),
        three,
    ]);
    images.into_iter().map(|image| with_surplus(image, 3)).collect()
}

/// Every chunk of every small image, the empty ones too, and the end at every place.
#[test]
fn small_images_cut_at_every_place() {
    let images = small_images();
    on_each(|subject| {
        for image in &images {
            let whole = Whole::of(image);
            for begin in 0..=image.len() {
                let reader = whole.reader(begin);
                for end in begin..=image.len() {
                    let case = Case::reader_feed(&reader, &image[begin..end], &BUFFER);
                    case.expect(subject, &whole.fed(&case, begin, end)).unwrap();
                }
                let case = Case::reader_end(&reader, &BUFFER);
                let want = match Whole::of(&image[..begin]).end() {
                    Ok(last) => case.ended(&reader, &last),
                    Err(refusal) => case.remembered(refusal),
                };
                case.expect(subject, &want).unwrap();
            }
        }
    });
}

/// Receives the bytes and expects what all of them say together.
fn expect_whole(subject: &dyn Subject, bytes: &[u8], cutting: &[usize]) {
    let whole = Whole::of(bytes);
    let received = received(subject, bytes, cutting).unwrap();
    assert_eq!(received.snapshots, whole.snapshots());
    assert_eq!(received.end, whole.end());
    assert_eq!(received.reader, whole.reader(bytes.len()));
}

#[test]
fn any_chunks_say_what_all_bytes_say() {
    generated(|subject, rng| {
        let bytes = sent(rng);
        expect_whole(subject, &bytes, &cutting(rng, bytes.len()));
    });
}

#[test]
fn chunks_of_one_byte_say_what_all_bytes_say() {
    let mut images = small_images();
    images.push(five());
    images.extend((0..500).map(|seed| sent(&mut Rng::new(seed))));
    on_each(|subject| {
        for image in images.iter().filter(|image| image.len() < 2000) {
            expect_whole(subject, image, &vec![1; image.len()]);
            // An empty chunk before each byte and at the end.
            let mut cutting = [0, 1].repeat(image.len());
            cutting.push(0);
            expect_whole(subject, image, &cutting);
        }
    });
}

#[test]
fn two_cuttings_and_the_replay() {
    generated(|subject, rng| {
        let (image, _) = image::valid(rng);
        let cuttings = [(); 2].map(|()| cutting(rng, image.len()));
        assert_eq!(holds(subject, &image, cuttings.each_ref().map(|cutting| &cutting[..])), Ok(0));
    });
}

/// Whatever stands there, each call answers and leaves the same.
#[test]
fn the_snapshot_area_is_unread() {
    let image = five();
    let mut tables = vec![image[84..].to_vec(), vec![0xff; 204], scribbled(image.clone())[84..].to_vec()];
    let mut replayed = image.clone();
    assert_eq!(Model.replay(&mut replayed, &mut [0; 68]), 0);
    tables.push(replayed[84..].to_vec());
    on_each(|subject| {
        for begin in 72..=288 {
            let reader = reader_at(&image, begin);
            for end in begin..=288 {
                for table in &tables {
                    let sent = [&image[..84], table].concat();
                    let case = Case::reader_feed(&reader, &sent[begin..end], &BUFFER);
                    let want = case.taken(&reader_at(&image, end), end - begin, None);
                    case.expect(subject, &want).unwrap();
                }
            }
        }
    });
}

/// Reads an image in chunks of one length, without guards: its snapshots, and the final state.
fn read(subject: &dyn Subject, image: &[u8], length: usize) -> (Vec<snapshot::Bytes>, snapshot::Bytes) {
    let (mut reader, mut buffer, mut taken) = ([0xff; 116], BUFFER, [0; 2]);
    let mut snapshots = Vec::new();
    subject.reader_new(&mut reader);
    for mut chunk in image.chunks(length) {
        while !chunk.is_empty() {
            assert_eq!(subject.reader_feed(&mut reader, chunk, &mut buffer, &mut taken), 0);
            chunk = &chunk[taken[0] as usize..];
            snapshots.extend((taken[1] == 1).then_some(buffer));
        }
    }
    assert_eq!(subject.reader_end(&mut reader, &mut buffer), 0);
    (snapshots, buffer)
}

fn expect_replay(subject: &dyn Subject, image: &[u8], lengths: &[usize]) {
    let mut replayed = image.to_vec();
    let mut last = [0; 68];
    assert_eq!(Model.replay(&mut replayed, &mut last), 0);
    let parts = Parts::of(&replayed);
    for &length in lengths {
        let (snapshots, end) = read(subject, image, length);
        assert_eq!(snapshots.len(), parts.snapshots);
        assert!(snapshots.as_flattened() == &replayed[parts.snapshot(0)..], "chunks of {length}");
        assert!(end == last, "chunks of {length}");
    }
}

/// Counts of events about a multiple of the spacing, at its limits.
#[test]
fn spacings_and_counts() {
    let most = image::events(&mut Rng::new(5), 8200);
    on_each(|subject| {
        for (spacing, counts) in [
            (1, &[0, 1, 2, 3][..]),
            (2, &[0, 1, 2, 3, 4, 5]),
            (3, &[0, 2, 3, 4, 6, 7]),
            (4095, &[0, 1, 4094, 4095, 4096, 8189, 8190, 8191]),
            (4096, &[0, 1, 4095, 4096, 4097, 8191, 8192, 8193]),
        ] {
            for &count in counts {
                let image = image::image(&most[..count], spacing);
                expect_replay(subject, &image, &[1, 11, 12, 13, 24, 68, 4096, image.len()]);
            }
        }
    });
}

#[test]
fn a_full_night() {
    let most = MAX_EVENTS as usize;
    let events = image::events(&mut Rng::new(1), most);
    for spacing in [1, 4095, 4096] {
        let image = image::image(&events, spacing);
        on_each(|subject| expect_replay(subject, &image, &[4099, image.len()]));
    }
    // The last event is illegal, and a byte too many follows.
    let sent = with_surplus(with_event(image::image(&events, 4096), most - 1, ILLEGAL), 1);
    let last_place = 24 + 12 * (most - 4096);
    on_each(|subject| {
        let (mut reader, mut buffer, mut taken) = ([0; 116], BUFFER, [0; 2]);
        let mut begin = 0;
        while begin < last_place {
            assert_eq!(subject.reader_feed(&mut reader, &sent[begin..], &mut buffer, &mut taken), 0);
            begin += taken[0] as usize;
        }
        let case = Case::reader_feed(&reader, &sent[begin..], &BUFFER);
        case.expect(subject, &case.remembered(Refusal::new(5, most - 1))).unwrap();
    });
}
