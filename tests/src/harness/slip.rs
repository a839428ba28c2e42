//! Subjects that are wrong on purpose, each by one slip over the model, to see that the
//! harness catches it.

mod load;
mod post;
mod reader;
mod run;
mod sample;

use std::cell::Cell;
use std::ops::Range;

use crate::generate::image::Parts;
use crate::generate::parts::BLOCK;
use crate::generate::state::{ACTIVE_OMB, RUNNING};
use crate::model::counter::{Counter, OUTPUTS};
use crate::model::event::{self, Event};
use crate::model::{flags, snapshot, Refusal};
use crate::subject::{Model, Subject};
use load::Loading;
use post::Posting;
use sample::Sampling;

pub use reader::Reading;
pub use run::Running;

/// Where a snapshot has ACC.
const ACC: Range<usize> = 52..56;
/// Which of the numbers read is ER.
const ER: usize = 20;

#[derive(Clone, Debug)]
pub enum Slip {
    StepRefusesAll,
    StepIsFixed,
    /// OF already when ACC stands on OVF, not past it.
    OverflowAtLimit,
    /// The program's output word goes by the staged mask.
    StagedMask,
    /// A sample by another rule, in a step.
    Sample(Sampling),
    /// A load by another rule, in a step.
    Load(Loading),
    /// Takes a snapshot whose active mask has bits that are no outputs.
    MaskTaken,
    /// Does not take a snapshot with ER 6.
    Error6Refused,
    /// A cause that comes is posted by another rule, in a step.
    Post(Posting),
    /// Takes a snapshot whose two waiting causes are equal.
    EqualTaken,
    /// Does not take a snapshot whose running cause waits too.
    RunningWaitsRefused,
    ReplayRefusesAll,
    MendTouchesNothing,
    /// Mends once, then says it did and touches nothing.
    MendNods(Cell<bool>),
    /// Compares from s + 1 on, also inside the run.
    MendStopsInRun,
    /// Names S as the stop whatever the bytes say.
    MendNamesEnd,
    /// Copies the patch without its stamps.
    StampLeftOut,
    /// Tells the events that a mend ran by another rule.
    Run(Running),
    /// Refuses rightly but writes its result.
    RefusalWrites,
    /// Compares the stamps too.
    StampCompared,
    /// Lists the places of the longer trace past the shorter's length as well.
    ListsRest,
    /// Leaves off at the first difference.
    ListsFirst,
    /// Writes what the row holds, then refuses by 12.
    ShortRowWritten,
    /// Names the other trace in a 5.
    OtherTrace,
    /// Gives the end of the shorter trace.
    ShorterRest,
    /// Draws the accumulator before each event.
    DrawsBefore,
    /// Draws from a fresh state.
    DrawsFromFresh,
    /// Leaves the snapshot as it was.
    SnapshotLeft,
    /// Writes ACC alone to the snapshot.
    SnapshotAccAlone,
    /// Draws as far as the events are legal, then refuses by 5.
    DrawsUpToIllegal,
    /// Gives the place of a 5 in bytes.
    PlaceInBytes,
    /// Asks for 6 before 5.
    SnapshotFirst,
    /// Does not ask for 6 where there are no events.
    SnapshotUnasked,
    /// Takes a row with more numbers than events.
    LongRowTaken,
    /// Takes a row with fewer numbers than events, and draws what it holds.
    ShortRowTaken,
    /// Gives the place of the last difference.
    LastDifference,
    /// Gives the place of the block of bytes that has the first difference.
    BlockPlace,
    /// Gives the longer's length where there is no difference.
    LongerLength,
    /// Compares the first block alone.
    FirstBlockAlone,
    /// Compares whole blocks alone.
    WholeBlocksAlone,
    /// Looks past the shorter, as if zeros stood there.
    LooksPast,
    /// Reads a trace in chunks by another rule.
    Read(Reading),
}

impl Slip {
    pub fn all() -> Vec<Slip> {
        let mut all = vec![
            Slip::StepRefusesAll,
            Slip::StepIsFixed,
            Slip::OverflowAtLimit,
            Slip::StagedMask,
            Slip::MaskTaken,
            Slip::Error6Refused,
            Slip::EqualTaken,
            Slip::RunningWaitsRefused,
            Slip::ReplayRefusesAll,
            Slip::MendTouchesNothing,
            Slip::MendNods(Cell::new(false)),
            Slip::MendStopsInRun,
            Slip::MendNamesEnd,
            Slip::StampLeftOut,
            Slip::RefusalWrites,
            Slip::StampCompared,
            Slip::ListsRest,
            Slip::ListsFirst,
            Slip::ShortRowWritten,
            Slip::OtherTrace,
            Slip::ShorterRest,
            Slip::DrawsBefore,
            Slip::DrawsFromFresh,
            Slip::SnapshotLeft,
            Slip::SnapshotAccAlone,
            Slip::DrawsUpToIllegal,
            Slip::PlaceInBytes,
            Slip::SnapshotFirst,
            Slip::SnapshotUnasked,
            Slip::LongRowTaken,
            Slip::ShortRowTaken,
            Slip::LastDifference,
            Slip::BlockPlace,
            Slip::LongerLength,
            Slip::FirstBlockAlone,
            Slip::WholeBlocksAlone,
            Slip::LooksPast,
        ];
        all.extend(Sampling::ALL.map(Slip::Sample));
        all.extend(Loading::ALL.map(Slip::Load));
        all.extend(Posting::ALL.map(Slip::Post));
        all.extend(Running::ALL.map(Slip::Run));
        all.extend(Reading::all().into_iter().map(Slip::Read));
        all
    }
}

impl Subject for Slip {
    fn event_check(&self, event: &[u8]) -> u32 {
        Model.event_check(event)
    }

    fn step(&self, snapshot: &mut [u8], event: &[u8]) -> u64 {
        if matches!(self, Slip::StepRefusesAll) {
            return 9;
        }
        let old = snapshot.to_vec();
        let status = Model.step(snapshot, event);
        if status != 0 {
            return status;
        }
        let mut counter = snapshot::decode((&*snapshot).try_into().unwrap());
        match self {
            Slip::StepIsFixed => counter = Counter::fresh(),
            Slip::OverflowAtLimit if event[0] == 1 && counter.has(flags::DIR | flags::LOADED) => {
                let limit = counter.acc == counter.active.ovf;
                counter.flags |= if limit { flags::OF } else { 0 };
            }
            Slip::StagedMask if event[0] == 9 => {
                let outside = !counter.staged.omb & OUTPUTS;
                let word = u16::from_le_bytes([event[4], event[5]]);
                counter.outputs = counter.outputs & !outside | word & outside;
            }
            Slip::Sample(rule) if event[0] == 1 => {
                counter = rule.sampled(snapshot::decode(old[..].try_into().unwrap()), event[4]);
            }
            Slip::Post(rule) if event[0] == 1 => {
                counter = rule.sampled(snapshot::decode(old[..].try_into().unwrap()), event[4]);
            }
            Slip::Load(rule) => {
                let event = Event::from_bytes(event.try_into().unwrap());
                counter = rule.stepped(snapshot::decode(old[..].try_into().unwrap()), event);
            }
            _ => {}
        }
        snapshot.copy_from_slice(&snapshot::encode(&counter));
        0
    }

    fn read(&self, snapshot: &[u8], fields: &mut [i32; 32]) -> u64 {
        let painted = *fields;
        let status = Model.read(snapshot, fields);
        match (self, status) {
            (Slip::RefusalWrites, 1..) => fields.fill(0),
            (Slip::MaskTaken, 6) => {
                let mut cut = snapshot.to_vec();
                cut[ACTIVE_OMB + 1] &= (OUTPUTS >> 8) as u8;
                return Model.read(&cut, fields);
            }
            (Slip::Error6Refused, 0) if fields[ER] == 6 => {
                *fields = painted;
                return 6;
            }
            (Slip::EqualTaken, 6) if snapshot[RUNNING + 1] == snapshot[RUNNING + 2] => {
                let mut one = snapshot.to_vec();
                one[RUNNING + 2] = 0;
                return Model.read(&one, fields);
            }
            (Slip::RunningWaitsRefused, 0) => {
                let (running, waiting) = snapshot[RUNNING..].split_first().unwrap();
                if *running != 0 && waiting.contains(running) {
                    *fields = painted;
                    return 6;
                }
            }
            _ => {}
        }
        status
    }

    fn replay(&self, image: &mut [u8], last: &mut [u8; 68]) -> u64 {
        match self {
            Slip::ReplayRefusesAll => 4,
            _ => Model.replay(image, last),
        }
    }

    fn mend(&self, image: &mut [u8], first: u64, patch: &[u8], span: &mut [u32; 3]) -> u64 {
        let old = image.to_vec();
        let painted = span[2];
        let mut patch = patch.to_vec();
        let mut status = Model.mend(image, first, &patch, span);
        if status != 0 {
            return status;
        }
        let parts = Parts::of(image);
        match self {
            Slip::MendTouchesNothing => image.copy_from_slice(&old),
            Slip::MendNods(mended) if mended.replace(true) => image.copy_from_slice(&old),
            Slip::MendStopsInRun => {
                let snapshot = |j| parts.snapshot(j)..parts.snapshot(j + 1);
                let agrees = |j: &usize| image[snapshot(*j)] == old[snapshot(*j)];
                if let Some(stop) = (span[0] as usize..parts.snapshots).find(agrees) {
                    let rest = parts.snapshot(stop)..;
                    image[rest.clone()].copy_from_slice(&old[rest]);
                    span[1] = stop as u32;
                }
            }
            Slip::MendNamesEnd => span[1] = parts.snapshots as u32,
            Slip::StampLeftOut => {
                for (i, event) in patch.as_chunks_mut::<12>().0.iter_mut().enumerate() {
                    let at = parts.event(first as usize + i);
                    event[8..].copy_from_slice(&old[at + 8..at + 12]);
                }
                image.copy_from_slice(&old);
                status = Model.mend(image, first, &patch, span);
            }
            Slip::Run(rule) => span[2] = rule.told(parts, first as usize, patch.len() / 12, *span, painted),
            _ => {}
        }
        status
    }

    fn compare(&self, first: &[u8], second: &[u8], row: &mut [u32], count: &mut u32) -> u64 {
        let (events, others) = (event::row(first), event::row(second));
        let (shorter, longer) = (events.len().min(others.len()), events.len().max(others.len()));
        let (mut places, mut found) = (vec![0; longer], 0);
        let mut status = Model.compare(first, second, &mut places, &mut found);
        if matches!(self, Slip::OtherTrace) && status as u16 == 5 {
            status ^= 3 << 16;
        }
        if status != 0 {
            return status;
        }
        places.truncate(found as usize);
        match self {
            Slip::StampCompared => {
                let pairs = (0..).zip(events.iter().zip(others));
                places = pairs.filter(|(_, (a, b))| a != b).map(|(place, _)| place).collect();
            }
            Slip::ListsRest => places.extend(shorter as u32..longer as u32),
            Slip::ListsFirst => places.truncate(1),
            _ => {}
        }
        let fits = places.len() <= row.len();
        if fits || matches!(self, Slip::ShortRowWritten) {
            for (number, place) in row.iter_mut().zip(&places) {
                *number = *place;
            }
        }
        if !fits {
            return 12;
        }
        *count = places.len() as u32;
        0
    }

    fn rest(&self, first: &[u8], second: &[u8], part: &mut [u64; 2]) -> u32 {
        let trace = Model.rest(first, second, part);
        match self {
            Slip::ShorterRest if part[1] > 0 => {
                part[1] = 0;
                3 - trace
            }
            _ => trace,
        }
    }

    fn draw(&self, snapshot: &mut [u8], events: &[u8], row: &mut [i32]) -> u64 {
        let mut old = snapshot.to_vec();
        let mut status = Model.draw(snapshot, events, row);
        let (place, count, held) = ((status >> 32) as usize, events.len() / 12, row.len());
        match (self, status as u16) {
            (Slip::DrawsBefore, 0) if held > 0 => {
                row.rotate_right(1);
                row[0] = i32::from_le_bytes(old[ACC].try_into().unwrap());
            }
            (Slip::DrawsFromFresh, 0) => {
                Model.draw(&mut snapshot::encode(&Counter::fresh()), events, row);
            }
            (Slip::SnapshotLeft, 0) => snapshot.copy_from_slice(&old),
            (Slip::SnapshotAccAlone, 0) => {
                old[ACC].copy_from_slice(&snapshot[ACC]);
                snapshot.copy_from_slice(&old);
            }
            (Slip::DrawsUpToIllegal, 5) => {
                Model.draw(&mut old, &events[..12 * place], &mut row[..place]);
            }
            (Slip::PlaceInBytes, 5) => status = Refusal::new(5, 12 * place).status(),
            (Slip::SnapshotFirst, 5) if Model.draw(snapshot, &[], &mut []) == 6 => status = 6,
            (Slip::SnapshotUnasked, 6) if events.is_empty() => status = 0,
            (Slip::LongRowTaken, 9) => status = Model.draw(snapshot, events, &mut row[..held.min(count)]),
            (Slip::ShortRowTaken, 9) if held < count => {
                status = Model.draw(snapshot, &events[..12 * held], row)
            }
            _ => {}
        }
        status
    }

    fn first_difference(&self, first: &[u8], second: &[u8]) -> u64 {
        let place = Model.first_difference(first, second) as usize;
        let (shorter, longer) = (first.len().min(second.len()), first.len().max(second.len()));
        let wrong = match self {
            Slip::LastDifference => (place..shorter).rfind(|&at| first[at] != second[at]).unwrap_or(place),
            Slip::BlockPlace if place < shorter => place / BLOCK * BLOCK,
            Slip::LongerLength if place == shorter => longer,
            Slip::FirstBlockAlone if place >= BLOCK => shorter,
            Slip::WholeBlocksAlone if place >= shorter / BLOCK * BLOCK => shorter,
            Slip::LooksPast => {
                let byte = |part: &[u8], at| part.get(at).copied().unwrap_or(0);
                (place..longer).find(|&at| byte(first, at) != byte(second, at)).unwrap_or(longer)
            }
            _ => place,
        };
        wrong as u64
    }

    fn reader_new(&self, reader: &mut [u8; 116]) {
        match self {
            Slip::Read(rule) => rule.write_new(reader),
            _ => Model.reader_new(reader),
        }
    }

    fn reader_feed(
        &self,
        reader: &mut [u8; 116],
        chunk: &[u8],
        buffer: &mut [u8],
        taken: &mut [u64; 2],
    ) -> u64 {
        match self {
            Slip::Read(rule) => rule.feed(reader, chunk, buffer, taken),
            _ => Model.reader_feed(reader, chunk, buffer, taken),
        }
    }

    fn reader_end(&self, reader: &mut [u8; 116], buffer: &mut [u8]) -> u64 {
        match self {
            Slip::Read(rule) => rule.end(reader, buffer),
            _ => Model.reader_end(reader, buffer),
        }
    }
}
