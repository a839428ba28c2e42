//! Counts of what the cases reached, and what they must reach.

use std::cmp::Ordering::{Equal, Greater, Less};
use std::collections::BTreeMap;
use std::fmt;

use super::case::{Answer, Call, Case};
use super::receiver::Phase;
use crate::generate::image::{Parts, Table};
use crate::generate::pair;
use crate::generate::parts::BLOCK;
use crate::model::counter::{Counter, OUTPUTS};
use crate::model::event::{self, first_illegal, row, Event};
use crate::model::reader::{number, EVENT, HEADER, TAKEN};
use crate::model::trace::{HEADER_SIZE, MAX_EVENTS, MAX_SPACING};
use crate::model::{flags, snapshot, Fate};

#[derive(Default)]
pub struct Tally {
    counts: BTreeMap<(&'static str, u32), u64>,
}

/// Each heading with the numbers that must be reached under it.
const REQUIRED: [(&str, &[u32]); 102] = [
    (CHECK, &[0, 1, 9]),
    (STEP, &[0, 5, 6, 9]),
    (READ, &[0, 6, 9]),
    (REPLAY, &[0, 1, 2, 3, 4, 5]),
    (MEND, &[0, 1, 2, 3, 4, 5, 6, 7, 8]),
    (AT_PLACE, &[5, 6, 8]),
    (KIND, KINDS),
    (MODE, &[0, 1, 2, 3, 4, 5, 6, 7]),
    (LOAD_SP, ERRORS),
    (LOAD_RUN, ERRORS),
    (LOAD_MASK, &[0, 1, 2]),
    (OTHER_BIT, OTHER_BITS),
    (OTHER_BITS_TOO, &[1, 2, 3, 4, 5]),
    (PRESET_LOAD, &[0, 3, 4, 5]),
    (PRESET_OTHER_BITS, &[0, 3, 4, 5]),
    (READ_ER, ERRORS),
    (READ_STAGED, &[0, 1]),
    (READ_OTHER_BIT, OTHER_BITS),
    (READ_EQUAL, CAUSES),
    (RESET, &[1, 3, 5, 7]),
    (HELD, &[1, 3, 5, 7]),
    (RESET_DESPITE, &[0, 1, 2, 3]),
    (RESET_NEWLY, &[0, 1, 2, 3]),
    (RESET_DIR, &[0, 1]),
    (RESET_ONTO, &[1, 2]),
    (Z_RISES, &[0, 1, 2]),
    (A_FALLS, &[0, 1, 2, 3]),
    (A_RISES, &[0, 1]),
    (RAISED, CAUSES),
    (STARTED, CAUSES),
    (WAITED, CAUSES),
    (WAITED_RUNNING, CAUSES),
    (MERGED, CAUSES),
    (MERGED_AT, &[0, 1, 2]),
    (MERGED_RUNNING, CAUSES),
    (MERGED_UIL, &[0, 1]),
    (LOST, CAUSES),
    (DROPPED, CAUSES),
    (STOP_INSIDE, TABLES),
    (STOP_END, TABLES),
    (RAN, &[0, 1, 2]),
    (RAN_ALL, TABLES),
    (DEMAND_3, &[0, 1]),
    (AGAIN_1, &[1, 2]),
    (AGAIN, &[2, 3]),
    (AGAIN_STAMPS, &[0, 1]),
    (COMPARE, &[0, 5, 9, 12]),
    (UNEVEN, TRACES),
    (AT_LIMIT, TRACES),
    (PAST_LIMIT, TRACES),
    (ILLEGAL, TRACES),
    (ILLEGAL_PAST, TRACES),
    (ILLEGAL_BOTH, &[1]),
    (ROW, &[0, 1, 2, 3]),
    (DIFFER, &[0, 1, 2]),
    (LONGER, TRACES),
    (REST, TRACES),
    (REST_EQUAL, &[1]),
    (REST_UNEVEN, TRACES),
    (DRAW, &[0, 5, 6, 9]),
    (DRAW_NONE, &[0, 6, 9]),
    (DRAW_LENGTH, &[0, 1, 2, 3, 4, 5]),
    (DRAW_ILLEGAL, &[0, 1, 2, 3, 4, 5]),
    (DRAW_COUNT, &[0, 1, 2, 3]),
    (STILL, KINDS),
    (NEXT, &[0, 1]),
    (LEAPT, &[0, 2, 3, 4, WRITTEN]),
    (EXTREME, &[0, 1]),
    (DIFFERENCE, &[0, 1, 2, 3]),
    (BEHIND, &[0, 1, 2]),
    (NO_DIFFERENCE, &[0, 1, 2]),
    (EMPTY, &[1, 2, 3]),
    (SHARED, &[0, 1, 2]),
    (IN_BLOCK, IN_BLOCKS),
    (BLOCK_END, IN_BLOCKS),
    (FEED, &[0, 1, 2, 3, 4, 5, 9]),
    (FEED_DONE, &[0, 1, 2, 3, 4, 5, 6, 7, 8]),
    (FEED_1, &[9]),
    (FEED_2, &[0, 1, 2, 9]),
    (FEED_3, &[0, 1, 2, 9]),
    (FEED_4, &[3, 4, 5, 6, 7, 8, 9]),
    (FEED_5, &[3, 4, 5, 9]),
    (FEED_9, PHASES),
    (END, &[0, 1, 2, 3, 4, 5, 9]),
    (END_DONE, &[7, 8]),
    (END_1, &[0, 1, 2, 9]),
    (END_2, &[9]),
    (END_3, &[9]),
    (END_4, &[3, 4, 5, 6, 9]),
    (END_5, &[9]),
    (END_9, PHASES),
    (CUT_OFF, &[0, 1]),
    (FEED_READER, READER_RULES),
    (END_READER, READER_RULES),
    (BENT, &[0, 1]),
    (BUFFER, &[0, 1, 2]),
    (STOPPED, &[0, 1, 2, 3]),
    (HANDED_OUT, &[0, 1, 2, 3]),
    (FEED_ILLEGAL, &[0, 1, 2, 3, 4, 5]),
    (FEED_SPACING, &[0, 1, 2]),
    (FEED_EVENTS, &[0, 1, 2, 3, 4]),
    (CUTTINGS, &[0, 1, 2, 3, 4, 5]),
];

const KINDS: &[u32] = &[0, 1, 2, 3, 4, 5, 6, 7, 8, 9];
const CAUSES: &[u32] = &[1, 2, 3, 4];
const ERRORS: &[u32] = &[0, 1, 2, 3, 4, 5, 6];
/// The bits of OMB that are no outputs.
const OTHER_BITS: &[u32] = &[12, 13, 14, 15];
const TRACES: &[u32] = &[1, 2];
const TABLES: &[u32] = &[0, 1, 2, 3, 4, 5];
const PHASES: &[u32] = &[0, 1, 2, 3, 4, 5, 6, 7, 8, 9];
const READER_RULES: &[u32] = &[0, 1, 2, 3, 4, 5, 6, 7, 8, 9, 10, 11, 12];
/// The places in a block of bytes.
const IN_BLOCKS: &[u32] = &{
    let mut places = [0; BLOCK];
    let mut at = 1;
    while at < BLOCK {
        places[at] = at as u32;
        at += 1;
    }
    places
};
const CHECK: &str = "event check: answer";
const STEP: &str = "step: refusal";
const READ: &str = "read: refusal";
const REPLAY: &str = "replay: refusal";
const MEND: &str = "mend: refusal";
const AT_PLACE: &str = "refusal at a place past 0";
const KIND: &str = "event taken: kind";
const MODE: &str = "sample taken: mode";
const RESET: &str = "sample that resets: mode";
const HELD: &str = "sample with input 3 on: mode";
const RESET_DESPITE: &str = "reset in mode 7, ACC not 0 or 1: 0 CE 1 and no hold, 1 CE 0, 2 hold, 3 both";
const RESET_NEWLY: &str =
    "reset in mode 7, ACC not 0 or 1: 0 B off and Z on from before, 1 B falls, 2 Z rises, 3 both";
const RESET_DIR: &str = "reset in mode 7, ACC not 0 or 1: DIR";
const RESET_ONTO: &str = "reset in mode 7 onto a preset, ACC not 0 or 1: 1 LOP, 2 HIP";
const Z_RISES: &str =
    "Z rises in mode 7, A does not fall, ACC not 0 or 1: nothing but levels, A 0 off, 1 on, 2 rises";
const A_FALLS: &str =
    "A falls in mode 7, CE 1, no hold, no reset: B off, down, Z 0 off from before, 1 falls; \
     B on, no count, Z 2 off, 3 on";
const A_RISES: &str = "A rises in mode 7, CE 1, no hold, B off: 0 Z off, up, 1 Z on, no count";
const LOAD_SP: &str = "load by SP: ER";
const LOAD_RUN: &str = "load by enter run: ER";
const LOAD_MASK: &str = "load accepted: OMB 0 empty, 1 some outputs, 2 all twelve";
const OTHER_BIT: &str = "load rejected by 6 for one bit of OMB alone: bit";
const OTHER_BITS_TOO: &str = "load rejected by an earlier rule with such bits too: ER";
const PRESET_LOAD: &str = "preset load: ER";
const PRESET_OTHER_BITS: &str = "preset load with such bits staged: ER";
const READ_ER: &str = "read: ER";
const READ_STAGED: &str = "read: staged OMB 0 outputs alone, 1 such bits too";
const READ_OTHER_BIT: &str = "read refused for one bit of the active OMB alone: bit";
const READ_EQUAL: &str = "read refused for two equal waiting causes alone: cause";
const RAISED: &str = "cause raised";
const STARTED: &str = "cause started";
const WAITED: &str = "cause waited";
const WAITED_RUNNING: &str = "cause waited that runs too";
const MERGED: &str = "cause merged";
const MERGED_AT: &str =
    "cause merged: 0 with the only one that waits, 1 with the first of two, 2 with the second";
const MERGED_RUNNING: &str = "cause merged that runs too";
const MERGED_UIL: &str = "cause merged: UIL";
const LOST: &str = "cause lost";
const DROPPED: &str = "cause dropped";
const STOP_INSIDE: &str =
    "mend stopped inside a table (0 true, 1 one wrong byte, 2 stale, 3 other start, 4 states, 5 noise)";
const STOP_END: &str = "mend stopped at S (tables as above)";
const RAN: &str = "mend done: ran 0 no event, 1 some, 2 all";
const RAN_ALL: &str = "mend ran all events, one or more (tables as above)";
const DEMAND_3: &str = "demand 3: 0 stopped inside, 1 at S";
const AGAIN_1: &str =
    "the same events again, table true, K 1: n + 2K less the events run, of which 1 is the least";
const AGAIN: &str = "the same events again, table true, K more: so, of which 2 is the least, 3 for more";
const AGAIN_STAMPS: &str = "the same events again with the least of it, K more: 0 stamps too, 1 other stamps";
const COMPARE: &str = "compare: refusal";
const UNEVEN: &str = "compare refused for a length not a multiple of 12: trace";
const AT_LIMIT: &str = "compare not refused for 1048576 events: trace";
const PAST_LIMIT: &str = "compare refused for 1048577 events: trace";
const ILLEGAL: &str = "compare refused for an illegal event: trace";
const ILLEGAL_PAST: &str = "compare refused for an illegal event past the shorter's length: trace";
const ILLEGAL_BOTH: &str = "compare refused with illegal events in both: trace";
const ROW: &str = "compare with differences: row 0 exactly full, 1 longer, 2 too short by one, 3 by more";
const DIFFER: &str = "compare done: differ 0 nowhere, 1 somewhere, 2 everywhere";
const LONGER: &str = "compare done with lengths that differ: longer trace";
const REST: &str = "rest: answer";
const REST_EQUAL: &str = "rest of equal lengths: answer";
const REST_UNEVEN: &str = "rest with a length not a multiple of 12: answer";
const DRAW: &str = "draw: refusal";
const DRAW_NONE: &str = "draw of no events: refusal";
const DRAW_LENGTH: &str =
    "draw refused for a length: 0 snapshot shorter, 1 longer, 2 events, 3 row shorter, 4 longer, 5 several";
const DRAW_ILLEGAL: &str =
    "draw refused for an illegal event: 0 first of many, 1 within, 2 last of many, 3 the only one, \
     4 with another behind it, 5 over a snapshot not well formed";
const DRAW_COUNT: &str = "draw done: 0 no events, 1 one, 2 more, 3 more than an image may have";
const STILL: &str = "number drawn that is the one before: kind";
const NEXT: &str = "number drawn next to the one before: 0 below, 1 above";
const LEAPT: &str =
    "number drawn far from the one before: 0 reset, 2 high preset, 3 underflow, 4 overflow, 5 written";
const WRITTEN: u32 = 5;
const EXTREME: &str = "number drawn: 0 the least, 1 the most";
const DIFFERENCE: &str =
    "first difference: 0 at the first byte, 1 in between, 2 at the shorter's last, 3 at its only one";
const BEHIND: &str = "first difference: behind it 0 no other, 1 another in the same block of 64, 2 past it";
const NO_DIFFERENCE: &str = "first difference: none, 0 of equal lengths, 1 first shorter, 2 second shorter";
const EMPTY: &str = "first difference of an empty part: 1 the first, 2 the second, 3 both";
const SHARED: &str =
    "first difference in one memory: 0 of a part and itself, 1 of parts that overlap, 2 apart";
const IN_BLOCK: &str = "first difference: place modulo 64";
const BLOCK_END: &str = "first difference: none, the shorter's length modulo 64";
const FEED: &str = "feed: refusal";
const FEED_DONE: &str =
    "feed done, where the reader stood: 0 no byte came, 1 header not whole, 2 but for its last byte, \
     3 in an event, 4 between events, 5 at a snapshot's place, 6 in the snapshot area, 7 complete, \
     8 the end told, 9 refused";
const FEED_1: &str = "feed refused by 1, where the reader stood";
const FEED_2: &str = "feed refused by 2, where the reader stood";
const FEED_3: &str = "feed refused by 3, where the reader stood";
const FEED_4: &str = "feed refused by 4, where the reader stood";
const FEED_5: &str = "feed refused by 5, where the reader stood";
const FEED_9: &str = "feed refused by 9 for the buffer, where the reader stood";
const END: &str = "end: refusal";
const END_DONE: &str = "end done, where the reader stood";
const END_1: &str = "end refused by 1, where the reader stood";
const END_2: &str = "end refused by 2, where the reader stood";
const END_3: &str = "end refused by 3, where the reader stood";
const END_4: &str = "end refused by 4, where the reader stood";
const END_5: &str = "end refused by 5, where the reader stood";
const END_9: &str = "end refused by 9 for the buffer, where the reader stood";
const CUT_OFF: &str = "end refused by 4 in an event that came but for its stamp: 0 illegal, 1 legal";
const FEED_READER: &str =
    "feed refused by 9 for the reader: refusal 0 number, 1 place, 2 place past any event, 3 bytes beside it, \
     4 place alone; before the header is whole 5 bytes of it, 6 others; 7 header by 2, 8 by 3, 9 too many \
     bytes, 10 state, bytes of an event 11 that did not come, 12 past the last";
const END_READER: &str = "end refused by 9 for the reader (rules as above)";
const BENT: &str = "bent reader: 0 no longer well formed, 1 still so";
const BUFFER: &str = "buffer refused by 9: 0 none, 1 shorter, 2 longer";
const STOPPED: &str =
    "feed done: 0 of an empty chunk, 1 chunk used up, nothing held, 2 used up at a snapshot's place, \
     3 bytes left there";
const HANDED_OUT: &str = "feed done, snapshot held: 0 the first, 1 in between, 2 the last, 3 the only one";
const FEED_ILLEGAL: &str =
    "feed refused for an illegal event: 0 the first, 1 in between, 2 the last, 3 the only one, \
     4 begun in an earlier chunk, 5 with a byte too many behind it in the chunk";
const FEED_SPACING: &str = "feed done past the header: K 0 one, 1 more, 2 as many as may be";
const FEED_EVENTS: &str =
    "feed done past the header: E 0 none, 1 one, more 2 a multiple of K, 3 not so, 4 as many as may be";
const CUTTINGS: &str = "the same bytes by two cuttings: refusal";

/// An input's level before a sample, and its new one.
const RISES: (bool, bool) = (false, true);
const FALLS: (bool, bool) = (true, false);

/// Whether a place is 0 the first of many, 1 in between, 2 the last of many, 3 the only one.
fn end_or_between(place: usize, count: usize) -> u32 {
    match (place, count - 1) {
        (0, 0) => 3,
        (0, _) => 0,
        (place, last) if place < last => 1,
        _ => 2,
    }
}

impl Tally {
    fn add(&mut self, heading: &'static str, number: u32) {
        *self.counts.entry((heading, number)).or_default() += 1;
    }

    /// Counts the outcome of a case.
    pub fn answer(&mut self, case: &Case, answer: &Answer) {
        let heading = match case.call {
            // Each place is an answer of its own, and a new reader has none.
            Call::FirstDifference | Call::ReaderNew => return,
            Call::EventCheck => CHECK,
            Call::Step => STEP,
            Call::Read => READ,
            Call::Replay => REPLAY,
            Call::Mend => MEND,
            Call::Compare => COMPARE,
            Call::Rest => REST,
            Call::Draw => DRAW,
            Call::ReaderFeed => FEED,
            Call::ReaderEnd => END,
        };
        self.add(heading, answer.number());
        if answer.place() != 0 {
            self.add(AT_PLACE, answer.number());
        }
    }

    /// Counts what a reading met of errors, masks and waiting causes.
    pub fn read(&mut self, case: &Case, answer: &Answer) {
        if answer.number() == 9 {
            return;
        }
        let mut counter = snapshot::decode(case.buffer[..].try_into().unwrap());
        if answer.number() == 0 {
            self.add(READ_ER, counter.er.into());
            self.add(READ_STAGED, (counter.staged.omb & !OUTPUTS != 0).into());
            return;
        }
        let others = counter.active.omb & !OUTPUTS;
        counter.active.omb &= OUTPUTS;
        if others.is_power_of_two() && counter.is_well_formed() {
            self.add(READ_OTHER_BIT, others.trailing_zeros());
        }
        let [first, second] = counter.waiting;
        counter.waiting = [first, 0];
        if others == 0 && first == second && counter.is_well_formed() {
            self.add(READ_EQUAL, first.into());
        }
    }

    /// Counts a mend without refusal: what the table held, where the mend stopped and how much it ran.
    pub fn mended(&mut self, table: Table, parts: Parts, [_, stop, ran]: [u32; 3]) {
        let inside = (stop as usize) < parts.snapshots;
        self.add(if inside { STOP_INSIDE } else { STOP_END }, table as u32);
        let all = ran as usize == parts.events;
        self.add(RAN, if ran == 0 { 0 } else { 1 + u32::from(all) });
        if ran > 0 && all {
            self.add(RAN_ALL, table as u32);
        }
    }

    pub fn demand_3(&mut self, parts: Parts, [_, stop, _]: [u32; 3]) {
        self.add(DEMAND_3, (stop as usize >= parts.snapshots).into());
    }

    /// Counts a mend of a true table by the events that stand there already: how many it ran less than
    /// n plus twice K, and whether with other stamps.
    pub fn again(&mut self, parts: Parts, spared: usize, other_stamps: bool) {
        match (parts.spacing, spared) {
            (1, _) => self.add(AGAIN_1, spared as u32),
            _ => self.add(AGAIN, spared.min(3) as u32),
        }
        if parts.spacing > 1 && spared == 2 {
            self.add(AGAIN_STAMPS, other_stamps.into());
        }
    }

    /// Counts what a comparison met: the lengths, and what its outcome goes by.
    pub fn compared(&mut self, case: &Case, answer: &Answer) {
        const LIMIT: usize = 12 * MAX_EVENTS as usize;
        const BEYOND: usize = LIMIT + 12;
        let (number, trace) = (answer.number(), answer.trace());
        for (trace, length) in [(1, case.buffer.len()), (2, case.input.len())] {
            match (number, length) {
                (0 | 5 | 12, LIMIT) => self.add(AT_LIMIT, trace),
                (9, BEYOND) => self.add(PAST_LIMIT, trace),
                (9, _) if length % 12 != 0 => self.add(UNEVEN, trace),
                _ => {}
            }
        }
        let (first, second) = (row(&case.buffer), row(&case.input));
        let shorter = first.len().min(second.len());
        let differences = pair::differences(&case.buffer, &case.input);
        match number {
            0 if differences == 0 => self.add(DIFFER, 0),
            0 => {
                self.add(DIFFER, if differences < shorter { 1 } else { 2 });
                self.add(ROW, (case.row > differences).into());
            }
            5 => {
                self.add(ILLEGAL, trace);
                if answer.place() >= shorter {
                    self.add(ILLEGAL_PAST, trace);
                }
                if first_illegal(first).is_some() && first_illegal(second).is_some() {
                    self.add(ILLEGAL_BOTH, trace);
                }
            }
            12 => self.add(ROW, if case.row + 1 == differences { 2 } else { 3 }),
            _ => {}
        }
        if number == 0 && first.len() != second.len() {
            self.add(LONGER, if first.len() > second.len() { 1 } else { 2 });
        }
    }

    pub fn rest(&mut self, case: &Case, answer: &Answer) {
        let [first, second] = [case.buffer.len(), case.input.len()];
        if first == second {
            self.add(REST_EQUAL, answer.number());
        }
        if first % 12 != 0 || second % 12 != 0 {
            self.add(REST_UNEVEN, answer.number());
        }
    }

    /// Counts what a drawing met: the lengths, and what its outcome goes by.
    pub fn drawn(&mut self, case: &Case, answer: &Answer) {
        const LIMIT: usize = MAX_EVENTS as usize;
        let number = answer.number();
        if case.input.is_empty() {
            self.add(DRAW_NONE, number);
        }
        match number {
            0 => {
                let count = match case.row {
                    0 => 0,
                    1 => 1,
                    2..=LIMIT => 2,
                    _ => 3,
                };
                self.add(DRAW_COUNT, count);
                self.curve(case, answer.curve());
            }
            5 => self.illegal_drawn(case, answer.place()),
            9 => self.length_drawn(case),
            _ => {}
        }
    }

    fn length_drawn(&mut self, case: &Case) {
        let lengths = [
            case.buffer.len().cmp(&snapshot::SIZE),
            (case.input.len() % 12).cmp(&0),
            case.row.cmp(&(case.input.len() / 12)),
        ];
        let fault = match lengths {
            [Less, Equal, Equal] => 0,
            [Greater, Equal, Equal] => 1,
            [Equal, Greater, Equal] => 2,
            [Equal, Equal, Less] => 3,
            [Equal, Equal, Greater] => 4,
            _ => 5,
        };
        self.add(DRAW_LENGTH, fault);
    }

    fn illegal_drawn(&mut self, case: &Case, place: usize) {
        let events = row(&case.input);
        self.add(DRAW_ILLEGAL, end_or_between(place, events.len()));
        if first_illegal(&events[place + 1..]).is_some() {
            self.add(DRAW_ILLEGAL, 4);
        }
        if !snapshot::decode(case.buffer[..].try_into().unwrap()).is_well_formed() {
            self.add(DRAW_ILLEGAL, 5);
        }
    }

    /// Counts how each number drawn follows the one before.
    fn curve(&mut self, case: &Case, curve: &[i32]) {
        let mut counter = snapshot::decode(case.buffer[..].try_into().unwrap());
        for (bytes, &number) in row(&case.input).iter().zip(curve) {
            let event = Event::from_bytes(bytes);
            let before = counter.acc;
            let by = if event.kind == 1 {
                counter.sample(event.value as u8).map_or(0, |(cause, _)| cause.into())
            } else {
                counter.step(event);
                WRITTEN
            };
            match number.abs_diff(before) {
                0 => self.add(STILL, event.kind.into()),
                1 => self.add(NEXT, (number > before).into()),
                _ => self.add(LEAPT, by),
            }
            if number == i32::MIN || number == i32::MAX {
                self.add(EXTREME, (number > 0).into());
            }
        }
    }

    /// Counts where two parts differed first, or that they did not, and how they were lent.
    pub fn difference(&mut self, case: &Case, answer: &Answer) {
        let [first, second] = case.parts();
        let shorter = first.len().min(second.len());
        let place = answer.status as usize;
        if place < shorter {
            self.add(DIFFERENCE, end_or_between(place, shorter));
            self.add(IN_BLOCK, (place % BLOCK) as u32);
            let next = (place + 1..shorter).find(|&at| first[at] != second[at]);
            self.add(BEHIND, next.map_or(0, |at| if at / BLOCK == place / BLOCK { 1 } else { 2 }));
        } else {
            let lengths = match first.len().cmp(&second.len()) {
                Equal => 0,
                Less => 1,
                Greater => 2,
            };
            self.add(NO_DIFFERENCE, lengths);
            self.add(BLOCK_END, (shorter % BLOCK) as u32);
        }
        if shorter == 0 {
            self.add(EMPTY, u32::from(first.is_empty()) + 2 * u32::from(second.is_empty()));
        }
        if let Some([first, second]) = &case.shared {
            let overlap = first.start.max(second.start) < first.end.min(second.end);
            self.add(
                SHARED,
                if first == second {
                    0
                } else if overlap {
                    1
                } else {
                    2
                },
            );
        }
    }

    /// Counts what a call on a reader met, by where the reader stood.
    pub fn reader(&mut self, case: &Case, answer: &Answer, phase: Phase) {
        let number = answer.number();
        let heading = match (case.call, number) {
            (Call::ReaderFeed, 0) => FEED_DONE,
            (Call::ReaderFeed, 1) => FEED_1,
            (Call::ReaderFeed, 2) => FEED_2,
            (Call::ReaderFeed, 3) => FEED_3,
            (Call::ReaderFeed, 4) => FEED_4,
            (Call::ReaderFeed, 5) => FEED_5,
            (Call::ReaderFeed, _) => FEED_9,
            (Call::ReaderEnd, 0) => END_DONE,
            (Call::ReaderEnd, 1) => END_1,
            (Call::ReaderEnd, 2) => END_2,
            (Call::ReaderEnd, 3) => END_3,
            (Call::ReaderEnd, 4) => END_4,
            (Call::ReaderEnd, 5) => END_5,
            (Call::ReaderEnd, _) => END_9,
            _ => return,
        };
        self.add(heading, phase as u32);
        match (case.call, number) {
            (Call::ReaderFeed, 0) => self.fed(case, answer),
            (Call::ReaderFeed, 5) if phase != Phase::Refused => self.illegal_fed(case, answer.place(), phase),
            (Call::ReaderEnd, 4) if phase == Phase::InEvent => self.cut_off(case),
            (_, 9) => {
                let length = match case.buffer.len() {
                    0 => 0,
                    1..snapshot::SIZE => 1,
                    _ => 2,
                };
                self.add(BUFFER, length);
            }
            _ => {}
        }
    }

    /// Counts the first rule that a reader broke which is not well formed.
    pub fn ill_formed(&mut self, case: &Case, rule: u32) {
        self.add(if case.call == Call::ReaderEnd { END_READER } else { FEED_READER }, rule);
    }

    /// Counts whether a bent reader is still well formed.
    pub fn bent(&mut self, well_formed: bool) {
        self.add(BENT, well_formed.into());
    }

    fn fed(&mut self, case: &Case, answer: &Answer) {
        let [count, held] = answer.results.taken;
        let stopped = match (case.input.len(), held) {
            (0, _) => 0,
            (_, 0) => 1,
            (length, _) if count == length as u64 => 2,
            _ => 3,
        };
        self.add(STOPPED, stopped);
        let taken = number(&answer.results.reader, TAKEN) as usize;
        if taken < HEADER_SIZE {
            return;
        }
        let parts = Parts::of(&answer.results.reader[HEADER]);
        if held == 1 {
            let index = (taken - HEADER_SIZE) / 12 / parts.spacing;
            self.add(HANDED_OUT, end_or_between(index, parts.snapshots));
        }
        const MOST_EVENTS: usize = MAX_EVENTS as usize;
        let events = match parts.events {
            0 => 0,
            1 => 1,
            MOST_EVENTS => 4,
            events => 2 + u32::from(events % parts.spacing != 0),
        };
        self.add(FEED_EVENTS, events);
        const MOST_SPACING: usize = MAX_SPACING as usize;
        let spacing = match parts.spacing {
            1 => 0,
            MOST_SPACING => 2,
            _ => 1,
        };
        self.add(FEED_SPACING, spacing);
    }

    fn illegal_fed(&mut self, case: &Case, place: usize, phase: Phase) {
        let parts = Parts::of(&case.reader[HEADER]);
        let taken = number(&case.reader, TAKEN) as usize;
        self.add(FEED_ILLEGAL, end_or_between(place, parts.events));
        if phase == Phase::InEvent && place == (taken - HEADER_SIZE) / 12 {
            self.add(FEED_ILLEGAL, 4);
        }
        if taken + case.input.len() > parts.snapshot(parts.snapshots) {
            self.add(FEED_ILLEGAL, 5);
        }
    }

    fn cut_off(&mut self, case: &Case) {
        let taken = number(&case.reader, TAKEN) as usize;
        if (taken - HEADER_SIZE) % event::SIZE >= event::STAMP {
            let event = Event::from_bytes(case.reader[EVENT].try_into().unwrap());
            self.add(CUT_OFF, event.is_legal().into());
        }
    }

    /// Counts by what bytes were refused, or that they were not, in two cuttings.
    pub fn cuttings(&mut self, number: u32) {
        self.add(CUTTINGS, number);
    }

    /// Takes an event on a state and counts what happens in it.
    pub fn event(&mut self, counter: &mut Counter, event: Event) {
        self.add(KIND, event.kind.into());
        match (event.kind, event.sub, event.value) {
            (1, _, levels) => self.sample(counter, levels as u8),
            (4, 6, 1) if !counter.has(flags::SP) => self.load(LOAD_SP, counter, event),
            (8, ..) if counter.has(flags::AS) => self.load(LOAD_RUN, counter, event),
            (6, ..) if counter.has(flags::LOADED) => self.preset_load(counter, event),
            _ => counter.step(event),
        }
    }

    fn load(&mut self, heading: &'static str, counter: &mut Counter, event: Event) {
        counter.step(event);
        self.add(heading, counter.er.into());
        let omb = counter.staged.omb;
        let others = omb & !OUTPUTS;
        match counter.er {
            0 => self.add(LOAD_MASK, if omb == OUTPUTS { 2 } else { (omb != 0).into() }),
            6 if others.is_power_of_two() => self.add(OTHER_BIT, others.trailing_zeros()),
            er @ 1..6 if others != 0 => self.add(OTHER_BITS_TOO, er.into()),
            _ => {}
        }
    }

    fn preset_load(&mut self, counter: &mut Counter, event: Event) {
        counter.step(event);
        self.add(PRESET_LOAD, counter.er.into());
        if counter.staged.omb & !OUTPUTS != 0 {
            self.add(PRESET_OTHER_BITS, counter.er.into());
        }
    }

    fn sample(&mut self, counter: &mut Counter, levels: u8) {
        let mode = counter.active.mode as u32;
        if counter.has(flags::LOADED) {
            self.add(MODE, mode);
            if levels & 8 != 0 {
                self.add(HELD, mode);
            }
            match mode {
                1 | 3 | 5 if levels & !counter.levels & 4 != 0 => self.add(RESET, mode),
                7 => self.mode_7(counter, levels),
                _ => {}
            }
        }
        if let Some((cause, fate)) = counter.sample(levels) {
            self.add(RAISED, cause.into());
            let heading = match fate {
                Fate::Started => STARTED,
                Fate::Waited => WAITED,
                Fate::Merged => MERGED,
                Fate::Lost => LOST,
                Fate::Dropped => DROPPED,
            };
            self.add(heading, cause.into());
            self.posted(counter, cause, fate);
        }
    }

    /// Counts where a cause waits, by the counter after it.
    fn posted(&mut self, counter: &Counter, cause: u8, fate: Fate) {
        let runs = counter.running == cause;
        match fate {
            Fate::Waited if runs => self.add(WAITED_RUNNING, cause.into()),
            Fate::Merged => {
                let [first, second] = counter.waiting;
                let place = if second == 0 { 0 } else { 1 + u32::from(first != cause) };
                self.add(MERGED_AT, place);
                self.add(MERGED_UIL, counter.has(flags::UIL).into());
                if runs {
                    self.add(MERGED_RUNNING, cause.into());
                }
            }
            _ => {}
        }
    }

    /// Counts what a sample meets in mode 7, each input by its level before and its new one. From
    /// ACC 0 or 1 a reset need not be seen: a count, or nothing, may leave the same.
    fn mode_7(&mut self, counter: &Counter, levels: u8) {
        let input = |number: u8| (counter.levels >> number & 1 != 0, levels >> number & 1 != 0);
        let [a, b, z, (_, hold)] = [0, 1, 2, 3].map(input);
        let hindrance = u32::from(!counter.has(flags::CE)) + 2 * u32::from(hold);
        let seen = !matches!(counter.acc, 0 | 1);
        match (a, b, z) {
            (FALLS, (b_before, false), (z_before, true)) => {
                self.add(RESET, 7);
                if seen {
                    self.add(RESET_DESPITE, hindrance);
                    self.add(RESET_NEWLY, u32::from(b_before) + 2 * u32::from(!z_before));
                    self.reset_onto(counter);
                }
            }
            (FALLS, (_, false), (z_before, false)) if hindrance == 0 => self.add(A_FALLS, z_before.into()),
            (FALLS, (_, true), (_, z)) if hindrance == 0 => self.add(A_FALLS, 2 + u32::from(z)),
            (RISES, (_, false), (_, z)) if hindrance == 0 => self.add(A_RISES, z.into()),
            _ => {}
        }
        match a {
            (before, now) if seen && z == RISES && before == now => self.add(Z_RISES, now.into()),
            RISES if seen && z == RISES => self.add(Z_RISES, 2),
            _ => {}
        }
    }

    fn reset_onto(&mut self, counter: &Counter) {
        self.add(RESET_DIR, counter.has(flags::DIR).into());
        if counter.active.lop == 0 {
            self.add(RESET_ONTO, 1);
        }
        if counter.active.hip == 0 {
            self.add(RESET_ONTO, 2);
        }
    }

    /// The required outcomes that no case reached.
    pub fn missing(&self) -> Vec<String> {
        REQUIRED
            .iter()
            .flat_map(|&(heading, numbers)| numbers.iter().map(move |&number| (heading, number)))
            .filter(|key| !self.counts.contains_key(key))
            .map(|(heading, number)| format!("{heading} {number}"))
            .collect()
    }
}

impl fmt::Display for Tally {
    fn fmt(&self, f: &mut fmt::Formatter) -> fmt::Result {
        for (heading, _) in REQUIRED {
            write!(f, "{heading}:")?;
            for ((_, number), count) in self.counts.range((heading, 0)..=(heading, u32::MAX)) {
                write!(f, "  {number}: {count}")?;
            }
            writeln!(f)?;
        }
        Ok(())
    }
}
