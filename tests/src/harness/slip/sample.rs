//! Wrong rules of a sample in mode 7, and of one in mode 5 (document 02, request 4).

use crate::model::counter::Counter;
use crate::model::flags::{CE, DIR, LOADED};

const A: u8 = 1;
const B: u8 = 2;
const Z: u8 = 4;
const HOLD: u8 = 8;

#[derive(Clone, Copy, Debug)]
pub enum Sampling {
    /// Resets by a rising Z and counts whatever Z is, as before the request.
    RisingZ,
    /// Takes Z as it was before the sample.
    OldZ,
    /// Takes B as it was before the sample.
    OldB,
    /// Does not reset with CE 0.
    CeHinders,
    /// Does not reset in a hold.
    HoldHinders,
    /// Counts down from the reset.
    ResetCounts,
    /// Clears DIR with the reset.
    ResetClearsDir,
    /// Raises the low preset by the reset, if it is 0.
    ResetRaises,
    /// Resets whatever B is.
    ResetsWithB,
    /// Counts with Z on.
    CountsWithZ,
    /// Mode 5 resets as mode 7 does.
    Mode5,
}

impl Sampling {
    pub const ALL: [Sampling; 11] = [
        Sampling::RisingZ,
        Sampling::OldZ,
        Sampling::OldB,
        Sampling::CeHinders,
        Sampling::HoldHinders,
        Sampling::ResetCounts,
        Sampling::ResetClearsDir,
        Sampling::ResetRaises,
        Sampling::ResetsWithB,
        Sampling::CountsWithZ,
        Sampling::Mode5,
    ];

    /// The counter after a sample by the wrong rule.
    pub fn sampled(self, before: Counter, levels: u8) -> Counter {
        let right = sampled(before, levels);
        if !before.has(LOADED) {
            return right;
        }
        let idle = Counter { levels, ..before };
        let reset = Counter { acc: 0, ..idle };
        // The right rule by other levels than those that are stored.
        let by = |counter: Counter, seen: u8| Counter { levels, ..sampled(counter, seen) };
        let old = |input: u8| levels & !input | before.levels & input;
        let falls = before.levels & !levels & A != 0;
        let resets = falls && levels & (B | Z) == Z;
        match (self, before.active.mode) {
            (Sampling::RisingZ, 7) if levels & !before.levels & Z != 0 => reset,
            (Sampling::RisingZ, 7) => by(Counter { levels: before.levels & !Z, ..before }, levels & !Z),
            (Sampling::OldZ, 7) => by(before, old(Z)),
            (Sampling::OldB, 7) => by(before, old(B)),
            (Sampling::CeHinders, 7) if !before.has(CE) => idle,
            (Sampling::HoldHinders, 7) if levels & HOLD != 0 => idle,
            (Sampling::ResetCounts, 7) if resets => Counter { acc: -1, flags: right.flags & !DIR, ..right },
            (Sampling::ResetClearsDir, 7) if resets => Counter { flags: right.flags & !DIR, ..right },
            (Sampling::ResetRaises, 7) if resets && before.active.lop == 0 => {
                let counting = Counter { acc: 1, flags: before.flags | CE, ..before };
                let raised = by(counting, levels & !(Z | HOLD));
                Counter { flags: raised.flags & !(CE | DIR) | before.flags & (CE | DIR), ..raised }
            }
            (Sampling::ResetsWithB, 7) if falls && levels & Z != 0 => reset,
            (Sampling::CountsWithZ, 7) if !resets => by(before, levels & !Z),
            (Sampling::Mode5, 5) if resets => reset,
            (Sampling::Mode5, 5) => by(before, old(Z)),
            _ => right,
        }
    }
}

fn sampled(mut counter: Counter, levels: u8) -> Counter {
    counter.sample(levels);
    counter
}
