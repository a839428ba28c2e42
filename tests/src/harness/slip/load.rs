//! Wrong rules of a load (document 02, request 6).

use crate::model::counter::{Counter, OUTPUTS};
use crate::model::event::Event;
use crate::model::flags::{AS, ED, LOADED, SP};

#[derive(Clone, Copy, Debug)]
pub enum Loading {
    /// Loads any mask, as before the request.
    AnyMask,
    /// Loads any mask by enter run.
    AnyMaskByRun,
    /// Loads the outputs of a mask that has other bits.
    MaskCut,
    /// Keeps the outputs of a mask that is staged.
    StagedCut,
    /// Lets bit 12 pass.
    Bit12,
    /// Rejects bit 11.
    Bit11,
    /// Tells 6 before 5.
    Before5,
    /// Tells 5 for 6.
    ToldAs5,
    /// Asks a preset load for the staged mask.
    PresetLoad,
}

impl Loading {
    pub const ALL: [Loading; 9] = [
        Loading::AnyMask,
        Loading::AnyMaskByRun,
        Loading::MaskCut,
        Loading::StagedCut,
        Loading::Bit12,
        Loading::Bit11,
        Loading::Before5,
        Loading::ToldAs5,
        Loading::PresetLoad,
    ];

    /// The counter after an event by the wrong rule.
    pub fn stepped(self, before: Counter, event: Event) -> Counter {
        let right = stepped(before, event);
        let omb = before.staged.omb;
        let others = omb & !OUTPUTS;
        let by_run = event.kind == 8 && before.has(AS);
        let loads = by_run || (event.kind, event.sub, event.value) == (4, 6, 1) && !before.has(SP);
        // The right load of another mask, of which the active settings then have this one.
        let load = |mask: u16, active: u16| {
            let mut counter = before;
            counter.staged.omb = mask;
            counter = stepped(counter, event);
            counter.staged.omb = omb;
            if counter.er == 0 {
                counter.active.omb = active;
            }
            counter
        };
        match (self, right.er) {
            (Loading::AnyMask, 6) if loads => load(omb & OUTPUTS, omb),
            (Loading::AnyMaskByRun, 6) if by_run => load(omb & OUTPUTS, omb),
            (Loading::MaskCut, 6) if loads => load(omb & OUTPUTS, omb & OUTPUTS),
            (Loading::StagedCut, _) if (event.kind, event.sub) == (3, 3) => {
                let mut cut = right;
                cut.staged.omb &= OUTPUTS;
                cut
            }
            (Loading::Bit12, 6) if loads && others == 1 << 12 => load(omb & OUTPUTS, omb),
            (Loading::Bit11, 0) if loads && omb & 1 << 11 != 0 => load(1 << 12, omb),
            (Loading::Before5, 5) if loads && others != 0 => Counter { er: 6, ..right },
            (Loading::ToldAs5, 6) if loads => Counter { er: 5, ..right },
            (Loading::PresetLoad, 0) if event.kind == 6 && before.has(LOADED) && others != 0 => {
                Counter { er: 6, flags: before.flags | ED, ..before }
            }
            _ => right,
        }
    }
}

fn stepped(mut counter: Counter, event: Event) -> Counter {
    counter.step(event);
    counter
}
